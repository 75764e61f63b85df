//! A sheet salvaged into lent bytes and a lent list: those that salvage it, and the comparison of what they answer and leave.

use super::reading::code;
use super::{Change, Sheet};
use crate::canary::Lent;
use crate::cases::{self, compare_all, Case, Code};
use crate::library::raw;
use crate::plans::{lower_number, Numbers, Random};
use crate::reference::{BLOCK, PAYLOAD, PREFIX, REGIONS, SECTORS};
use crate::{library, reference};

/// What is handed over: the sheet, how many bytes are lent, and how long the lent list is.
#[derive(Clone, Debug)]
pub struct Salvaging {
    pub sheet: Sheet,
    pub bytes: u64,
    pub list: u64,
}

impl Salvaging {
    /// A salvage with exactly the bytes of the sheet, and with room for all regions of its plan.
    pub fn new(sheet: Sheet) -> Self {
        let (bytes, list) = (sheet.bytes().len() as u64, sheet.plan.colouring.len() as u64);
        Salvaging { sheet, bytes, list }
    }

    /// The same, with room for exactly the regions that are lost.
    pub fn exact(sheet: Sheet) -> Self {
        let mut salvaging = Salvaging::new(sheet);
        let [_, _, lost] = by_reference(&mut Memory::of(&salvaging));
        salvaging.list = lost;
        salvaging
    }

    /// With any room.
    pub fn random(random: &mut Random, sheet: Sheet) -> Self {
        let mut salvaging = Salvaging::exact(sheet);
        for room in [&mut salvaging.bytes, &mut salvaging.list] {
            let exact = *room;
            *room = random.pick(&[exact, exact, exact, exact, exact, exact + 1, exact + 519, exact.saturating_sub(1), 0]);
        }
        salvaging
    }
}

impl Sheet {
    /// The numbers of the colouring's blocks.
    pub fn colouring_blocks(&self) -> std::ops::Range<usize> {
        let laid_out = Sheet { changes: vec![], ..self.clone() }.bytes();
        let own = |block: &[u8]| block[4] == 5;
        let first = laid_out.chunks(BLOCK).position(own).unwrap_or(laid_out.len() / BLOCK);
        first..first + laid_out.chunks(BLOCK).filter(|block| own(block)).count()
    }

    /// The sheet with some of the colouring's blocks spoiled, from 0, as far as it has them.
    pub fn spoiled(&self, blocks: &[usize]) -> Self {
        let own = self.colouring_blocks().enumerate().filter(|(place, _)| blocks.contains(place));
        let changes: Vec<Change> = own.map(|(_, number)| Change::Flip(number * BLOCK + PREFIX, 1)).collect();
        self.changed(&changes)
    }

    /// Spoils the colouring by chance: some of its regions have a number that is no sector's, or a byte of its blocks becomes another,
    /// with right checks or without. After it all may still be good.
    pub fn spoil(&mut self, random: &mut Random) {
        if random.once_in(2) {
            let (often, above) = (random.pick(&[1, 2, 2, 4, 20, REGIONS]), self.plan.sectors + 1);
            for sector in &mut self.plan.colouring {
                if random.once_in(often) {
                    *sector = random.pick(&[0, 0, above, SECTORS + 1, 255]);
                }
            }
            return;
        }
        let right = random.once_in(2);
        for block in self.colouring_blocks() {
            if random.once_in(2) {
                let places = [4, 5, 6, 8, PREFIX, PREFIX + random.place(PAYLOAD), PREFIX + PAYLOAD - 1, BLOCK - 1];
                self.changes.push(Change::Put(block * BLOCK + random.pick(&places), random.any() as u8));
                self.changes.extend(right.then_some(Change::Check(block)));
            }
        }
    }
}

/// All memory that is lent, each slice guarded; the sheet is only read.
#[derive(Clone)]
pub struct Memory {
    pub sheet: Lent<u8>,
    pub salvaged: Lent<u8>,
    pub list: Lent<u64>,
}

impl Memory {
    pub fn of(salvaging: &Salvaging) -> Self {
        Memory::new(&salvaging.sheet.bytes(), salvaging.bytes, salvaging.list)
    }

    fn new(sheet: &[u8], bytes: u64, list: u64) -> Self {
        Memory { sheet: Lent::list(sheet), salvaged: Lent::room(bytes), list: Lent::room(list) }
    }
}

impl cases::Memory for Memory {
    fn same_as(&self, due: &Self) -> Result<(), String> {
        self.list.same_as(&due.list, "list")?;
        self.salvaged.same_as(&due.salvaged, "salvaged")?;
        self.sheet.same_as(&due.sheet, "sheet")
    }
}

/// Code, place, how many regions are lost.
pub type Answer = [u64; 3];

macro_rules! answer {
    ($salvage:path, $memory:ident) => {
        match $salvage($memory.sheet.slice(), $memory.salvaged.slice(), $memory.list.slice()) {
            Ok(lost) => [0, 0, lost as u64],
            Err(refusal) => [refusal.code, refusal.place, 0],
        }
    };
}

pub fn by_reference(memory: &mut Memory) -> Answer {
    answer!(reference::salvage, memory)
}

pub fn by_library(memory: &mut Memory) -> Answer {
    answer!(library::salvage, memory)
}

/// The archive's own answer, which shows that a place or a number of regions that doesn't apply is 0.
pub fn by_archive(memory: &mut Memory) -> Answer {
    let (sheet, salvaged, list) = (memory.sheet.parts(), memory.salvaged.parts(), memory.list.parts());
    // SAFETY: each pointer and length is that of one slice, and the slices lie in buffers of their own.
    let answer = unsafe { raw::sctr_salvage(sheet.0, sheet.1, salvaged.0, salvaged.1, list.0, list.1) };
    [answer.code, answer.place, answer.lost]
}

/// The code of the salvage, or in words where one of those under test first differs from the reference.
pub fn compare(salvaging: &Salvaging, under_test: &[fn(&mut Memory) -> Answer]) -> Result<Code, String> {
    let answer = compare_all(&Memory::of(salvaging), by_reference, under_test)?;
    Ok(code(answer[0], answer[1]))
}

/// The bytes of the salvaged sheet and the regions that are lost, or the code that the salvage is refused by.
pub fn salvaged(sheet: &[u8], salvage: fn(&mut Memory) -> Answer) -> Result<(Vec<u8>, Vec<u64>), Code> {
    let mut memory = Memory::new(sheet, sheet.len() as u64, REGIONS);
    match salvage(&mut memory) {
        [0, _, lost] => Ok((memory.salvaged.content().to_vec(), memory.list.content()[..lost as usize].to_vec())),
        [refused_by, place, _] => Err(code(refused_by, place)),
    }
}

/// The lowest-numbered neighbour of a region that is not lost.
pub fn lowest_beside(plan: &Numbers, lost: &[u64], region: u64) -> Option<u64> {
    let own = plan.edges.chunks(3).filter(|edge| edge[..2].contains(&region));
    own.map(|edge| edge[0] + edge[1] - region).filter(|beside| !lost.contains(beside)).min()
}

impl Case for Salvaging {
    fn compare(&self) -> Result<Code, String> {
        compare(self, &[by_library, by_archive])
    }

    fn smaller(&self) -> Box<dyn Iterator<Item = Self> + '_> {
        let smaller_sheets = self.sheet.smaller().map(|sheet| Salvaging { sheet, ..self.clone() });
        let fewer_bytes = lower_number(self.bytes).map(|bytes| Salvaging { bytes, ..self.clone() });
        let less_list = lower_number(self.list).map(|list| Salvaging { list, ..self.clone() });
        Box::new(smaller_sheets.chain(fewer_bytes).chain(less_list))
    }
}
