//! A sheet read into lent lists: those that read it, and the comparison of what they answer and leave.

use super::Sheet;
use crate::canary::Lent;
use crate::cases::{self, compare_all, Case, Code};
use crate::library::raw;
use crate::plans::{lower, Numbers, LISTS};
use crate::reference::*;
use crate::{library, reference};

/// What is handed over: the sheet, and how long the seven lent lists are.
#[derive(Clone, Debug)]
pub struct Reading {
    pub sheet: Sheet,
    pub rooms: [u64; 7],
}

/// The most numbers that each list can have.
const MOST_ROOMS: [u64; 7] = [REGIONS, REGIONS, 3 * EDGES, FLIGHTS, 2 * FLIGHTS * VISITS, 4 * CONSTRAINTS, REGIONS];

impl Reading {
    /// A reading with exactly the room that the sheet's plan needs.
    pub fn new(sheet: Sheet) -> Self {
        let rooms = sheet.plan.lists().map(|list| list.len() as u64);
        Reading { sheet, rooms }
    }
}

/// All memory that is lent, each slice guarded; the sheet is only read, and guarded as well.
#[derive(Clone)]
pub struct Memory {
    sheet: Lent<u8>,
    pub lists: [Lent<u64>; 7],
}

impl Memory {
    pub fn of(reading: &Reading) -> Self {
        Memory::new(&reading.sheet.bytes(), reading.rooms)
    }

    fn new(bytes: &[u8], rooms: [u64; 7]) -> Self {
        Memory { sheet: Lent::list(bytes), lists: rooms.map(Lent::room) }
    }
}

impl cases::Memory for Memory {
    fn same_as(&self, due: &Self) -> Result<(), String> {
        for ((list, due), name) in self.lists.iter().zip(&due.lists).zip(LISTS) {
            list.same_as(due, name)?;
        }
        self.sheet.same_as(&due.sheet, "sheet")
    }
}

/// Code, place, R, S, edge count, constraint count, flight count, visit count.
pub type Answer = [u64; 8];

macro_rules! answer {
    ($read:path, $memory:ident) => {{
        let [workloads, outside, edges, counts, visits, constraints, colouring] = $memory.lists.each_mut().map(Lent::slice);
        match $read($memory.sheet.slice(), workloads, outside, edges, counts, visits, constraints, colouring) {
            Ok(head) => [0, 0, head.regions, head.sectors, head.edges, head.constraints, head.flights, head.visits],
            Err(refusal) => [refusal.code, refusal.place, 0, 0, 0, 0, 0, 0],
        }
    }};
}

pub fn by_reference(memory: &mut Memory) -> Answer {
    answer!(reference::read, memory)
}

pub fn by_library(memory: &mut Memory) -> Answer {
    answer!(library::read, memory)
}

/// The archive's own answer, which shows that a place or counts that don't apply are 0.
pub fn by_archive(memory: &mut Memory) -> Answer {
    let sheet = memory.sheet.parts();
    let [workloads, outside, edges, counts, visits, constraints, colouring] = memory.lists.each_mut().map(Lent::parts);
    // SAFETY: each pointer and length is that of one slice, and the slices lie in buffers of their own.
    let answer = unsafe {
        raw::sctr_read(
            sheet.0,
            sheet.1,
            workloads.0,
            workloads.1,
            outside.0,
            outside.1,
            edges.0,
            edges.1,
            counts.0,
            counts.1,
            visits.0,
            visits.1,
            constraints.0,
            constraints.1,
            colouring.0,
            colouring.1,
        )
    };
    let raw::ReadAnswer { code, place, regions, sectors, edges, constraints, flights, visits } = answer;
    [code, place, regions, sectors, edges, constraints, flights, visits]
}

/// The code of the reading, or in words where one of those under test first differs from the reference.
pub fn compare(reading: &Reading, under_test: &[fn(&mut Memory) -> Answer]) -> Result<Code, String> {
    let answer = compare_all(&Memory::of(reading), by_reference, under_test)?;
    Ok(code(answer[0], answer[1]))
}

pub fn code(code: u64, place: u64) -> Code {
    (code, (code == 37).then_some(place))
}

/// The numbers that reading leaves in lists with enough room, or the code that it is refused by.
pub fn numbers_in(bytes: &[u8], read: fn(&mut Memory) -> Answer) -> Result<Numbers, Code> {
    let mut memory = Memory::new(bytes, MOST_ROOMS);
    match read(&mut memory) {
        [0, _, regions, sectors, edges, constraints, flights, visits] => {
            let lengths = [regions, regions, 3 * edges, flights, 2 * visits, 4 * constraints, regions];
            let mut lists = memory.lists.iter().zip(lengths).map(|(list, length)| list.content()[..length as usize].to_vec());
            let [workloads, outside, edges, counts, visits, constraints, colouring] =
                std::array::from_fn(|_| lists.next().expect("seven lists"));
            Ok(Numbers { regions, sectors, workloads, outside, edges, counts, visits, constraints, colouring })
        }
        [refused_by, place, ..] => Err(code(refused_by, place)),
    }
}

impl Case for Reading {
    fn compare(&self) -> Result<Code, String> {
        compare(self, &[by_library, by_archive])
    }

    fn smaller(&self) -> Box<dyn Iterator<Item = Self> + '_> {
        let smaller_sheets = self.sheet.smaller().map(|sheet| Reading { sheet, ..self.clone() });
        let less_room = lower(&self.rooms).map(|rooms| Reading { rooms: rooms.try_into().expect("seven"), ..self.clone() });
        Box::new(smaller_sheets.chain(less_room))
    }
}
