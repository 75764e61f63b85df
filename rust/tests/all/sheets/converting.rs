//! A sheet converted into lent bytes: those that convert it, and the comparison of what they answer and leave.

use super::reading::code;
use super::writing::Answer;
use super::Sheet;
use crate::canary::Lent;
use crate::cases::{self, compare_all, Case, Code};
use crate::library::raw;
use crate::plans::{lower_number, Random};
use crate::reference::{Form, FIRST, FORMS};
use crate::{library, reference};

/// What is handed over: the sheet, the form that it is converted to, and how many bytes are lent.
#[derive(Clone, Debug)]
pub struct Converting {
    pub sheet: Sheet,
    pub to: &'static Form,
    pub room: u64,
}

impl Converting {
    /// A conversion with exactly the room that the sheet's plan needs in that form.
    pub fn new(sheet: Sheet, to: &'static Form) -> Self {
        let room = Sheet::of(to, sheet.plan.clone()).bytes().len() as u64;
        Converting { sheet, to, room }
    }

    /// The sheet converted to the form that it doesn't have.
    pub fn over(sheet: Sheet) -> Self {
        let to = sheet.other_form();
        Converting::new(sheet, to)
    }

    pub fn both_ways(sheet: &Sheet) -> [Self; 2] {
        FORMS.map(|to| Converting::new(sheet.clone(), to))
    }

    /// One way or the other, with any room.
    pub fn random(random: &mut Random, sheet: Sheet) -> Self {
        let to = if random.once_in(5) { sheet.form } else { sheet.other_form() };
        let mut converting = Converting::new(sheet, to);
        let exact = converting.room;
        converting.room =
            random.pick(&[exact, exact, exact, exact, exact + 1, exact + 519, exact.saturating_sub(1), exact / 2, 0]);
        converting
    }
}

/// All memory that is lent, either slice guarded; the sheet is only read.
#[derive(Clone)]
pub struct Memory {
    to: &'static Form,
    pub sheet: Lent<u8>,
    pub converted: Lent<u8>,
}

impl Memory {
    pub fn of(converting: &Converting) -> Self {
        Memory::new(&converting.sheet.bytes(), converting.to, converting.room)
    }

    fn new(bytes: &[u8], to: &'static Form, room: u64) -> Self {
        Memory { to, sheet: Lent::list(bytes), converted: Lent::room(room) }
    }
}

impl cases::Memory for Memory {
    fn same_as(&self, due: &Self) -> Result<(), String> {
        self.converted.same_as(&due.converted, "converted")?;
        self.sheet.same_as(&due.sheet, "sheet")
    }
}

macro_rules! answer {
    ($to_first:path, $to_second:path, $memory:ident) => {{
        let convert = if *$memory.to == FIRST { $to_first } else { $to_second };
        match convert($memory.sheet.slice(), $memory.converted.slice()) {
            Ok(bytes) => [0, 0, bytes as u64],
            Err(refusal) => [refusal.code, refusal.place, 0],
        }
    }};
}

pub fn by_reference(memory: &mut Memory) -> Answer {
    answer!(reference::to_first, reference::to_second, memory)
}

pub fn by_library(memory: &mut Memory) -> Answer {
    answer!(library::to_first, library::to_second, memory)
}

/// The archive's own answer, which shows that a place or a number of bytes that doesn't apply is 0.
pub fn by_archive(memory: &mut Memory) -> Answer {
    let convert = if *memory.to == FIRST { raw::sctr_to_first } else { raw::sctr_to_second };
    let (sheet, converted) = (memory.sheet.parts(), memory.converted.parts());
    // SAFETY: either pointer and length is that of one slice, and the slices lie in buffers of their own.
    let answer = unsafe { convert(sheet.0, sheet.1, converted.0, converted.1) };
    [answer.code, answer.place, answer.bytes]
}

/// The code of the conversion, or in words where one of those under test first differs from the reference.
pub fn compare(converting: &Converting, under_test: &[fn(&mut Memory) -> Answer]) -> Result<Code, String> {
    let answer = compare_all(&Memory::of(converting), by_reference, under_test)?;
    Ok(code(answer[0], answer[1]))
}

/// The bytes of the sheet in this form, or the code that the conversion is refused by.
pub fn converted(bytes: &[u8], to: &'static Form, convert: fn(&mut Memory) -> Answer) -> Result<Vec<u8>, Code> {
    let mut memory = Memory::new(bytes, to, (to.blocks * reference::BLOCK) as u64);
    match convert(&mut memory) {
        [0, _, count] => Ok(memory.converted.content()[..count as usize].to_vec()),
        [refused_by, place, _] => Err(code(refused_by, place)),
    }
}

impl Case for Converting {
    fn compare(&self) -> Result<Code, String> {
        compare(self, &[by_library, by_archive])
    }

    fn smaller(&self) -> Box<dyn Iterator<Item = Self> + '_> {
        let smaller_sheets = self.sheet.smaller().map(|sheet| Converting { sheet, ..self.clone() });
        let less_room = lower_number(self.room).map(|room| Converting { room, ..self.clone() });
        Box::new(smaller_sheets.chain(less_room))
    }
}
