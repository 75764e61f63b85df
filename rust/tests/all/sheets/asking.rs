//! A sheet asked by its bytes alone: code, place, total, number of constraints, and at places in and around the list what holds.

use super::reading::code;
use super::Sheet;
use crate::canary::Lent;
use crate::cases::{self, compare_all, Case, Code};
use crate::library::{self, raw};
use crate::reference::Verdicts;
use qirfadhun::Refusal;

#[derive(Clone, Debug)]
pub struct Asked(pub Sheet);

/// The guarded sheet, and the places that are asked for.
#[derive(Clone)]
struct Memory {
    sheet: Lent<u8>,
    places: Vec<u64>,
}

impl Memory {
    fn of(sheet: &Sheet) -> Self {
        let count = sheet.plan.constraints.len() as u64 / 4;
        // The first of the two far places comes down to 1 where its upper bits are lost, and to 0 where it is doubled.
        Memory { sheet: Lent::list(&sheet.bytes()), places: (0..=count + 1).chain([(1 << 63) + 1, u64::MAX]).collect() }
    }
}

impl cases::Memory for Memory {
    fn same_as(&self, due: &Self) -> Result<(), String> {
        self.sheet.same_as(&due.sheet, "sheet")
    }
}

#[derive(Debug, PartialEq)]
struct Verdict {
    place: u64,
    holds: u64,
    violation: u64,
}

#[derive(Debug, PartialEq)]
struct Answers {
    code: u64,
    place: u64,
    total: u64,
    constraints: u64,
    verdicts: Vec<Verdict>,
}

fn by_reference(memory: &mut Memory) -> Answers {
    let due = Verdicts::of(memory.sheet.content());
    let verdicts = memory.places.iter().map(|&place| (place, due.at(place)));
    Answers {
        code: due.code,
        place: due.place,
        total: due.total,
        constraints: due.list.len() as u64,
        verdicts: verdicts.map(|(place, due)| Verdict { place, holds: due.holds, violation: due.violation }).collect(),
    }
}

fn by_library(memory: &mut Memory) -> Answers {
    let places = memory.places.iter();
    match library::Sheet::new(memory.sheet.slice()) {
        Ok(sheet) => Answers {
            code: 0,
            place: 0,
            total: sheet.total(),
            constraints: sheet.constraints(),
            verdicts: places.map(|&place| by_sheet(&sheet, place)).collect(),
        },
        Err(refusal) => Answers {
            code: refusal.code,
            place: refusal.place,
            total: 0,
            constraints: 0,
            verdicts: places.map(|&place| Verdict { place, holds: 0, violation: 0 }).collect(),
        },
    }
}

/// Outside the list there is no answer, where the archive has 0.
fn by_sheet(sheet: &library::Sheet, place: u64) -> Verdict {
    let inside = (1..=sheet.constraints()).contains(&place);
    assert_eq!((sheet.holds(place).is_some(), sheet.violation(place).is_some()), (inside, inside));
    Verdict { place, holds: sheet.holds(place).map_or(0, u64::from), violation: sheet.violation(place).unwrap_or(0) }
}

/// The archive's own answers, which show that a refused sheet has 0 everywhere.
fn by_archive(memory: &mut Memory) -> Answers {
    let (sheet, length) = memory.sheet.parts();
    // SAFETY: the pointer and the length are those of one slice.
    unsafe {
        let verdict = |&place| Verdict {
            place,
            holds: raw::sctr_holds(sheet, length, place),
            violation: raw::sctr_violation(sheet, length, place),
        };
        Answers {
            code: raw::sctr_code(sheet, length),
            place: raw::sctr_place(sheet, length),
            total: raw::sctr_total(sheet, length),
            constraints: raw::sctr_constraints(sheet, length),
            verdicts: memory.places.iter().map(verdict).collect(),
        }
    }
}

/// All that a sheet answers by its bytes: the total, the number of constraints, and at each place in and around their list whether
/// it holds and its violation.
pub fn answers(bytes: &[u8]) -> Result<Vec<Option<u64>>, Refusal> {
    let sheet = library::Sheet::new(bytes)?;
    let mut answers = vec![Some(sheet.total()), Some(sheet.constraints())];
    for place in 0..=sheet.constraints() + 1 {
        answers.extend([sheet.holds(place).map(u64::from), sheet.violation(place)]);
    }
    Ok(answers)
}

impl Case for Asked {
    fn compare(&self) -> Result<Code, String> {
        let answers = compare_all(&Memory::of(&self.0), by_reference, &[by_library, by_archive])?;
        Ok(code(answers.code, answers.place))
    }

    fn smaller(&self) -> Box<dyn Iterator<Item = Self> + '_> {
        Box::new(self.0.smaller().map(Asked))
    }
}
