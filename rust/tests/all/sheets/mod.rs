//! Sheets as they are handed over: the bytes of a plan in either form, good or not, and what is done to these bytes.

mod asking;
mod change;
pub mod converting;
pub mod printing;
pub mod reading;
mod refused;
pub mod salvaging;
pub mod writing;

use crate::cases::{all_cases, random_cases};
use crate::plans::{flights_along, plan, plan_of, sheet_a, sheet_a_with_both, whole_plan, Numbers, Random};
use crate::reference::*;
pub use asking::{answers, Asked};
pub use change::{lengths, Change};
pub use converting::Converting;
pub use reading::{numbers_in, Reading};
pub use refused::{block_damages, sheet_damages};
pub use salvaging::Salvaging;
use std::path::{Path, PathBuf};
pub use writing::Writing;

/// The sheet of a form laid out from these numbers, and then changed in turn.
#[derive(Clone, Debug)]
pub struct Sheet {
    pub form: &'static Form,
    pub plan: Numbers,
    pub changes: Vec<Change>,
}

impl Sheet {
    /// The sheet of a plan; the first form takes it without outside areas and flights.
    pub fn of(form: &'static Form, plan: Numbers) -> Self {
        Sheet { form, plan: if *form == FIRST { plan.plain() } else { plan }, changes: vec![] }
    }

    /// Sheet A; the second form has it with outside areas and flights.
    pub fn a(form: &'static Form) -> Self {
        Sheet::of(form, if *form == FIRST { sheet_a() } else { sheet_a_with_both() })
    }

    /// A first sheet of one region, as small as there is one, with this total.
    pub fn worth(total: u64) -> Self {
        let (regions, sectors, workloads, outside, colouring) = (1, 1, vec![total], vec![0], vec![1]);
        let (edges, counts, visits, constraints) = (vec![], vec![], vec![], vec![4, 1, 0, 1]);
        Sheet::of(&FIRST, Numbers { regions, sectors, workloads, outside, edges, counts, visits, constraints, colouring })
    }

    /// A sheet of either form; some of the second form have nothing that the first can't hold.
    pub fn random(random: &mut Random) -> Self {
        let form = random.pick(&FORMS);
        let plan = if *form == FIRST || random.once_in(3) { plan(random) } else { whole_plan(random) };
        Sheet::of(form, plan)
    }

    /// The form that it doesn't have.
    pub fn other_form(&self) -> &'static Form {
        if *self.form == FIRST {
            &SECOND
        } else {
            &FIRST
        }
    }

    pub fn bytes(&self) -> Vec<u8> {
        let mut bytes = lay_out(self.form, self.plan.regions, self.plan.sectors, self.plan.lists());
        for change in &self.changes {
            change.apply(&mut bytes);
        }
        bytes
    }

    /// How many blocks it has before it is changed.
    pub fn blocks(&self) -> usize {
        Sheet { changes: vec![], ..self.clone() }.bytes().len() / BLOCK
    }

    /// The sheet with these changes besides.
    pub fn changed(&self, changes: &[Change]) -> Self {
        Sheet { changes: [&self.changes, changes].concat(), ..self.clone() }
    }

    /// The sheet with these changes besides, and with right checks after them.
    pub fn disguised(&self, changes: &[Change]) -> Self {
        self.changed(changes).changed(&[Change::Checks])
    }

    /// Changes its plan or its bytes by chance; after that all blocks often have right numbers and checks.
    pub fn break_some(&mut self, random: &mut Random) {
        for _ in 0..random.between(1, 2) {
            match random.between(0, 5) {
                0 => self.plan.break_one(random),
                1 if *self.form == SECOND => self.plan.break_flights(random),
                2 if *self.form == SECOND => self.plan.break_outside(random),
                _ => self.changes.push(Change::random(random, self.blocks())),
            }
        }
        if random.once_in(4) {
            self.changes.push(Change::Numbers);
        }
        if random.between(1, 4) < 4 {
            self.changes.push(Change::Checks);
        }
    }

    /// Sheets with fewer changes, then those of smaller plans.
    pub fn smaller(&self) -> impl Iterator<Item = Sheet> + '_ {
        let fewer_changes = (0..self.changes.len()).map(|place| {
            let mut sheet = self.clone();
            sheet.changes.remove(place);
            sheet
        });
        let smaller_plans = self.plan.smaller().map(|plan| Sheet { plan, ..self.clone() });
        fewer_changes.chain(smaller_plans)
    }
}

/// The sheets that are kept as files in a folder of the repository, with their paths.
pub fn stored(folder: &str) -> Vec<(PathBuf, Vec<u8>)> {
    let folder = Path::new(env!("CARGO_MANIFEST_DIR")).join("..").join(folder);
    let mut paths: Vec<_> = folder.read_dir().expect("a folder of sheets").map(|entry| entry.expect("a file").path()).collect();
    paths.retain(|path| path.extension().is_some_and(|extension| extension == "sheet"));
    paths.sort();
    let bytes = |path: &PathBuf| std::fs::read(path).expect("a sheet");
    paths.into_iter().map(|path| (path.clone(), bytes(&path))).collect()
}

/// Those in `sheets`, and those that are refused.
pub fn all_stored() -> Vec<(PathBuf, Vec<u8>)> {
    ["sheets", "sheets/refused"].into_iter().flat_map(stored).collect()
}

/// The sheets that are kept as files, with the files' bytes.
pub fn files() -> Vec<(Sheet, Vec<u8>)> {
    let sheet = |(path, bytes): (PathBuf, Vec<u8>)| {
        let numbers = numbers_in(&bytes, reading::by_reference);
        let numbers = numbers.unwrap_or_else(|code| panic!("{} is refused by {code:?}", path.display()));
        (Sheet::of(Form::of(&bytes), numbers), bytes)
    };
    stored("sheets").into_iter().map(sheet).collect()
}

/// Sheets of either form whose lists end just before, at and just after the end of a block.
pub fn sheets_at_block_ends() -> Vec<Sheet> {
    let by_regions = [1, 124, 125, 126, 250, 251, 499, 500, 501, 511, 512].map(|regions| (regions, 62));
    let by_edges = [0, 1, 61, 62, 63, 124, 125, 2_045, 2_046, 2_047, 2_048].map(|edges| (512, edges));
    let mut random = Random::new(1);
    let mut sheets = Vec::new();
    for (regions, edges) in by_regions.into_iter().chain(by_edges) {
        for constraints in [1, CONSTRAINTS] {
            let sectors = random.between(1, SECTORS);
            let mut plan = plan_of(&mut random, regions, sectors);
            let pairs = (1..regions).flat_map(|a| (a + 1..=regions).map(move |b| [a, b]));
            plan.edges = pairs.take(edges).flat_map(|[a, b]| [a, b, random.between(1, AREA)]).collect();
            plan.constraints = plan.constraints[..4].repeat(constraints as usize);
            sheets.push(Sheet::of(&FIRST, plan.clone()));
            sheets.push(Sheet::of(&SECOND, plan.clone()));
            plan.outside.fill_with(|| random.between(0, AREA));
            sheets.push(Sheet::of(&SECOND, plan));
        }
    }
    for visits in [1u64, 2, 63, 64, 65, 82, 83, 84, 165, 166, 167, 1_991, 1_992, 1_993, 2_047, 2_048] {
        for flights in [visits.div_ceil(VISITS), visits.min(FLIGHTS)] {
            let counts = (0..flights).map(|flight| (visits + flight) / flights).collect();
            let plan = plan_of(&mut random, 12, 3);
            sheets.push(Sheet::of(&SECOND, flights_along(&mut random, plan, counts)));
        }
    }
    sheets
}

/// In words, where the bytes of a sheet that comes back first differ from those that it had.
pub fn same_bytes(bytes: &[u8], before: &[u8]) -> Result<(), String> {
    if bytes.len() != before.len() {
        return Err(format!("there were {} bytes, and {} come back", before.len(), bytes.len()));
    }
    match (0..bytes.len()).find(|&place| bytes[place] != before[place]) {
        None => Ok(()),
        Some(place) => Err(format!("byte {place} was {}, and comes back as {}", before[place], bytes[place])),
    }
}

/// Reads sheets, asks them and converts them either way, and compares all that is answered and left.
pub fn all_sheets(name: &str, sheets: Vec<Sheet>) {
    all_cases(&format!("{name}, read"), sheets.iter().cloned().map(Reading::new));
    all_cases(&format!("{name}, converted"), sheets.iter().flat_map(Converting::both_ways));
    all_cases(&format!("{name}, asked"), sheets.into_iter().map(Asked));
}

/// The same for sheets that `make` builds, each converted one way, with any room.
pub fn random_sheets(name: &str, default: u64, make: impl Fn(&mut Random) -> Sheet) {
    random_cases(&format!("{name}, read"), default, |random| Reading::new(make(random)));
    random_cases(&format!("{name}, converted"), default, |random| {
        let sheet = make(random);
        Converting::random(random, sheet)
    });
    random_cases(&format!("{name}, asked"), default, |random| Asked(make(random)));
}
