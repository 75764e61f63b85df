//! Two sheets that differ in the names of sectors alone: written, read, asked, printed and converted alike, and refused alike where
//! they are damaged alike.

use crate::cases::{all_cases, random_cases, same, Case, Code, Memory as _};
use crate::plans::{damaged, sheet_a, Numbers, Random};
use crate::reference::{BLOCK, FIRST, FORMS, PAYLOAD, PREFIX};
use crate::renaming::{Renamed, Renaming};
use crate::sheets::converting::{self, converted};
use crate::sheets::printing::printed;
use crate::sheets::{answers, files, numbers_in, reading, same_bytes, sheet_damages, writing, Change, Sheet, Writing};

/// Sheet A with a third sector, which is empty, and with sectors 1, 2 and 3 called 3, 1 and 2: the text names no sector.
#[test]
fn sheet_a_in_five_lines() {
    for colouring in [[1, 1, 1, 2, 2], [3, 3, 3, 1, 1]] {
        let plan = Numbers { sectors: 3, colouring: colouring.to_vec(), ..sheet_a() };
        for bytes in FORMS.map(|form| Sheet::of(form, plan.clone()).bytes()) {
            assert_eq!(printed(&bytes), "1 1 1 0\n2 2 1 0\n3 3 0 160\n4 4 0 5\ntotal 335\n");
        }
    }
}

/// The second office of docs/DESK.md: its sheet A prints the same, and differs in block 4 alone.
#[test]
fn the_desks_second_office() {
    let theirs = Numbers { colouring: vec![2, 2, 2, 1, 1], ..sheet_a() };
    let [ours, theirs] = [sheet_a(), theirs].map(|plan| Sheet::of(&FIRST, plan).bytes());
    let differ: Vec<bool> = ours.chunks(BLOCK).zip(theirs.chunks(BLOCK)).map(|(ours, theirs)| ours != theirs).collect();
    assert_eq!(differ, [false, false, false, false, true]);
    for bytes in [ours, theirs] {
        assert_eq!(printed(&bytes), "1 1 1 0\n2 2 1 0\n3 3 1 0\n4 4 0 5\ntotal 15\n");
    }
}

impl Renamed<Writing> {
    /// The code that both are given, or in words where this writer doesn't treat them alike.
    fn compare_by(&self, write: fn(&mut writing::Memory) -> writing::Answer) -> Result<Code, String> {
        let [before, mut due] = self.both().map(|writing| writing::Memory::of(&writing));
        let (mut ours, mut theirs) = (before.clone(), due.clone());
        let [code, place, bytes] = write(&mut ours);
        same("the answers", &[code, place, bytes], &write(&mut theirs))?;
        if code == 0 {
            let written = self.renaming.sheet(&ours.sheet.content()[..bytes as usize]);
            due.sheet.slice()[..written.len()].copy_from_slice(&written);
        } else {
            ours.same_as(&before)?;
        }
        theirs.same_as(&due)?;
        Ok((code, None))
    }
}

impl Case for Renamed<Writing> {
    fn compare(&self) -> Result<Code, String> {
        if *self.ours.form == FIRST {
            self.compare_by(writing::by_library_records)?;
        }
        self.compare_by(writing::by_library)
    }

    fn smaller(&self) -> Box<dyn Iterator<Item = Self> + '_> {
        Box::new(self.ours.smaller().map(|ours| Renamed::new(ours, &self.renaming)))
    }
}

#[test]
fn random_writings() {
    random_cases("renamed writings", 4_000, |random| {
        let mut writing = Writing::random(random);
        writing.room += random.pick(&[0, 0, 1, 512]);
        Renamed::random(random, writing)
    });
}

#[test]
fn random_damaged_writings() {
    random_cases("renamed damaged writings", 4_000, |random| {
        let mut writing = Writing::random(random);
        match random.between(0, 5) {
            0 => writing.room = random.pick(&[0, writing.room - 1]),
            1 => writing.plan.break_flights(random),
            2 => writing.plan.break_outside(random),
            _ => writing.plan.break_one(random),
        }
        Renamed::random(random, writing)
    });
}

/// The code that both sheets are given by their bytes, or in words where they are not answered alike: by code and place, or by
/// total, number of constraints, and at each place what holds and its violation.
fn same_answers(ours: &[u8], theirs: &[u8]) -> Result<Code, String> {
    let [ours, theirs] = [ours, theirs].map(answers);
    same("the answers", &ours, &theirs)?;
    Ok(ours.map_or_else(|refusal| reading::code(refusal.code, refusal.place), |_| (0, None)))
}

impl Renamed<Sheet> {
    pub fn bytes(&self) -> [Vec<u8>; 2] {
        self.both().map(|sheet| sheet.bytes())
    }

    /// Those of smaller plans only where no byte is changed: in them a change might be one of names.
    pub fn smaller(&self) -> impl Iterator<Item = Self> + '_ {
        let unchanged = self.ours.changes.is_empty();
        let smaller = self.ours.smaller().filter(move |smaller| unchanged || smaller.plan == self.ours.plan);
        smaller.map(|ours| Renamed::new(ours, &self.renaming))
    }
}

impl Case for Renamed<Sheet> {
    fn compare(&self) -> Result<Code, String> {
        let renaming = &self.renaming;
        let [ours, theirs] = self.bytes();
        let code = same_answers(&ours, &theirs)?;
        let [our_plan, their_plan] = [&ours, &theirs].map(|bytes| numbers_in(bytes, reading::by_library));
        same("the plans", &our_plan.map(|plan| renaming.plan(&plan)), &their_plan)?;
        for to in FORMS {
            match [&ours, &theirs].map(|bytes| converted(bytes, to, converting::by_library)) {
                [Ok(ours), Ok(theirs)] => {
                    same_bytes(&theirs, &renaming.sheet(&ours))?;
                    same_answers(&ours, &theirs)?;
                }
                [ours, theirs] => same("the conversions", &ours, &theirs)?,
            }
        }
        Ok(code)
    }

    fn smaller(&self) -> Box<dyn Iterator<Item = Self> + '_> {
        Box::new(self.smaller())
    }
}

/// Sheets whose texts are compared.
#[derive(Clone, Debug)]
struct Texts(Renamed<Sheet>);

impl Case for Texts {
    fn compare(&self) -> Result<Code, String> {
        let [ours, theirs] = self.0.bytes();
        same("the texts", &printed(&ours), &printed(&theirs))?;
        same_answers(&ours, &theirs)
    }

    fn smaller(&self) -> Box<dyn Iterator<Item = Self> + '_> {
        Box::new(self.0.smaller().map(Texts))
    }
}

fn some_sheets(random: &mut Random) -> Renamed<Sheet> {
    let sheet = Sheet::random(random);
    Renamed::random(random, sheet)
}

#[test]
fn random_sheets() {
    random_cases("renamed sheets", 3_000, some_sheets);
    random_cases("renamed sheets printed", 40, |random| Texts(some_sheets(random)));
}

#[test]
fn sheet_files() {
    let mut random = Random::new(1);
    let sheets: Vec<_> = files().into_iter().map(|(sheet, _)| Renamed::random(&mut random, sheet)).collect();
    all_cases("renamed sheet files", sheets.iter().cloned());
    all_cases("renamed sheet files printed", sheets.into_iter().map(Texts));
}

/// A change to a sheet's bytes that is the same under all names: a byte of the colouring becomes one that names no sector, or
/// something is changed besides S, the sectors in the colouring's blocks and the checks of these.
fn nameless_change(random: &mut Random, sheet: &Sheet) -> Change {
    let bytes = sheet.bytes();
    if random.once_in(4) {
        let first = bytes.chunks(BLOCK).position(|block| block[4] == 5).expect("a colouring");
        let region = random.place(sheet.plan.colouring.len());
        let place = (first + region / PAYLOAD) * BLOCK + PREFIX + region % PAYLOAD;
        return Change::Put(place, random.pick(&[0, sheet.plan.sectors as u8 + 1, 255]));
    }
    let named = |place: usize| {
        let block = bytes.get(place / BLOCK * BLOCK..).unwrap_or_default();
        let used = block.get(8..10).map_or(0, |used| usize::from(used[0]) + 256 * usize::from(used[1]));
        let sectors = (PREFIX..PREFIX + used).contains(&(place % BLOCK)) || place % BLOCK >= PREFIX + PAYLOAD;
        (PREFIX + 2..PREFIX + 4).contains(&place) || block.get(4) == Some(&5) && sectors
    };
    loop {
        let change = Change::random(random, sheet.blocks());
        let mut changed = match change {
            Change::Put(place, _) | Change::Flip(place, _) => place..place + 1,
            Change::PutNumber(place, _) => place..place + 2,
            Change::Noise(place, count, _) => place..place + count,
            _ => return change,
        };
        if !changed.any(named) {
            return change;
        }
    }
}

/// A sheet whose plan is changed, or its bytes; then all blocks often have right numbers and checks.
pub fn some_damaged_sheets(random: &mut Random) -> Renamed<Sheet> {
    let mut sheet = Sheet::random(random);
    if random.once_in(4) {
        sheet.plan.break_one(random);
        // As wide as a sheet has them.
        sheet.plan.sectors %= 1 << 16;
        sheet.plan.colouring.iter_mut().for_each(|sector| *sector %= 1 << 8);
    } else {
        let mut changes: Vec<Change> = (0..random.between(1, 2)).map(|_| nameless_change(random, &sheet)).collect();
        if random.once_in(4) {
            changes.push(Change::Numbers);
        }
        if random.between(1, 4) < 4 {
            changes.push(Change::Checks);
        }
        sheet.changes = changes;
    }
    Renamed::random(random, sheet)
}

#[test]
fn random_damaged_sheets() {
    random_cases("renamed damaged sheets", 5_000, some_damaged_sheets);
    random_cases("renamed damaged sheets printed", 40, |random| Texts(some_damaged_sheets(random)));
}

/// Sheet A has two sectors, which exchange their names.
#[test]
fn every_refused_sheet() {
    for form in FORMS {
        for (code, place, sheet) in damaged(&Sheet::a(form), &sheet_damages(form)) {
            assert_eq!(Renamed::new(sheet, &Renaming(vec![2, 1])).compare(), Ok(reading::code(code, place)));
        }
    }
}
