//! `qirfadhun::lists::read` and the questions to a `qirfadhun::lists::Sheet` compared with the reference, for sheets of either form: all that is
//! answered, and all memory in and around what is lent. Sheets whose bytes are damaged are in `damage`.

use crate::cases::{all_cases, random_cases, shrink, Case, Code};
use crate::library;
use crate::plans::{damaged, plan, sheet_a, Damage, Numbers, Random};
use crate::reference::*;
use crate::sheets::reading::{by_reference, compare, Answer, Memory};
use crate::sheets::{all_sheets, files, random_sheets, sheet_damages, sheets_at_block_ends, Asked, Reading, Sheet};

#[test]
fn random_good_sheets() {
    random_sheets("good sheets", 3_000, Sheet::random);
}

#[test]
fn random_rooms() {
    random_cases("rooms of readings", 5_000, |random| {
        let mut reading = Reading::new(Sheet::random(random));
        for room in &mut reading.rooms {
            let most = 3 * EDGES;
            *room = random.pick(&[*room, *room, *room, *room, *room + 1, *room + 7, most, room.saturating_sub(1), 0]);
        }
        reading
    });
}

/// Any two of the lists have any room around what they need, the others what they need.
#[test]
fn rooms_around_the_limit() {
    for form in FORMS {
        let exact = Reading::new(Sheet::a(form));
        let up_to = |list: usize| 0..=exact.rooms[list] + 2;
        let mut readings = Vec::new();
        for (one, other) in (0..7).flat_map(|one| (one + 1..7).map(move |other| (one, other))) {
            for (of_one, of_other) in up_to(one).flat_map(|of_one| up_to(other).map(move |of_other| (of_one, of_other))) {
                let mut reading = exact.clone();
                (reading.rooms[one], reading.rooms[other]) = (of_one, of_other);
                readings.push(reading);
            }
        }
        all_cases(&format!("rooms of readings, {form:?}"), readings);
    }
}

#[test]
fn empty_slices() {
    let nowhere = |sheet: &[u8]| {
        let refused = library::read(sheet, &mut [], &mut [], &mut [], &mut [], &mut [], &mut [], &mut []);
        refused.map_err(|refusal| (refusal.code, refusal.place))
    };
    assert_eq!(nowhere(&[]), Err((31, 0)));
    assert_eq!(nowhere(&Sheet::a(&FIRST).bytes()), Err((39, 0)));
    assert_eq!(nowhere(&Sheet::a(&SECOND).bytes()), Err((39, 0)));
    assert_eq!(library::Sheet::new(&[]).map_err(|refusal| (refusal.code, refusal.place)), Err((31, 0)));

    for form in FORMS {
        let bytes = Sheet::of(form, Numbers { edges: vec![], ..sheet_a() }).bytes();
        let mut outside = [9; 5];
        let read = library::read(&bytes, &mut [0; 5], &mut outside, &mut [], &mut [], &mut [], &mut [0; 16], &mut [0; 5])
            .expect("a head");
        assert_eq!((read.regions, read.sectors, read.edges, read.constraints), (5, 2, 0, 4));
        assert_eq!((read.flights, read.visits, outside), (0, 0, [0; 5]));
    }
}

#[test]
fn sheet_files() {
    let files = files();
    for form in FORMS {
        let largest = files.iter().find(|(sheet, bytes)| sheet.form == form && bytes.len() == form.blocks * BLOCK);
        assert!(largest.is_some(), "the largest sheet of the letters {form:?} is among them");
    }
    for (sheet, bytes) in &files {
        assert!(sheet.bytes() == *bytes, "{:?}", sheet.plan);
    }
    all_sheets("sheet files", files.into_iter().map(|(sheet, _)| sheet).collect());
}

#[test]
fn lists_that_end_with_a_block() {
    all_sheets("lists that end with a block", sheets_at_block_ends());
}

#[test]
fn every_refusal_in_order() {
    for form in FORMS {
        let mut damages: Vec<Damage<Reading>> = Vec::new();
        for (code, place, damage) in sheet_damages(form) {
            damages.push((code, place, Box::new(move |reading| damage(&mut reading.sheet))));
        }
        let good = Reading::new(Sheet::a(form));
        for list in (0..good.rooms.len()).filter(|&list| good.rooms[list] > 0) {
            damages.push((39, 0, Box::new(move |reading| reading.rooms[list] -= 1)));
            damages.push((39, 0, Box::new(move |reading| reading.rooms[list] = 0)));
        }
        let readings = damaged(&good, &damages);
        for (code, place, reading) in &readings {
            assert_eq!(by_reference(&mut Memory::of(reading)), [*code, *place, 0, 0, 0, 0, 0, 0], "{reading:?}");
        }
        all_cases(&format!("refused readings, {form:?}"), readings.into_iter().map(|(_, _, reading)| reading));
        let alone = damages.iter().map(|(_, _, damage)| {
            let mut reading = good.clone();
            damage(&mut reading);
            Asked(reading.sheet)
        });
        all_cases(&format!("refused sheets, asked, {form:?}"), alone);
    }
}

/// A reader that takes a constraint's numbers in the order of the sheet.
fn unturned(memory: &mut Memory) -> Answer {
    let answer = by_reference(memory);
    let count = answer[5] as usize;
    memory.lists[5].slice().chunks_mut(4).take(count).for_each(|four| four.swap(2, 3));
    answer
}

/// A reader that leaves what was lent for outside areas.
fn without_zeros(memory: &mut Memory) -> Answer {
    let [_, outside, ..] = memory.lists.clone();
    let answer = by_reference(memory);
    memory.lists[1] = outside;
    answer
}

#[derive(Clone, Debug)]
struct Misread(Reading, fn(&mut Memory) -> Answer);

impl Case for Misread {
    fn compare(&self) -> Result<Code, String> {
        compare(&self.0, &[self.1])
    }

    fn smaller(&self) -> Box<dyn Iterator<Item = Self> + '_> {
        Box::new(self.0.smaller().map(|reading| Misread(reading, self.1)))
    }
}

#[test]
fn a_wrong_reader_is_found_and_its_case_shrunk() {
    for (wrong, form) in [(unturned as fn(&mut Memory) -> Answer, &SECOND), (without_zeros, &FIRST)] {
        let reading = Reading::new(Sheet::of(form, plan(&mut Random::new(1))));
        let Misread(Reading { sheet: Sheet { plan, .. }, rooms }, _) = shrink(Misread(reading, wrong));
        assert_eq!((plan.regions, plan.edges.len(), plan.counts.len()), (1, 0, 0));
        assert_eq!((plan.constraints, rooms), (vec![1, 1, 0, 1], [1, 1, 0, 0, 0, 4, 1]));
    }
}
