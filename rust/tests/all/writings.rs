//! `qirfadhun::lists::write` and `qirfadhun::lists::write_second` compared with the reference: code, place, bytes written, and all memory in and
//! around what is lent. What is read and then written is the same sheet.

use crate::cases::{all_cases, random_cases, shrink, Case, Code};
use crate::library;
use crate::plans::{damaged, judged_damages, largest_plan, largest_whole_plan, stored_damages, Damage, Numbers, Random};
use crate::reference::*;
use crate::sheets::writing::{by_library, by_reference, compare, Answer, Memory};
use crate::sheets::{files, numbers_in, reading, same_bytes, sheets_at_block_ends, Sheet, Writing};

#[test]
fn random_writings() {
    random_cases("writings", 5_000, |random| {
        let mut writing = Writing::random(random);
        writing.room += random.pick(&[0, 0, 1, 7, 511, 512]);
        writing
    });
}

#[test]
fn random_damaged_writings() {
    random_cases("damaged writings", 10_000, |random| {
        let mut writing = Writing::random(random);
        for _ in 0..random.between(1, 2) {
            match random.between(0, 7) {
                0 => writing.room = random.pick(&[0, writing.room / 2, writing.room.saturating_sub(1)]),
                1 if *writing.form == SECOND => writing.plan.break_flights(random),
                2 if *writing.form == SECOND => writing.plan.break_outside(random),
                _ => writing.plan.break_one(random),
            }
        }
        writing
    });
}

#[test]
fn empty_slices() {
    let refused = library::write(0, 0, &[], &[], &[], &[], &mut []);
    assert_eq!(refused.map_err(|refusal| (refusal.code, refusal.place)), Err((1, 0)));
    let refused = library::write(1, 1, &[9], &[], &[4, 6, 1, 1], &[1], &mut []);
    assert_eq!(refused.map_err(|refusal| (refusal.code, refusal.place)), Err((40, 0)));
    let refused = library::write_second(0, 0, &[], &[], &[], &[], &[], &[], &[], &mut []);
    assert_eq!(refused.map_err(|refusal| (refusal.code, refusal.place)), Err((1, 0)));
    let refused = library::write_second(1, 1, &[9], &[8], &[], &[], &[], &[4, 6, 1, 1], &[1], &mut []);
    assert_eq!(refused.map_err(|refusal| (refusal.code, refusal.place)), Err((40, 0)));
}

/// Sheet A, to be written in this form.
fn writing_a(form: &'static Form) -> Writing {
    Writing::new(form, Sheet::a(form).plan)
}

/// The largest sheet of this form.
fn largest(form: &'static Form) -> Writing {
    let plan = if *form == FIRST { largest_plan } else { largest_whole_plan };
    Writing::new(form, plan(&mut Random::new(1)))
}

#[test]
fn rooms_around_the_limit() {
    for form in FORMS {
        let exact = writing_a(form);
        all_cases(&format!("rooms of sheet A, {form:?}"), (0..=exact.room + 2).map(|room| Writing { room, ..exact.clone() }));
        let largest = largest(form);
        let rooms = [0, 511, 512, 513, largest.room - 512, largest.room - 1, largest.room, largest.room + 1, largest.room + 512];
        all_cases(&format!("rooms of the largest sheet, {form:?}"), rooms.map(|room| Writing { room, ..largest.clone() }));
    }
}

#[test]
fn every_refusal_in_order() {
    for form in FORMS {
        let good = writing_a(form);
        let mut damages: Vec<Damage<Writing>> = Vec::new();
        for (code, place, damage) in if *form == FIRST { stored_damages() } else { judged_damages() } {
            damages.push((code, place, Box::new(move |writing| damage(&mut writing.plan))));
        }
        for room in [0, 1, 512, good.room - 512, good.room - 1] {
            damages.push((40, 0, Box::new(move |writing| writing.room = room)));
        }
        let writings = damaged(&good, &damages);
        for (code, place, writing) in &writings {
            assert_eq!(by_reference(&mut Memory::of(writing)), [*code, *place, 0], "{writing:?}");
        }
        all_cases(&format!("refused writings, {form:?}"), writings.into_iter().map(|(_, _, writing)| writing));
    }
}

#[test]
fn lists_that_end_with_a_block() {
    let writings = sheets_at_block_ends().into_iter().map(|sheet| Writing::new(sheet.form, sheet.plan));
    all_cases("lists that end with a block", writings);
}

#[test]
fn counts_at_their_ends() {
    for form in FORMS {
        let largest = largest(form);
        assert_eq!(largest.room as usize, form.blocks * BLOCK);
        let one_more = |change: fn(&mut Numbers)| {
            let mut writing = largest.clone();
            change(&mut writing.plan);
            writing
        };
        let beyond = [
            one_more(|plan| plan.edges.extend([511, 512, 1])),
            one_more(|plan| plan.constraints.extend([1, 1, 1, 1])),
            one_more(|plan| plan.sectors += 1),
            one_more(|plan| {
                plan.regions += 1;
                plan.workloads.push(0);
                plan.outside.push(0);
                plan.colouring.push(1);
            }),
        ];
        for (writing, code) in beyond.iter().zip([4, 6, 2, 1]) {
            assert_eq!(by_reference(&mut Memory::of(writing)), [code, 0, 0]);
        }
        let of_second = [
            one_more(|plan| plan.outside.push(0)),
            one_more(|plan| plan.visits.extend([1, 1])),
            one_more(|plan| {
                plan.counts.push(1);
                plan.visits.extend([1, 1]);
            }),
        ];
        // The first form takes none of these lists.
        let due = if *form == FIRST { [[0, 0, largest.room]; 3] } else { [14, 13, 13].map(|code| [code, 0, 0]) };
        for (writing, due) in of_second.iter().zip(due) {
            assert_eq!(by_reference(&mut Memory::of(writing)), due);
        }
        all_cases(&format!("counts beyond their ends, {form:?}"), beyond.into_iter().chain(of_second));
        all_cases(&format!("counts at their ends, {form:?}"), [largest]);
    }
}

/// A sheet that is read and, if it is not refused, written again.
#[derive(Clone, Debug)]
struct Again(Sheet);

impl Case for Again {
    fn compare(&self) -> Result<Code, String> {
        let bytes = self.0.bytes();
        let plan = match numbers_in(&bytes, reading::by_library) {
            Ok(plan) => plan,
            Err(code) => return Ok(code),
        };
        let mut memory = Memory::of(&Writing::new(Form::of(&bytes), plan));
        let answer = by_library(&mut memory);
        if answer != [0, 0, bytes.len() as u64] {
            return Err(format!("{} bytes are read, and writing them answers {answer:?}", bytes.len()));
        }
        same_bytes(memory.sheet.content(), &bytes)?;
        Ok((0, None))
    }

    fn smaller(&self) -> Box<dyn Iterator<Item = Self> + '_> {
        Box::new(self.0.smaller().map(Again))
    }
}

#[test]
fn read_then_written_is_the_same() {
    all_cases("sheet files read and written", files().into_iter().map(|(sheet, _)| Again(sheet)));
    random_cases("sheets read and written", 5_000, |random| {
        let mut sheet = Sheet::random(random);
        if random.once_in(2) {
            sheet.break_some(random);
        }
        Again(sheet)
    });
}

/// A writer that leaves what was lent after the used part of the last block.
fn wrong(memory: &mut Memory) -> Answer {
    let lent = memory.sheet.content().to_vec();
    let answer = by_reference(memory);
    if let [0, _, bytes] = answer {
        memory.sheet.slice()[bytes as usize - 3] = lent[bytes as usize - 3];
    }
    answer
}

#[derive(Clone, Debug)]
struct Miswritten(Writing);

impl Case for Miswritten {
    fn compare(&self) -> Result<Code, String> {
        compare(&self.0, &[wrong])
    }

    fn smaller(&self) -> Box<dyn Iterator<Item = Self> + '_> {
        Box::new(self.0.smaller().map(Miswritten))
    }
}

#[test]
fn a_wrong_writer_is_found_and_its_case_shrunk() {
    let mut random = Random::new(1);
    let found = (0..100).map(|_| Miswritten(Writing::random(&mut random))).find(|case| case.compare().is_err());
    let Miswritten(Writing { form, plan, room }) = shrink(found.expect("found"));
    assert_eq!((plan.regions, plan.edges.len(), plan.counts.len(), plan.constraints.len()), (1, 0, 0, 4));
    assert_eq!(room, if *form == FIRST { 4 * 512 } else { 5 * 512 });
}
