//! `qirfadhun::lists::to_second` and `qirfadhun::lists::to_first` compared with the reference: code, place, bytes written, and all memory in and
//! around what is lent; and what is the same of a sheet and its conversion. Sheets whose bytes are damaged are in `damage`.

use crate::calls::{self, Call};
use crate::cases::{all_cases, random_cases, same, shrink, Case, Code, Memory as _};
use crate::library;
use crate::plans::{
    damaged, largest_plan, largest_whole_plan, moves, plan, sheet_a, sheet_a_with_both, sheet_a_with_flights,
    sheet_a_with_outside, whole_plan, without, Damage, Numbers, Random,
};
use crate::reference::*;
use crate::sheets::converting::{by_archive, by_library, by_reference, compare, converted, Memory};
use crate::sheets::writing::Answer;
use crate::sheets::{
    answers, files, numbers_in, reading, same_bytes, sheet_damages, sheets_at_block_ends, Change, Converting, Sheet,
};

#[test]
fn random_conversions() {
    random_cases("conversions", 5_000, |random| {
        let sheet = Sheet::random(random);
        Converting::random(random, sheet)
    });
}

#[test]
fn empty_slices() {
    let refused = |answer: Result<usize, qirfadhun::Refusal>| answer.map_err(|refusal| (refusal.code, refusal.place));
    assert_eq!(refused(library::to_second(&[], &mut [])), Err((31, 0)));
    assert_eq!(refused(library::to_first(&[], &mut [])), Err((31, 0)));
    let [first, second] = FORMS.map(|form| Sheet::a(form).bytes());
    assert_eq!(refused(library::to_second(&first, &mut [])), Err((40, 0)));
    assert_eq!(refused(library::to_first(&second, &mut [])), Err((40, 0)));
    assert_eq!(refused(library::to_second(&second, &mut [])), Err((32, 0)));
    assert_eq!(refused(library::to_first(&first, &mut [])), Err((32, 0)));
}

/// What converting this plan's sheet of a form to the other answers, the same from all, with so much room.
fn answered(form: &'static Form, plan: Numbers, room: u64) -> Answer {
    let converting = Converting { room, ..Converting::over(Sheet::of(form, plan)) };
    let [by_reference, others @ ..] = [by_reference, by_library, by_archive].map(|convert| convert(&mut Memory::of(&converting)));
    assert_eq!(others, [by_reference; 2]);
    assert_eq!(converting.compare().map(|(code, _)| code), Ok(by_reference[0]));
    by_reference
}

/// Sheet A has five blocks in the first form. In the second it has one more for the outside areas.
#[test]
fn sheet_a_there_and_back() {
    let file = include_bytes!("../../../sheets/a.sheet");
    let second = Sheet::of(&SECOND, sheet_a()).bytes();
    assert_eq!((answered(&FIRST, sheet_a(), 6 * 512), answered(&FIRST, sheet_a(), 7 * 512)), ([0, 0, 3_072], [0, 0, 3_072]));
    assert_eq!((answered(&SECOND, sheet_a(), 5 * 512), answered(&SECOND, sheet_a(), 6 * 512)), ([0, 0, 2_560], [0, 0, 2_560]));
    for convert in [by_reference, by_library, by_archive] {
        assert!(converted(file, &SECOND, convert).as_ref() == Ok(&second));
        assert!(converted(&second, &FIRST, convert).is_ok_and(|first| first == file));
    }
}

/// Back is refused by 41 for an outside area other than 0, for a flight, and for a constraint of kind 5.
#[test]
fn every_case_of_code_41() {
    let back = |plan: Numbers| answered(&SECOND, plan, 5 * 512);
    assert_eq!(back(sheet_a()), [0, 0, 2_560]);
    for (region, area) in (0..5).flat_map(|region| [1, 256, 65_536, 1_000_000].map(|area| (region, area))) {
        let mut plan = sheet_a();
        plan.outside[region] = area;
        assert_eq!(back(plan), [41, 0, 0]);
    }
    assert_eq!(back(sheet_a_with_outside()), [41, 0, 0]);
    for counts in [vec![1], vec![32], vec![1; 64]] {
        let visits = [5, 86_400].repeat(counts.iter().sum::<u64>() as usize);
        assert_eq!(back(Numbers { counts, visits, ..sheet_a() }), [41, 0, 0]);
    }
    assert_eq!(back(Numbers { constraints: sheet_a().constraints, ..sheet_a_with_flights() }), [41, 0, 0]);
    for place in 0..4 {
        let mut plan = sheet_a();
        plan.constraints[4 * place..4 * place + 2].copy_from_slice(&[5, 6]);
        assert_eq!(back(plan), [41, 0, 0]);
    }
    // After 40, for which the first sheet's bytes count, and after 37.
    for plan in [sheet_a_with_outside(), sheet_a_with_flights(), sheet_a_with_both()] {
        assert_eq!((answered(&SECOND, plan.clone(), 2_559), answered(&SECOND, plan.clone(), 2_560)), ([40, 0, 0], [41, 0, 0]));
        assert_eq!(answered(&SECOND, Numbers { colouring: vec![3; 5], ..plan }, 0), [37, 8, 0]);
    }
    // The other way there is nothing that can't be held.
    assert_eq!((answered(&FIRST, sheet_a(), 3_071), answered(&FIRST, sheet_a(), 3_072)), ([40, 0, 0], [0, 0, 3_072]));
}

/// Either way takes only its own letters, in every block.
#[test]
fn only_its_own_letters() {
    assert_eq!([FIRST.letters, SECOND.letters], [*b"SCTR", *b"SCT2"]);
    for form in FORMS {
        let sheet = Sheet::a(form);
        let own = Converting::new(sheet.clone(), form);
        assert_eq!(by_reference(&mut Memory::of(&own)), [32, 0, 0]);
        assert!(own.compare().is_ok());
        for number in 0..sheet.blocks() {
            let sheet = sheet.disguised(&[Change::Letters(number, sheet.other_form())]);
            let over = Converting::over(sheet.clone());
            assert_eq!(by_reference(&mut Memory::of(&over)), [32, number as u64, 0]);
            all_cases("other letters", Converting::both_ways(&sheet));
        }
    }
}

/// A second sheet is refused where a first one is wanted, up to 74 blocks by its letters, and above them by its length.
#[test]
fn lengths_go_by_the_letters() {
    let answer = |form: &'static Form, blocks: usize, to: &'static Form| {
        let converting = Converting::new(Sheet::a(form).changed(&[Change::Length(blocks * BLOCK)]), to);
        assert!(converting.compare().is_ok());
        by_reference(&mut Memory::of(&converting))
    };
    for blocks in [1, 43, 44, 74] {
        assert_eq!((answer(&SECOND, blocks, &SECOND), answer(&SECOND, blocks, &FIRST)), ([32, 0, 0], [38, 0, 0]));
    }
    assert_eq!((answer(&SECOND, 75, &SECOND), answer(&SECOND, 75, &FIRST)), ([31, 0, 0], [31, 0, 0]));
    for blocks in [1, 43] {
        assert_eq!((answer(&FIRST, blocks, &FIRST), answer(&FIRST, blocks, &SECOND)), ([32, 0, 0], [38, 0, 0]));
    }
    for blocks in [44, 74, 75] {
        assert_eq!((answer(&FIRST, blocks, &FIRST), answer(&FIRST, blocks, &SECOND)), ([31, 0, 0], [31, 0, 0]));
    }
}

/// Sheet A's second form can't be converted back: whatever else is wrong is found before that.
#[test]
fn every_refusal_in_order() {
    for form in FORMS {
        let good = Converting::over(Sheet::a(form));
        let mut damages: Vec<Damage<Converting>> = Vec::new();
        for (code, place, damage) in sheet_damages(form) {
            damages.push((code, place, Box::new(move |converting| damage(&mut converting.sheet))));
        }
        for room in [0, 1, 512, good.room - 512, good.room - 1] {
            damages.push((40, 0, Box::new(move |converting| converting.room = room)));
        }
        let conversions = damaged(&good, &damages);
        for (code, place, converting) in &conversions {
            assert_eq!(by_reference(&mut Memory::of(converting)), [*code, *place, 0], "{converting:?}");
        }
        all_cases(&format!("refused conversions, {form:?}"), conversions.into_iter().map(|(_, _, converting)| converting));
    }
}

#[test]
fn rooms_around_the_limit() {
    for form in FORMS {
        for plan in [sheet_a(), sheet_a_with_both()] {
            let exact = Converting::over(Sheet::of(form, plan));
            let rooms = (0..=exact.room + 2).map(|room| Converting { room, ..exact.clone() });
            all_cases(&format!("rooms of sheet A, {form:?}"), rooms);
        }
        let mut random = Random::new(1);
        for plan in [largest_plan(&mut random), largest_whole_plan(&mut random)] {
            let largest = Converting::over(Sheet::of(form, plan));
            let exact = largest.room;
            let rooms = [0, 511, 512, 513, exact - 512, exact - 1, exact, exact + 1, exact + 512];
            all_cases(&format!("rooms of the largest sheet, {form:?}"), rooms.map(|room| Converting { room, ..largest.clone() }));
        }
    }
}

#[test]
fn lists_that_end_with_a_block() {
    all_cases("lists that end with a block", sheets_at_block_ends().into_iter().map(Converting::over));
}

/// A sheet, the moves that are made on it, and what is the same of it, of its conversion and of the way back.
#[derive(Clone, Debug)]
struct Kept {
    sheet: Sheet,
    moves: Vec<u64>,
}

impl Kept {
    fn random(random: &mut Random, sheet: Sheet) -> Self {
        let count = random.pick(&[0, 4, 12]);
        let moves = moves(random, &sheet.plan, count);
        Kept { sheet, moves }
    }
}

impl Case for Kept {
    fn compare(&self) -> Result<Code, String> {
        let bytes = self.sheet.bytes();
        let there = match converted(&bytes, self.sheet.other_form(), by_library) {
            Ok(there) => there,
            Err(code) => return Ok(code),
        };
        let back = converted(&there, self.sheet.form, by_library);
        same_bytes(&back.map_err(|code| format!("the way back is refused by {code:?}"))?, &bytes)?;
        same("the verdicts", &answers(&bytes), &answers(&there))?;
        let [plan, plan_there] = [&bytes, &there].map(|bytes| numbers_in(bytes, reading::by_library));
        same("the lists", &plan, &plan_there)?;
        let (Ok(plan), Ok(plan_there)) = (plan, plan_there) else { return Err("what is converted is not read".into()) };
        let [called, called_there] = [plan, plan_there].map(|plan| {
            let mut memory = calls::Memory::of(&Call::new(plan, self.moves.clone()));
            (calls::by_library(&mut memory), memory)
        });
        same("the totals", &called.0, &called_there.0)?;
        called.1.same_as(&called_there.1)?;
        Ok((0, None))
    }

    fn smaller(&self) -> Box<dyn Iterator<Item = Self> + '_> {
        let fewer_moves = without(&self.moves, 3).map(|moves| Kept { moves, ..self.clone() });
        let smaller_sheets = self.sheet.smaller().map(|sheet| Kept { sheet, ..self.clone() });
        Box::new(fewer_moves.chain(smaller_sheets))
    }
}

/// Bytes there and back, verdicts, lists, and the rows, totals, labels and verdicts of the same moves.
#[test]
fn what_a_conversion_keeps() {
    let mut random = Random::new(1);
    let mut sheets: Vec<Sheet> = files().into_iter().map(|(sheet, _)| sheet).collect();
    sheets.extend(FORMS.map(|form| Sheet::of(form, largest_plan(&mut random))));
    sheets.extend(sheets_at_block_ends());
    all_cases("kept of some sheets", sheets.into_iter().map(|sheet| Kept::random(&mut random, sheet)));
    random_cases("kept", 4_000, |random| {
        let form = random.pick(&FORMS);
        let plan = if random.once_in(4) { whole_plan(random) } else { plan(random) };
        Kept::random(random, Sheet::of(form, plan))
    });
}

/// A converter that takes an outside area for none where it is below 256.
fn nearsighted(memory: &mut Memory) -> Answer {
    let lent = memory.sheet.clone();
    let outside = memory.sheet.slice().chunks_mut(BLOCK).filter(|block| block[4] == 6);
    for block in outside {
        block[PREFIX..PREFIX + PAYLOAD].iter_mut().step_by(4).for_each(|byte| *byte = 0);
        let check = fletcher(&block[..PREFIX + PAYLOAD]);
        block[PREFIX + PAYLOAD..].copy_from_slice(&check);
    }
    let answer = by_reference(memory);
    memory.sheet = lent;
    answer
}

/// A converter that asks for as many bytes as the sheet has that it is handed, before it refuses by 41.
fn greedy(memory: &mut Memory) -> Answer {
    match by_reference(memory) {
        [41, ..] if memory.converted.content().len() < memory.sheet.content().len() => [40, 0, 0],
        answer => answer,
    }
}

#[derive(Clone, Debug)]
struct Misconverted(Converting, fn(&mut Memory) -> Answer);

impl Case for Misconverted {
    fn compare(&self) -> Result<Code, String> {
        compare(&self.0, &[self.1])
    }

    fn smaller(&self) -> Box<dyn Iterator<Item = Self> + '_> {
        Box::new(self.0.smaller().map(|converting| Misconverted(converting, self.1)))
    }
}

/// The smallest conversion found that shows a converter to be wrong.
fn shrunk(wrong: fn(&mut Memory) -> Answer) -> Converting {
    let mut random = Random::new(1);
    let mut cases = (0..1_000).map(|_| Misconverted(Converting::over(Sheet::random(&mut random)), wrong));
    shrink(cases.find(|case| case.compare().is_err()).expect("found")).0
}

#[test]
fn a_wrong_converter_is_found_and_its_case_shrunk() {
    let Converting { sheet: Sheet { form, plan, changes }, room, .. } = shrunk(nearsighted);
    assert_eq!((form, plan.outside, changes.len()), (&SECOND, vec![1], 0));
    assert_eq!((plan.edges.len(), plan.counts.len(), plan.constraints.len(), room), (0, 0, 4, 4 * 512));

    let Converting { sheet: Sheet { form, plan, changes }, room, .. } = shrunk(greedy);
    assert_eq!((form, plan.regions, plan.edges.len(), changes.len()), (&SECOND, 1, 0, 0));
    assert_eq!(room, 4 * 512);
}
