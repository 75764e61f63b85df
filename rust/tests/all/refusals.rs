//! Every refusal has the code, the place and the sentence of `docs/CODES.md`, and changes nothing.

use crate::library;
use crate::plans::{
    damaged, judged_damages, sheet_a, sheet_a_with_both, sheet_a_with_flights, sheet_a_with_outside, Damage, Numbers,
};
use crate::reference::FORMS;
use crate::sheets::{sheet_damages, Sheet};
use crate::typed::{board, built, constraint, numbers, region, sector, Shown};
use qirfadhun::codes::LISTED;
use qirfadhun::{
    Area, Board, Change, Colouring, Form, Kind, Move, Plan, PlanBuilder, Refusal, Relation, Review, Seconds, Sector, Workload,
};
use std::collections::BTreeSet;

/// A line of a table of the document: the code, what its place is the number of, when it is given, what it means, what to do.
struct Line {
    code: u64,
    place: Option<String>,
    given: String,
    meaning: String,
    remedy: String,
}

/// The lines of all tables, in their order.
fn document() -> Vec<Line> {
    let text = include_str!("../../../docs/CODES.md");
    let cells = text.lines().filter(|line| line.starts_with('|')).map(|line| line.trim_matches('|').split('|').map(str::trim));
    let mut lines = Vec::new();
    for cells in cells.map(Iterator::collect::<Vec<_>>) {
        if cells.len() < 4 {
            continue; // the index by number
        }
        let Ok(code) = cells[0].parse() else { continue };
        let place = if cells.len() == 5 { cells[2] } else { "0" }; // the table of moves has no places
        let place = (place != "0").then(|| place.trim_start_matches("the ").to_string());
        let [given, meaning, remedy] = [cells[1], cells[cells.len() - 2], cells[cells.len() - 1]].map(str::to_string);
        lines.push(Line { code, place, given, meaning, remedy });
    }
    lines
}

#[test]
fn the_list_is_that_of_the_document() {
    let document = document();
    for (listed, due) in LISTED.iter().zip(&document) {
        assert_eq!((listed.code, listed.place, listed.given), (due.code, due.place.as_deref(), &due.given[..]));
        assert_eq!((listed.meaning, listed.remedy), (&due.meaning[..], &due.remedy[..]));
    }
    assert_eq!(LISTED.len(), document.len());
}

/// The document's words for a code, with a place, without one or either way: one line after the other, each once.
fn words(code: u64, named: Option<bool>, of: fn(&Line) -> &str) -> String {
    let document = document();
    let mut words: Vec<&str> = Vec::new();
    for line in document.iter().filter(|line| line.code == code && named.is_none_or(|named| line.place.is_some() == named)) {
        if !words.contains(&of(line)) {
            words.push(of(line));
        }
    }
    assert!(!words.is_empty(), "{code} is not listed");
    words.join(", or ")
}

/// Holds what a refusal says to the document.
fn hold(refusal: Refusal, code: u64, place: u64) {
    assert_eq!((refusal.code, refusal.place), (code, place), "{refusal}");
    let item = document().into_iter().filter(|line| line.code == code).find_map(|line| line.place);
    // Blocks are counted from 0, all else from 1.
    let named = item.as_deref().filter(|&item| place > 0 || item == "block");
    let (own, lines) = if code == 37 { (place, None) } else { (code, Some(named.is_some())) };
    let given = words(own, lines, |line| &line.given);
    let sentence = match named {
        _ if code == 37 => format!("the plan in the sheet is refused by {place}: {given}"),
        Some(item) => format!("{given} ({item} {place})"),
        None => given,
    };
    assert_eq!(refusal.sentence(), sentence);
    assert_eq!(refusal.meaning(), words(own, lines, |line| &line.meaning));
    assert_eq!(refusal.remedy(), words(own, lines, |line| &line.remedy));
    assert_eq!(refusal.to_string(), format!("refused {code} {place}: {sentence}"));
}

/// Damaged numbers are refused as the call refuses them.
#[test]
fn plans_of_numbers() {
    let damage = |(code, place, damage)| -> Damage<Numbers> { (code, place, Box::new(damage)) };
    let damages: Vec<_> = judged_damages().into_iter().map(damage).collect();
    for (code, place, plan) in damaged(&sheet_a_with_flights(), &damages) {
        hold(Plan::from_numbers(numbers(&plan)).expect_err("a damaged plan"), code, place);
    }
}

#[test]
fn sheets() {
    for form in FORMS {
        for (code, place, damage) in sheet_damages(form) {
            let mut sheet = Sheet::a(form);
            damage(&mut sheet);
            let bytes = sheet.bytes();
            hold(Plan::read(&bytes).expect_err("a damaged sheet"), code, place);
            hold(Board::read(&bytes).expect_err("a damaged sheet"), code, place);
        }
    }
}

/// Lent memory that is too short, which the typed face never lends.
#[test]
fn lent_memory() {
    let call = |moves: &[u64], rows: usize, verdicts: usize, work: usize| {
        let (mut rows, mut verdicts, mut work) = (vec![0; rows], vec![0; verdicts], vec![0; work]);
        numbers(&sheet_a()).call(moves, &mut rows, &mut verdicts, &mut work).expect_err("too little")
    };
    hold(call(&[1], 4, 8, 10), 9, 0);
    hold(call(&[1, 1, 1], 3, 8, 10), 10, 0);
    hold(call(&[], 0, 7, 10), 11, 0);
    hold(call(&[], 0, 8, 9), 12, 0);
    let bytes = Sheet::a(FORMS[0]).bytes();
    let read = library::read(&bytes, &mut [0; 4], &mut [0; 5], &mut [0; 12], &mut [], &mut [], &mut [0; 16], &mut [0; 5]);
    hold(read.expect_err("too little"), 39, 0);
    hold(library::to_second(&bytes, &mut [0; 512]).expect_err("too little"), 40, 0);
    let spoiled = Sheet::a(FORMS[0]).spoiled(&[0]).bytes();
    hold(library::salvage(&spoiled, &mut [0; 512], &mut [0; 5]).expect_err("too little"), 40, 0);
    hold(library::salvage(&spoiled, &mut [0; 5 * 512], &mut [0; 4]).expect_err("too little"), 17, 0);
}

/// An input that is cut off, in the text of figures over what came before.
#[test]
fn figures() {
    let stopped = |text: &str| text.parse::<Review>().expect("figures").stopped();
    let none = "0\n".repeat(12);
    assert_eq!(stopped(&none), None);
    hold(stopped(&format!("{none}refused 18 1\n")).expect("a refusal"), 18, 1);
    let refused = format!("0\n999\n{}refused 18 1000\n", "0\n".repeat(10));
    hold(stopped(&refused).expect("a refusal"), 18, 1_000);
}

#[test]
fn every_code_has_its_test() {
    let held = (1..=14).chain([17, 18, 22, 23]).chain(31..=41);
    let listed: BTreeSet<u64> = document().iter().map(|line| line.code).collect();
    // There is no typed move of a kind that is refused by 21.
    assert_eq!(listed, held.chain([21]).collect());
}

type BuilderDamage = (u64, u64, fn(&mut PlanBuilder));

/// What a builder is handed besides sheet A with flights, and what it is refused by.
const BUILDER_DAMAGES: &[BuilderDamage] = &[
    (1, 0, |builder| (0..508).for_each(|_| _ = builder.region(Workload(0), Area(0)))),
    (3, 6, |builder| _ = builder.region(Workload(1_000_001), Area(0))),
    (3, 6, |builder| _ = builder.region(Workload(u64::MAX), Area(u64::MAX))),
    (14, 6, |builder| _ = builder.region(Workload(0), Area(1_000_001))),
    (4, 0, |builder| (0..2_045).for_each(|_| _ = builder.edge(region(4), region(5), Area(1)))),
    (5, 5, |builder| _ = builder.edge(region(4), region(5), Area(1))),
    (5, 5, |builder| _ = builder.edge(region(5), region(5), Area(1))),
    (5, 5, |builder| _ = builder.edge(region(5), region(512), Area(1))),
    (5, 1, |builder| _ = builder.clear_edges().edge(region(2), region(1), Area(1))),
    (5, 1, |builder| _ = builder.clear_edges().edge(region(1), region(2), Area(0))),
    (5, 1, |builder| _ = builder.clear_edges().edge(region(1), region(2), Area(1_000_001))),
    (13, 0, |builder| (0..63).for_each(|_| _ = builder.flight([(region(1), Seconds(1))]))),
    (13, 3, |builder| _ = builder.flight([])),
    (13, 3, |builder| _ = builder.flight(vec![(region(1), Seconds(1)); 33])),
    (13, 3, |builder| _ = builder.flight([(region(6), Seconds(1))])),
    (13, 3, |builder| _ = builder.flight([(region(1), Seconds(0))])),
    (13, 3, |builder| _ = builder.flight([(region(1), Seconds(86_401))])),
    (6, 0, |builder| _ = builder.clear_constraints()),
    (6, 0, |builder| (0..12).for_each(|_| _ = builder.constraint(constraint(&[2, 1, 0, 1])))),
    (7, 6, |builder| _ = builder.constraint(constraint(&[2, 1, 100_000_000_001, 1]))),
    (7, 6, |builder| _ = builder.constraint(constraint(&[2, 1, 0, 0]))),
    (7, 6, |builder| _ = builder.constraint(constraint(&[2, 1, 0, 1_001]))),
];

#[test]
fn builders() {
    let plan = built(&sheet_a_with_flights()).expect("a good plan").0;
    for (code, place, damage) in BUILDER_DAMAGES {
        let mut builder = plan.to_builder();
        damage(&mut builder);
        hold(builder.build().expect_err("a damaged plan"), *code, *place);
    }
    hold(Plan::builder(1).build().expect_err("no region"), 1, 0);
    for sectors in [0, 65, u64::MAX] {
        hold(Plan::builder(sectors).region(Workload(0), Area(0)).build().expect_err("no such number of sectors"), 2, 0);
    }
}

/// Colourings of another plan, where they are handed over.
#[test]
fn colourings() {
    let numbers = sheet_a_with_both();
    let mut board = board(&numbers);
    board.make(Change::Give(region(3), sector(2))).expect("an accepted change");
    let plan = board.plan().clone();
    let before = Shown::by(&board);
    let rows: Vec<_> = board.rows().collect();
    for (place, sectors) in [(0, vec![]), (0, vec![1; 4]), (0, vec![1; 6]), (5, vec![1, 1, 1, 1, 3]), (2, vec![1, 64, 1, 1, 64])]
    {
        hold(plan.colouring(sectors.clone()).expect_err("a wrong colouring"), 8, place);
        let colouring: Colouring = sectors.into_iter().map(sector).collect();
        hold(plan.judge(&colouring).expect_err("a wrong colouring"), 8, place);
        hold(plan.write(&colouring, Form::Second).expect_err("a wrong colouring"), 8, place);
        hold(plan.write(&colouring, Form::First).expect_err("a wrong colouring"), 8, place);
        hold(board.restart(&colouring).expect_err("a wrong colouring"), 8, place);
        assert_eq!(Shown::by(&board), before);
        assert!(board.rows().eq(rows.iter().copied()));
    }
    hold(plan.colouring([1, 1, 0, 1, u64::MAX]).expect_err("no sector"), 8, 3);
}

/// Lists without an end are refused as lists that are too long.
#[test]
fn lists_without_end() {
    let (plan, _) = built(&sheet_a()).expect("sheet A");
    hold(plan.colouring(std::iter::repeat(1)).expect_err("no end"), 8, 0);
    let colouring: Colouring = std::iter::repeat(sector(1)).collect();
    hold(plan.judge(&colouring).expect_err("no end"), 8, 0);
    let visit = (region(1), Seconds(1));
    hold(plan.to_builder().flight(std::iter::repeat(visit)).build().expect_err("no end"), 13, 1);
}

/// An iterator that says that it is far longer than it is.
#[test]
fn a_list_that_boasts() {
    struct Boasting(std::vec::IntoIter<Move>);
    impl Iterator for Boasting {
        type Item = Move;
        fn next(&mut self) -> Option<Move> {
            self.0.next()
        }
        fn size_hint(&self) -> (usize, Option<usize>) {
            (usize::MAX, None)
        }
    }
    let mut board = board(&sheet_a());
    assert_eq!(board.run(Boasting(vec![Move::Ask(region(3)); 3].into_iter())).count(), 3);
}

/// The first form refuses what it would have to leave out.
#[test]
fn the_first_form() {
    for plan in [sheet_a_with_outside(), sheet_a_with_flights(), Numbers { constraints: vec![5, 6, 60, 2], ..sheet_a() }] {
        hold(board(&plan).write(Form::First).expect_err("too much for a first sheet"), 41, 0);
        assert!(board(&plan).write(Form::Second).is_ok());
    }
    assert_eq!(board(&sheet_a()).write(Form::First).as_deref(), Ok(&include_bytes!("../../../sheets/a.sheet")[..]));
}

/// A region or a sector of another plan: the move is refused, nothing changes, and the list goes on.
#[test]
fn moves_of_another_plan() {
    let mut board = board(&sheet_a());
    let before = Shown::by(&board);
    let (own, far) = (region(1), region(6));
    let wrong = [
        (22, Change::Give(far, sector(1))),
        (22, Change::Give(far, sector(64))),
        (23, Change::Give(own, sector(3))),
        (22, Change::Exchange(far, own)),
        (23, Change::Exchange(own, far)),
    ];
    for (code, change) in wrong {
        hold(board.make(change).expect_err("a refused move"), code, 0);
        let row = board.rows().next().expect("its row");
        hold(row.refusal().expect("a refused move"), code, 0);
        assert_eq!((row.delta(), row.violation(), row.total(), row.relabelled()), (None, None, 15, 0));
        assert_eq!(board.probe_all([change]).next(), None);
        assert_eq!(Shown::by(&board), before);
    }
    let good = Change::Give(region(2), sector(2));
    let moves = [Move::Ask(far), Move::Make(wrong[0].1), Move::Probe(good), Move::Ask(region(3))];
    let rows: Vec<_> = board.run(moves).collect();
    assert_eq!(
        rows.iter().map(|row| row.refusal().map(|refusal| refusal.code)).collect::<Vec<_>>(),
        [Some(22), Some(22), None, None]
    );
    assert_eq!((rows[2].delta(), rows[3].violation()), (Some(307), Some(57)));
    assert!(board.probe_all([wrong[0].1, good]).eq([(good, 307)]));
}

#[test]
fn numbers_that_no_type_holds() {
    assert!([0, 65, u64::MAX, 257].into_iter().all(|number| Sector::new(number).is_none()));
    assert!([0, 513, 65_537, u64::MAX].into_iter().all(|number| qirfadhun::Region::new(number).is_none()));
    assert!([0, 17, 257].into_iter().all(|number| qirfadhun::Place::new(number).is_none()));
    assert!([0, 65, 257].into_iter().all(|number| qirfadhun::Flight::new(number).is_none()));
    assert!([0, 7, 257].into_iter().all(|code| Relation::new(code).is_none()));
    for (code, relation) in (1..).zip(Relation::ALL) {
        assert_eq!((relation.code(), Relation::new(code)), (code, Some(relation)));
        assert_eq!(Kind::Bounded(relation).relation(), relation);
    }
    assert_eq!((Kind::Border.relation(), Kind::Balanced.relation()), (Relation::AtMost, Relation::AtMost));
}
