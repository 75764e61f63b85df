//! Flights, worked out by hand: stretches and their dwell, a region's part, every case of code 13, and the largest totals. The
//! reference and the library, by numbers and by records, are asked for the same.

use crate::calls::{asked, deltas, parts, rows, violation};
use crate::cases::Memory as _;
use crate::library;
use crate::plans::{sheet_a, sheet_a_with_flights, Numbers};
use crate::reference::{FIRST, LIMIT, WEIGHT};
use crate::sheets::{reading, writing, Reading, Sheet, Writing};

/// A plan of regions that have no face and weigh nothing, with these flights and one constraint on them, of weight 1.
fn flown(colouring: &[u64], flights: &[&[[u64; 2]]], relation: u64, limit: u64) -> Numbers {
    Numbers {
        regions: colouring.len() as u64,
        sectors: 3,
        workloads: vec![0; colouring.len()],
        outside: vec![0; colouring.len()],
        edges: vec![],
        counts: flights.iter().map(|flight| flight.len() as u64).collect(),
        visits: flights.concat().concat(),
        constraints: vec![5, relation, limit, 1],
        colouring: colouring.to_vec(),
    }
}

/// The first flight has stretches of 190 and 90 seconds, the second of 45 and 80; one of them is 15 below 60.
#[test]
fn sheet_a_and_two_flights() {
    let plan = sheet_a_with_flights();
    let (answer, memory) = asked(&plan, &[]);
    assert_eq!(answer, [0, 0, 45, 45]);
    assert_eq!(memory.verdicts.content(), [1, 0, 1, 0, 1, 0, 0, 5, 0, 15]);
    assert_eq!(memory.work.content(), [1, 1, 1, 4, 4, 1, 1, 60, 40, 2]);

    // Without region 2 the 190 seconds fall into 100, 50 and 40: 30 more.
    assert_eq!(rows(&plan, &[1, 2, 2]), [0, 367, 45, 0]);
    assert_eq!(rows(&plan, &[2, 2, 2]), [0, 367, 412, 2]);
    // With region 3 the second flight is 125 seconds in sector 2.
    assert_eq!(rows(&plan, &[2, 3, 2]), [0, 81, 126, 3]);
    // 150, 40 and 90 seconds; 20, 10, 15 and 80: 140 more.
    assert_eq!(rows(&plan, &[3, 3, 4]), [0, 571, 45, 0]);
    assert_eq!(rows(&plan, &[4, 3, 4]), [0, 571, 616, 2]);
    // The stretch of 45 seconds visits region 4 twice and region 5 once.
    assert_eq!(rows(&plan, &[5, 3, 0, 5, 4, 0, 5, 5, 0]), [0, 57, 45, 0, 0, 72, 45, 0, 0, 70, 45, 0]);
}

#[test]
fn relations() {
    let due = [[0, 0, 1], [0, 1, 2], [1, 0, 1], [0, 1, 0], [2, 1, 0], [1, 0, 0]];
    for (relation, due) in (1..).zip(due) {
        let found = [59, 60, 61].map(|dwell| violation(&flown(&[1], &[&[[1, dwell]]], relation, 60), &[]));
        assert_eq!(found, due, "relation {relation}");
    }
}

#[test]
fn without_flights_all_hold() {
    for (relation, limit) in (1..=6).flat_map(|relation| [(relation, 0), (relation, LIMIT)]) {
        let plan = flown(&[1, 2], &[], relation, limit);
        assert_eq!(violation(&plan, &[]), 0);
        assert_eq!(deltas(&plan, &[[1, 1, 2], [2, 1, 2], [4, 1, 2], [5, 1, 0]]), [0; 4]);
    }
}

#[test]
fn stretches_are_of_one_flight() {
    let apart = flown(&[1], &[&[[1, 10]], &[[1, 20]]], 3, 30);
    assert_eq!((violation(&apart, &[]), parts(&apart)), (30, vec![30]));
    let together = flown(&[1], &[&[[1, 10], [1, 20]]], 3, 30);
    assert_eq!((violation(&together, &[]), parts(&together)), (0, vec![0]));
}

#[test]
fn a_stretch_counts_once_for_a_region() {
    let there_and_back = [[1, 10], [2, 20], [1, 30]];
    let one = flown(&[1, 1, 1], &[&there_and_back], 6, 100);
    assert_eq!((violation(&one, &[]), parts(&one)), (40, vec![40, 40, 0]));
    // In three stretches, two of which visit region 1.
    let three = flown(&[1, 2, 1], &[&there_and_back], 6, 100);
    assert_eq!((violation(&three, &[]), parts(&three)), (90 + 80 + 70, vec![90 + 70, 80, 0]));
    // Twice in a row, in two flights.
    let two = flown(&[1, 1, 1], &[&[[1, 10], [1, 20]], &[[3, 5], [1, 5], [1, 5], [3, 5]]], 6, 100);
    assert_eq!((violation(&two, &[]), parts(&two)), (70 + 80, vec![70 + 80, 0, 80]));
    // Weighed, and by two equal constraints.
    let twice = Numbers { constraints: [5, 6, 100, 7].repeat(2), ..one };
    assert_eq!(parts(&twice), [2 * 7 * 40, 2 * 7 * 40, 0]);
}

#[test]
fn stretches_split_and_join() {
    let flight = [[1, 10], [2, 20], [3, 30]];
    // 60 seconds; a region at an end leaves two stretches, the one in the middle three.
    let whole = flown(&[1, 1, 1], &[&flight], 6, 100);
    assert_eq!(violation(&whole, &[]), 40);
    assert_eq!(deltas(&whole, &[[1, 1, 2], [1, 2, 2], [1, 3, 2]]), [90 + 50 - 40, 90 + 80 + 70 - 40, 70 + 70 - 40]);
    // 10, 20 and 30 seconds; the middle joins both others, an end joins the middle, or nothing changes.
    let split = flown(&[1, 2, 1], &[&flight], 6, 100);
    assert_eq!(violation(&split, &[]), 240);
    assert_eq!(deltas(&split, &[[1, 2, 1], [1, 1, 2], [1, 3, 2], [1, 2, 3]]), [40 - 240, 70 + 70 - 240, 90 + 50 - 240, 0]);
    // Made in turn; after the last, all three are in sector 2.
    assert_eq!(deltas(&split, &[[2, 2, 1], [2, 1, 2], [2, 3, 2], [2, 2, 2]]), [-200, 100, 240 - 140, 40 - 240]);
    // Exchanged: 20 is between 10 and 30 before and after, or at an end of them.
    assert_eq!(deltas(&split, &[[3, 1, 3], [3, 1, 2], [3, 2, 3], [4, 1, 2]]), [0, 90 + 50 - 240, 70 + 70 - 240, 90 + 50 - 240]);
    // A region that recurs splits and joins in all its places at once.
    let weave = [[1, 1], [2, 1], [1, 1], [2, 1], [1, 1]];
    assert_eq!(deltas(&flown(&[1, 1], &[&weave], 6, 5), &[[2, 2, 3], [2, 1, 3], [1, 1, 2]]), [5 * 4, -5 * 4, 5 * 4]);
}

/// Everything is wrong at first. What is mended is no longer answered.
#[test]
fn code_13_after_5_and_before_6() {
    let good = sheet_a_with_flights();
    let mut plan = good.clone();
    let refused = |plan: &Numbers| asked(plan, &[]).0;
    plan.edges[10] = 6;
    plan.counts = vec![1; 65];
    plan.counts[1..3].copy_from_slice(&[33, 0]);
    plan.visits = vec![0; 16];
    plan.constraints = [9, 9, 9, 0].repeat(17);
    plan.colouring[0] = 0;
    assert_eq!(refused(&plan), [5, 4, 0, 0]);
    plan.edges = good.edges;
    assert_eq!(refused(&plan), [13, 0, 0, 0]);
    plan.counts.truncate(64);
    assert_eq!(refused(&plan), [13, 2, 0, 0]);
    plan.counts[1] = 32;
    assert_eq!(refused(&plan), [13, 3, 0, 0]);
    plan.counts.truncate(2);
    assert_eq!(refused(&plan), [13, 0, 0, 0]);
    plan.visits = [[5, 86_400].repeat(32), vec![6, 86_400]].concat();
    assert_eq!(refused(&plan), [13, 2, 0, 0]);
    plan.visits[64] = 5;
    assert_eq!(refused(&plan), [6, 0, 0, 0]);
    plan.constraints.truncate(16);
    assert_eq!(refused(&plan), [7, 1, 0, 0]);
    plan.constraints = good.constraints;
    assert_eq!(refused(&plan), [8, 1, 0, 0]);
    plan.colouring = good.colouring;
    assert_eq!(refused(&plan)[..2], [0, 0]);
}

#[test]
fn every_case_of_code_13() {
    let refused = |counts: &[u64], visits: &[u64]| {
        let plan = Numbers { counts: counts.to_vec(), visits: visits.to_vec(), ..sheet_a() };
        let [code, place, ..] = asked(&plan, &[]).0;
        (code, place)
    };
    // Up to 64 flights of up to 32 visits.
    assert_eq!(refused(&[], &[]), (0, 0));
    assert_eq!(refused(&[1; 64], &[1; 2 * 64]), (0, 0));
    assert_eq!(refused(&[32; 64], &[1; 2 * 32 * 64]), (0, 0));
    assert_eq!(refused(&[1; 65], &[1; 2 * 65]), (13, 0));
    // A count, before the length.
    assert_eq!(refused(&[1, 1, 0], &[1; 4]), (13, 3));
    assert_eq!(refused(&[1, 33, 0], &[1; 2 * 34]), (13, 2));
    assert_eq!(refused(&[1 << 63, 1 << 63], &[]), (13, 1));
    // The length, before the visits.
    assert_eq!(refused(&[], &[0]), (13, 0));
    assert_eq!(refused(&[], &[1, 1]), (13, 0));
    assert_eq!(refused(&[1], &[]), (13, 0));
    assert_eq!(refused(&[2, 1], &[0; 5]), (13, 0));
    assert_eq!(refused(&[2, 1], &[0; 7]), (13, 0));
    assert_eq!(refused(&[2, 1], &[1; 8]), (13, 0));
    // A visit, by its flight: a region of 1..5, a dwell of 1..86,400.
    assert_eq!(refused(&[2, 1, 2], &[5, 86_400, 1, 1, 5, 1, 1, 86_400, 3, 7]), (0, 0));
    assert_eq!(refused(&[2, 1, 2], &[5, 86_400, 0, 1, 5, 1, 1, 86_400, 3, 0]), (13, 1));
    assert_eq!(refused(&[2, 1, 2], &[5, 86_400, 1, 1, 6, 1, 1, 86_400, 3, 0]), (13, 2));
    assert_eq!(refused(&[2, 1, 2], &[5, 86_400, 1, 1, 5, 0, 1, 86_400, 3, 7]), (13, 2));
    assert_eq!(refused(&[2, 1, 2], &[5, 86_400, 1, 1, 5, 1, 1, 86_401, 3, 7]), (13, 3));
}

/// The first sheet holds kinds 1 to 4 only: 7 at the constraint in writing, 37 at 7 in reading.
#[test]
fn the_first_sheet_holds_no_kind_5() {
    for (place, relation) in (1..=4).flat_map(|place| (1..=6).map(move |relation| (place, relation))) {
        let mut plan = sheet_a();
        plan.constraints[4 * place - 4..4 * place - 2].copy_from_slice(&[5, relation]);
        assert_eq!(asked(&plan, &[]).0[..2], [0, 0], "the call takes it");
        assert_eq!(written(&plan), [7, place as u64, 0]);
        assert_eq!(read(&plan), REFUSED_BY_7);
        let refusal = library::Sheet::new(&Sheet::of(&FIRST, plan).bytes()).unwrap_err();
        assert_eq!((refusal.code, refusal.place), (37, 7));
    }
    // Before 8, after 5, and after another constraint that is refused.
    let mut plan = sheet_a();
    plan.constraints[8] = 5;
    plan.colouring[0] = 3;
    assert_eq!((written(&plan), read(&plan)), ([7, 3, 0], REFUSED_BY_7));
    plan.constraints[4..6].copy_from_slice(&[2, 6]);
    assert_eq!((written(&plan), read(&plan)), ([7, 2, 0], REFUSED_BY_7));
    plan.edges[1] = 6;
    assert_eq!((written(&plan), read(&plan)), ([5, 1, 0], [37, 5, 0, 0, 0, 0, 0, 0]));
}

const REFUSED_BY_7: reading::Answer = [37, 7, 0, 0, 0, 0, 0, 0];

/// What writing this plan as a first sheet answers, the same from all; nothing is changed.
fn written(plan: &Numbers) -> writing::Answer {
    let writing = Writing::first(plan.clone());
    let [by_reference, others @ ..] = [
        writing::by_reference,
        writing::by_library,
        writing::by_archive,
        writing::by_library_records,
        writing::by_archive_records,
    ]
    .map(|write| {
        let mut memory = writing::Memory::of(&writing);
        let answer = write(&mut memory);
        assert_eq!(memory.same_as(&writing::Memory::of(&writing)), Ok(()));
        answer
    });
    assert_eq!(others, [by_reference; 4]);
    by_reference
}

/// What reading this plan's first sheet answers, the same from all; nothing is changed.
fn read(plan: &Numbers) -> reading::Answer {
    let reading = Reading::new(Sheet::of(&FIRST, plan.clone()));
    let [by_reference, others @ ..] = [reading::by_reference, reading::by_library, reading::by_archive].map(|read| {
        let mut memory = reading::Memory::of(&reading);
        let answer = read(&mut memory);
        assert_eq!(memory.same_as(&reading::Memory::of(&reading)), Ok(()));
        answer
    });
    assert_eq!(others, [by_reference; 2]);
    by_reference
}

/// 64 flights of 32 visits, to and fro between two regions, and 16 constraints.
fn largest(dwell: u64, relation: u64, limit: u64) -> Numbers {
    let flight = [[1, dwell], [2, dwell]].repeat(16);
    Numbers { constraints: [5, relation, limit, WEIGHT].repeat(16), ..flown(&[1, 1], &[&flight[..]; 64], relation, limit) }
}

/// Each stretch shall be above 10^11 seconds. In one sector a flight is a stretch of 32 seconds, in two it is 32 stretches of one.
#[test]
fn the_largest_total() {
    let plan = largest(1, 5, LIMIT);
    let (least, most) = (102_399_999_968_256_000, 3_276_800_000_000_000_000);
    assert_eq!((16 * 1_000 * 64 * (100_000_000_001 - 32), 16 * 1_000 * 64 * 32 * 100_000_000_000), (least, most));
    assert!(most <= 4_000_000_000_000_000_000);
    let rise = 3_174_400_000_031_744_000;
    assert_eq!(rise, most - least);

    let (answer, memory) = asked(&plan, &[[2, 2, 2], [2, 2, 1], [2, 1, 3]].concat());
    assert_eq!(answer, [0, 0, least as u64, most as u64]);
    assert_eq!(memory.rows.content(), [0, rise, most, 0, 0, -rise, least, 0, 0, rise, most, 0]);
    assert_eq!(memory.verdicts.content(), [0, 64 * 32 * LIMIT].repeat(16));

    // Probed both ways, exchanged, and asked: half of the stretches visit a region.
    let moves = [[1, 2, 2], [2, 2, 2], [1, 2, 1], [1, 1, 2], [3, 1, 2], [4, 1, 2], [5, 1, 0]];
    assert_eq!(deltas(&plan, &moves), [rise, rise, -rise, -rise, 0, 0, most / 2]);
    assert_eq!(parts(&plan), [least; 2]);
}

/// The longest stretches, 32 * 86,400 seconds.
#[test]
fn the_longest_stretches() {
    let longest = 2_764_800;
    assert_eq!(asked(&largest(86_400, 1, 0), &[]).0, [0, 0, 16_000 * 64 * longest, 16_000 * 64 * longest]);
    assert_eq!(asked(&largest(86_400, 2, 0), &[]).0[2], 16_000 * 64 * (longest + 1));
    assert_eq!(asked(&largest(86_400, 2, longest), &[]).0[2], 16_000 * 64);
    assert_eq!(asked(&largest(86_400, 4, longest), &[]).0[2], 16_000 * 64);
    assert_eq!(asked(&largest(86_400, 3, LIMIT), &[]).0[2], 16_000 * 64 * (LIMIT - longest));
    assert_eq!(asked(&largest(86_400, 6, LIMIT), &[2, 1, 2]).0[3], 16_000 * 64 * 32 * (LIMIT - 86_400));
}
