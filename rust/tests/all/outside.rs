//! Faces to the outside, worked out by hand: T and the border of a region, what a move changes of them, every case of code 14, and
//! the largest border. The reference and the library, by numbers and by records, are asked for the same.

use crate::calls::{asked, deltas, parts, rows, violation};
use crate::library;
use crate::plans::{sheet_a, sheet_a_with_both, sheet_a_with_flights, sheet_a_with_outside, Numbers};
use crate::reference::{AREA, EDGES, FIRST, LIMIT, REGIONS, SECOND, WEIGHT};
use crate::sheets::{self, files};

/// What sheet A's faces to the outside come to: 7, 0, 1, 0 and 3.
const WHOLE: u64 = 11;

/// The plan with one constraint alone: its border is at most the limit.
fn bordered(plan: Numbers, limit: u64, weight: u64) -> Numbers {
    Numbers { constraints: vec![2, 1, limit, weight], ..plan }
}

/// T after these moves, which stands at the end of the work memory.
fn border(plan: &Numbers, moves: &[u64]) -> u64 {
    let (_, memory) = asked(plan, moves);
    memory.work.content()[(plan.regions + 2 * plan.sectors) as usize]
}

/// Every recolouring and every exchange of a plan's regions, of this kind.
fn all_of(plan: &Numbers, kind: u64) -> Vec<[u64; 3]> {
    let seconds = if kind <= 2 { plan.sectors } else { plan.regions };
    (1..=plan.regions).flat_map(|first| (1..=seconds).map(move |second| [kind, first, second])).collect()
}

/// The border is 2 between the sectors and 11 to the outside, 8 above its limit of 5.
#[test]
fn sheet_a_and_its_outside() {
    let plan = sheet_a_with_outside();
    let (answer, memory) = asked(&plan, &[]);
    assert_eq!(answer, [0, 0, 15 + 8, 23]);
    assert_eq!(memory.verdicts.content(), [1, 0, 0, 8, 1, 0, 0, 5]);
    assert_eq!(memory.work.content(), [1, 1, 1, 4, 4, 1, 1, 60, 40, 13]);

    // The edges of areas 4, 6 and 2 are cut: 12 and 11 are 18 above 5, which is 10 more. Without the outside it is 7 more.
    assert_eq!(rows(&plan, &[1, 2, 2]), [0, 307 - 7 + 10, 23, 0]);
    assert_eq!(rows(&plan, &[2, 2, 2]), [0, 310, 333, 2]);
    // The edge of area 6 is cut and not that of 2: 4 more. Without the outside it is 1 more.
    assert_eq!(rows(&plan, &[2, 3, 2]), [0, 111 - 1 + 4, 137, 3]);
    // 6, 2 and 3: 9 more. Without the outside it is 6 more.
    assert_eq!(rows(&plan, &[3, 3, 4]), [0, 291 - 6 + 9, 23, 0]);
    assert_eq!(rows(&plan, &[4, 3, 4]), [0, 294, 317, 2]);
    // As without the outside, and 7, 0, 1, 0 and 3 besides.
    assert_eq!(parts(&sheet_a()), [55, 55, 57, 42, 40]);
    assert_eq!(parts(&plan), [55 + 7, 55, 57 + 1, 42, 40 + 3]);
    assert_eq!(rows(&plan, &[1, 6, 1, 1, 5, 3, 9, 0, 0]), [22, 0, 23, 0, 23, 0, 23, 0, 21, 0, 23, 0]);

    // With flights, whose one stretch that is too short adds 30.
    let flown = sheet_a_with_both();
    assert_eq!(asked(&flown, &[]).0, [0, 0, 23 + 30, 53]);
    assert_eq!(rows(&flown, &[2, 3, 2]), [0, 81 - 1 + 4, 137, 3]);
    assert_eq!(parts(&flown), [62, 55, 58, 72, 70 + 3]);
}

/// Faces to the outside are border whatever the colouring is, also where there is no edge and one sector.
#[test]
fn all_of_them_count() {
    for colouring in [[1, 1, 1], [1, 2, 1], [3, 2, 1]] {
        let plan = Numbers {
            regions: 3,
            sectors: 3,
            workloads: vec![0; 3],
            outside: vec![20, 0, 300],
            edges: vec![],
            counts: vec![],
            visits: vec![],
            constraints: vec![2, 1, 0, 7],
            colouring: colouring.to_vec(),
        };
        assert_eq!(asked(&plan, &[]).0, [0, 0, 7 * 320, 7 * 320]);
        assert_eq!((border(&plan, &[]), violation(&bordered(plan.clone(), 0, 1), &[])), (320, 320));
        assert_eq!(parts(&plan), [7 * 20, 0, 7 * 300]);
        assert_eq!(deltas(&plan, &[[1, 1, 2], [2, 1, 2], [3, 1, 3], [4, 2, 3]]), [0; 4]);
    }
    let one = Numbers { sectors: 1, colouring: vec![1; 5], ..sheet_a_with_outside() };
    assert_eq!((border(&one, &[]), parts(&bordered(one, 0, 1))), (WHOLE, vec![7, 0, 1, 0, 3]));
}

/// A move changes T by the edges alone. With limit 0 the violation is T, so that each delta is as without the outside.
#[test]
fn no_move_changes_the_outside() {
    let (inland, coastal) = (bordered(sheet_a(), 0, 1), bordered(sheet_a_with_outside(), 0, 1));
    for kind in 1..=4 {
        let moves = all_of(&inland, kind);
        assert_eq!(deltas(&coastal, &moves), deltas(&inland, &moves), "in turn");
        for three in &moves {
            assert_eq!(deltas(&coastal, &[*three]), deltas(&inland, &[*three]), "alone");
            assert_eq!(border(&coastal, three), border(&inland, three) + WHOLE);
        }
        assert_eq!(border(&coastal, moves.as_flattened()), border(&inland, moves.as_flattened()) + WHOLE);
    }
    // 2, 6 and, with region 2 in sector 2 as well, 4; then all in sector 2, and back.
    let moves = [[2, 3, 2], [2, 2, 2], [2, 1, 2], [2, 1, 1]];
    assert_eq!(deltas(&coastal, &moves), [6 - 2, 4 - 6, -4, 4]);
    assert_eq!([1, 2, 3, 4].map(|made| border(&coastal, moves[..made].as_flattened())), [17, 15, 11, 15]);
}

/// T goes from 13 to 17. Its violation bends where T passes the limit, not where the cut edges do.
#[test]
fn the_violation_bends_at_the_limit() {
    let make = [2, 3, 2];
    for (limit, before, after) in
        [(0, 13, 17), (2, 11, 15), (6, 7, 11), (11, 2, 6), (12, 1, 5), (13, 0, 4), (14, 0, 3), (16, 0, 1)]
    {
        let plan = bordered(sheet_a_with_outside(), limit, 1);
        assert_eq!((violation(&plan, &[]), violation(&plan, &make)), (before, after), "limit {limit}");
        let rise = (after - before) as i64;
        assert_eq!(deltas(&plan, &[[1, 3, 2], make, [1, 3, 1], [2, 3, 1]]), [rise, rise, -rise, -rise]);
        assert_eq!(deltas(&bordered(plan, limit, WEIGHT), &[make]), [1_000 * rise]);
    }
    for limit in [17, 18, LIMIT] {
        let plan = bordered(sheet_a_with_outside(), limit, WEIGHT);
        assert_eq!((violation(&plan, &[]), violation(&plan, &make), deltas(&plan, &[make])), (0, 0, vec![0]));
    }
}

/// A region's border is that of its own faces, whatever the limit: those to another sector and its own to the outside.
#[test]
fn a_question_adds_the_own_face_only() {
    for limit in [0, 13, LIMIT] {
        let plan = bordered(sheet_a_with_outside(), limit, 1);
        assert_eq!(parts(&plan), [7, 0, 2 + 1, 2, 3]);
        assert_eq!(parts(&bordered(plan.clone(), limit, 9)), [63, 0, 27, 18, 27]);
        // Region 3 in sector 2 has a face to region 2, region 4 none to another sector.
        assert_eq!(deltas(&plan, &[[2, 3, 2], [5, 2, 0], [5, 3, 0], [5, 4, 0]])[1..], [6, 6 + 1, 0]);
        // After an exchange the faces are where they were.
        assert_eq!(deltas(&plan, &[[4, 1, 5], [5, 1, 0], [5, 5, 0]])[1..], [4 + 7, 3 + 3]);
    }
    // By two constraints of kind 2 it counts twice, by the other kinds not at all.
    let twice = Numbers { constraints: [2, 1, 5, 10].repeat(2), ..sheet_a_with_outside() };
    assert_eq!(parts(&twice), [140, 0, 60, 40, 60]);
    let others = |plan: Numbers| parts(&Numbers { constraints: [1, 3, 2, 100, 3, 1, 40, 2, 4, 1, 55, 3].to_vec(), ..plan });
    assert_eq!(others(sheet_a_with_outside()), others(sheet_a()));
}

/// Everything is wrong at first. What is mended is no longer answered.
#[test]
fn code_14_after_3_and_before_4() {
    let good = sheet_a_with_flights();
    let mut plan = good.clone();
    let refused = |plan: &Numbers| asked(plan, &[]).0;
    plan.sectors = 65;
    plan.workloads = vec![0, 1_000_001, 0, 0];
    plan.outside = vec![0, 1_000_001, 0, u64::MAX, 0, 0];
    plan.edges = vec![2, 1];
    plan.counts = vec![0];
    plan.constraints = vec![];
    assert_eq!(refused(&plan), [2, 0, 0, 0]);
    plan.sectors = 2;
    assert_eq!(refused(&plan), [3, 0, 0, 0]);
    plan.workloads.push(0);
    assert_eq!(refused(&plan), [3, 2, 0, 0]);
    plan.workloads[1] = 1_000_000;
    assert_eq!(refused(&plan), [14, 0, 0, 0]);
    plan.outside.truncate(5);
    assert_eq!(refused(&plan), [14, 2, 0, 0]);
    plan.outside[1] = 1_000_000;
    assert_eq!(refused(&plan), [14, 4, 0, 0]);
    plan.outside[3] = 1_000_000;
    assert_eq!(refused(&plan), [4, 0, 0, 0]);
    plan.edges.push(1);
    assert_eq!(refused(&plan), [5, 1, 0, 0]);
    plan.edges = good.edges;
    assert_eq!(refused(&plan), [13, 1, 0, 0]);
    plan.counts = good.counts;
    assert_eq!(refused(&plan), [6, 0, 0, 0]);
    plan.constraints = good.constraints;
    assert_eq!(refused(&plan)[..2], [0, 0]);
}

#[test]
fn every_case_of_code_14() {
    let refused = |outside: &[u64]| {
        let plan = Numbers { outside: outside.to_vec(), ..sheet_a() };
        let [code, place, ..] = asked(&plan, &[2, 3, 2, 5, 1, 0]).0;
        (code, place)
    };
    // One area a region, of 0 to 1,000,000.
    assert_eq!(refused(&[0; 5]), (0, 0));
    assert_eq!(refused(&[1_000_000; 5]), (0, 0));
    // The length, before the areas. There is no call without the list.
    assert_eq!(refused(&[]), (14, 0));
    assert_eq!(refused(&[0; 4]), (14, 0));
    assert_eq!(refused(&[0; 6]), (14, 0));
    assert_eq!(refused(&[1_000_001; 4]), (14, 0));
    assert_eq!(refused(&[u64::MAX; 6]), (14, 0));
    // An area, the first that is too large.
    for (place, large) in (1..=5).flat_map(|place| [1_000_001, 1 << 32, 1 << 63, u64::MAX].map(|large| (place, large))) {
        let mut outside = [1_000_000; 5];
        outside[place - 1..].fill(large);
        assert_eq!(refused(&outside), (14, place as u64));
        outside[place..].fill(0);
        assert_eq!(refused(&outside), (14, place as u64));
    }
}

/// By its bytes alone a sheet is judged as the call judges what is read of it. A first sheet has no outside areas.
#[test]
fn only_the_second_sheet_has_them() {
    for (sheet, bytes) in files() {
        let judged = library::Sheet::new(&bytes).expect("a good sheet");
        let (answer, memory) = asked(&sheet.plan, &[]);
        assert_eq!(answer, [0, 0, judged.total(), judged.total()]);
        for (place, verdict) in (1..).zip(memory.verdicts.content().chunks(2)) {
            assert_eq!((judged.holds(place), judged.violation(place)), (Some(verdict[0] == 1), Some(verdict[1])));
        }
        // Each face of 1 to the outside adds 1 to T.
        let (inland, whole) = (sheet.plan.clone().plain(), sheet.plan.outside.iter().sum::<u64>());
        let coastal = Numbers { outside: vec![1; inland.workloads.len()], ..inland.clone() };
        assert_eq!(border(&coastal, &[]), border(&inland, &[]) + sheet.plan.regions);
        assert_eq!(border(&sheet.plan, &[]), border(&inland, &[]) + whole);
        assert!(whole == 0 || *sheet.form == SECOND);
    }
    let plan = bordered(sheet_a_with_outside(), 0, 1);
    let total = |form| library::Sheet::new(&sheets::Sheet::of(form, plan.clone()).bytes()).map(|sheet| sheet.total());
    assert_eq!((total(&FIRST), total(&SECOND)), (Ok(2), Ok(2 + WHOLE)));
}

/// Regions 1 to 5 are in one sector, the others in the other, and all edges lie between these.
fn largest() -> Numbers {
    let pairs = (1..=5).flat_map(|a| (6..=REGIONS).map(move |b| [a, b, AREA]));
    Numbers {
        regions: REGIONS,
        sectors: 2,
        workloads: vec![0; REGIONS as usize],
        outside: vec![AREA; REGIONS as usize],
        edges: pairs.take(EDGES as usize).flatten().collect(),
        counts: vec![],
        visits: vec![],
        constraints: [2, 1, 0, WEIGHT].repeat(16),
        colouring: (1..=REGIONS).map(|region| if region <= 5 { 1 } else { 2 }).collect(),
    }
}

/// 2,048 edges and 512 faces to the outside, of 1,000,000 each.
#[test]
fn the_largest_border() {
    let plan = largest();
    let whole = 2_560_000_000;
    assert_eq!((plan.edges.len(), whole), (3 * 2_048, (2_048 + 512) * 1_000_000));
    assert_eq!((border(&plan, &[]), asked(&plan, &[]).0), (whole, [0, 0, 16_000 * whole, 16_000 * whole]));
    assert_eq!(asked(&plan, &[]).1.verdicts.content(), [0, whole].repeat(16));

    // Regions 1 to 4 have 507 edges each, region 5 the 20 that are left.
    let own = parts(&plan);
    assert_eq!(own[..5], [508, 508, 508, 508, 21].map(|faces| 16_000 * faces * 1_000_000));
    assert_eq!((own[5], own[511]), (16_000 * 6_000_000, 16_000 * 5_000_000));

    // All in one sector: of the border the outside is left.
    let together: Vec<_> = (1..=5).map(|region| [2, region, 2]).collect();
    assert_eq!(deltas(&plan, &together), [-507, -507, -507, -507, -20].map(|edges| 16_000 * edges * 1_000_000));
    assert_eq!(border(&plan, together.as_flattened()), 512_000_000);
    assert_eq!(violation(&bordered(plan, 512_000_000, 1), together.as_flattened()), 0);
}
