//! `qirfadhun::lists::call` compared with the reference: code, place, totals, and all memory in and around what is lent.

use crate::calls::{by_reference, compare, Answer, Call, Memory};
use crate::cases::{all_cases, random_cases, shrink, Case, Code};
use crate::library;
use crate::plans::{
    damaged, flights_along, judged_damages, largest_whole_plan, moves, plan_of, sheet_a_with_both, sheet_a_with_flights, Damage,
    Numbers, Random,
};
use crate::reference::*;

#[test]
fn random_calls() {
    random_cases("random calls", 40_000, |random| {
        let mut call = Call::random(random);
        for room in [&mut call.rows, &mut call.verdicts, &mut call.work] {
            *room += random.pick(&[0, 0, 1, 7]);
        }
        call
    });
}

#[test]
fn random_damaged_calls() {
    random_cases("damaged calls", 20_000, |random| {
        let mut call = Call::random(random);
        for _ in 0..random.between(1, 3) {
            call.break_one(random);
        }
        call
    });
}

/// Slices of no length lie nowhere.
#[test]
fn empty_slices() {
    let (mut colouring, mut verdicts, mut work) = ([1], [7; 2], [7; 4]);
    let constraint = [4, 6, 1, 1];
    let totals =
        library::call(1, 1, &[9], &[8], &[], &[], &[], &constraint, &mut colouring, &[], &mut [], &mut verdicts, &mut work);
    assert_eq!(totals.map(|totals| (totals.first, totals.last)), Ok((0, 0)));
    assert_eq!((verdicts, work), ([1, 0], [1, 1, 9, 8]));
    let refused = library::call(0, 0, &[], &[], &[], &[], &[], &[], &mut [], &[], &mut [], &mut [], &mut []);
    assert_eq!(refused.map_err(|refusal| (refusal.code, refusal.place)), Err((1, 0)));
}

#[test]
fn rooms_around_the_limit() {
    let exact = Call::new(sheet_a_with_flights(), vec![2, 3, 2, 4, 1, 5, 5, 1, 0]);
    let mut calls = Vec::new();
    for rows in 0..=exact.rows + 2 {
        for verdicts in 0..=exact.verdicts + 2 {
            for work in 0..=exact.work + 2 {
                calls.push(Call { rows, verdicts, work, ..exact.clone() });
            }
        }
    }
    all_cases("rooms", calls);
}

type CallDamage = (u64, fn(&mut Call));

/// Damage to the rest of a call, with the code it is refused by.
#[rustfmt::skip]
const CALL_DAMAGES: &[CallDamage] = &[
    (9, |call| call.moves.truncate(8)),
    (9, |call| call.moves.push(0)),
    (9, |call| call.moves.resize(3 * 4_097, 0)),
    (10, |call| call.rows -= 1),
    (10, |call| call.rows = 0),
    (11, |call| call.verdicts -= 1),
    (11, |call| call.verdicts = 0),
    (12, |call| call.work -= 1),
    (12, |call| call.work = 0),
];

#[test]
fn every_refusal_in_order() {
    let mut damages: Vec<Damage<Call>> = Vec::new();
    for (code, place, damage) in judged_damages() {
        damages.push((code, place, Box::new(move |call| damage(&mut call.plan))));
    }
    for &(code, damage) in CALL_DAMAGES {
        damages.push((code, 0, Box::new(damage)));
    }
    let good = Call::new(sheet_a_with_flights(), vec![2, 3, 2, 4, 1, 5, 1, 6, 1]);
    let calls = damaged(&good, &damages);
    for (code, place, call) in &calls {
        assert_eq!(by_reference(&mut Memory::of(call)), [*code, *place, 0, 0], "{call:?}");
    }
    all_cases("refusals", calls.into_iter().map(|(_, _, call)| call));
}

#[test]
fn wild_numbers_everywhere() {
    let good = Call::new(sheet_a_with_both(), (1..=5).flat_map(|kind| [kind, 2, if kind < 5 { 1 } else { 0 }]).collect());
    let numbers = [0, 1, 2, 3, 4, 5, 6, 7, 32, 33, 63, 64, 65, 511, 512, 513, 1_000, 1_001, 86_400, 86_401, 1_000_000, 1_000_001];
    let ends = [8, 16, 31, 32, 62, 63].map(|bits| 1 << bits);
    let mut calls = Vec::new();
    for number in numbers.into_iter().chain(ends).chain([LIMIT, LIMIT + 1, u64::MAX, u64::MAX - 1, i64::MAX as u64]) {
        let places = [2, 5, 5, 12, 2, 16, 20, 5, 15].into_iter().enumerate();
        for (list, place) in places.flat_map(|(list, length)| (0..length).map(move |place| (list, place))) {
            let mut call = good.clone();
            match list {
                0 if place == 0 => call.plan.regions = number,
                0 => call.plan.sectors = number,
                1 => call.plan.workloads[place] = number,
                2 => call.plan.outside[place] = number,
                3 => call.plan.edges[place] = number,
                4 => call.plan.counts[place] = number,
                5 => call.plan.visits[place] = number,
                6 => call.plan.constraints[place] = number,
                7 => call.plan.colouring[place] = number,
                _ => call.moves[place] = number,
            }
            calls.push(call);
        }
    }
    all_cases("wild numbers", calls);
}

/// Plans in which every number stands at one of its ends, with one constraint alone or sixteen equal ones.
#[test]
fn numbers_at_their_ends() {
    let mut random = Random::new(1);
    let mut calls = Vec::new();
    for ends in 0..1 << 8 {
        let end = |bit: u32, low: u64, high: u64| if ends >> bit & 1 == 0 { low } else { high };
        let (regions, sectors) = (end(0, 1, REGIONS), end(1, 1, SECTORS));
        for (kind, relation) in [1, 4].into_iter().flat_map(|kind| (1..=6).map(move |r| (kind, r))).chain([(2, 1), (3, 1)]) {
            let mut plan = plan_of(&mut random, regions, sectors);
            plan.workloads.fill(end(2, 0, WORKLOAD));
            plan.outside.fill(end(3, 0, AREA));
            plan.edges.chunks_mut(3).for_each(|edge| edge[2] = end(4, 1, AREA));
            let constraint = [kind, relation, end(5, 0, LIMIT), end(6, 1, WEIGHT)];
            plan.constraints = constraint.repeat(end(7, 1, CONSTRAINTS) as usize);
            let moves = moves(&mut random, &plan, 6);
            calls.push(Call::new(plan, moves));
        }
    }
    all_cases("numbers at their ends", calls);
}

/// The same of flights and of constraints on them.
#[test]
fn flights_at_their_ends() {
    let mut random = Random::new(1);
    let mut calls = Vec::new();
    for ends in 0..1 << 8 {
        let end = |bit: u32, low: u64, high: u64| if ends >> bit & 1 == 0 { low } else { high };
        let (regions, sectors) = (end(0, 2, 12), end(1, 2, SECTORS));
        let counts = vec![end(2, 1, VISITS); end(3, 1, FLIGHTS) as usize];
        for relation in 1..=6 {
            let plan = plan_of(&mut random, regions, sectors);
            let mut plan = flights_along(&mut random, plan, counts.clone());
            plan.visits.chunks_mut(2).for_each(|visit| visit[1] = end(4, 1, DWELL));
            let constraint = [5, relation, end(5, 0, LIMIT), end(6, 1, WEIGHT)];
            plan.constraints = constraint.repeat(end(7, 1, CONSTRAINTS) as usize);
            let moves = moves(&mut random, &plan, 6);
            calls.push(Call::new(plan, moves));
        }
    }
    all_cases("flights at their ends", calls);
}

#[test]
fn counts_at_their_ends() {
    let mut random = Random::new(1);
    let plan = largest_whole_plan(&mut random);
    assert_eq!((plan.edges.len(), plan.visits.len(), plan.constraints.len()), (3 * 2_048, 2 * 64 * 32, 4 * 16));
    let most = moves(&mut random, &plan, MOVES as usize);
    let largest = Call::new(plan, most);

    let one_more = |change: fn(&mut Call)| {
        let mut call = largest.clone();
        change(&mut call);
        call
    };
    let beyond = [
        one_more(|call| call.plan.outside.push(0)),
        one_more(|call| call.plan.edges.extend([511, 512, 1])),
        one_more(|call| {
            call.plan.counts.push(1);
            call.plan.visits.extend([1, 1]);
        }),
        one_more(|call| call.plan.visits.extend([1, 1])),
        one_more(|call| call.plan.constraints.extend([1, 1, 1, 1])),
        one_more(|call| call.moves.extend([1, 1, 1])),
        one_more(|call| call.plan.sectors += 1),
        one_more(|call| {
            call.plan.regions += 1;
            call.plan.workloads.push(0);
            call.plan.outside.push(0);
            call.plan.colouring.push(1);
        }),
    ];
    for (call, code) in beyond.iter().zip([14, 4, 13, 13, 6, 9, 2, 1]) {
        assert_eq!(by_reference(&mut Memory::of(call)), [code, 0, 0, 0]);
    }
    all_cases("counts beyond their ends", beyond);
    all_cases("counts at their ends", [largest]);
}

/// A callee that invents relabel counts above two.
fn wrong(memory: &mut Memory) -> Answer {
    let answer = by_reference(memory);
    if answer[0] == 0 {
        let count = memory.moves.content().len() / 3;
        memory.rows.slice().chunks_mut(4).take(count).for_each(|row| row[3] = row[3].min(2));
    }
    answer
}

/// A callee to which every second visit is of one second, where it is to the region of the visit before it.
fn forgetful(memory: &mut Memory) -> Answer {
    let lent = memory.clone();
    for two in memory.visits.slice().chunks_exact_mut(4) {
        if two[0] == two[2] {
            two[3] = two[3].min(1);
        }
    }
    let answer = by_reference(memory);
    memory.visits = lent.visits;
    answer
}

/// A callee to which no region has a face to the outside.
fn inland(memory: &mut Memory) -> Answer {
    let lent = memory.clone();
    memory.outside.slice().fill(0);
    let answer = by_reference(memory);
    memory.outside = lent.outside;
    answer
}

#[derive(Clone, Debug)]
struct Misjudged(Call, fn(&mut Memory) -> Answer);

impl Case for Misjudged {
    fn compare(&self) -> Result<Code, String> {
        compare(&self.0, &[self.1])
    }

    fn smaller(&self) -> Box<dyn Iterator<Item = Self> + '_> {
        Box::new(self.0.smaller().map(|call| Misjudged(call, self.1)))
    }
}

/// The smallest call found that shows a callee to be wrong.
fn shrunk(wrong: fn(&mut Memory) -> Answer) -> Call {
    let mut random = Random::new(1);
    let found = (0..1_000).map(|_| Misjudged(Call::random(&mut random), wrong)).find(|case| case.compare().is_err());
    shrink(found.expect("found")).0
}

#[test]
fn a_wrong_callee_is_found_and_its_case_shrunk() {
    let Call { plan: Numbers { regions, edges, counts, constraints, .. }, moves, .. } = shrunk(wrong);
    // Three relabelled regions take at least four regions and three edges.
    assert_eq!((counts.len(), constraints.len(), moves.len()), (0, 4, 3));
    assert!(regions <= 6 && edges.len() <= 12, "{regions} regions, edges {edges:?}");

    let Call { plan: Numbers { regions, edges, visits, constraints, .. }, moves, .. } = shrunk(forgetful);
    assert_eq!((regions, edges.len(), visits.len(), constraints.len(), moves.len()), (1, 0, 4, 4, 0));
    assert_eq!((visits[0], visits[2], constraints[0]), (1, 1, 5));

    let Call { plan: Numbers { outside, edges, counts, constraints, .. }, moves, .. } = shrunk(inland);
    assert_eq!((outside, edges.len(), counts.len(), constraints.len(), moves.len()), (vec![1], 0, 0, 4, 0));
}
