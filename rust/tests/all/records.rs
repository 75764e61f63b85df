//! Constraints as records: `call_records` and `write_records` give what the reference gives for the same list in four numbers each.

use crate::calls::{self, Call};
use crate::cases::{all_cases, random_cases, Case, Code};
use crate::library;
use crate::plans::{damaged, judged_damages, plan, sheet_a, sheet_a_with_flights, stored_damages, Damage, Numbers, PlanDamage};
use crate::sheets::{writing, Writing};

/// A plan of which only whole constraints are left, and what is done with it.
#[derive(Clone, Debug)]
enum ByRecords {
    Called(Call),
    Written(Writing),
}

impl ByRecords {
    fn called(mut call: Call) -> Self {
        leave_whole(&mut call.plan);
        ByRecords::Called(call)
    }

    fn written(mut writing: Writing) -> Self {
        leave_whole(&mut writing.plan);
        ByRecords::Written(writing)
    }
}

fn leave_whole(plan: &mut Numbers) {
    plan.constraints.truncate(plan.constraints.len() / 4 * 4);
}

impl Case for ByRecords {
    fn compare(&self) -> Result<Code, String> {
        match self {
            ByRecords::Called(call) => calls::compare(call, &[calls::by_library_records, calls::by_archive_records]),
            ByRecords::Written(writing) => writing::compare(writing, &[writing::by_library_records, writing::by_archive_records]),
        }
    }

    fn smaller(&self) -> Box<dyn Iterator<Item = Self> + '_> {
        match self {
            ByRecords::Called(call) => Box::new(call.smaller().map(ByRecords::Called)),
            ByRecords::Written(writing) => Box::new(writing.smaller().map(ByRecords::Written)),
        }
    }
}

#[test]
fn random_calls() {
    random_cases("calls by records", 5_000, |random| ByRecords::called(Call::random(random)));
}

#[test]
fn random_damaged_calls() {
    random_cases("damaged calls by records", 5_000, |random| {
        let mut call = Call::random(random);
        match random.between(0, 8) {
            0 | 1 => call.plan.break_flights(random),
            2 => call.plan.break_outside(random),
            _ => call.plan.break_one(random),
        }
        ByRecords::called(call)
    });
}

#[test]
fn random_writings() {
    random_cases("writings by records", 3_000, |random| {
        let mut writing = Writing::first(plan(random));
        writing.room += random.pick(&[0, 0, 1, 512]);
        ByRecords::written(writing)
    });
}

#[test]
fn random_damaged_writings() {
    random_cases("damaged writings by records", 5_000, |random| {
        let mut writing = Writing::first(plan(random));
        writing.plan.break_one(random);
        ByRecords::written(writing)
    });
}

#[test]
fn empty_slices() {
    let refused = library::call_records(5, 2, &[0; 5], &[0; 5], &[], &[], &[], &[], &mut [1; 5], &[], &mut [], &mut [], &mut []);
    assert_eq!(refused.map_err(|refusal| (refusal.code, refusal.place)), Err((6, 0)));
    let refused = library::write_records(5, 2, &[0; 5], &[], &[], &[1; 5], &mut []);
    assert_eq!(refused.map_err(|refusal| (refusal.code, refusal.place)), Err((6, 0)));
}

/// The plan with so many constraints, its own over and over.
fn with_constraints(plan: Numbers, count: usize) -> Numbers {
    Numbers { constraints: plan.constraints.iter().copied().cycle().take(4 * count).collect(), ..plan }
}

#[test]
fn lists_of_any_length() {
    let mut cases = Vec::new();
    for count in 0..=30 {
        let moves = vec![1, 2, 2, 2, 3, 2, 3, 4, 1, 4, 1, 5, 5, 2, 0];
        cases.push(ByRecords::called(Call::new(with_constraints(sheet_a_with_flights(), count), moves)));
        cases.push(ByRecords::written(Writing::first(with_constraints(sheet_a(), count))));
    }
    all_cases("lists of any length", cases);
}

/// The plan with each damage alone, and with later ones besides.
fn damaged_plans(plan: &Numbers, damages: Vec<PlanDamage>) -> impl Iterator<Item = Numbers> {
    let damage = |(code, place, damage): PlanDamage| -> Damage<Numbers> { (code, place, Box::new(damage)) };
    let damages: Vec<_> = damages.into_iter().map(damage).collect();
    damaged(plan, &damages).into_iter().map(|(_, _, plan)| plan)
}

#[test]
fn every_refusal_in_order() {
    let call = Call::new(sheet_a_with_flights(), vec![]);
    let calls = damaged_plans(&call.plan, judged_damages()).map(|plan| ByRecords::called(Call { plan, ..call.clone() }));
    all_cases("refused calls by records", calls);
    let writing = Writing::first(sheet_a());
    let writings =
        damaged_plans(&writing.plan, stored_damages()).map(|plan| ByRecords::written(Writing { plan, ..writing.clone() }));
    all_cases("refused writings by records", writings);
}
