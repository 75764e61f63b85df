//! Damage for every refusal: to sheet A's numbers for codes 1 to 8, to its outside areas for 14, to its flights for 13, and how
//! damages are put together.

use super::Numbers;

/// The code and place that something is refused by, and what is done to it.
pub type Damage<T> = (u64, u64, Box<dyn Fn(&mut T)>);

/// The good thing with each damage alone, then with a later one of each code and place besides, which must not show: with the code
/// and place due. Those of one code and place are taken in turn.
pub fn damaged<T: Clone>(good: &T, damages: &[Damage<T>]) -> Vec<(u64, u64, T)> {
    let mut all = Vec::new();
    for (first, (code, place, damage)) in damages.iter().enumerate() {
        let mut alone = good.clone();
        damage(&mut alone);
        all.push((*code, *place, alone));
        let later =
            damages[first..].chunk_by(|one, next| (one.0, one.1) == (next.0, next.1)).map(|same| &same[first % same.len()]);
        for (_, _, later) in later.filter(|later| (later.0, later.1) != (*code, *place)) {
            let mut both = good.clone();
            later(&mut both);
            damage(&mut both);
            all.push((*code, *place, both));
        }
    }
    all
}

pub type PlanDamage = (u64, u64, fn(&mut Numbers));

/// Damage to sheet A with flights, for the call and for writing the second sheet.
pub fn judged_damages() -> Vec<PlanDamage> {
    in_order([PLAN_DAMAGES, OUTSIDE_DAMAGES, FLIGHT_DAMAGES].concat())
}

/// Damage to sheet A, for writing the first sheet.
pub fn stored_damages() -> Vec<PlanDamage> {
    in_order([PLAN_DAMAGES, STORED_DAMAGES].concat())
}

/// The order of checking, in which 14 comes after 3 and 13 after 5; those of one code keep theirs.
pub fn in_order(mut damages: Vec<PlanDamage>) -> Vec<PlanDamage> {
    damages.sort_by_key(|&(code, _, _)| match code {
        14 => (3, 1),
        13 => (5, 1),
        _ => (code, 0),
    });
    damages
}

/// Damage to sheet A, with flights or without.
#[rustfmt::skip]
const PLAN_DAMAGES: &[PlanDamage] = &[
    (1, 0, |plan| plan.regions = 0),
    (1, 0, |plan| plan.regions = 513),
    (1, 0, |plan| plan.regions = u64::MAX),
    (2, 0, |plan| plan.sectors = 0),
    (2, 0, |plan| plan.sectors = 65),
    (2, 0, |plan| plan.sectors = u64::MAX),
    (3, 0, |plan| plan.workloads.clear()),
    (3, 0, |plan| plan.workloads.truncate(4)),
    (3, 0, |plan| plan.workloads.push(u64::MAX)),
    (3, 1, |plan| plan.workloads[0] = 1_000_001),
    (3, 3, |plan| plan.workloads[2..].fill(u64::MAX)),
    (3, 5, |plan| plan.workloads[4] = 1 << 32),
    (4, 0, |plan| plan.edges.truncate(10)),
    (4, 0, |plan| plan.edges.push(0)),
    (4, 0, |plan| plan.edges.resize(3 * 2_049, 0)),
    (5, 1, |plan| plan.edges[0] = 0),
    (5, 1, |plan| plan.edges[0] = 2),
    (5, 1, |plan| plan.edges[0] = u64::MAX),
    (5, 2, |plan| plan.edges[3..5].copy_from_slice(&[3, 2])),
    (5, 2, |plan| plan.edges[3..5].copy_from_slice(&[1, 2])),
    (5, 3, |plan| plan.edges[6..8].copy_from_slice(&[1, 5])),
    (5, 3, |plan| plan.edges[8] = 0),
    (5, 3, |plan| plan.edges[8] = 1_000_001),
    (5, 4, |plan| plan.edges[10] = 6),
    (5, 4, |plan| plan.edges[10] = u64::MAX),
    (5, 5, |plan| plan.edges.extend([4, 5, 3])),
    (6, 0, |plan| plan.constraints.clear()),
    (6, 0, |plan| plan.constraints.truncate(15)),
    (6, 0, |plan| plan.constraints.push(0)),
    (6, 0, |plan| plan.constraints.resize(4 * 17, 0)),
    (7, 1, |plan| plan.constraints[0] = 0),
    (7, 1, |plan| plan.constraints[0] = 6),
    (7, 1, |plan| plan.constraints[1] = 0),
    (7, 1, |plan| plan.constraints[1] = 7),
    (7, 1, |plan| plan.constraints[2] = 100_000_000_001),
    (7, 2, |plan| plan.constraints[5] = 2),
    (7, 2, |plan| plan.constraints[5..].fill(u64::MAX)),
    (7, 2, |plan| plan.constraints[7] = 0),
    (7, 3, |plan| plan.constraints[9] = 6),
    (7, 4, |plan| plan.constraints[14] = u64::MAX),
    (7, 4, |plan| plan.constraints[15] = 1_001),
    (8, 0, |plan| plan.colouring.clear()),
    (8, 0, |plan| plan.colouring.truncate(4)),
    (8, 0, |plan| plan.colouring.push(0)),
    (8, 1, |plan| plan.colouring[0] = 0),
    (8, 2, |plan| plan.colouring[1..].fill(u64::MAX)),
    (8, 5, |plan| plan.colouring[4] = 3),
];

/// Damage to the outside areas of sheet A.
#[rustfmt::skip]
const OUTSIDE_DAMAGES: &[PlanDamage] = &[
    (14, 0, |plan| plan.outside.clear()),
    (14, 0, |plan| plan.outside.truncate(4)),
    (14, 0, |plan| plan.outside.push(0)),
    (14, 0, |plan| plan.outside = vec![u64::MAX; 6]),
    (14, 1, |plan| plan.outside[0] = 1_000_001),
    (14, 3, |plan| plan.outside[2..].fill(u64::MAX)),
    (14, 5, |plan| plan.outside[4] = 1 << 32),
];

/// Damage to the flights of sheet A with flights, and to the constraint on them.
#[rustfmt::skip]
const FLIGHT_DAMAGES: &[PlanDamage] = &[
    (13, 0, |plan| plan.counts.resize(65, 1)),
    (13, 0, |plan| plan.counts.resize(65, u64::MAX)),
    (13, 0, |plan| { plan.counts = vec![1; 65]; plan.visits = [1, 1].repeat(65) }),
    (13, 1, |plan| plan.counts[0] = 0),
    (13, 1, |plan| plan.counts[0] = 33),
    (13, 1, |plan| plan.counts.fill(u64::MAX)),
    (13, 2, |plan| plan.counts[1] = 1 << 63),
    (13, 2, |plan| plan.counts[1] = (1 << 32) + 4),
    (13, 3, |plan| plan.counts.push(0)),
    (13, 0, |plan| plan.counts[0] = 3),
    (13, 0, |plan| plan.counts[1] = 5),
    (13, 0, |plan| plan.visits.clear()),
    (13, 0, |plan| plan.visits.truncate(14)),
    (13, 0, |plan| plan.visits.truncate(15)),
    (13, 0, |plan| plan.visits.push(1)),
    (13, 0, |plan| plan.visits.extend([1, 1])),
    (13, 1, |plan| plan.visits[0] = 0),
    (13, 1, |plan| plan.visits[1..].fill(0)),
    (13, 1, |plan| plan.visits[6] = 6),
    (13, 1, |plan| plan.visits[7] = 86_401),
    (13, 2, |plan| plan.visits[8] = u64::MAX),
    (13, 2, |plan| plan.visits[9] = 0),
    (13, 2, |plan| plan.visits[14] = (1 << 32) + 1),
    (13, 2, |plan| plan.visits[15] = u64::MAX),
    (7, 5, |plan| plan.constraints[16] = 6),
    (7, 5, |plan| plan.constraints[17] = 0),
    (7, 5, |plan| plan.constraints[17] = 7),
    (7, 5, |plan| plan.constraints[18] = 100_000_000_001),
    (7, 5, |plan| plan.constraints[19] = 0),
    (7, 5, |plan| plan.constraints[19] = 1_001),
];

/// Damage to sheet A that is none to a plan for the call: the first sheet holds no constraint of kind 5.
#[rustfmt::skip]
const STORED_DAMAGES: &[PlanDamage] = &[
    (7, 4, |plan| plan.constraints[12] = 5),
];
