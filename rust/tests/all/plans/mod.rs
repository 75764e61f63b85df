//! Random plans within the documents' limits and moves on them; faces to the outside are in `outside`, flights in `flights`, numbers
//! beyond the limits in `wild`.

mod flights;
mod outside;
mod random;
mod refused;
mod smaller;
mod wild;

use crate::library::Constraint;
use crate::reference::*;
pub use flights::{flights_along, with_flights};
pub use outside::with_outside;
pub use random::Random;
pub use refused::{damaged, in_order, judged_damages, stored_damages, Damage, PlanDamage};
pub use smaller::{lower, lower_number, one_less, without};
pub use wild::{break_list, wild};

/// The numbers of a plan and its colouring as they are handed over, right or wrong.
#[derive(Clone, Debug, PartialEq)]
pub struct Numbers {
    pub regions: u64,
    pub sectors: u64,
    pub workloads: Vec<u64>,
    pub outside: Vec<u64>,
    pub edges: Vec<u64>,
    pub counts: Vec<u64>,
    pub visits: Vec<u64>,
    pub constraints: Vec<u64>,
    pub colouring: Vec<u64>,
}

/// The lists of a plan, in the order of the call.
pub const LISTS: [&str; 7] = ["workloads", "outside", "edges", "counts", "visits", "constraints", "colouring"];

impl Numbers {
    pub fn lists(&self) -> [&[u64]; 7] {
        let Numbers { workloads, outside, edges, counts, visits, constraints, colouring, .. } = self;
        [workloads, outside, edges, counts, visits, constraints, colouring]
    }

    pub fn lists_mut(&mut self) -> [&mut Vec<u64>; 7] {
        let Numbers { workloads, outside, edges, counts, visits, constraints, colouring, .. } = self;
        [workloads, outside, edges, counts, visits, constraints, colouring]
    }

    /// The plan without outside areas and flights.
    pub fn plain(self) -> Self {
        Numbers { outside: vec![0; self.workloads.len()], counts: vec![], visits: vec![], ..self }
    }
}

/// The constraints of a list of four numbers each, as records.
pub fn records(constraints: &[u64]) -> Vec<Constraint> {
    let record = |four: &[u64]| Constraint { kind: four[0], relation: four[1], limit: four[2], weight: four[3] };
    constraints.chunks_exact(4).map(record).collect()
}

pub fn sheet_a() -> Numbers {
    Numbers {
        regions: 5,
        sectors: 2,
        workloads: vec![10, 20, 30, 25, 15],
        outside: vec![0; 5],
        edges: vec![1, 2, 4, 2, 3, 6, 3, 4, 2, 4, 5, 3],
        counts: vec![],
        visits: vec![],
        constraints: vec![1, 3, 2, 100, 2, 1, 5, 1, 3, 1, 40, 2, 4, 1, 55, 3],
        colouring: vec![1, 1, 1, 2, 2],
    }
}

/// Sheet A with faces to the outside.
pub fn sheet_a_with_outside() -> Numbers {
    Numbers { outside: vec![7, 0, 1, 0, 3], ..sheet_a() }
}

/// Sheet A with two flights, and with a fifth constraint: each stretch is of 60 seconds or more.
pub fn sheet_a_with_flights() -> Numbers {
    let mut numbers = sheet_a();
    numbers.counts = vec![4, 4];
    numbers.visits = [[1, 100, 2, 50, 3, 40, 4, 90], [4, 20, 5, 10, 4, 15, 3, 80]].concat();
    numbers.constraints.extend([5, 6, 60, 2]);
    numbers
}

/// Sheet A with both.
pub fn sheet_a_with_both() -> Numbers {
    Numbers { outside: sheet_a_with_outside().outside, ..sheet_a_with_flights() }
}

/// A plan of any size, without outside areas and flights; small ones are the most frequent.
pub fn plan(random: &mut Random) -> Numbers {
    let most = random.pick(&[1, 6, 6, 6, 12, 12, 12, 40, 150, REGIONS]);
    let regions = if random.once_in(3) { most } else { random.between(1, most) };
    let few = random.between(1, 4);
    let sectors = random.pick(&[1, 2, 2, 3, 3, few, few, SECTORS]);
    plan_of(random, regions, sectors)
}

/// A plan of any size, with outside areas and with flights as often as not.
pub fn whole_plan(random: &mut Random) -> Numbers {
    let plan = plan(random);
    let plan = with_outside(random, plan);
    with_flights(random, plan)
}

/// A plan as large as a plan without outside areas and flights can be.
pub fn largest_plan(random: &mut Random) -> Numbers {
    let mut numbers = plan_of(random, REGIONS, SECTORS);
    let pairs = scattered(random, REGIONS, EDGES as usize);
    numbers.edges = measured(random, pairs);
    numbers.constraints = constraints(random, &numbers, CONSTRAINTS);
    numbers
}

/// A plan as large as a plan can be.
pub fn largest_whole_plan(random: &mut Random) -> Numbers {
    let plan = largest_plan(random);
    let mut plan = flights_along(random, plan, vec![VISITS; FLIGHTS as usize]);
    plan.outside.fill_with(|| random.between(0, AREA));
    plan.constraints.chunks_mut(4).step_by(3).for_each(|four| four[0] = 5);
    plan
}

pub fn plan_of(random: &mut Random, regions: u64, sectors: u64) -> Numbers {
    let highest = random.pick(&[0, 1, 3, 100, WORKLOAD]);
    let ends = random.once_in(4);
    let workload = |random: &mut Random| if ends { random.pick(&[0, highest]) } else { random.between(0, highest) };
    let workloads = (0..regions).map(|_| workload(random)).collect();
    let outside = vec![0; regions as usize];
    let pairs = pairs(random, regions);
    let colouring = colouring(random, regions, sectors, &pairs);
    let edges = measured(random, pairs);
    let (counts, visits, constraints) = (vec![], vec![], vec![]);
    let mut numbers = Numbers { regions, sectors, workloads, outside, edges, counts, visits, constraints, colouring };
    let count = if random.once_in(10) { CONSTRAINTS } else { random.between(1, 6) };
    numbers.constraints = self::constraints(random, &numbers, count);
    numbers
}

type Pairs = Vec<(u64, u64)>;

/// The ends of a plan's edges in their order.
fn pairs(random: &mut Random, regions: u64) -> Pairs {
    let mut pairs: Pairs = match random.between(0, 6) {
        0 => vec![],
        1 => grid(random.between(1, 24), regions),
        2 => (2..=regions).map(|b| (random.between(1, b - 1), b)).collect(),
        3 => star(random.between(1, regions), regions),
        4 => {
            // Every pair, as far as the most edges go.
            let last = regions.min(random.between(2, 64));
            (1..last).flat_map(|a| (a + 1..=last).map(move |b| (a, b))).collect()
        }
        _ => {
            let count = random.between(0, (3 * regions).min(EDGES)) as usize;
            scattered(random, regions, count)
        }
    };
    pairs.sort();
    pairs
}

/// Rows of this width; a path when it is 1.
fn grid(width: u64, regions: u64) -> Pairs {
    let right = (1..regions).filter(|a| a % width != 0).map(|a| (a, a + 1));
    let down = (1..=regions).map(|a| (a, a + width)).filter(|&(_, b)| b <= regions);
    right.chain(down).collect()
}

fn star(hub: u64, regions: u64) -> Pairs {
    (1..hub).map(|a| (a, hub)).chain((hub + 1..=regions).map(|b| (hub, b))).collect()
}

/// Any pairs of regions, at most this many.
fn scattered(random: &mut Random, regions: u64, count: usize) -> Pairs {
    let mut pairs: Pairs = Vec::new();
    if regions > 1 {
        for _ in 0..2 * count {
            let a = random.between(1, regions - 1);
            pairs.push((a, random.between(a + 1, regions)));
        }
    }
    pairs.sort();
    pairs.dedup();
    while pairs.len() > count {
        pairs.remove(random.place(pairs.len()));
    }
    pairs
}

/// Edges between these ends, with areas.
fn measured(random: &mut Random, pairs: Pairs) -> Vec<u64> {
    let largest = random.pick(&[1, 9, AREA]);
    let smallest = random.pick(&[1, 1, largest]);
    pairs.into_iter().flat_map(|(a, b)| [a, b, random.between(smallest, largest)]).collect()
}

fn colouring(random: &mut Random, regions: u64, sectors: u64, pairs: &Pairs) -> Vec<u64> {
    let mut colouring: Vec<u64> = match random.between(0, 3) {
        0 => vec![random.between(1, sectors); regions as usize],
        1 => (0..regions).map(|region| 1 + region * sectors / regions).collect(),
        _ => (0..regions).map(|_| random.between(1, sectors)).collect(),
    };
    // Sometimes regions take a neighbour's sector, so that components grow.
    if random.once_in(2) {
        for &(a, b) in pairs {
            if random.once_in(2) {
                colouring[b as usize - 1] = colouring[a as usize - 1];
            }
        }
    }
    colouring
}

/// Constraints of the kinds 1 to 4 whose limits are at their ends, or close to what the plan has.
fn constraints(random: &mut Random, plan: &Numbers, count: u64) -> Vec<u64> {
    let whole: u64 = plan.workloads.iter().sum();
    let area: u64 = plan.edges.chunks(3).map(|edge| edge[2]).sum();
    let mut constraints = Vec::new();
    for _ in 0..count {
        let kind = random.between(1, 4);
        let relation = if kind == 1 || kind == 4 { random.between(1, 6) } else { 1 };
        let sector = random.between(1, plan.sectors);
        let held = plan.colouring.iter().zip(&plan.workloads).filter(|(own, _)| **own == sector);
        let close = match kind {
            1 => random.between(0, plan.regions),
            2 => random.between(0, area),
            3 => random.between(0, plan.sectors * whole),
            _ => held.map(|(_, workload)| workload).sum(),
        };
        constraints.extend(constraint(random, kind, relation, close));
    }
    constraints
}

/// A constraint whose limit is at an end, or close to this number.
fn constraint(random: &mut Random, kind: u64, relation: u64, close: u64) -> [u64; 4] {
    let close = (close + random.between(0, 2)).saturating_sub(1).min(LIMIT);
    let any = random.between(0, LIMIT);
    let limit = random.pick(&[0, 1, close, close, close, close, any, LIMIT]);
    let any = random.between(1, WEIGHT);
    [kind, relation, limit, random.pick(&[1, any, WEIGHT])]
}

/// Moves on a plan; one in eight has a number that may be refused.
pub fn moves(random: &mut Random, plan: &Numbers, count: usize) -> Vec<u64> {
    let mut moves = Vec::new();
    for _ in 0..count {
        let kind = random.between(1, 5);
        let first = random.between(1, plan.regions);
        let second = match kind {
            1 | 2 => random.between(1, plan.sectors),
            3 | 4 => random.between(1, plan.regions),
            _ => 0,
        };
        let mut three = [kind, first, second];
        if random.once_in(8) {
            three[random.place(3)] = wild(random, &[plan.regions, plan.sectors, 5]);
        }
        moves.extend(three);
    }
    moves
}
