//! Random flights over a plan, and constraints on the dwell of their stretches.

use super::{constraint, Numbers, Random};
use crate::reference::*;

/// The plan with flights, as often as not, and with constraints of kind 5 in the place of some of its own.
pub fn with_flights(random: &mut Random, mut plan: Numbers) -> Numbers {
    if random.once_in(2) {
        let (flights, longest) = (random.pick(&[1, 1, 2, 3, 8, FLIGHTS]), random.pick(&[1, 4, 4, 8, VISITS]));
        let counts = (0..flights).map(|_| random.between(1, longest)).collect();
        plan = flights_along(random, plan, counts);
    }
    for place in 0..plan.constraints.len() / 4 {
        if random.once_in(3) {
            let relation = random.between(1, 6);
            let close = some_dwell(random, &plan);
            plan.constraints[4 * place..4 * place + 4].copy_from_slice(&constraint(random, 5, relation, close));
        }
    }
    plan
}

/// The plan with as many flights as there are counts, each of so many visits.
pub fn flights_along(random: &mut Random, mut plan: Numbers, counts: Vec<u64>) -> Numbers {
    plan.visits = counts.iter().flat_map(|&count| flight(random, &plan, count)).collect();
    plan.counts = counts;
    plan
}

/// A flight that goes along edges, back and forth between a few regions, or anywhere.
fn flight(random: &mut Random, plan: &Numbers, count: u64) -> Vec<u64> {
    let longest = random.pick(&[1, 3, 100, DWELL]);
    let shortest = random.pick(&[1, 1, longest]);
    let way = random.between(0, 2);
    let few = [(); 3].map(|_| random.between(1, plan.regions));
    let mut region = random.pick(&few);
    let mut visits = Vec::new();
    for _ in 0..count {
        visits.extend([region, random.between(shortest, longest)]);
        region = match way {
            0 => beside(random, plan, region),
            1 => random.pick(&few),
            _ => random.between(1, plan.regions),
        };
    }
    visits
}

/// A neighbour of the region, or the region itself where it has none.
fn beside(random: &mut Random, plan: &Numbers, region: u64) -> u64 {
    let own = plan.edges.chunks(3).filter(|edge| edge[..2].contains(&region));
    let neighbours: Vec<u64> = own.map(|edge| edge[0] + edge[1] - region).collect();
    if neighbours.is_empty() {
        return region;
    }
    random.pick(&neighbours)
}

/// The dwell of visits in one sector from any visit on, which may be the first of a stretch.
fn some_dwell(random: &mut Random, plan: &Numbers) -> u64 {
    if plan.visits.is_empty() {
        return random.between(0, DWELL);
    }
    let sector = |visit: &[u64]| plan.colouring[visit[0] as usize - 1];
    let from = &plan.visits[2 * random.place(plan.visits.len() / 2)..];
    from.chunks(2).take_while(|visit| sector(visit) == sector(from)).map(|visit| visit[1]).sum()
}
