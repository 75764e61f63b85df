//! Plans with as many flights as there can be: nanoseconds a move with one and with two constraints on them, and what flights cost
//! that no constraint asks about.

use crate::plans::{self, Random, LISTS};
use crate::{measure, print, print_head, proved, LIST, SEED};
use qirfadhun::limits::{MOST_FLIGHTS, MOST_VISITS};
use qirfadhun::lists::Numbers;

/// Each stretch of two minutes or more, and of half an hour or less; with the places, from 0, of the constraints of kind 4 that they
/// take.
const TIMED: [([u64; 4], usize); 2] = [([5, 6, 120, 3], 15), ([5, 1, 1_800, 3], 11)];

/// A plan without flights, the same with flights, and lists of moves on both.
struct Flown {
    sectors: u64,
    none: Numbers,
    flown: Numbers,
    lists: Vec<(&'static str, Vec<u64>)>,
}

impl Flown {
    fn new(random: &mut Random, sectors: u64) -> Self {
        let none = plans::grid(random, 16, 32, sectors);
        let mut flown = none.clone();
        plans::fly(random, &mut flown, MOST_FLIGHTS, MOST_VISITS);
        let mut lists: Vec<_> = LISTS.iter().map(|list| (list.name, list.moves(random, &none, LIST))).collect();
        lists.push(("empty list", vec![]));
        Flown { sectors, none, flown, lists }
    }

    /// The plan with flights and so many constraints of kind 5.
    fn timed(&self, count: usize) -> Numbers {
        let mut plan = self.flown.clone();
        for (constraint, place) in &TIMED[..count] {
            plan.constraints[4 * place..][..4].copy_from_slice(constraint);
        }
        plan
    }
}

pub fn print_all() {
    let mut random = Random(SEED);
    let all = [64, 8, 2].map(|sectors| Flown::new(&mut random, sectors));
    println!();
    print_head(&format!("{MOST_FLIGHTS} flights of {MOST_VISITS} visits, constraints of kind 5 among the 16"));
    for flown in &all {
        for (count, so_many) in [(1, "one"), (2, "two")] {
            let plan = flown.timed(count);
            for (name, moves) in &flown.lists {
                print(&format!("{} sectors, {so_many} of kind 5, {name}", flown.sectors), &plan, moves);
            }
        }
    }
    println!();
    println!("| none of kind 5, proved | no flights | flights | to no flights |");
    println!("|---|---|---|---|");
    for Flown { sectors, none, flown, lists } in &all {
        for (name, moves) in lists {
            let [none, flown] = measure([(proved, none), (proved, flown)], moves).map(|t| t / (moves.len() / 3).max(1) as f64);
            println!("| {sectors} sectors, {name} | {none:.0} | {flown:.0} | {:.2} |", flown / none);
        }
    }
}
