//! Numbers and lists beyond the documents' limits.

use super::{Numbers, Random};
use crate::reference::*;

/// A number at or beyond an end: of these, of the documents' limits, or of a type.
pub fn wild(random: &mut Random, ends: &[u64]) -> u64 {
    let mut all = ends.to_vec();
    all.extend([0, REGIONS, SECTORS, WORKLOAD, EDGES, CONSTRAINTS, LIMIT, WEIGHT, MOVES]);
    all.extend([1 << 8, 1 << 16, 1 << 31, 1 << 32, 1 << 62, 1 << 63, u64::MAX, random.any()]);
    let end = random.pick(&all);
    random.pick(&[end, end, end.wrapping_add(1), end.wrapping_sub(1)])
}

/// Changes one number of a list, its length or its order.
pub fn break_list(random: &mut Random, list: &mut Vec<u64>, ends: &[u64]) {
    let number = wild(random, ends);
    if list.is_empty() {
        return list.push(number);
    }
    let (place, other) = (random.place(list.len()), random.place(list.len()));
    match random.between(0, 7) {
        0 => list.push(number),
        1 => list.truncate(list.len() - 1),
        2 => list.truncate(place),
        3 => list.swap(place, other),
        4 => list.extend_from_within(place..),
        _ => list[place] = number,
    }
}

impl Numbers {
    /// Changes one thing besides outside areas and flights for a wild one; by chance the plan may still be good after it.
    pub fn break_one(&mut self, random: &mut Random) {
        let ends = [self.regions, self.sectors];
        match random.between(0, 9) {
            0 => self.regions = wild(random, &ends),
            1 => self.sectors = wild(random, &ends),
            2 | 3 => break_list(random, &mut self.workloads, &ends),
            4 | 5 => break_list(random, &mut self.edges, &ends),
            6 | 7 => break_list(random, &mut self.constraints, &ends),
            _ => break_list(random, &mut self.colouring, &ends),
        }
    }

    /// Makes the list of outside areas too long or too short, or some of them too large; or changes the list, after which it may still
    /// be good.
    pub fn break_outside(&mut self, random: &mut Random) {
        let number = wild(random, &[AREA]);
        let length = self.outside.len();
        match random.between(0, 2) {
            0 => self.outside.resize(random.pick(&[0, length.saturating_sub(1), length + 1, length + 2]), number),
            1 => {
                let large = random.pick(&[AREA + 1, number.max(AREA + 1)]);
                let first = random.place(length.max(1));
                self.outside.iter_mut().skip(first).take(random.pick(&[1, 2])).for_each(|area| *area = large);
            }
            _ => break_list(random, &mut self.outside, &[self.regions, AREA]),
        }
    }

    /// Makes the flights too many, a count wrong, the list of visits too long or too short, or a visit wrong; or changes one of
    /// their lists, after which they may still be good.
    pub fn break_flights(&mut self, random: &mut Random) {
        let ends = [self.regions, FLIGHTS, VISITS, DWELL];
        let number = wild(random, &ends);
        match random.between(0, 5) {
            0 => {
                let most = (FLIGHTS + random.between(1, 3)) as usize;
                self.visits.extend([1, 1].repeat(most.saturating_sub(self.counts.len())));
                self.counts.resize(most.max(self.counts.len()), 1);
            }
            1 => self.counts.push(random.pick(&[0, VISITS + 1, number])),
            2 => {
                let length = self.visits.len();
                self.visits.resize(random.pick(&[length + 1, length + 2, length.saturating_sub(1), length.saturating_sub(2)]), 1);
            }
            3 => {
                self.counts.push(1);
                let above = self.regions.wrapping_add(1);
                self.visits.extend(random.pick(&[[0, 1], [above, 1], [1, 0], [1, DWELL + 1], [number, number]]));
            }
            4 => break_list(random, &mut self.counts, &ends),
            _ => break_list(random, &mut self.visits, &ends),
        }
    }
}
