//! Smaller lists and plans, the much smaller ones first: what a failing case is shrunk to.

use super::Numbers;
use std::ops::Range;

impl Numbers {
    /// Plans with fewer flights, constraints, edges, regions or visits, then with smaller numbers.
    pub fn smaller(&self) -> impl Iterator<Item = Numbers> + '_ {
        let fewer_flights = parts(self.counts.len()).map(|flights| self.without_flights(flights));
        let fewer_constraints = without(&self.constraints, 4).map(|constraints| Numbers { constraints, ..self.clone() });
        let fewer_edges = without(&self.edges, 3).map(|edges| Numbers { edges, ..self.clone() });
        let fewer_regions = (1..=self.workloads.len() as u64).rev().map(|region| self.without_region(region));
        let fewer_visits = (0..self.counts.len()).flat_map(|flight| self.with_fewer_visits(flight));
        let lower_sectors = lower_number(self.sectors).map(|sectors| Numbers { sectors, ..self.clone() });
        let lower_constraints = lower(&self.constraints).map(|constraints| Numbers { constraints, ..self.clone() });
        let lower_workloads = lower(&self.workloads).map(|workloads| Numbers { workloads, ..self.clone() });
        let lower_outside = lower(&self.outside).map(|outside| Numbers { outside, ..self.clone() });
        let lower_edges = lower(&self.edges).map(|edges| Numbers { edges, ..self.clone() });
        let lower_counts = lower(&self.counts).map(|counts| Numbers { counts, ..self.clone() });
        let lower_visits = lower(&self.visits).map(|visits| Numbers { visits, ..self.clone() });
        let lower_colouring = lower(&self.colouring).map(|colouring| Numbers { colouring, ..self.clone() });
        fewer_flights
            .chain(fewer_constraints)
            .chain(fewer_edges)
            .chain(fewer_regions)
            .chain(fewer_visits)
            .chain(lower_sectors)
            .chain(lower_constraints)
            .chain(lower_workloads)
            .chain(lower_outside)
            .chain(lower_edges)
            .chain(lower_counts)
            .chain(lower_visits)
            .chain(lower_colouring)
    }

    /// Where the visits of these flights, from 0, stand in the list, as far as it goes.
    fn visits_of(&self, flights: Range<usize>) -> Range<usize> {
        let before = |flight: usize| {
            let count = self.counts[..flight].iter().fold(0u64, |sum, &count| sum.saturating_add(count));
            self.visits.len().min(usize::try_from(count).unwrap_or(usize::MAX).saturating_mul(2))
        };
        before(flights.start)..before(flights.end)
    }

    fn without_flights(&self, flights: Range<usize>) -> Numbers {
        let mut numbers = self.clone();
        numbers.visits.drain(self.visits_of(flights.clone()));
        numbers.counts.drain(flights);
        numbers
    }

    /// Plans in which a flight has fewer visits.
    fn with_fewer_visits(&self, flight: usize) -> impl Iterator<Item = Numbers> + '_ {
        let own = self.visits_of(flight..flight + 1);
        parts(own.len() / 2).map(move |gone| {
            let mut numbers = self.clone();
            numbers.counts[flight] -= gone.len() as u64;
            numbers.visits.drain(own.start + 2 * gone.start..own.start + 2 * gone.end);
            numbers
        })
    }

    /// The plan without a region, its edges and the visits to it, and without flights that visit nothing else; regions above it are
    /// one less.
    pub fn without_region(&self, region: u64) -> Numbers {
        let mut numbers = self.clone();
        numbers.regions = self.regions.saturating_sub(1);
        for list in [&mut numbers.workloads, &mut numbers.outside, &mut numbers.colouring] {
            list.drain((region as usize - 1).min(list.len())..list.len().min(region as usize));
        }
        let kept = self.edges.chunks(3).filter(|edge| !edge[..edge.len().min(2)].contains(&region));
        numbers.edges = kept.flatten().copied().collect();
        numbers.edges.chunks_mut(3).flat_map(|edge| edge.iter_mut().take(2)).for_each(|end| *end = one_less(*end, region));
        for (flight, count) in numbers.counts.iter_mut().enumerate() {
            let own = self.visits[self.visits_of(flight..flight + 1)].chunks(2);
            *count -= own.filter(|visit| visit[0] == region).count() as u64;
        }
        numbers.counts.retain(|&count| count > 0);
        let kept = self.visits.chunks(2).filter(|visit| visit[0] != region);
        numbers.visits = kept.flatten().copied().collect();
        numbers.visits.chunks_mut(2).for_each(|visit| visit[0] = one_less(visit[0], region));
        numbers
    }
}

/// A region's number once a region is gone.
pub fn one_less(number: u64, gone: u64) -> u64 {
    number - u64::from(number > gone)
}

/// The list without some of its items, from all of them down to one.
pub fn without(list: &[u64], width: usize) -> impl Iterator<Item = Vec<u64>> + '_ {
    parts(list.len() / width).map(move |gone| [&list[..width * gone.start], &list[width * gone.end..]].concat())
}

/// Parts of so many items, from all of them down to one.
fn parts(items: usize) -> impl Iterator<Item = Range<usize>> {
    let sizes = (0..usize::BITS).map(move |halvings| items >> halvings).take_while(|&size| size > 0);
    sizes.flat_map(move |size| (0..=items - size).step_by(size).map(move |first| first..first + size))
}

/// The list with one number made smaller.
pub fn lower(list: &[u64]) -> impl Iterator<Item = Vec<u64>> + '_ {
    (0..list.len()).flat_map(move |place| {
        lower_number(list[place]).map(move |number| {
            let mut list = list.to_vec();
            list[place] = number;
            list
        })
    })
}

pub fn lower_number(number: u64) -> impl Iterator<Item = u64> {
    let mut numbers = vec![0, 1, number / 2, number.saturating_sub(1)];
    numbers.retain(|&smaller| smaller < number);
    numbers.dedup();
    numbers.into_iter()
}
