//! What a plan means: labels, components, workload sums, T, stretches, the five kinds of violation, the total.

use super::plan::{Constraint, Plan, Visit};

/// What follows from a plan and its colouring: the labels, NCC(c) and X(c) of each sector, T, and the stretches of all flights.
pub struct Meaning<'a> {
    plan: &'a Plan,
    pub labels: Vec<u64>,
    pub components: Vec<u64>,
    pub sums: Vec<u64>,
    pub border: u64,
    pub stretches: Vec<&'a [Visit]>,
}

/// Where the thing with this number, from 1, stands in its list.
pub fn at(number: u64) -> usize {
    number as usize - 1
}

impl Plan {
    pub fn sector(&self, region: u64) -> u64 {
        self.colouring[at(region)]
    }

    pub fn meaning(&self) -> Meaning<'_> {
        let labels = self.labels();
        let mut components = vec![0; self.sectors as usize];
        let mut sums = vec![0; self.sectors as usize];
        for region in 1..=self.regions {
            let sector = at(self.sector(region));
            sums[sector] += self.workloads[at(region)];
            // One region of each component bears its own number.
            components[sector] += u64::from(labels[at(region)] == region);
        }
        let cut = self.edges.iter().filter(|edge| self.sector(edge.a) != self.sector(edge.b));
        let border = cut.map(|edge| edge.area).sum::<u64>() + self.outside.iter().sum::<u64>();
        Meaning { plan: self, labels, components, sums, border, stretches: self.stretches() }
    }

    /// The largest unbroken runs of one flight's visits in one sector, those of each flight in turn.
    fn stretches(&self) -> Vec<&[Visit]> {
        let together = |one: &Visit, next: &Visit| self.sector(one.region) == self.sector(next.region);
        self.flights.iter().flat_map(|flight| flight.chunk_by(together)).collect()
    }

    /// The smallest region number that each region is joined to: both ends of an edge within a sector take the smaller of their
    /// labels, until none changes.
    fn labels(&self) -> Vec<u64> {
        let mut labels: Vec<u64> = (1..=self.regions).collect();
        loop {
            let before = labels.clone();
            for edge in self.edges.iter().filter(|edge| self.sector(edge.a) == self.sector(edge.b)) {
                let smaller = labels[at(edge.a)].min(labels[at(edge.b)]);
                labels[at(edge.a)] = smaller;
                labels[at(edge.b)] = smaller;
            }
            if labels == before {
                return labels;
            }
        }
    }
}

impl Meaning<'_> {
    /// |S*X(c) - W|.
    fn imbalance(&self, sector: u64) -> u64 {
        let whole: u64 = self.sums.iter().sum();
        (self.plan.sectors * self.sums[at(sector)]).abs_diff(whole)
    }

    fn sectors(&self) -> impl Iterator<Item = u64> {
        1..=self.plan.sectors
    }

    pub fn deviation(&self) -> u64 {
        self.sectors().map(|sector| self.imbalance(sector)).sum()
    }

    pub fn violation(&self, constraint: &Constraint) -> u64 {
        let &Constraint { kind, relation, limit, .. } = constraint;
        match kind {
            1 => {
                let in_all: u64 = self.components.iter().sum();
                let in_excess: u64 = self.components.iter().map(|count| count.saturating_sub(1)).sum();
                u64::from(!stands(relation, in_all, limit)) + in_excess
            }
            2 => self.border.saturating_sub(limit),
            3 => self.deviation().saturating_sub(limit),
            4 => self.sums.iter().map(|&sum| distance(relation, sum, limit)).sum(),
            5 => self.stretches.iter().map(|stretch| distance(relation, dwell(stretch), limit)).sum(),
            _ => unreachable!("code 7 refuses the other kinds"),
        }
    }

    pub fn total(&self) -> u64 {
        self.plan.constraints.iter().map(|constraint| constraint.weight * self.violation(constraint)).sum()
    }

    pub fn region_violation(&self, region: u64) -> u64 {
        let sector = self.plan.sector(region);
        let by_kind = |constraint: &Constraint| match constraint.kind {
            1 => self.components[at(sector)] - 1,
            2 => self.own_border(region),
            3 => self.imbalance(sector),
            4 => distance(constraint.relation, self.sums[at(sector)], constraint.limit),
            5 => self.own_dwell(region, constraint),
            _ => unreachable!("code 7 refuses the other kinds"),
        };
        self.plan.constraints.iter().map(|constraint| constraint.weight * by_kind(constraint)).sum()
    }

    /// The area of the region's edges that lead to another sector, and of its face to the outside.
    fn own_border(&self, region: u64) -> u64 {
        let own = self.plan.edges.iter().filter(|edge| edge.a == region || edge.b == region);
        let cut = own.filter(|edge| self.plan.sector(edge.a) != self.plan.sector(edge.b));
        cut.map(|edge| edge.area).sum::<u64>() + self.plan.outside[at(region)]
    }

    /// The sum of d over the stretches that visit the region, each stretch once.
    fn own_dwell(&self, region: u64, constraint: &Constraint) -> u64 {
        let own = self.stretches.iter().filter(|stretch| stretch.iter().any(|visit| visit.region == region));
        own.map(|stretch| distance(constraint.relation, dwell(stretch), constraint.limit)).sum()
    }
}

/// The summed dwell of a stretch.
fn dwell(stretch: &[Visit]) -> u64 {
    stretch.iter().map(|visit| visit.dwell).sum()
}

fn stands(relation: u64, x: u64, t: u64) -> bool {
    match relation {
        1 => x <= t,
        2 => x < t,
        3 => x == t,
        4 => x != t,
        5 => x > t,
        6 => x >= t,
        _ => unreachable!("code 7 refuses the other relations"),
    }
}

/// d(relation, x, t).
pub fn distance(relation: u64, x: u64, t: u64) -> u64 {
    match relation {
        1 => x.saturating_sub(t),
        2 => (x + 1).saturating_sub(t),
        3 => x.abs_diff(t),
        4 => u64::from(x == t),
        5 => (t + 1).saturating_sub(x),
        6 => t.saturating_sub(x),
        _ => unreachable!("code 7 refuses the other relations"),
    }
}
