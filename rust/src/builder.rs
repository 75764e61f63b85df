//! A plan put together piece by piece.

use crate::limits::MOST_VISITS;
use crate::lists::Numbers;
use crate::{Area, Constraint, Plan, Refusal, Region, Seconds, Workload};

/// A plan to be. What is handed over is kept as it is, and checked when the plan is built.
#[derive(Clone, Debug)]
pub struct PlanBuilder {
    numbers: Numbers,
}

impl PlanBuilder {
    pub(crate) fn new(sectors: u64) -> Self {
        PlanBuilder { numbers: Numbers { sectors, ..Numbers::default() } }
    }

    pub(crate) fn of(numbers: Numbers) -> Self {
        PlanBuilder { numbers }
    }

    /// The next region, from 1 on, with its workload and the area of its face to the outside, 0 where it has none.
    pub fn region(&mut self, workload: Workload, outside: Area) -> &mut Self {
        self.numbers.workloads.push(workload.0);
        self.numbers.outside.push(outside.0);
        self
    }

    /// The next edge: a face between two regions, the lower number first. Edges come in the order of their first regions, then of
    /// their second ones.
    pub fn edge(&mut self, a: Region, b: Region, area: Area) -> &mut Self {
        self.numbers.edges.extend([a.get(), b.get(), area.0]);
        self
    }

    /// The next flight: the regions that it visits in turn, and how long it stays in each.
    pub fn flight(&mut self, visits: impl IntoIterator<Item = (Region, Seconds)>) -> &mut Self {
        let before = self.numbers.visits.len();
        // One visit too many is refused as any number is.
        let visits = visits.into_iter().take(MOST_VISITS + 1);
        self.numbers.visits.extend(visits.flat_map(|(region, seconds)| [region.get(), seconds.0]));
        self.numbers.counts.push((self.numbers.visits.len() - before) as u64 / 2);
        self
    }

    /// The next constraint. It is known by its place, the first by 1.
    pub fn constraint(&mut self, constraint: Constraint) -> &mut Self {
        self.numbers.constraints.extend(constraint.numbers());
        self
    }

    /// Takes out all edges.
    pub fn clear_edges(&mut self) -> &mut Self {
        self.numbers.edges.clear();
        self
    }

    /// Takes out all flights.
    pub fn clear_flights(&mut self) -> &mut Self {
        self.numbers.counts.clear();
        self.numbers.visits.clear();
        self
    }

    /// Takes out all constraints.
    pub fn clear_constraints(&mut self) -> &mut Self {
        self.numbers.constraints.clear();
        self
    }

    /// The plan, which from here on is never refused.
    ///
    /// ```
    /// use qirfadhun::{Area, Constraint, Kind, Plan, Workload};
    ///
    /// let border = Constraint { kind: Kind::Border, limit: 0, weight: 1 };
    /// let built = Plan::builder(1).region(Workload(1_000_000), Area(0)).constraint(border).build();
    /// assert!(built.is_ok());
    /// let refusal = Plan::builder(1).region(Workload(1_000_001), Area(0)).constraint(border).build().unwrap_err();
    /// assert_eq!(refusal.to_string(), "refused 3 1: a workload is above 1,000,000 (region 1)");
    /// ```
    ///
    /// # Errors
    ///
    /// The first that is given of 1 (no region, or more than 512), 2 (sectors), 3 (a workload), 14 (an outside area), 4 (more than
    /// 2,048 edges), 5 (an edge), 13 (a flight), 6 (no constraint, or more than 16) and 7 (a limit or a weight).
    pub fn build(&self) -> Result<Plan, Refusal> {
        Plan::unless_refused(Numbers { regions: self.numbers.workloads.len() as u64, ..self.numbers.clone() })
    }
}
