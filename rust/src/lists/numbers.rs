//! The lists of a plan under their names.

use super::{call, read, write_second, Totals};
use crate::limits::{MOST_CONSTRAINTS, MOST_EDGES, MOST_FLIGHTS, MOST_REGIONS, MOST_SECOND_BYTES, MOST_VISITS_IN_ALL};
use crate::Refusal;

/// The numbers of a plan and its colouring, right or wrong, as the calls of this module take them; region 1 comes first.
/// [`Plan::from_numbers`](crate::Plan::from_numbers) checks them.
///
/// ```
/// use qirfadhun::lists::Numbers;
///
/// let mut numbers = Numbers::read(&std::fs::read("../sheets/flights.sheet")?)?;
/// assert_eq!((numbers.regions, numbers.sectors), (5, 2));
/// assert_eq!(numbers.visits, [4, 20, 5, 10, 4, 15, 3, 80]);
/// let (mut rows, mut verdicts, mut work) = ([0; 4], [0; 10], [0; 10]);
/// let totals = numbers.call(&[2, 3, 2], &mut rows, &mut verdicts, &mut work)?;
/// assert_eq!((totals.first, totals.last), (53, 137));
/// assert_eq!(numbers.colouring, [1, 1, 2, 2, 2]);
/// # Ok::<(), Box<dyn std::error::Error>>(())
/// ```
#[derive(Clone, Debug, Default, PartialEq, Eq)]
pub struct Numbers {
    /// How many regions there are.
    pub regions: u64,
    /// How many sectors there are.
    pub sectors: u64,
    /// The workload of each region.
    pub workloads: Vec<u64>,
    /// For each region the area of its face to the outside, 0 where it has none.
    pub outside: Vec<u64>,
    /// Three numbers an edge: a, b, area.
    pub edges: Vec<u64>,
    /// The number of visits of each flight.
    pub counts: Vec<u64>,
    /// Two numbers a visit, one flight after the other: region, seconds.
    pub visits: Vec<u64>,
    /// Four numbers a constraint: kind, relation, limit, weight.
    pub constraints: Vec<u64>,
    /// The sector of each region.
    pub colouring: Vec<u64>,
}

impl Numbers {
    /// What either sheet holds.
    ///
    /// # Errors
    ///
    /// 31 to 38, as [`read`].
    pub fn read(sheet: &[u8]) -> Result<Self, Refusal> {
        let mut numbers = Numbers {
            regions: 0,
            sectors: 0,
            workloads: vec![0; MOST_REGIONS],
            outside: vec![0; MOST_REGIONS],
            edges: vec![0; 3 * MOST_EDGES],
            counts: vec![0; MOST_FLIGHTS],
            visits: vec![0; 2 * MOST_VISITS_IN_ALL],
            constraints: vec![0; 4 * MOST_CONSTRAINTS],
            colouring: vec![0; MOST_REGIONS],
        };
        let Numbers { workloads, outside, edges, counts, visits, constraints, colouring, .. } = &mut numbers;
        let head = read(sheet, workloads, outside, edges, counts, visits, constraints, colouring)?;
        for list in [workloads, outside, colouring] {
            list.truncate(head.regions as usize);
        }
        edges.truncate(3 * head.edges as usize);
        counts.truncate(head.flights as usize);
        visits.truncate(2 * head.visits as usize);
        constraints.truncate(4 * head.constraints as usize);
        (numbers.regions, numbers.sectors) = (head.regions, head.sectors);
        Ok(numbers)
    }

    /// The second sheet of these numbers.
    ///
    /// # Errors
    ///
    /// 1 to 8, 13 and 14, as [`write_second`].
    pub fn write_second(&self) -> Result<Vec<u8>, Refusal> {
        let Numbers { workloads, outside, edges, counts, visits, constraints, colouring, .. } = self;
        let mut sheet = vec![0; MOST_SECOND_BYTES];
        let bytes = write_second(
            self.regions,
            self.sectors,
            workloads,
            outside,
            edges,
            counts,
            visits,
            constraints,
            colouring,
            &mut sheet,
        )?;
        sheet.truncate(bytes);
        Ok(sheet)
    }

    /// [`call`](fn@call) on these numbers; the colouring is left as the moves lead to it.
    ///
    /// # Errors
    ///
    /// 1 to 14, as [`call`](fn@call).
    pub fn call(&mut self, moves: &[u64], rows: &mut [i64], verdicts: &mut [u64], work: &mut [u64]) -> Result<Totals, Refusal> {
        let mut colouring = std::mem::take(&mut self.colouring);
        let totals = self.call_on(&mut colouring, moves, rows, verdicts, work);
        self.colouring = colouring;
        totals
    }

    /// [`call`](fn@call) on these numbers with another colouring than their own.
    ///
    /// # Errors
    ///
    /// 1 to 14, as [`call`](fn@call).
    pub fn call_on(
        &self,
        colouring: &mut [u64],
        moves: &[u64],
        rows: &mut [i64],
        verdicts: &mut [u64],
        work: &mut [u64],
    ) -> Result<Totals, Refusal> {
        call(
            self.regions,
            self.sectors,
            &self.workloads,
            &self.outside,
            &self.edges,
            &self.counts,
            &self.visits,
            &self.constraints,
            colouring,
            moves,
            rows,
            verdicts,
            work,
        )
    }
}
