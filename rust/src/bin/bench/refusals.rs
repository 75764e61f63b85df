//! The refusals of a call in plain Rust, in the order of the documents.

use qirfadhun::lists::Numbers;

/// A code and the place that it names.
pub type Refused = (u64, u64);

fn within(low: u64, x: u64, high: u64) -> bool {
    low <= x && x <= high
}

/// What a call is given and what it is lent; the colouring stands apart from the plan's other lists, since it changes.
pub struct Call<'a> {
    pub plan: &'a Numbers,
    pub colouring: &'a mut [u64],
    pub moves: &'a [u64],
    pub rows: &'a mut [i64],
    pub verdicts: &'a mut [u64],
    pub work: &'a mut [u64],
}

fn unless(right: bool, code: u64) -> Result<(), Refused> {
    if right {
        Ok(())
    } else {
        Err((code, 0))
    }
}

fn each(code: u64, mut right: impl Iterator<Item = bool>) -> Result<(), Refused> {
    match right.position(|r| !r) {
        Some(k) => Err((code, k as u64 + 1)),
        None => Ok(()),
    }
}

fn records(list: &[u64], width: usize, low: u64, high: u64) -> bool {
    list.len().is_multiple_of(width) && within(low, (list.len() / width) as u64, high)
}

/// Code 14.
fn outside_refusal(regions: u64, outside: &[u64]) -> Result<(), Refused> {
    unless(outside.len() as u64 == regions, 14)?;
    each(14, outside.iter().map(|&a| a <= 1_000_000))
}

/// Code 13.
fn flights_refusal(regions: u64, counts: &[u64], visits: &[u64]) -> Result<(), Refused> {
    unless(counts.len() <= 64, 13)?;
    each(13, counts.iter().map(|&n| within(1, n, 32)))?;
    unless(visits.len() as u64 == 2 * counts.iter().sum::<u64>(), 13)?;
    let mut rest = visits;
    each(
        13,
        counts.iter().map(|&n| {
            let (flight, others) = rest.split_at(2 * n as usize);
            rest = others;
            flight.chunks(2).all(|v| within(1, v[0], regions) && within(1, v[1], 86_400))
        }),
    )
}

/// Codes 1 to 8 and, after 3 and 5, codes 14 and 13, with constraints of the kinds 1 to `kinds`; a plan in a first sheet has no
/// list of outside areas.
#[allow(clippy::too_many_arguments)]
pub fn plan_refusal(
    kinds: u64,
    regions: u64,
    sectors: u64,
    workloads: &[u64],
    outside: Option<&[u64]>,
    edges: &[u64],
    counts: &[u64],
    visits: &[u64],
    constraints: &[u64],
    colouring: &[u64],
) -> Result<(), Refused> {
    unless(within(1, regions, 512), 1)?;
    unless(within(1, sectors, 64), 2)?;
    unless(workloads.len() as u64 == regions, 3)?;
    each(3, workloads.iter().map(|&w| w <= 1_000_000))?;
    outside.map_or(Ok(()), |outside| outside_refusal(regions, outside))?;
    unless(records(edges, 3, 0, 2048), 4)?;
    let mut before = (0, 0);
    each(
        5,
        edges.chunks(3).map(|e| {
            let right = 1 <= e[0] && e[0] < e[1] && e[1] <= regions && within(1, e[2], 1_000_000) && before < (e[0], e[1]);
            before = (e[0], e[1]);
            right
        }),
    )?;
    flights_refusal(regions, counts, visits)?;
    unless(records(constraints, 4, 1, 16), 6)?;
    each(
        7,
        constraints.chunks(4).map(|q| {
            within(1, q[0], kinds)
                && within(1, q[1], 6)
                && (q[0] == 1 || q[0] >= 4 || q[1] == 1)
                && q[2] <= 100_000_000_000
                && within(1, q[3], 1000)
        }),
    )?;
    unless(colouring.len() as u64 == regions, 8)?;
    each(8, colouring.iter().map(|&c| within(1, c, sectors)))
}

impl Call<'_> {
    /// Codes 1 to 14.
    pub fn refusal(&self) -> Result<(), Refused> {
        let Numbers { regions, sectors, workloads, outside, edges, counts, visits, constraints, .. } = self.plan;
        plan_refusal(5, *regions, *sectors, workloads, Some(outside), edges, counts, visits, constraints, self.colouring)?;
        unless(records(self.moves, 3, 0, 4096), 9)?;
        unless(4 * (self.moves.len() / 3) <= self.rows.len(), 10)?;
        unless(2 * (constraints.len() / 4) <= self.verdicts.len(), 11)?;
        unless((regions + 2 * sectors + 1) as usize <= self.work.len(), 12)
    }
}

/// The status of a move, 0 where it is accepted.
pub fn status(regions: u64, sectors: u64, kind: u64, first: u64, second: u64) -> i64 {
    if !within(1, kind, 5) {
        return 21;
    }
    if !within(1, first, regions) {
        return 22;
    }
    let right = match kind {
        1 | 2 => within(1, second, sectors),
        3 | 4 => within(1, second, regions),
        _ => second == 0,
    };
    if right {
        0
    } else {
        23
    }
}
