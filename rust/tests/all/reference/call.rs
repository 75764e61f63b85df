//! Moves, their rows, and the whole call.

use super::limits::{CALL_KINDS, MOVES};
use super::meaning::at;
use super::plan::{demand, whole_items, Plan, Refusal};

/// The total before the moves and the total after them.
#[derive(Clone, Copy, Debug, PartialEq, Eq)]
pub struct Totals {
    pub first: u64,
    pub last: u64,
}

/// The call: codes 1 to 14 in their order, then a row for each move in turn, then what the last colouring means.
#[allow(clippy::too_many_arguments)]
pub fn call(
    regions: u64,
    sectors: u64,
    workloads: &[u64],
    outside: &[u64],
    edges: &[u64],
    counts: &[u64],
    visits: &[u64],
    constraints: &[u64],
    colouring: &mut [u64],
    moves: &[u64],
    rows: &mut [i64],
    verdicts: &mut [u64],
    work: &mut [u64],
) -> Result<Totals, Refusal> {
    let lists = [workloads, outside, edges, counts, visits, constraints, &*colouring];
    let mut plan = Plan::new(CALL_KINDS, regions, sectors, lists)?;
    whole_items(9, moves, 3)?;
    demand(moves.len() as u64 / 3 <= MOVES, 9, 0)?;
    demand(rows.len() >= moves.len() / 3 * 4, 10, 0)?;
    demand(verdicts.len() >= plan.constraints.len() * 2, 11, 0)?;
    let known = regions + 2 * sectors + 1;
    demand(work.len() as u64 >= known, 12, 0)?;

    let first = plan.meaning().total();
    for (three, row) in moves.chunks(3).zip(rows.chunks_mut(4)) {
        row.copy_from_slice(&take(&mut plan, three[0], three[1], three[2]));
    }
    let meaning = plan.meaning();
    for (constraint, verdict) in plan.constraints.iter().zip(verdicts.chunks_mut(2)) {
        let violation = meaning.violation(constraint);
        verdict.copy_from_slice(&[u64::from(violation == 0), violation]);
    }
    let known = [&meaning.labels[..], &meaning.components, &meaning.sums, &[meaning.border]].concat();
    work[..known.len()].copy_from_slice(&known);
    colouring.copy_from_slice(&plan.colouring);
    Ok(Totals { first, last: meaning.total() })
}

/// The row of a move; a made one leaves its colouring in the plan.
fn take(plan: &mut Plan, kind: u64, first: u64, second: u64) -> [i64; 4] {
    let before = plan.meaning();
    let (total, labels) = (before.total() as i64, before.labels.clone());
    let status = status(plan, kind, first, second);
    if status != 0 {
        return [status, 0, total, 0];
    }
    if kind == 5 {
        return [0, before.region_violation(first) as i64, total, 0];
    }
    let colouring = plan.colouring.clone();
    match kind {
        1 | 2 => plan.colouring[at(first)] = second,
        _ => plan.colouring.swap(at(first), at(second)),
    }
    let after = plan.meaning();
    let total_after = after.total() as i64;
    let relabelled = labels.iter().zip(&after.labels).filter(|(old, new)| old != new).count() as i64;
    if kind == 1 || kind == 3 {
        plan.colouring = colouring;
        return [0, total_after - total, total, 0];
    }
    [0, total_after - total, total_after, relabelled]
}

/// 0 for an accepted move, else why it is refused.
fn status(plan: &Plan, kind: u64, first: u64, second: u64) -> i64 {
    let seconds = match kind {
        1 | 2 => 1..=plan.sectors,
        3 | 4 => 1..=plan.regions,
        5 => 0..=0,
        _ => return 21,
    };
    if !(1..=plan.regions).contains(&first) {
        return 22;
    }
    if !seconds.contains(&second) {
        return 23;
    }
    0
}
