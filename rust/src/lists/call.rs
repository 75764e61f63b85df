//! The call that judges a colouring and takes moves.

use super::{raw, unless_refused, Constraint};
use crate::Refusal;

/// The total before the moves and the total after them.
#[derive(Clone, Copy, Debug, PartialEq, Eq)]
pub struct Totals {
    /// The total of the colouring that was lent.
    pub first: u64,
    /// The total of the colouring that was left.
    pub last: u64,
}

fn totals(answer: raw::CallAnswer) -> Result<Totals, Refusal> {
    unless_refused(answer.code, answer.place, Totals { first: answer.first, last: answer.last })
}

/// Judges a colouring of a plan, takes the moves in turn, and judges the last colouring.
///
/// An edge is three numbers, a constraint four, a move three, a row four, a verdict two; the work memory holds
/// `regions + 2 * sectors + 1` numbers. What lies beyond them stays as it was.
///
/// `outside` has for each region the area of its face to the outside, 0 where it has none. The border of the plan has all of them,
/// and a region's border its own.
///
/// Flights are two lists: `counts` has the number of visits of each flight, and `visits` the visits of one flight after the other,
/// each a region and the seconds spent there. Both are empty where there are no flights.
///
/// ```
/// let mut colouring = [1, 1, 1, 2, 2];
/// let (mut rows, mut verdicts, mut work) = ([0; 4], [0; 8], [0; 10]);
/// let totals = qirfadhun::lists::call(
///     5,
///     2,
///     &[10, 20, 30, 25, 15],
///     &[0; 5], // no face to the outside
///     &[1, 2, 4, 2, 3, 6, 3, 4, 2, 4, 5, 3],
///     &[], // no flights
///     &[],
///     &[1, 3, 2, 100, 2, 1, 5, 1, 3, 1, 40, 2, 4, 1, 55, 3],
///     &mut colouring,
///     &[2, 3, 2], // give region 3 to sector 2
///     &mut rows,
///     &mut verdicts,
///     &mut work,
/// )?;
/// assert_eq!((totals.first, totals.last), (15, 126));
/// assert_eq!(colouring, [1, 1, 2, 2, 2]);
/// assert_eq!(rows, [0, 111, 126, 3]); // accepted; 111 more; 126 in all; 3 regions have a new label
/// # Ok::<(), qirfadhun::Refusal>(())
/// ```
///
/// # Errors
///
/// 1 to 14, the first that is given; then no lent memory has changed.
#[allow(clippy::too_many_arguments)]
pub fn call(
    regions: u64,
    sectors: u64,
    workloads: &[u64],
    outside: &[u64],
    edges: &[u64],
    counts: &[u64],
    visits: &[u64],
    constraints: &[u64],
    colouring: &mut [u64],
    moves: &[u64],
    rows: &mut [i64],
    verdicts: &mut [u64],
    work: &mut [u64],
) -> Result<Totals, Refusal> {
    // SAFETY: each pointer and length is that of one slice, and Rust keeps those that are written apart from all others.
    totals(unsafe {
        raw::sctr_call(
            regions,
            sectors,
            workloads.as_ptr(),
            workloads.len(),
            outside.as_ptr(),
            outside.len(),
            edges.as_ptr(),
            edges.len(),
            counts.as_ptr(),
            counts.len(),
            visits.as_ptr(),
            visits.len(),
            constraints.as_ptr(),
            constraints.len(),
            colouring.as_mut_ptr(),
            colouring.len(),
            moves.as_ptr(),
            moves.len(),
            rows.as_mut_ptr(),
            rows.len(),
            verdicts.as_mut_ptr(),
            verdicts.len(),
            work.as_mut_ptr(),
            work.len(),
        )
    })
}

/// [`call`], with the constraints as records; the same in all else.
///
/// ```
/// use qirfadhun::lists::Constraint;
///
/// let connected = Constraint { kind: 1, relation: 3, limit: 2, weight: 100 };
/// let border = Constraint { kind: 2, relation: 1, limit: 8, weight: 2 };
/// let bounded = Constraint { kind: 4, relation: 1, limit: 55, weight: 3 };
/// let dwell = Constraint { kind: 5, relation: 6, limit: 120, weight: 1 };
/// let (mut colouring, mut verdicts) = ([1, 2, 2], [0; 8]);
/// let totals = qirfadhun::lists::call_records(
///     3,
///     2,
///     &[60, 20, 20],
///     &[5, 0, 1], // faces of regions 1 and 3 to the outside
///     &[1, 2, 4, 2, 3, 6],
///     &[3, 1], // two flights, of three visits and of one
///     &[1, 300, 2, 80, 3, 60, 3, 90],
///     &[connected, border, bounded, dwell],
///     &mut colouring,
///     &[],
///     &mut [],
///     &mut verdicts,
///     &mut [0; 8],
/// )?;
/// assert_eq!(totals.last, 49);
/// // The first holds. The border is 4 between the sectors and 6 to the outside, 2 above 8. The workload of sector 1 is 5 above 55.
/// // One flight stays 300 seconds in sector 1 and 140 in sector 2, the other 90 in sector 2, which is 30 below 120.
/// assert_eq!(verdicts, [1, 0, 0, 2, 0, 5, 0, 30]);
/// # Ok::<(), qirfadhun::Refusal>(())
/// ```
///
/// # Errors
///
/// As [`call`].
#[allow(clippy::too_many_arguments)]
pub fn call_records(
    regions: u64,
    sectors: u64,
    workloads: &[u64],
    outside: &[u64],
    edges: &[u64],
    counts: &[u64],
    visits: &[u64],
    constraints: &[Constraint],
    colouring: &mut [u64],
    moves: &[u64],
    rows: &mut [i64],
    verdicts: &mut [u64],
    work: &mut [u64],
) -> Result<Totals, Refusal> {
    // SAFETY: as in `call`.
    totals(unsafe {
        raw::sctr_call_records(
            regions,
            sectors,
            workloads.as_ptr(),
            workloads.len(),
            outside.as_ptr(),
            outside.len(),
            edges.as_ptr(),
            edges.len(),
            counts.as_ptr(),
            counts.len(),
            visits.as_ptr(),
            visits.len(),
            constraints.as_ptr(),
            constraints.len(),
            colouring.as_mut_ptr(),
            colouring.len(),
            moves.as_ptr(),
            moves.len(),
            rows.as_mut_ptr(),
            rows.len(),
            verdicts.as_mut_ptr(),
            verdicts.len(),
            work.as_mut_ptr(),
            work.len(),
        )
    })
}
