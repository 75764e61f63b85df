//! A sheet into lists, and lists into a sheet.

use super::{raw, unless_refused, Constraint};
use crate::Refusal;

/// How many regions, sectors, edges, constraints, flights and visits a sheet has; a first sheet has no flights and no visits.
#[derive(Clone, Copy, Debug, PartialEq, Eq)]
pub struct Head {
    /// How many regions.
    pub regions: u64,
    /// How many sectors.
    pub sectors: u64,
    /// How many edges.
    pub edges: u64,
    /// How many constraints.
    pub constraints: u64,
    /// How many flights.
    pub flights: u64,
    /// How many visits, those of all flights.
    pub visits: u64,
}

/// Reads either sheet, by its letters: from their starts the lent lists hold a workload and an outside area a region, three numbers
/// an edge, a count a flight, two numbers a visit, four a constraint, and the colouring, as [`call`](fn@super::call) takes them.
/// What lies beyond stays as it was. For a first sheet each outside area is 0, and there are no flights.
///
/// ```
/// use qirfadhun::limits::{MOST_CONSTRAINTS, MOST_EDGES, MOST_FLIGHTS, MOST_REGIONS, MOST_VISITS_IN_ALL};
///
/// let bytes = std::fs::read("../sheets/flights.sheet")?;
/// let (mut workloads, mut outside, mut edges) = ([0; MOST_REGIONS], [0; MOST_REGIONS], [0; 3 * MOST_EDGES]);
/// let (mut counts, mut visits) = ([0; MOST_FLIGHTS], [0; 2 * MOST_VISITS_IN_ALL]);
/// let (mut constraints, mut colouring) = ([0; 4 * MOST_CONSTRAINTS], [0; MOST_REGIONS]);
/// let head = qirfadhun::lists::read(
///     &bytes,
///     &mut workloads,
///     &mut outside,
///     &mut edges,
///     &mut counts,
///     &mut visits,
///     &mut constraints,
///     &mut colouring,
/// )?;
/// assert_eq!((head.regions, head.sectors, head.edges, head.constraints), (5, 2, 4, 5));
/// assert_eq!((head.flights, head.visits), (1, 4));
/// assert_eq!(workloads[..5], [10, 20, 30, 25, 15]);
/// assert_eq!(outside[..5], [7, 0, 1, 0, 3]);
/// assert_eq!(edges[..3], [1, 2, 4]); // regions 1 and 2 share an area of 4
/// assert_eq!(counts[..1], [4]); // the flight has four visits
/// assert_eq!(visits[..8], [4, 20, 5, 10, 4, 15, 3, 80]); // region, seconds
/// assert_eq!(constraints[..4], [1, 3, 2, 100]); // kind, relation, limit, weight
/// assert_eq!(colouring[..5], [1, 1, 1, 2, 2]);
/// # Ok::<(), Box<dyn std::error::Error>>(())
/// ```
///
/// # Errors
///
/// 31 to 39, the first that is given; then no lent memory has changed.
#[allow(clippy::too_many_arguments)]
pub fn read(
    sheet: &[u8],
    workloads: &mut [u64],
    outside: &mut [u64],
    edges: &mut [u64],
    counts: &mut [u64],
    visits: &mut [u64],
    constraints: &mut [u64],
    colouring: &mut [u64],
) -> Result<Head, Refusal> {
    // SAFETY: each pointer and length is that of one slice, and Rust keeps those that are written apart from all others.
    let answer = unsafe {
        raw::sctr_read(
            sheet.as_ptr(),
            sheet.len(),
            workloads.as_mut_ptr(),
            workloads.len(),
            outside.as_mut_ptr(),
            outside.len(),
            edges.as_mut_ptr(),
            edges.len(),
            counts.as_mut_ptr(),
            counts.len(),
            visits.as_mut_ptr(),
            visits.len(),
            constraints.as_mut_ptr(),
            constraints.len(),
            colouring.as_mut_ptr(),
            colouring.len(),
        )
    };
    let raw::ReadAnswer { code, place, regions, sectors, edges, constraints, flights, visits } = answer;
    unless_refused(code, place, Head { regions, sectors, edges, constraints, flights, visits })
}

/// How many bytes were written, unless it was refused.
pub fn bytes_written(answer: raw::WriteAnswer) -> Result<usize, Refusal> {
    unless_refused(answer.code, answer.place, answer.bytes as usize)
}

/// Writes a plan and its colouring as a first sheet at the start of the lent bytes, and answers how many bytes it has. What lies
/// beyond stays as it was. The sheet has no outside areas and no flights, and holds constraints of the kinds 1 to 4 only; kind 5 is
/// refused by code 7. [`write_second`] takes them all.
///
/// ```
/// let mut lent = [0; qirfadhun::limits::MOST_BYTES];
/// let bytes = qirfadhun::lists::write(1, 64, &[0], &[], &[4, 6, 1, 1], &[1], &mut lent)?;
/// assert_eq!(bytes, 4 * 512);
/// assert_eq!(qirfadhun::lists::Sheet::new(&lent[..bytes])?.total(), 64);
///
/// let refusal = qirfadhun::lists::write(1, 64, &[1_000_001], &[], &[4, 6, 1, 1], &[1], &mut lent).unwrap_err();
/// assert_eq!((refusal.code, refusal.place), (3, 1)); // the first workload is too large
/// # Ok::<(), qirfadhun::Refusal>(())
/// ```
///
/// # Errors
///
/// 1 to 8 but for the outside areas and flights, then 40; then no lent memory has changed.
pub fn write(
    regions: u64,
    sectors: u64,
    workloads: &[u64],
    edges: &[u64],
    constraints: &[u64],
    colouring: &[u64],
    sheet: &mut [u8],
) -> Result<usize, Refusal> {
    // SAFETY: as in `read`.
    bytes_written(unsafe {
        raw::sctr_write(
            regions,
            sectors,
            workloads.as_ptr(),
            workloads.len(),
            edges.as_ptr(),
            edges.len(),
            constraints.as_ptr(),
            constraints.len(),
            colouring.as_ptr(),
            colouring.len(),
            sheet.as_mut_ptr(),
            sheet.len(),
        )
    })
}

/// [`write`](fn@write), with the constraints as records; the same in all else.
///
/// ```
/// let bounded = qirfadhun::lists::Constraint { kind: 4, relation: 6, limit: 1, weight: 1 };
/// let (mut by_records, mut by_numbers) = ([0; 4 * 512], [0; 4 * 512]);
/// qirfadhun::lists::write_records(1, 64, &[0], &[], &[bounded], &[1], &mut by_records)?;
/// qirfadhun::lists::write(1, 64, &[0], &[], &[4, 6, 1, 1], &[1], &mut by_numbers)?;
/// assert_eq!(by_records, by_numbers);
/// # Ok::<(), qirfadhun::Refusal>(())
/// ```
///
/// # Errors
///
/// As [`write`](fn@write).
pub fn write_records(
    regions: u64,
    sectors: u64,
    workloads: &[u64],
    edges: &[u64],
    constraints: &[Constraint],
    colouring: &[u64],
    sheet: &mut [u8],
) -> Result<usize, Refusal> {
    // SAFETY: as in `read`.
    bytes_written(unsafe {
        raw::sctr_write_records(
            regions,
            sectors,
            workloads.as_ptr(),
            workloads.len(),
            edges.as_ptr(),
            edges.len(),
            constraints.as_ptr(),
            constraints.len(),
            colouring.as_ptr(),
            colouring.len(),
            sheet.as_mut_ptr(),
            sheet.len(),
        )
    })
}

/// Writes a plan and its colouring, with outside areas, flights and constraints of any kind, as a second sheet; in all else as
/// [`write`](fn@write).
///
/// ```
/// let mut lent = [0; qirfadhun::limits::MOST_SECOND_BYTES];
/// let bytes = qirfadhun::lists::write_second(
///     2,
///     2,
///     &[60, 40],
///     &[5, 0], // a face of region 1 to the outside
///     &[1, 2, 4],
///     &[2], // one flight of two visits: region, seconds
///     &[1, 300, 2, 80],
///     &[2, 1, 8, 1, 5, 6, 120, 1],
///     &[1, 2],
///     &mut lent,
/// )?;
/// assert_eq!(bytes, 8 * 512);
/// let sheet = qirfadhun::lists::Sheet::new(&lent[..bytes])?;
/// assert_eq!(sheet.violation(1), Some(1)); // a border of 9, above 8
/// assert_eq!(sheet.violation(2), Some(40)); // a stretch of 80 seconds, below 120
///
/// let constraint = [4, 6, 1, 1];
/// let refusal = qirfadhun::lists::write_second(1, 1, &[0], &[], &[], &[], &[], &constraint, &[1], &mut lent).unwrap_err();
/// assert_eq!((refusal.code, refusal.place), (14, 0)); // there is no outside area for the region
/// # Ok::<(), qirfadhun::Refusal>(())
/// ```
///
/// # Errors
///
/// 1 to 8, 14 and 13 among them, then 40; then no lent memory has changed.
#[allow(clippy::too_many_arguments)]
pub fn write_second(
    regions: u64,
    sectors: u64,
    workloads: &[u64],
    outside: &[u64],
    edges: &[u64],
    counts: &[u64],
    visits: &[u64],
    constraints: &[u64],
    colouring: &[u64],
    sheet: &mut [u8],
) -> Result<usize, Refusal> {
    // SAFETY: as in `read`.
    bytes_written(unsafe {
        raw::sctr_write_second(
            regions,
            sectors,
            workloads.as_ptr(),
            workloads.len(),
            outside.as_ptr(),
            outside.len(),
            edges.as_ptr(),
            edges.len(),
            counts.as_ptr(),
            counts.len(),
            visits.as_ptr(),
            visits.len(),
            constraints.as_ptr(),
            constraints.len(),
            colouring.as_ptr(),
            colouring.len(),
            sheet.as_mut_ptr(),
            sheet.len(),
        )
    })
}
