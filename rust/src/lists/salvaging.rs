//! A sound sheet from one whose colouring is damaged.

use super::{raw, unless_refused};
use crate::Refusal;

/// Writes a sound sheet at the start of the lent bytes from either sheet, where no block but the colouring's is refused, and
/// answers how many regions are lost. They stand at the start of the lent list, in increasing order. What lies beyond stays as it
/// was. The salvaged sheet has as many bytes as the sheet, and a list of [`MOST_REGIONS`](crate::limits::MOST_REGIONS) is always
/// long enough.
///
/// A region is lost where the block that has its sector fails by any of 32 to 36, or where its sector is not in 1..S. It is given
/// the sector of its lowest-numbered neighbour, by the edges, whose sector survived, or sector 1 where there is none: a guess, not
/// what was drawn. Nothing else changes: a sheet that [`read`](super::read) takes comes out byte for byte, with no region lost.
///
/// ```
/// let sheet = std::fs::read("../sheets/grid-512.sheet")?;
/// let mut spoiled = sheet.clone();
/// let last = spoiled.chunks(512).rposition(|block| block[4] == 5).unwrap(); // the colouring's second block
/// spoiled[512 * last + 10] ^= 1;
///
/// let (mut salvaged, mut list) = (vec![0; spoiled.len()], [0; qirfadhun::limits::MOST_REGIONS]);
/// let lost = qirfadhun::lists::salvage(&spoiled, &mut salvaged, &mut list)?;
/// assert!(list[..lost].iter().copied().eq(501..=512)); // the first block has 500 regions
/// assert!(qirfadhun::lists::Sheet::new(&salvaged).is_ok());
///
/// assert_eq!(qirfadhun::lists::salvage(&sheet, &mut salvaged, &mut [])?, 0);
/// assert!(salvaged == sheet);
///
/// let refusal = qirfadhun::lists::salvage(&spoiled, &mut salvaged, &mut [0; 11]).unwrap_err();
/// assert_eq!((refusal.code, refusal.place), (17, 0)); // the list has no room for twelve regions
/// # Ok::<(), Box<dyn std::error::Error>>(())
/// ```
///
/// # Errors
///
/// 31 to 38 for whatever else is wrong with the sheet, then 40 and 17; then no lent memory has changed.
pub fn salvage(sheet: &[u8], salvaged: &mut [u8], list: &mut [u64]) -> Result<usize, Refusal> {
    // SAFETY: each pointer and length is that of one slice, and Rust keeps those that are written apart from all others.
    let answer = unsafe {
        raw::sctr_salvage(sheet.as_ptr(), sheet.len(), salvaged.as_mut_ptr(), salvaged.len(), list.as_mut_ptr(), list.len())
    };
    unless_refused(answer.code, answer.place, answer.lost as usize)
}
