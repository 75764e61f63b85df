//! A sheet of one form into a sheet of the other.

use super::{raw, storing::bytes_written};
use crate::Refusal;

/// Converts a first sheet to a second one at the start of the lent bytes, with zeros as outside areas and without flights, and
/// answers how many bytes that has. What lies beyond stays as it was. A sheet with other letters is refused by code 32.
///
/// ```
/// let first = std::fs::read("../sheets/a.sheet")?;
/// let mut lent = [0; qirfadhun::limits::MOST_SECOND_BYTES];
/// let bytes = qirfadhun::lists::to_second(&first, &mut lent)?;
/// assert_eq!((first.len(), bytes), (5 * 512, 6 * 512)); // with a block of outside areas
/// assert_eq!(qirfadhun::lists::Sheet::new(&lent[..bytes])?.total(), 15);
///
/// let refusal = qirfadhun::lists::to_second(&lent[..bytes], &mut [0; 6 * 512]).unwrap_err();
/// assert_eq!((refusal.code, refusal.place), (32, 0)); // it is a second sheet already
/// # Ok::<(), Box<dyn std::error::Error>>(())
/// ```
///
/// # Errors
///
/// 31 to 38, then 40; then no lent memory has changed.
pub fn to_second(sheet: &[u8], converted: &mut [u8]) -> Result<usize, Refusal> {
    // SAFETY: either pointer and length is that of one slice, and Rust keeps the one that is written apart from the other.
    bytes_written(unsafe { raw::sctr_to_second(sheet.as_ptr(), sheet.len(), converted.as_mut_ptr(), converted.len()) })
}

/// Converts a second sheet back to a first one, as [`to_second`] does the other way. A plan that a first sheet can't hold is
/// refused by code 41: one with an outside area other than 0, with a flight, or with a constraint of kind 5.
///
/// ```
/// let first = std::fs::read("../sheets/a.sheet")?;
/// let mut second = [0; 6 * 512];
/// qirfadhun::lists::to_second(&first, &mut second)?;
/// let mut back = [0; 5 * 512];
/// assert_eq!(qirfadhun::lists::to_first(&second, &mut back)?, back.len());
/// assert!(back[..] == first[..]);
///
/// let flown = std::fs::read("../sheets/flights.sheet")?;
/// let refusal = qirfadhun::lists::to_first(&flown, &mut back).unwrap_err();
/// assert_eq!((refusal.code, refusal.place), (41, 0));
/// # Ok::<(), Box<dyn std::error::Error>>(())
/// ```
///
/// # Errors
///
/// 31 to 38, then 40 and 41; then no lent memory has changed.
pub fn to_first(sheet: &[u8], converted: &mut [u8]) -> Result<usize, Refusal> {
    // SAFETY: as in `to_second`.
    bytes_written(unsafe { raw::sctr_to_first(sheet.as_ptr(), sheet.len(), converted.as_mut_ptr(), converted.len()) })
}
