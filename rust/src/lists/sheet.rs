//! A sheet asked by its bytes alone.

use super::raw;
use crate::Refusal;

/// The bytes of either sheet, not refused, to be asked for its verdicts. Each question reads the bytes anew. The plan in a second
/// sheet is judged with its outside areas and flights, the one in a first sheet without.
///
/// Constraints are known by their place in the list, from 1; a place outside it has no answer. A constraint holds exactly when its
/// violation is 0. [`Board::read`](crate::Board::read) has the verdicts as values, each with its own constraint.
///
/// ```
/// use qirfadhun::lists::Sheet;
///
/// let mut bytes = std::fs::read("../sheets/a.sheet")?;
/// let sheet = Sheet::new(&bytes)?;
/// assert_eq!((sheet.constraints(), sheet.total()), (4, 15));
/// assert_eq!((sheet.holds(1), sheet.violation(1)), (Some(true), Some(0)));
/// assert_eq!((sheet.holds(4), sheet.violation(4)), (Some(false), Some(5)));
/// assert_eq!((sheet.holds(0), sheet.violation(5)), (None, None)); // the first is 1, and there is no fifth constraint
///
/// bytes[1030] = 9;
/// let refusal = Sheet::new(&bytes).unwrap_err();
/// assert_eq!((refusal.code, refusal.place), (33, 2)); // the check of block 2
///
/// let flown = std::fs::read("../sheets/flights.sheet")?;
/// let sheet = Sheet::new(&flown)?;
/// assert_eq!((sheet.violation(2), sheet.violation(5), sheet.total()), (Some(8), Some(15), 53));
/// # Ok::<(), Box<dyn std::error::Error>>(())
/// ```
#[derive(Clone, Copy, Debug, PartialEq, Eq)]
pub struct Sheet<'a> {
    bytes: &'a [u8],
}

impl<'a> Sheet<'a> {
    /// The sheet with these bytes.
    ///
    /// # Errors
    ///
    /// 31 to 38, as reading it into lists with enough room.
    pub fn new(bytes: &'a [u8]) -> Result<Self, Refusal> {
        // SAFETY: the pointer and the length are those of one slice.
        match unsafe { raw::sctr_code(bytes.as_ptr(), bytes.len()) } {
            0 => Ok(Sheet { bytes }),
            // SAFETY: as above.
            code => Err(Refusal { code, place: unsafe { raw::sctr_place(bytes.as_ptr(), bytes.len()) } }),
        }
    }

    /// The sum of weight times violation over all constraints.
    #[must_use]
    pub fn total(&self) -> u64 {
        // SAFETY: as in `new`.
        unsafe { raw::sctr_total(self.bytes.as_ptr(), self.bytes.len()) }
    }

    /// How many constraints the sheet has.
    #[must_use]
    pub fn constraints(&self) -> u64 {
        // SAFETY: as in `new`.
        unsafe { raw::sctr_constraints(self.bytes.as_ptr(), self.bytes.len()) }
    }

    /// Whether the constraint at this place, from 1, holds; `None` for a place outside the list.
    #[must_use]
    pub fn holds(&self, place: u64) -> Option<bool> {
        // SAFETY: as in `new`.
        self.has(place).then(|| unsafe { raw::sctr_holds(self.bytes.as_ptr(), self.bytes.len(), place) == 1 })
    }

    /// The violation of the constraint at this place, from 1; `None` for a place outside the list.
    #[must_use]
    pub fn violation(&self, place: u64) -> Option<u64> {
        // SAFETY: as in `new`.
        self.has(place).then(|| unsafe { raw::sctr_violation(self.bytes.as_ptr(), self.bytes.len(), place) })
    }

    /// Whether there is a constraint at this place.
    fn has(&self, place: u64) -> bool {
        (1..=self.constraints()).contains(&place)
    }
}
