//! The two forms of a sheet.

/// Which of the two sheets a plan is stored in. A sheet is converted by reading it and writing it in the other form; either round
/// trip gives the same bytes.
///
/// ```
/// use qirfadhun::{Board, Form};
///
/// let first = std::fs::read("../sheets/a.sheet")?;
/// let second = Board::read(&first)?.write(Form::Second)?;
/// assert_eq!((Form::of(&first), Form::of(&second)), (Form::First, Form::Second));
/// assert!(Board::read(&second)?.write(Form::First)? == first);
/// # Ok::<(), Box<dyn std::error::Error>>(())
/// ```
#[derive(Clone, Copy, Debug, PartialEq, Eq, Hash)]
pub enum Form {
    /// With the letters SCTR in every block: no outside areas, no flights, and constraints of the kinds 1 to 4 only.
    First,
    /// With the letters SCT2 in every block: a whole plan.
    Second,
}

impl Form {
    /// The form whose rules a sheet is held to, by its first four letters: SCT2 is a second sheet, anything else a first.
    #[must_use]
    pub fn of(sheet: &[u8]) -> Self {
        if sheet.starts_with(b"SCT2") {
            Form::Second
        } else {
            Form::First
        }
    }
}
