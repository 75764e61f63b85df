//! The verdict on a constraint, which can't be parted from it.

use crate::board::{Board, VERDICT};
use crate::reason::{self, Reason, Unexplained};
use crate::{Constraint, Place};
use std::fmt;

/// The verdict on one constraint. It has the constraint and its place with it, prints with them, and only a [`Board`] makes one:
/// to put it beside another's text, a program would have to take it apart.
///
/// ```
/// use qirfadhun::{Board, Place};
///
/// let board = Board::read(&std::fs::read("../sheets/a.sheet")?)?;
/// let fourth = Place::new(4).and_then(|place| board.verdict(place)).unwrap();
/// assert_eq!((fourth.holds(), fourth.violation()), (false, 5));
/// assert_eq!(fourth.to_string(), "Constraint 4, bounded: the workload of every sector is at most 55. Broken: 5, times weight 3.");
/// let reasons: Vec<_> = fourth.reasons()?.iter().map(|reason| reason.to_string()).collect();
/// assert_eq!(reasons, ["Constraint 4: sector 1 has workload 60, 5 too much."]);
///
/// assert!(Place::new(5).and_then(|place| board.verdict(place)).is_none()); // there is no fifth constraint
/// # Ok::<(), Box<dyn std::error::Error>>(())
/// ```
///
/// A number can't stand for a place, so that verdicts are not gone through by number beside a list of texts:
///
/// ```compile_fail
/// let board = qirfadhun::Board::read(&std::fs::read("../sheets/a.sheet").unwrap()).unwrap();
/// let texts = ["connected", "border", "balanced", "each workload at most 55"];
/// for place in 0..board.verdicts().len() { println!("{}: holds {}", texts[place], board.verdict(place).holds()); }
/// ```
///
/// No verdict is put together from another's parts:
///
/// ```compile_fail
/// # use qirfadhun::{Constraint, Verdict};
/// # fn mixed<'b>(one: Verdict<'b>, other: Constraint) -> Verdict<'b> {
/// Verdict { constraint: other, ..one }
/// # }
/// ```
///
/// A verdict doesn't outlive its colouring:
///
/// ```compile_fail
/// # use qirfadhun::{Board, Change};
/// # fn after(board: &mut Board, change: Change) {
/// let first = board.verdicts().next().unwrap();
/// board.make(change).unwrap();
/// println!("{first}");
/// # }
/// ```
#[derive(Clone, Copy)]
pub struct Verdict<'b> {
    board: &'b Board,
    place: Place,
    constraint: Constraint,
    holds: bool,
    violation: u64,
}

impl<'b> Verdict<'b> {
    pub(crate) fn new(board: &'b Board, place: Place, constraint: Constraint, numbers: &[u64; VERDICT]) -> Self {
        Verdict { board, place, constraint, holds: numbers[0] == 1, violation: numbers[1] }
    }

    /// The place of the constraint in its plan's list.
    #[must_use]
    pub fn place(&self) -> Place {
        self.place
    }

    /// The constraint.
    #[must_use]
    pub fn constraint(&self) -> Constraint {
        self.constraint
    }

    /// Whether it holds, which is exactly when its violation is 0.
    #[must_use]
    pub fn holds(&self) -> bool {
        self.holds
    }

    /// By how much it is broken. In the total it counts as often as its weight says.
    #[must_use]
    pub fn violation(&self) -> u64 {
        self.violation
    }

    /// Why it is broken: which sectors, stretches or sums are off, and by how much each. The parts add up to the violation. Where
    /// it holds, there are none. Those on sectors come in the order of the sectors' numbers, those on stretches as they are flown.
    ///
    /// # Errors
    ///
    /// [`Unexplained`], where the parts would not add up to the proved violation. With the archive that this crate is made for it
    /// never happens.
    pub fn reasons(&self) -> Result<Vec<Reason<'b>>, Unexplained> {
        reason::reasons(self.board, self.place, self.constraint, self.violation)
    }
}

/// As "Constraint 2, border: the area .. is at most 5 in all. Holds.", or "Broken: 8, times weight 1."
impl fmt::Display for Verdict<'_> {
    fn fmt(&self, f: &mut fmt::Formatter<'_>) -> fmt::Result {
        let Verdict { place, constraint, violation, .. } = self;
        write!(f, "Constraint {place}, {}: {constraint}. ", constraint.kind)?;
        if self.holds {
            f.write_str("Holds.")
        } else {
            write!(f, "Broken: {violation}, times weight {}.", constraint.weight)
        }
    }
}

impl fmt::Debug for Verdict<'_> {
    fn fmt(&self, f: &mut fmt::Formatter<'_>) -> fmt::Result {
        let Verdict { place, constraint, holds, violation, .. } = self;
        f.debug_struct("Verdict")
            .field("place", place)
            .field("constraint", constraint)
            .field("holds", holds)
            .field("violation", violation)
            .finish()
    }
}
