//! Why a constraint is broken, in parts that are held to the proved violation.

use crate::stretches::Stretch;
use crate::{Board, Constraint, Kind, Place, Sector, Side};
use std::fmt;
use std::marker::PhantomData;

/// One reason why a constraint is broken. It has the constraint and its place with it, and only a
/// [`Verdict`](crate::Verdict) makes one. It doesn't outlive the colouring that it speaks of; its text does:
///
/// ```compile_fail
/// # use qirfadhun::{Board, Change};
/// # fn after(board: &mut Board, change: Change) -> Result<(), Box<dyn std::error::Error>> {
/// let reasons = board.verdicts().next().unwrap().reasons()?;
/// board.make(change)?;
/// println!("{}", reasons[0]);
/// # Ok(())
/// # }
/// ```
#[derive(Clone, Copy, Debug, PartialEq, Eq, Hash)]
pub struct Reason<'b> {
    place: Place,
    constraint: Constraint,
    cause: Cause,
    part: u64,
    board: PhantomData<&'b Board>,
}

/// What a reason is about.
#[non_exhaustive]
#[derive(Clone, Copy, Debug, PartialEq, Eq, Hash)]
pub enum Cause {
    /// Kind 1: there are so many components in all, which don't stand in the relation to the limit.
    Components {
        /// How many there are.
        found: u64,
    },
    /// Kind 1: a sector has more than one component.
    Split {
        /// The sector.
        sector: Sector,
        /// How many it has.
        components: u64,
    },
    /// Kind 2: the border is above the limit.
    Border {
        /// The area of the faces between different sectors.
        between: u64,
        /// The area of the faces to the outside.
        outside: u64,
    },
    /// Kind 3: the deviation is above the limit.
    Deviation {
        /// D: how far each sector's workload, times the number of sectors, is from the whole workload, in all.
        found: u64,
    },
    /// Kind 4: the workload of a sector doesn't stand in the relation to the limit.
    Workload {
        /// The sector.
        sector: Sector,
        /// Its workload.
        found: u64,
        /// Whether that is too much or too little.
        side: Side,
    },
    /// Kind 5: a stretch of a flight doesn't stand in the relation to the limit.
    Stretch {
        /// The stretch.
        stretch: Stretch,
        /// Whether it is too long or too short.
        side: Side,
    },
}

impl Reason<'_> {
    /// The place of the constraint in its plan's list.
    #[must_use]
    pub fn place(&self) -> Place {
        self.place
    }

    /// The constraint that is broken.
    #[must_use]
    pub fn constraint(&self) -> Constraint {
        self.constraint
    }

    /// What is off.
    #[must_use]
    pub fn cause(&self) -> Cause {
        self.cause
    }

    /// Its part of the violation.
    #[must_use]
    pub fn part(&self) -> u64 {
        self.part
    }
}

/// As "Constraint 4: sector 1 has workload 60, 5 too much."
impl fmt::Display for Reason<'_> {
    fn fmt(&self, f: &mut fmt::Formatter<'_>) -> fmt::Result {
        let Reason { place, constraint, cause, part, .. } = self;
        let limit = constraint.limit;
        write!(f, "Constraint {place}: ")?;
        match cause {
            Cause::Components { found } => {
                write!(f, "there are {found} components in all, and {} is asked for.", constraint.bound())
            }
            Cause::Split { sector, components } => write!(f, "sector {sector} has {components} components, {part} too many."),
            Cause::Border { between, outside } => {
                write!(f, "the border is {between} between sectors and {outside} to the outside, in all {part} above {limit}.")
            }
            Cause::Deviation { found } => write!(f, "the deviation is {found}, {part} above {limit}."),
            Cause::Workload { sector, found, side } => match side {
                Side::Over => write!(f, "sector {sector} has workload {found}, {part} too much."),
                Side::Under => write!(f, "sector {sector} has workload {found}, {part} too little."),
                Side::Neither => write!(f, "sector {sector} has workload {found}, just what it may not have."),
            },
            Cause::Stretch { stretch, side } => match side {
                Side::Over => write!(f, "{stretch}, {part} too many."),
                Side::Under => write!(f, "{stretch}, {part} too few."),
                Side::Neither => write!(f, "{stretch}, just as many as it may not be."),
            },
        }
    }
}

/// The reasons of a constraint don't add up to its proved violation, so none is given.
#[derive(Clone, Copy, Debug, PartialEq, Eq)]
pub struct Unexplained {
    place: Place,
    violation: u64,
    explained: Option<u64>,
}

impl Unexplained {
    /// The place of the constraint in its plan's list.
    #[must_use]
    pub fn place(&self) -> Place {
        self.place
    }

    /// The violation that is proved.
    #[must_use]
    pub fn violation(&self) -> u64 {
        self.violation
    }

    /// What the reasons come to, or `None` where there is no such sum.
    #[must_use]
    pub fn explained(&self) -> Option<u64> {
        self.explained
    }
}

impl fmt::Display for Unexplained {
    fn fmt(&self, f: &mut fmt::Formatter<'_>) -> fmt::Result {
        let Unexplained { place, violation, .. } = self;
        write!(f, "the violation of constraint {place} is {violation}, and its reasons don't add up to it")
    }
}

impl std::error::Error for Unexplained {}

/// What is off, with its part of the violation.
type Part = (Cause, u64);

/// The reasons of a constraint on a board, held to its violation.
pub fn reasons(board: &Board, place: Place, constraint: Constraint, violation: u64) -> Result<Vec<Reason<'_>>, Unexplained> {
    let parts = match constraint.kind {
        Kind::Connected(_) => Some(connected(board, constraint)),
        Kind::Border => border(board, constraint),
        Kind::Balanced => Some(balanced(board, constraint)),
        Kind::Bounded(_) => Some(bounded(board, constraint)),
        Kind::Dwell(_) => Some(dwell(board, constraint)),
    };
    let parts: Option<Vec<Part>> = parts.map(|parts| parts.into_iter().filter(|&(_, part)| part > 0).collect());
    held(place, violation, parts.as_deref())?;
    let reason = |(cause, part)| Reason { place, constraint, cause, part, board: PhantomData };
    Ok(parts.unwrap_or_default().into_iter().map(reason).collect())
}

/// Holds the parts to the violation.
fn held(place: Place, violation: u64, parts: Option<&[Part]>) -> Result<(), Unexplained> {
    let explained = parts.and_then(|parts| parts.iter().try_fold(0u64, |sum, &(_, part)| sum.checked_add(part)));
    if explained == Some(violation) {
        Ok(())
    } else {
        Err(Unexplained { place, violation, explained })
    }
}

fn connected(board: &Board, constraint: Constraint) -> Vec<Part> {
    let counts = board.sectors().map(|figures| (figures.sector(), figures.component_count()));
    let found = counts.clone().fold(0, |sum: u64, (_, components)| sum.saturating_add(components));
    let (distance, _) = constraint.kind.relation().distance(found, constraint.limit);
    let in_all = (Cause::Components { found }, u64::from(distance > 0));
    let split = counts.map(|(sector, components)| (Cause::Split { sector, components }, components.saturating_sub(1)));
    std::iter::once(in_all).chain(split).collect()
}

/// `None` where the faces to the outside are more than all border.
fn border(board: &Board, constraint: Constraint) -> Option<Vec<Part>> {
    let outside = board.plan().lists().outside.iter().fold(0, |sum: u64, &area| sum.saturating_add(area));
    let between = board.border().checked_sub(outside)?;
    Some(vec![(Cause::Border { between, outside }, board.border().saturating_sub(constraint.limit))])
}

fn balanced(board: &Board, constraint: Constraint) -> Vec<Part> {
    let sectors = board.plan().lists().sectors;
    let workloads = board.sectors().map(|figures| figures.workload());
    let whole = workloads.clone().fold(0, u64::saturating_add);
    let off = workloads.map(|workload| sectors.saturating_mul(workload).abs_diff(whole));
    let found = off.fold(0, u64::saturating_add);
    vec![(Cause::Deviation { found }, found.saturating_sub(constraint.limit))]
}

fn bounded(board: &Board, constraint: Constraint) -> Vec<Part> {
    let part = |sector: Sector, found: u64| {
        let (part, side) = constraint.kind.relation().distance(found, constraint.limit);
        (Cause::Workload { sector, found, side }, part)
    };
    board.sectors().map(|figures| part(figures.sector(), figures.workload())).collect()
}

fn dwell(board: &Board, constraint: Constraint) -> Vec<Part> {
    let part = |stretch: Stretch| {
        let (part, side) = constraint.kind.relation().distance(stretch.seconds, constraint.limit);
        (Cause::Stretch { stretch, side }, part)
    };
    board.stretches().into_iter().map(part).collect()
}

#[cfg(test)]
mod tests {
    use super::*;

    /// Parts that come to another number than the proved one are not passed on.
    #[test]
    fn parts_that_do_not_add_up() {
        let place = Place::checked(4);
        let parts = |parts: &[u64]| parts.iter().map(|&part| (Cause::Deviation { found: 9 }, part)).collect::<Vec<Part>>();
        assert_eq!(held(place, 5, Some(&parts(&[2, 3]))), Ok(()));
        assert_eq!(held(place, 0, Some(&[])), Ok(()));
        for (wrong, explained) in [(&[2, 2][..], Some(4)), (&[2, 4], Some(6)), (&[], Some(0)), (&[u64::MAX, 6], None)] {
            let unexplained = held(place, 5, Some(&parts(wrong))).unwrap_err();
            assert_eq!((unexplained.place(), unexplained.violation(), unexplained.explained()), (place, 5, explained));
            assert_eq!(unexplained.to_string(), "the violation of constraint 4 is 5, and its reasons don't add up to it");
        }
        assert!(held(place, 0, None).is_err());
    }
}
