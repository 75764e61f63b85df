//! A constraint: its kind, its limit and its weight.

use crate::Relation;
use std::fmt;

/// What a constraint is about. The kinds 2 and 3 take only "at most", so they carry no relation.
#[non_exhaustive]
#[derive(Clone, Copy, Debug, PartialEq, Eq, Hash)]
pub enum Kind {
    /// Kind 1: no sector has more than one component, and the components of all sectors stand in the relation to the limit.
    Connected(Relation),
    /// Kind 2: the area of the faces between different sectors and to the outside is at most the limit.
    Border,
    /// Kind 3: how far each sector's workload, times the number of sectors, is from the whole workload is at most the limit in all.
    Balanced,
    /// Kind 4: the workload of every sector, empty ones among them, stands in the relation to the limit.
    Bounded(Relation),
    /// Kind 5: every stretch of a flight in one sector is of so many seconds.
    Dwell(Relation),
}

impl Kind {
    /// Its number, 1 to 5.
    #[must_use]
    pub const fn number(self) -> u64 {
        match self {
            Kind::Connected(_) => 1,
            Kind::Border => 2,
            Kind::Balanced => 3,
            Kind::Bounded(_) => 4,
            Kind::Dwell(_) => 5,
        }
    }

    /// Its relation, which is "at most" for the kinds 2 and 3.
    #[must_use]
    pub const fn relation(self) -> Relation {
        match self {
            Kind::Connected(relation) | Kind::Bounded(relation) | Kind::Dwell(relation) => relation,
            Kind::Border | Kind::Balanced => Relation::AtMost,
        }
    }

    fn of(number: u64, relation: Relation) -> Option<Self> {
        match (number, relation) {
            (1, _) => Some(Kind::Connected(relation)),
            (2, Relation::AtMost) => Some(Kind::Border),
            (3, Relation::AtMost) => Some(Kind::Balanced),
            (4, _) => Some(Kind::Bounded(relation)),
            (5, _) => Some(Kind::Dwell(relation)),
            _ => None,
        }
    }
}

/// The kind's name: "connected", "border", "balanced", "bounded" or "dwell time".
impl fmt::Display for Kind {
    fn fmt(&self, f: &mut fmt::Formatter<'_>) -> fmt::Result {
        f.write_str(match self {
            Kind::Connected(_) => "connected",
            Kind::Border => "border",
            Kind::Balanced => "balanced",
            Kind::Bounded(_) => "bounded",
            Kind::Dwell(_) => "dwell time",
        })
    }
}

/// A constraint on a plan. It prints as what it asks for.
///
/// ```
/// use qirfadhun::{Constraint, Kind, Relation};
///
/// let bounded = Constraint { kind: Kind::Bounded(Relation::AtMost), limit: 55, weight: 3 };
/// assert_eq!(bounded.to_string(), "the workload of every sector is at most 55");
/// ```
#[derive(Clone, Copy, Debug, PartialEq, Eq, Hash)]
pub struct Constraint {
    /// What it is about.
    pub kind: Kind,
    /// What the number it is about is held to, at most 100,000,000,000 in a plan.
    pub limit: u64,
    /// What its violation is multiplied by in the total, 1 to 1,000 in a plan.
    pub weight: u64,
}

impl Constraint {
    /// The four numbers of a constraint.
    pub(crate) fn numbers(self) -> [u64; 4] {
        [self.kind.number(), self.kind.relation().code(), self.limit, self.weight]
    }

    /// The constraint of four numbers, unless its kind or relation is none.
    pub(crate) fn of(numbers: &[u64]) -> Option<Self> {
        let &[kind, relation, limit, weight] = numbers else { return None };
        Some(Constraint { kind: Kind::of(kind, Relation::new(relation)?)?, limit, weight })
    }

    /// What its number has to be, in words.
    pub(crate) fn bound(self) -> String {
        self.kind.relation().bound(self.limit)
    }
}

impl fmt::Display for Constraint {
    fn fmt(&self, f: &mut fmt::Formatter<'_>) -> fmt::Result {
        let bound = self.bound();
        match self.kind {
            Kind::Connected(_) => {
                write!(f, "no sector has more than one component, and the components are {bound} in all")
            }
            Kind::Border => write!(f, "the area of the faces between different sectors and to the outside is {bound} in all"),
            Kind::Balanced => write!(
                f,
                "how far the workload of each sector is from the average, times the number of sectors, is {bound} in all"
            ),
            Kind::Bounded(_) => write!(f, "the workload of every sector is {bound}"),
            Kind::Dwell(_) => write!(f, "every stretch of a flight in one sector is {bound} seconds"),
        }
    }
}
