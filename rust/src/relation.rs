//! The six relations, how far a number is from standing in one to a limit, and on which side.

/// How a number has to stand to its limit. The codes are fixed, and the same in every language.
///
/// ```
/// use qirfadhun::Relation;
///
/// assert_eq!(Relation::new(6), Some(Relation::AtLeast));
/// assert_eq!((Relation::new(0), Relation::new(7)), (None, None));
/// assert_eq!(Relation::AnythingBut.code(), 4);
/// ```
#[derive(Clone, Copy, Debug, PartialEq, Eq, PartialOrd, Ord, Hash)]
pub enum Relation {
    /// At most the limit.
    AtMost = 1,
    /// Below the limit.
    Below = 2,
    /// Exactly the limit.
    Exactly = 3,
    /// Anything but the limit.
    AnythingBut = 4,
    /// Above the limit.
    Above = 5,
    /// At least the limit.
    AtLeast = 6,
}

/// Whether a number has to fall or to rise to stand in its relation.
#[derive(Clone, Copy, Debug, PartialEq, Eq, Hash)]
pub enum Side {
    /// It has to fall.
    Over,
    /// It has to rise.
    Under,
    /// It stands in its relation, or may be anything but what it is.
    Neither,
}

impl Relation {
    /// All six, by their codes.
    pub const ALL: [Relation; 6] =
        [Relation::AtMost, Relation::Below, Relation::Exactly, Relation::AnythingBut, Relation::Above, Relation::AtLeast];

    /// The relation with this code, 1 to 6.
    #[must_use]
    pub const fn new(code: u64) -> Option<Self> {
        match code {
            1 => Some(Relation::AtMost),
            2 => Some(Relation::Below),
            3 => Some(Relation::Exactly),
            4 => Some(Relation::AnythingBut),
            5 => Some(Relation::Above),
            6 => Some(Relation::AtLeast),
            _ => None,
        }
    }

    /// Its code, 1 to 6.
    #[must_use]
    pub const fn code(self) -> u64 {
        self as u64
    }

    /// What is asked for, in words.
    pub(crate) fn bound(self, limit: u64) -> String {
        match self {
            Relation::AtMost => format!("at most {limit}"),
            Relation::Below => format!("below {limit}"),
            Relation::Exactly => format!("exactly {limit}"),
            Relation::AnythingBut => format!("anything but {limit}"),
            Relation::Above => format!("above {limit}"),
            Relation::AtLeast => format!("at least {limit}"),
        }
    }

    /// The distance of a number from its limit, and the side.
    pub(crate) fn distance(self, found: u64, limit: u64) -> (u64, Side) {
        let (distance, side) = match self {
            Relation::AtMost => (found.saturating_sub(limit), Side::Over),
            Relation::Below => (found.saturating_add(1).saturating_sub(limit), Side::Over),
            Relation::Exactly => (found.abs_diff(limit), if found > limit { Side::Over } else { Side::Under }),
            Relation::AnythingBut => (u64::from(found == limit), Side::Neither),
            Relation::Above => (limit.saturating_add(1).saturating_sub(found), Side::Under),
            Relation::AtLeast => (limit.saturating_sub(found), Side::Under),
        };
        (distance, if distance == 0 { Side::Neither } else { side })
    }
}
