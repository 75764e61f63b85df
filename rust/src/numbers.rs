//! The numbers of a plan, each of a type of its own: none can stand where another is wanted.

use crate::limits::{MOST_CONSTRAINTS, MOST_FLIGHTS, MOST_REGIONS, MOST_SECTORS};
use std::fmt;

/// Numbers from 1 that name something.
macro_rules! names {
    ($($(#[$meta:meta])* $name:ident($number:ty) to $most:expr;)*) => {
        $(
            $(#[$meta])*
            #[derive(Clone, Copy, Debug, PartialEq, Eq, PartialOrd, Ord, Hash)]
            pub struct $name($number);

            #[allow(dead_code)] // each has them all
            impl $name {
                /// The one with this number, or `None` where no plan has it.
                #[must_use]
                pub const fn new(number: u64) -> Option<Self> {
                    if number >= 1 && number <= $most as u64 {
                        Some($name(number as $number))
                    } else {
                        None
                    }
                }

                /// Its number, from 1.
                #[must_use]
                pub const fn get(self) -> u64 {
                    self.0 as u64
                }

                /// The one with this number, which the library has checked.
                pub(crate) const fn checked(number: u64) -> Self {
                    $name(number as $number)
                }

                /// Those from 1 to a number that the library has checked.
                pub(crate) fn up_to(last: u64) -> impl ExactSizeIterator<Item = Self> + DoubleEndedIterator + Clone {
                    (1..=last as $number).map($name)
                }

                /// Where its own stands in a list, from 0.
                pub(crate) const fn index(self) -> usize {
                    (self.0 as usize).wrapping_sub(1)
                }
            }

            impl fmt::Display for $name {
                fn fmt(&self, f: &mut fmt::Formatter<'_>) -> fmt::Result {
                    self.0.fmt(f)
                }
            }
        )*
    };
}

names! {
    /// A region, by its number from 1 to 512.
    ///
    /// ```
    /// use qirfadhun::Region;
    ///
    /// assert_eq!(Region::new(512).map(Region::get), Some(512));
    /// assert_eq!((Region::new(0), Region::new(513)), (None, None));
    /// ```
    ///
    /// A region can't stand where a sector is wanted:
    ///
    /// ```compile_fail
    /// use qirfadhun::{Change, Region, Sector};
    ///
    /// let (region, sector) = (Region::new(2).unwrap(), Sector::new(1).unwrap());
    /// let change = Change::Give(sector, region);
    /// ```
    Region(u16) to MOST_REGIONS;

    /// A sector, by its number from 1 to 64.
    ///
    /// No total, verdict, label or row's number depends on how sectors are numbered: two offices that number them differently
    /// get the same, and translate only what has a sector in it (`docs/PROMISES.md`, its last section).
    Sector(u16) to MOST_SECTORS;

    /// The place of a constraint in its plan's list, from 1 to 16.
    Place(u8) to MOST_CONSTRAINTS;

    /// A flight, by its number from 1 to 64.
    Flight(u8) to MOST_FLIGHTS;
}

/// Numbers that measure something.
macro_rules! measures {
    ($($(#[$meta:meta])* $name:ident;)*) => {
        $(
            $(#[$meta])*
            #[derive(Clone, Copy, Debug, Default, PartialEq, Eq, PartialOrd, Ord, Hash)]
            pub struct $name(pub u64);

            impl fmt::Display for $name {
                fn fmt(&self, f: &mut fmt::Formatter<'_>) -> fmt::Result {
                    self.0.fmt(f)
                }
            }
        )*
    };
}

measures! {
    /// The workload of a region, at most 1,000,000 in a plan.
    Workload;

    /// The area of a face, at most 1,000,000 in a plan; that of an edge is at least 1.
    Area;

    /// How long a flight stays in a region, 1 to 86,400 seconds in a plan.
    Seconds;
}
