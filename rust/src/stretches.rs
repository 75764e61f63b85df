//! The stretches of the flights under a colouring.

use crate::{Colouring, Flight, Plan, Sector};
use std::fmt;

/// A largest unbroken run of one flight's visits in one sector.
#[derive(Clone, Copy, Debug, PartialEq, Eq, Hash)]
pub struct Stretch {
    /// The flight.
    pub flight: Flight,
    /// The sector that it is in all the while.
    pub sector: Sector,
    /// The number of the first of its visits, from 1.
    pub first_visit: u64,
    /// The number of the last of them.
    pub last_visit: u64,
    /// How long it lasts.
    pub seconds: u64,
}

/// As "flight 2, visits 1 to 3, is 45 seconds in sector 2".
impl fmt::Display for Stretch {
    fn fmt(&self, f: &mut fmt::Formatter<'_>) -> fmt::Result {
        let Stretch { flight, sector, first_visit, last_visit, seconds } = self;
        write!(f, "flight {flight}, visit")?;
        if first_visit != last_visit {
            write!(f, "s {first_visit} to")?;
        }
        write!(f, " {last_visit}, is {seconds} seconds in sector {sector}")
    }
}

/// The stretches of all flights, in the order in which they are flown.
pub fn of(plan: &Plan, colouring: &Colouring) -> Vec<Stretch> {
    let mut stretches: Vec<Stretch> = Vec::new();
    for (flight, visits) in plan.flights() {
        for (visit, (region, seconds)) in (1..).zip(visits) {
            let Some(sector) = colouring.sector_of(region) else { continue };
            match stretches.last_mut() {
                Some(last) if last.flight == flight && last.sector == sector => {
                    last.last_visit = visit;
                    last.seconds += seconds.0;
                }
                _ => stretches.push(Stretch { flight, sector, first_visit: visit, last_visit: visit, seconds: seconds.0 }),
            }
        }
    }
    stretches
}
