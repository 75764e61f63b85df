//! A colouring: the sector of each region.

use crate::limits::MOST_REGIONS;
use crate::{Region, Sector};

/// The sector of each region, from region 1 on.
///
/// It is made of sectors, by [`Plan::colouring`](crate::Plan::colouring) of numbers, read of a sheet, or taken off a
/// [`Board`](crate::Board). Whether it is one of a plan is checked where it is handed to that plan.
///
/// ```
/// use qirfadhun::{Colouring, Region, Sector};
///
/// let [one, two] = [1, 2].map(|number| Sector::new(number).unwrap());
/// let colouring: Colouring = [one, one, two].into_iter().collect();
/// assert_eq!(colouring.len(), 3);
/// assert_eq!(colouring.sector_of(Region::new(3).unwrap()), Some(two));
/// assert_eq!(colouring.sector_of(Region::new(4).unwrap()), None);
/// ```
#[derive(Clone, Debug, PartialEq, Eq, Hash)]
pub struct Colouring {
    /// As the library takes them; each is a sector's number.
    pub(crate) sectors: Vec<u64>,
}

impl Colouring {
    /// The sector of a region, or `None` where the colouring ends before it.
    #[must_use]
    pub fn sector_of(&self, region: Region) -> Option<Sector> {
        self.sectors.get(region.index()).map(|&sector| Sector::checked(sector))
    }

    /// Each region with its sector.
    pub fn iter(&self) -> impl Iterator<Item = (Region, Sector)> + '_ {
        Region::up_to(MOST_REGIONS as u64).zip(self.sectors.iter().map(|&sector| Sector::checked(sector)))
    }

    /// How many regions have a sector.
    #[must_use]
    pub fn len(&self) -> usize {
        self.sectors.len()
    }

    /// Whether no region has one.
    #[must_use]
    pub fn is_empty(&self) -> bool {
        self.sectors.is_empty()
    }
}

/// Of more sectors than a plan can have regions, one more than these is taken: no plan takes such a colouring.
impl FromIterator<Sector> for Colouring {
    fn from_iter<I: IntoIterator<Item = Sector>>(sectors: I) -> Self {
        Colouring { sectors: sectors.into_iter().take(MOST_REGIONS + 1).map(Sector::get).collect() }
    }
}
