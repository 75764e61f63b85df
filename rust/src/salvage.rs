//! What is salvaged of a sheet whose colouring is damaged, with what each lost region was given and why.

use crate::limits::{MOST_REGIONS, MOST_SECOND_BYTES};
use crate::{lists, Colouring, Plan, Refusal, Region, Sector};
use std::fmt;

/// A sound sheet from one whose colouring is damaged: a region whose sector is lost is given that of its lowest-numbered neighbour,
/// by the edges, whose sector survived, or sector 1 where there is none. That is a guess, not what was drawn: show it to whoever drew
/// it. Nothing else changes. What survived is what a sound block of the colouring has, where that is a sector of the plan. A salvaged
/// sheet is not marked as one.
///
/// ```
/// let mut sheet = std::fs::read("../sheets/grid-512.sheet")?;
/// let last = sheet.len() - 502;
/// sheet[last] ^= 1; // in the second block of the colouring, which begins with region 501
/// assert_eq!(qirfadhun::Plan::read(&sheet).unwrap_err().code, 33);
///
/// let salvage = qirfadhun::salvage(&sheet)?;
/// let lost = salvage.lost()?;
/// assert!(lost.iter().map(|lost| lost.region().get()).eq(501..=512));
/// assert_eq!(
///     lost[0].to_string(),
///     "Region 501 is in sector 9 now, as region 50 is, its lowest-numbered neighbour whose sector survived."
/// );
/// let board = qirfadhun::Board::read(salvage.bytes())?; // a sheet like any other
/// # assert_eq!(board.colouring(), salvage.colouring());
/// # Ok::<(), Box<dyn std::error::Error>>(())
/// ```
///
/// # Errors
///
/// 31 to 38, as in reading, for whatever is wrong with the sheet besides its colouring.
pub fn salvage(sheet: &[u8]) -> Result<Salvage, Refusal> {
    // A sheet that is longer is refused for that, before room is looked at.
    let mut bytes = vec![0; sheet.len().min(MOST_SECOND_BYTES)];
    let mut list = [0; MOST_REGIONS];
    let count = lists::salvage(sheet, &mut bytes, &mut list)?;
    let (plan, colouring) = Plan::read(&bytes)?;
    let lost = list.iter().take(count).map(|&number| Region::checked(number)).collect();
    Ok(Salvage { bytes, plan, colouring, lost })
}

/// What [`salvage`](fn@salvage) makes of a sheet: a sound one, and the regions whose sectors were lost.
#[derive(Clone, Debug, PartialEq, Eq)]
pub struct Salvage {
    bytes: Vec<u8>,
    plan: Plan,
    colouring: Colouring,
    lost: Vec<Region>,
}

impl Salvage {
    /// The sound sheet, in the form that it had.
    #[must_use]
    pub fn bytes(&self) -> &[u8] {
        &self.bytes
    }

    /// The plan in it.
    #[must_use]
    pub fn plan(&self) -> &Plan {
        &self.plan
    }

    /// The colouring in it, where each lost region has the sector that it was given.
    #[must_use]
    pub fn colouring(&self) -> &Colouring {
        &self.colouring
    }

    /// Whether no region was lost. Then the bytes are those that were handed over.
    ///
    /// ```
    /// let sheet = std::fs::read("../sheets/flights.sheet")?;
    /// let salvage = qirfadhun::salvage(&sheet)?;
    /// assert!(salvage.is_whole() && salvage.bytes() == sheet);
    /// # Ok::<(), Box<dyn std::error::Error>>(())
    /// ```
    #[must_use]
    pub fn is_whole(&self) -> bool {
        self.lost.is_empty()
    }

    /// The regions that were lost, in increasing order, each with the sector that it was given and why.
    ///
    /// # Errors
    ///
    /// [`Untraced`], where a region is not in the sector that its neighbours ask for. With the archive that this crate is made for
    /// it never happens.
    pub fn lost(&self) -> Result<Vec<Lost>, Untraced> {
        self.lost.iter().map(|&region| self.traced(region)).collect()
    }

    /// A lost region with the neighbour that its sector is due to come from, held to the sector that it was given.
    fn traced(&self, region: Region) -> Result<Lost, Untraced> {
        let neighbour = self.lowest_beside(region);
        let due = match neighbour {
            Some(neighbour) => self.colouring.sector_of(neighbour),
            None => Sector::new(1),
        };
        match self.colouring.sector_of(region) {
            Some(sector) if due == Some(sector) => Ok(Lost { region, sector, neighbour }),
            given => Err(Untraced { region, given, due }),
        }
    }

    /// The lowest-numbered neighbour of a region whose sector survived.
    fn lowest_beside(&self, region: Region) -> Option<Region> {
        let beside = self.plan.edges().filter_map(|edge| match edge.between {
            [a, b] if a == region => Some(b),
            [a, b] if b == region => Some(a),
            _ => None,
        });
        beside.filter(|beside| !self.lost.contains(beside)).min()
    }
}

/// A region whose sector was lost, with the sector that it was given, and why that one. It is read aloud as it prints, and only a
/// [`Salvage`] makes one: no region is put beside what another was given.
///
/// ```
/// let mut sheet = std::fs::read("../sheets/a.sheet")?;
/// sheet[4 * 512 + 10] = 0; // in the colouring's only block
/// for lost in qirfadhun::salvage(&sheet)?.lost()? {
///     println!("{lost}"); // Region 1 is in sector 1 now, since it has no neighbour whose sector survived.
/// #   let text = format!("Region {} is in sector 1 now, since it has no neighbour whose sector survived.", lost.region());
/// #   assert_eq!(lost.to_string(), text);
/// }
/// # Ok::<(), Box<dyn std::error::Error>>(())
/// ```
///
/// ```compile_fail
/// # use qirfadhun::{Lost, Sector};
/// # fn mixed(one: Lost, sector: Sector) -> Lost {
/// Lost { sector, ..one }
/// # }
/// ```
#[derive(Clone, Copy, Debug, PartialEq, Eq, Hash)]
pub struct Lost {
    region: Region,
    sector: Sector,
    neighbour: Option<Region>,
}

impl Lost {
    /// The region.
    #[must_use]
    pub fn region(&self) -> Region {
        self.region
    }

    /// The sector that it was given.
    #[must_use]
    pub fn sector(&self) -> Sector {
        self.sector
    }

    /// The neighbour whose sector this is: the lowest-numbered of those whose sectors survived. `None` where there is none; then the
    /// sector is 1.
    #[must_use]
    pub fn neighbour(&self) -> Option<Region> {
        self.neighbour
    }
}

/// As "Region 2 is in sector 1 now, as region 1 is, its lowest-numbered neighbour whose sector survived."
impl fmt::Display for Lost {
    fn fmt(&self, f: &mut fmt::Formatter<'_>) -> fmt::Result {
        let Lost { region, sector, neighbour } = self;
        write!(f, "Region {region} is in sector {sector} now, ")?;
        match neighbour {
            Some(neighbour) => write!(f, "as region {neighbour} is, its lowest-numbered neighbour whose sector survived."),
            None => f.write_str("since it has no neighbour whose sector survived."),
        }
    }
}

/// A lost region is not in the sector that its neighbours ask for, so no reason is given.
#[derive(Clone, Copy, Debug, PartialEq, Eq)]
pub struct Untraced {
    region: Region,
    given: Option<Sector>,
    due: Option<Sector>,
}

impl Untraced {
    /// The region.
    #[must_use]
    pub fn region(&self) -> Region {
        self.region
    }

    /// The sector that it was given, or `None` where the plan doesn't have the region.
    #[must_use]
    pub fn given(&self) -> Option<Sector> {
        self.given
    }

    /// The sector that its neighbours ask for, or `None` where there is no such sector.
    #[must_use]
    pub fn due(&self) -> Option<Sector> {
        self.due
    }
}

impl fmt::Display for Untraced {
    fn fmt(&self, f: &mut fmt::Formatter<'_>) -> fmt::Result {
        write!(f, "the sector that region {} was given is not the one that its neighbours ask for", self.region)
    }
}

impl std::error::Error for Untraced {}

#[cfg(test)]
mod tests {
    use super::*;

    /// A sector that no neighbour accounts for is not explained by one.
    #[test]
    fn sectors_from_nowhere() {
        let sheet = std::fs::read("../sheets/a.sheet").expect("sheet A");
        let whole = salvage(&sheet).expect("a sound sheet");
        let with = |lost: &[u64]| Salvage { lost: lost.iter().map(|&number| Region::checked(number)).collect(), ..whole.clone() };
        assert_eq!(whole.lost(), Ok(vec![]));
        assert_eq!(with(&[2]).lost().map(|lost| lost[0].neighbour().map(Region::get)), Ok(Some(1)));
        assert_eq!(with(&[1, 2]).lost().map(|lost| lost[0].neighbour()), Ok(None));
        // Region 4 is in sector 2, its lowest-numbered neighbour in 1. There is no region 6.
        let [one, two] = [1, 2].map(Sector::new);
        for (lost, region, given, due) in [(&[4][..], 4, two, one), (&[1, 4, 5], 4, two, one), (&[4, 5], 4, two, one)] {
            let untraced = with(lost).lost().expect_err("another sector");
            assert_eq!((untraced.region().get(), untraced.given(), untraced.due()), (region, given, due));
            let text = "the sector that region 4 was given is not the one that its neighbours ask for";
            assert_eq!(untraced.to_string(), text);
        }
        for (number, due) in [(6, one), (0, one)] {
            let untraced = with(&[number]).lost().expect_err("no region");
            assert_eq!((untraced.given(), untraced.due()), (None, due));
        }
    }
}
