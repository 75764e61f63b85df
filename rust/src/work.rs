//! The work memory that a call leaves, read by its names.

use crate::{Region, Sector};

/// How many numbers it has: a label a region, a component count and a workload a sector, and T.
pub const fn room(regions: usize, sectors: usize) -> usize {
    regions + 2 * sectors + 1
}

/// The work memory of a plan of so many regions and sectors.
#[derive(Clone, Copy)]
pub struct Work<'a> {
    pub numbers: &'a [u64],
    pub regions: usize,
    pub sectors: usize,
}

impl Work<'_> {
    fn at(&self, index: usize) -> u64 {
        self.numbers.get(index).copied().unwrap_or(0)
    }

    /// The smallest region of the component that a region is in.
    pub fn label(&self, region: Region) -> u64 {
        self.at(region.index())
    }

    /// How many components a sector has.
    pub fn components(&self, sector: Sector) -> u64 {
        self.at(self.regions + sector.index())
    }

    /// The workload of a sector.
    pub fn workload(&self, sector: Sector) -> u64 {
        self.at(self.regions + self.sectors + sector.index())
    }

    /// T, the area of all border.
    pub fn border(&self) -> u64 {
        self.at(self.regions + 2 * self.sectors)
    }
}
