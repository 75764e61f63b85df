//! The figures of a sector: its workload, its regions and its components.

use crate::{Board, Region, Sector};
use std::fmt;

/// A sector under a board's colouring.
///
/// ```
/// let board = qirfadhun::Board::read(&std::fs::read("../sheets/a.sheet")?)?;
/// let workloads: Vec<_> = board.sectors().map(|sector| sector.workload()).collect();
/// assert_eq!(workloads, [60, 40]);
/// let second = board.sectors().nth(1).unwrap();
/// assert_eq!((second.regions().count(), second.component_count()), (2, 1));
/// assert_eq!(second.components().map(|component| component.label().get()).collect::<Vec<_>>(), [4]);
/// # Ok::<(), Box<dyn std::error::Error>>(())
/// ```
#[derive(Clone, Copy)]
pub struct SectorFigures<'b> {
    board: &'b Board,
    sector: Sector,
}

impl<'b> SectorFigures<'b> {
    pub(crate) fn new(board: &'b Board, sector: Sector) -> Self {
        SectorFigures { board, sector }
    }

    /// Which sector it is.
    #[must_use]
    pub fn sector(&self) -> Sector {
        self.sector
    }

    /// X: the summed workload of its regions.
    #[must_use]
    pub fn workload(&self) -> u64 {
        self.board.work().workload(self.sector)
    }

    /// NCC: how many components it has.
    #[must_use]
    pub fn component_count(&self) -> u64 {
        self.board.work().components(self.sector)
    }

    /// Its regions, in increasing order.
    pub fn regions(&self) -> impl Iterator<Item = Region> + 'b {
        let own = self.sector;
        self.board.colouring().iter().filter(move |&(_, sector)| sector == own).map(|(region, _)| region)
    }

    /// Its components, by their smallest regions.
    pub fn components(&self) -> impl Iterator<Item = Component<'b>> + 'b {
        let board = self.board;
        let labels = self.regions().filter(move |&region| board.label(region) == Some(region));
        labels.map(move |label| Component { board, label })
    }
}

impl fmt::Debug for SectorFigures<'_> {
    fn fmt(&self, f: &mut fmt::Formatter<'_>) -> fmt::Result {
        let (workload, components) = (self.workload(), self.component_count());
        f.debug_struct("SectorFigures")
            .field("sector", &self.sector)
            .field("workload", &workload)
            .field("component_count", &components)
            .finish()
    }
}

/// A largest set of joined regions of a sector.
#[derive(Clone, Copy)]
pub struct Component<'b> {
    board: &'b Board,
    label: Region,
}

impl<'b> Component<'b> {
    /// Its smallest region.
    #[must_use]
    pub fn label(&self) -> Region {
        self.label
    }

    /// Its regions, in increasing order.
    pub fn regions(&self) -> impl Iterator<Item = Region> + 'b {
        let Component { board, label } = *self;
        board.plan().regions().filter(move |&region| board.label(region) == Some(label))
    }
}

impl fmt::Debug for Component<'_> {
    fn fmt(&self, f: &mut fmt::Formatter<'_>) -> fmt::Result {
        f.debug_list().entries(self.regions()).finish()
    }
}
