//! Renamings of sectors, and what two offices hand over that differ in the names of sectors alone.

use crate::calls::Call;
use crate::plans::{Numbers, Random};
use crate::reference::{BLOCK, PAYLOAD, PREFIX, SECTORS};
use crate::sheets::{Change, Sheet, Writing};
use crate::typed::{sector, Shown};
use qirfadhun::{Cause, Sector, Stretch};

/// A one-to-one renaming of the sectors 1..S: the new name of each, from sector 1 on. Any other number keeps its name.
#[derive(Clone, Debug)]
pub struct Renaming(pub Vec<u64>);

impl Renaming {
    /// Any one; now and then the one that changes nothing, the reversal, or one exchange.
    fn random(random: &mut Random, sectors: u64) -> Self {
        let count = sectors.min(SECTORS);
        let mut names: Vec<u64> = (1..=count).collect();
        match random.between(0, 7) {
            0 => {}
            1 => names.reverse(),
            2 if count > 1 => names.swap(0, random.between(1, count - 1) as usize),
            _ => (1..names.len()).for_each(|place| names.swap(place, random.place(place + 1))),
        }
        Renaming(names)
    }

    /// What is left of it where there are fewer sectors.
    fn up_to(&self, sectors: u64) -> Self {
        Renaming(self.0.iter().copied().filter(|&name| name <= sectors).collect())
    }

    pub fn name(&self, number: u64) -> u64 {
        if (1..=self.0.len() as u64).contains(&number) {
            self.0[number as usize - 1]
        } else {
            number
        }
    }

    pub fn colouring(&self, colouring: &[u64]) -> Vec<u64> {
        colouring.iter().map(|&number| self.name(number)).collect()
    }

    pub fn plan(&self, plan: &Numbers) -> Numbers {
        Numbers { colouring: self.colouring(&plan.colouring), ..plan.clone() }
    }

    /// A good sheet with other names in the colouring's blocks, which are of kind 5.
    pub fn sheet(&self, bytes: &[u8]) -> Vec<u8> {
        let mut renamed = bytes.to_vec();
        for block in renamed.chunks_mut(BLOCK).filter(|block| block[4] == 5) {
            let colouring = &mut block[PREFIX..PREFIX + PAYLOAD];
            colouring.iter_mut().for_each(|byte| *byte = self.name(u64::from(*byte)) as u8);
        }
        Change::Checks.apply(&mut renamed);
        renamed
    }

    /// In moves, only the third number of kinds 1 and 2 is a sector.
    fn moves(&self, moves: &[u64]) -> Vec<u64> {
        let mut moves = moves.to_vec();
        for three in moves.chunks_exact_mut(3).filter(|three| three[0] == 1 || three[0] == 2) {
            three[2] = self.name(three[2]);
        }
        moves
    }

    /// One number for each sector, moved with the names.
    fn moved(&self, numbers: &[u64]) -> Vec<u64> {
        let mut moved = numbers.to_vec();
        for (&name, &number) in self.0.iter().zip(numbers) {
            moved[name as usize - 1] = number;
        }
        moved
    }

    /// The labels and T are the same, the component counts and workload sums between them move.
    pub fn work(&self, regions: usize, work: &[u64]) -> Vec<u64> {
        let (labels, others) = work.split_at(regions);
        let (counts, others) = others.split_at(self.0.len());
        let (sums, border) = others.split_at(self.0.len());
        [labels, &self.moved(counts), &self.moved(sums), border].concat()
    }

    pub fn shown(&self, shown: Shown) -> Shown {
        let (colouring, work) = (self.colouring(&shown.colouring), self.work(shown.colouring.len(), &shown.work));
        Shown { colouring, work, ..shown }
    }

    pub fn sector(&self, own: Sector) -> Sector {
        sector(self.name(own.get()))
    }

    pub fn stretch(&self, stretch: Stretch) -> Stretch {
        Stretch { sector: self.sector(stretch.sector), ..stretch }
    }

    pub fn cause(&self, cause: Cause) -> Cause {
        match cause {
            Cause::Split { sector, components } => Cause::Split { sector: self.sector(sector), components },
            Cause::Workload { sector, found, side } => Cause::Workload { sector: self.sector(sector), found, side },
            Cause::Stretch { stretch, side } => Cause::Stretch { stretch: self.stretch(stretch), side },
            nameless => nameless,
        }
    }
}

/// Something in which sectors are named.
pub trait Named: Clone {
    fn sectors(&self) -> u64;

    fn renamed(&self, renaming: &Renaming) -> Self;
}

impl Named for Call {
    fn sectors(&self) -> u64 {
        self.plan.sectors
    }

    fn renamed(&self, renaming: &Renaming) -> Self {
        Call { plan: renaming.plan(&self.plan), moves: renaming.moves(&self.moves), ..self.clone() }
    }
}

impl Named for Writing {
    fn sectors(&self) -> u64 {
        self.plan.sectors
    }

    fn renamed(&self, renaming: &Renaming) -> Self {
        Writing { plan: renaming.plan(&self.plan), ..self.clone() }
    }
}

/// The sheet of the renamed plan, with the same changes to its bytes.
impl Named for Sheet {
    fn sectors(&self) -> u64 {
        self.plan.sectors
    }

    fn renamed(&self, renaming: &Renaming) -> Self {
        Sheet { plan: renaming.plan(&self.plan), ..self.clone() }
    }
}

/// What our office hands over; the other's has the names of this renaming.
#[derive(Clone, Debug)]
pub struct Renamed<T> {
    pub ours: T,
    pub renaming: Renaming,
}

impl<T: Named> Renamed<T> {
    /// By this renaming, as far as there are sectors.
    pub fn new(ours: T, renaming: &Renaming) -> Self {
        Renamed { renaming: renaming.up_to(ours.sectors()), ours }
    }

    pub fn random(random: &mut Random, ours: T) -> Self {
        Renamed { renaming: Renaming::random(random, ours.sectors()), ours }
    }

    pub fn theirs(&self) -> T {
        self.ours.renamed(&self.renaming)
    }

    pub fn both(&self) -> [T; 2] {
        [self.ours.clone(), self.theirs()]
    }
}
