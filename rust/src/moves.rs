//! Moves and their rows.

use crate::{Refusal, Region, Sector};
use std::fmt;
use std::iter::Zip;
use std::slice::Iter;

/// How many numbers a move is, and a row.
pub const MOVE: usize = 3;
pub const ROW: usize = 4;

/// A change of a colouring. It prints as "region 3 to sector 2" or "regions 3 and 4 exchanged".
#[derive(Clone, Copy, Debug, PartialEq, Eq, PartialOrd, Ord, Hash)]
pub enum Change {
    /// The region is given to the sector.
    Give(Region, Sector),
    /// Two regions exchange their sectors: the first goes to the sector of the second, then the second to the old one of the first.
    Exchange(Region, Region),
}

impl fmt::Display for Change {
    fn fmt(&self, f: &mut fmt::Formatter<'_>) -> fmt::Result {
        match self {
            Change::Give(region, sector) => write!(f, "region {region} to sector {sector}"),
            Change::Exchange(one, other) => write!(f, "regions {one} and {other} exchanged"),
        }
    }
}

/// What a [`Board`](crate::Board) is asked.
#[non_exhaustive]
#[derive(Clone, Copy, Debug, PartialEq, Eq, Hash)]
pub enum Move {
    /// By how much the total would change. Nothing is changed.
    Probe(Change),
    /// Makes the change.
    Make(Change),
    /// The violation of a region. Nothing is changed.
    Ask(Region),
}

impl Move {
    /// The numbers that the library takes.
    #[inline]
    pub(crate) fn numbers(self) -> [u64; MOVE] {
        let (kind, change) = match self {
            Move::Probe(change) => (1, change),
            Move::Make(change) => (2, change),
            Move::Ask(region) => return [5, region.get(), 0],
        };
        match change {
            Change::Give(region, sector) => [kind, region.get(), sector.get()],
            Change::Exchange(one, other) => [kind + 2, one.get(), other.get()],
        }
    }

    /// The move that has these numbers.
    #[inline]
    fn of([kind, first, second]: [u64; MOVE]) -> Self {
        let region = Region::checked(first);
        let change = match kind {
            1 | 2 => Change::Give(region, Sector::checked(second)),
            _ => Change::Exchange(region, Region::checked(second)),
        };
        match kind {
            1 | 3 => Move::Probe(change),
            2 | 4 => Move::Make(change),
            _ => Move::Ask(region),
        }
    }
}

/// The answer to a move.
#[derive(Clone, Copy, Debug, PartialEq, Eq)]
pub struct Row {
    asked: Move,
    numbers: [i64; ROW],
}

impl Row {
    #[inline]
    pub(crate) fn new(asked: Move, numbers: [i64; ROW]) -> Self {
        Row { asked, numbers }
    }

    #[inline]
    fn of((asked, numbers): (&[u64; MOVE], &[i64; ROW])) -> Self {
        Row::new(Move::of(*asked), *numbers)
    }

    /// The move that this answers.
    #[must_use]
    #[inline]
    pub fn asked(&self) -> Move {
        self.asked
    }

    /// Why the move was refused, if it was: 22 or 23, a region or a sector that the plan doesn't have. It has changed nothing, and
    /// the moves after it were answered.
    #[must_use]
    #[inline]
    pub fn refusal(&self) -> Option<Refusal> {
        match self.numbers[0] {
            0 => None,
            status => Some(Refusal { code: status as u64, place: 0 }),
        }
    }

    /// The total after the change minus the total before it, made or only probed. `None` for a question and for a refused move,
    /// which have no such number; in Rust's order it comes before every number, so the smallest delta is to be taken of
    /// [`Rows::deltas`].
    #[must_use]
    #[inline]
    pub fn delta(&self) -> Option<i64> {
        match self.asked {
            Move::Ask(_) => None,
            _ => self.accepted(),
        }
    }

    /// The violation of the region that was asked about; `None` for all but a question, and for a refused one. The violations of
    /// all regions don't add up to the total.
    #[must_use]
    #[inline]
    pub fn violation(&self) -> Option<u64> {
        match self.asked {
            Move::Ask(_) => self.accepted().map(|violation| violation as u64),
            _ => None,
        }
    }

    /// The total after this move, which a probe, a question and a refused move leave as it was.
    #[must_use]
    #[inline]
    pub fn total(&self) -> u64 {
        self.numbers[2] as u64
    }

    /// How many regions are in a component with another smallest region than before: 0 for all but a made change.
    #[must_use]
    #[inline]
    pub fn relabelled(&self) -> u64 {
        self.numbers[3] as u64
    }

    /// The second number of an accepted move.
    #[inline]
    fn accepted(&self) -> Option<i64> {
        (self.numbers[0] == 0).then_some(self.numbers[1])
    }
}

/// The rows of a list of moves, in its order.
#[derive(Clone, Debug)]
pub struct Rows<'b> {
    both: Zip<Iter<'b, [u64; MOVE]>, Iter<'b, [i64; ROW]>>,
}

impl<'b> Rows<'b> {
    pub(crate) fn new(moves: &'b [[u64; MOVE]], rows: &'b [[i64; ROW]]) -> Self {
        Rows { both: moves.iter().zip(rows) }
    }

    /// The changes among the moves that were accepted, made or only probed, each with its delta.
    #[must_use]
    pub fn deltas(self) -> Deltas<'b> {
        Deltas { rows: self }
    }
}

impl Iterator for Rows<'_> {
    type Item = Row;

    #[inline]
    fn next(&mut self) -> Option<Row> {
        self.both.next().map(Row::of)
    }

    fn size_hint(&self) -> (usize, Option<usize>) {
        self.both.size_hint()
    }
}

impl DoubleEndedIterator for Rows<'_> {
    #[inline]
    fn next_back(&mut self) -> Option<Row> {
        self.both.next_back().map(Row::of)
    }
}

impl ExactSizeIterator for Rows<'_> {}

/// Changes, each with the total after it minus the total before it.
#[derive(Clone, Debug)]
pub struct Deltas<'b> {
    rows: Rows<'b>,
}

impl Iterator for Deltas<'_> {
    type Item = (Change, i64);

    #[inline]
    fn next(&mut self) -> Option<(Change, i64)> {
        self.rows.find_map(|row| match row.asked {
            Move::Probe(change) | Move::Make(change) => Some((change, row.accepted()?)),
            Move::Ask(_) => None,
        })
    }
}
