//! A colouring under judgement.

use crate::limits::MOST_MOVES;
use crate::moves::{MOVE, ROW};
use crate::sectors::SectorFigures;
use crate::stretches::{self, Stretch};
use crate::verdict::Verdict;
use crate::work::{self, Work};
use crate::{Change, Colouring, Deltas, Form, Move, Place, Plan, Refusal, Region, Row, Rows, Sector};
use std::borrow::Borrow;

/// How many numbers a verdict is.
pub const VERDICT: usize = 2;

/// A colouring of a plan under judgement. It takes moves, and has the verdicts on the colouring that they lead to. It owns all
/// memory that this needs, makes it once and uses it again.
///
/// **Probe in lists.** Each call of [`run`](Board::run), [`probe_all`](Board::probe_all) or [`make`](Board::make) first goes
/// through the whole plan, and its moves share that. On plans of 512 regions a probe took 39 to 58 nanoseconds in a list of 4,096,
/// and 14 to 16 microseconds in a call of its own: 270 to 380 times as much. So there is no call for a single probe.
///
/// A clone is another board on the same plan, for another thread of a search. [`restart`](Board::restart) takes a board to another
/// colouring.
///
/// ```
/// use qirfadhun::{Board, Change};
///
/// let mut board = Board::read(&std::fs::read("../sheets/a.sheet")?)?;
/// let (second, other) = (board.plan().region(2).unwrap(), board.plan().sector(2).unwrap());
/// let changes = board.plan().regions().map(|region| Change::Give(region, other));
/// let deltas: Vec<_> = board.probe_all(changes).map(|(_, delta)| delta).collect();
/// assert_eq!(deltas, [186, 307, 111, 0, 0]);
/// assert_eq!(board.total(), 15); // nothing has changed
///
/// let row = board.make(Change::Give(second, other))?;
/// assert_eq!((row.delta(), row.total(), row.relabelled()), (Some(307), 322, 2));
/// assert_eq!((board.total(), board.colouring().sector_of(second)), (322, Some(other)));
/// # Ok::<(), Box<dyn std::error::Error>>(())
/// ```
#[derive(Clone, Debug)]
pub struct Board {
    plan: Plan,
    colouring: Colouring,
    total: u64,
    moves: Vec<[u64; MOVE]>,
    rows: Vec<[i64; ROW]>,
    /// How many moves have their rows.
    answered: usize,
    verdicts: Vec<[u64; VERDICT]>,
    work: Vec<u64>,
}

impl Board {
    pub(crate) fn new(plan: Plan, colouring: Colouring) -> Result<Self, Refusal> {
        let work = vec![0; work::room(plan.regions().len(), plan.sectors().len())];
        let verdicts = vec![[0; VERDICT]; plan.constraints().len()];
        let (moves, rows) = (vec![], vec![]);
        let mut board = Board { plan, colouring, total: 0, moves, rows, answered: 0, verdicts, work };
        board.judge()?;
        Ok(board)
    }

    /// Judges the colouring as it is.
    fn judge(&mut self) -> Result<(), Refusal> {
        let Board { colouring, verdicts, work, .. } = self;
        let totals = self.plan.lists().call_on(&mut colouring.sectors, &[], &mut [], verdicts.as_flattened_mut(), work)?;
        self.total = totals.last;
        Ok(())
    }

    /// The plan and the colouring in a sheet of either form, judged.
    ///
    /// ```
    /// let board = qirfadhun::Board::read(&std::fs::read("../sheets/a.sheet")?)?;
    /// for verdict in board.verdicts() {
    ///     println!("{verdict}");
    /// }
    /// assert_eq!(board.total(), 15);
    /// # Ok::<(), Box<dyn std::error::Error>>(())
    /// ```
    ///
    /// # Errors
    ///
    /// 31 to 38, as [`Plan::read`].
    pub fn read(sheet: &[u8]) -> Result<Self, Refusal> {
        let (plan, colouring) = Plan::read(sheet)?;
        Board::new(plan, colouring)
    }

    /// The sheet of the plan with the colouring as it stands.
    ///
    /// # Errors
    ///
    /// In the first form 41, where the plan has an outside area, a flight or a constraint of kind 5.
    pub fn write(&self, form: Form) -> Result<Vec<u8>, Refusal> {
        self.plan.write(&self.colouring, form)
    }

    /// Takes the moves in turn, as many as there are, and answers with a row for each. All are taken before it returns, whether
    /// the rows are looked at or not. A refused move changes nothing, and those after it are answered.
    ///
    /// The library takes 4,096 moves in a call. A longer list is cut, and it is proved that rows, colouring, verdicts and totals
    /// are those of the one list. It has to end, and to fit into memory.
    ///
    /// ```
    /// use qirfadhun::{Board, Change, Move};
    ///
    /// let mut board = Board::read(&std::fs::read("../sheets/a.sheet")?)?;
    /// let [third, fourth] = [3, 4].map(|number| board.plan().region(number).unwrap());
    /// let moves = [Move::Ask(third), Move::Make(Change::Exchange(third, fourth)), Move::Ask(third)];
    /// let rows: Vec<_> = board.run(&moves).collect();
    /// assert_eq!((rows[0].violation(), rows[0].delta(), rows[0].total()), (Some(57), None, 15));
    /// assert_eq!((rows[1].violation(), rows[1].delta(), rows[1].total()), (None, Some(291), 306));
    /// # Ok::<(), Box<dyn std::error::Error>>(())
    /// ```
    pub fn run<M: Borrow<Move>>(&mut self, moves: impl IntoIterator<Item = M>) -> Rows<'_> {
        self.answered = 0;
        self.moves.clear();
        let mut numbers = moves.into_iter().map(|asked| asked.borrow().numbers());
        // A list at a time: what an iterator says of its own length needn't be so.
        while self.moves.len().is_multiple_of(MOST_MOVES) {
            let before = self.moves.len();
            self.moves.extend(numbers.by_ref().take(MOST_MOVES));
            if self.moves.len() == before {
                break;
            }
        }
        if self.rows.len() < self.moves.len() {
            self.rows.resize(self.moves.len(), [0; ROW]);
        }
        let Board { plan, colouring: Colouring { sectors }, total, moves, rows, verdicts, work, .. } = self;
        for (moves, rows) in moves.chunks(MOST_MOVES).zip(rows.chunks_mut(MOST_MOVES)) {
            let verdicts = verdicts.as_flattened_mut();
            match plan.lists().call_on(sectors, moves.as_flattened(), rows.as_flattened_mut(), verdicts, work) {
                Ok(totals) => *total = totals.last,
                // The plan and the colouring were checked. An archive that refuses them all the same has changed nothing.
                Err(refusal) => rows.fill([refusal.code as i64, 0, *total as i64, 0]),
            }
        }
        self.answered = self.moves.len();
        self.rows()
    }

    /// Probes each of the changes on the colouring as it stands, as many as there are, and answers by how much each would change
    /// the total. Nothing is changed. A change that names a region or a sector that the plan doesn't have is left out, since it has
    /// no such number; [`run`](Board::run) has a row for it too.
    pub fn probe_all<C: Borrow<Change>>(&mut self, changes: impl IntoIterator<Item = C>) -> Deltas<'_> {
        self.run(changes.into_iter().map(|change| Move::Probe(*change.borrow()))).deltas()
    }

    /// Makes a change.
    ///
    /// # Errors
    ///
    /// 22 or 23, where the change names a region or a sector that the plan doesn't have. Nothing has changed.
    pub fn make(&mut self, change: Change) -> Result<Row, Refusal> {
        let asked = Move::Make(change);
        self.run([asked]);
        let row = Row::new(asked, self.rows[0]); // there is room for a row of each move of the last list
        row.refusal().map_or(Ok(row), Err)
    }

    /// Judges another colouring of the plan, in the same memory; no rows are left. Where it is refused, the board is as it was.
    ///
    /// # Errors
    ///
    /// 8, where the colouring has not one sector for each region, or one that the plan doesn't have.
    pub fn restart(&mut self, colouring: &Colouring) -> Result<(), Refusal> {
        let before = std::mem::replace(&mut self.colouring, colouring.clone());
        self.judge().inspect_err(|_| self.colouring = before)?;
        self.answered = 0;
        Ok(())
    }

    /// The plan.
    #[must_use]
    pub fn plan(&self) -> &Plan {
        &self.plan
    }

    /// The colouring as it stands.
    #[must_use]
    pub fn colouring(&self) -> &Colouring {
        &self.colouring
    }

    /// The total: the sum of weight times violation over all constraints. It is 0 exactly when all hold.
    #[must_use]
    pub fn total(&self) -> u64 {
        self.total
    }

    /// T: the area of the faces between different sectors and to the outside.
    #[must_use]
    pub fn border(&self) -> u64 {
        self.work().border()
    }

    /// The rows of the last list of moves that led to this colouring.
    #[must_use]
    pub fn rows(&self) -> Rows<'_> {
        let answered = self.moves.get(..self.answered).unwrap_or(&[]);
        Rows::new(answered, &self.rows)
    }

    /// The verdict on each constraint, in the order of their places.
    pub fn verdicts(&self) -> impl ExactSizeIterator<Item = Verdict<'_>> + Clone {
        let both = self.plan.constraints().zip(&self.verdicts);
        both.map(|((place, constraint), numbers)| Verdict::new(self, place, constraint, numbers))
    }

    /// The verdict on the constraint at a place, or `None` where the list ends before it.
    #[must_use]
    pub fn verdict(&self, place: Place) -> Option<Verdict<'_>> {
        let numbers = self.verdicts.get(place.index())?;
        Some(Verdict::new(self, place, self.plan.constraint(place)?, numbers))
    }

    /// The figures of each sector, in the order of their numbers, empty ones among them.
    pub fn sectors(&self) -> impl ExactSizeIterator<Item = SectorFigures<'_>> + Clone {
        self.plan.sectors().map(|sector| SectorFigures::new(self, sector))
    }

    /// The figures of a sector, if the plan has it.
    #[must_use]
    pub fn sector(&self, sector: Sector) -> Option<SectorFigures<'_>> {
        self.plan.sector(sector.get()).map(|sector| SectorFigures::new(self, sector))
    }

    /// The smallest region of the component that a region is in, if the plan has the region.
    #[must_use]
    pub fn label(&self, region: Region) -> Option<Region> {
        self.plan.region(region.get()).map(|region| Region::checked(self.work().label(region)))
    }

    /// The stretches of all flights, in the order in which they are flown. They are worked out here, of the plan and the colouring;
    /// the reasons of a verdict on dwell time hold them to the proved violation.
    #[must_use]
    pub fn stretches(&self) -> Vec<Stretch> {
        stretches::of(&self.plan, &self.colouring)
    }

    /// The work memory.
    pub(crate) fn work(&self) -> Work<'_> {
        let (regions, sectors) = (self.plan.regions().len(), self.plan.sectors().len());
        Work { numbers: &self.work, regions, sectors }
    }
}
