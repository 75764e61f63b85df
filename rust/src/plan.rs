//! A plan, checked once.

use crate::builder::PlanBuilder;
use crate::limits::{MOST_CONSTRAINTS, MOST_REGIONS, MOST_SECTORS};
use crate::lists::{self, Numbers};
use crate::{Area, Board, Colouring, Constraint, Flight, Form, Place, Refusal, Region, Seconds, Sector, Workload};
use std::sync::Arc;

/// A plan: its regions, sectors, edges, flights and constraints, which the library has checked. It can't be changed, so no later
/// call on it is refused for any of them. A clone is the same plan and costs next to nothing.
///
/// ```
/// use qirfadhun::{Area, Constraint, Kind, Plan, Region, Relation, Workload};
///
/// let mut builder = Plan::builder(2); // two sectors
/// for (workload, outside) in [(10, 7), (20, 0), (30, 1)] {
///     builder.region(Workload(workload), Area(outside));
/// }
/// let [first, second, third] = [1, 2, 3].map(|number| Region::new(number).unwrap());
/// builder.edge(first, second, Area(4)).edge(second, third, Area(6));
/// builder.constraint(Constraint { kind: Kind::Bounded(Relation::AtMost), limit: 35, weight: 3 });
/// let plan = builder.build()?;
///
/// let board = plan.judge(&plan.colouring([1, 1, 2])?)?;
/// assert_eq!((board.total(), board.border()), (0, 6 + 8));
/// # Ok::<(), qirfadhun::Refusal>(())
/// ```
///
/// Workloads can't be exchanged with areas, nor a region with a sector:
///
/// ```compile_fail
/// # use qirfadhun::{Area, Plan, Workload};
/// let mut builder = Plan::builder(2);
/// builder.region(Area(7), Workload(10));
/// ```
#[derive(Clone, Debug, PartialEq, Eq)]
pub struct Plan {
    checked: Arc<Checked>,
}

/// What the library has checked; the numbers have no colouring.
#[derive(Debug, PartialEq, Eq)]
struct Checked {
    numbers: Numbers,
    constraints: Vec<Constraint>,
}

/// A face between two regions.
#[derive(Clone, Copy, Debug, PartialEq, Eq, Hash)]
pub struct Edge {
    /// The two regions, the lower number first.
    pub between: [Region; 2],
    /// The area of the face.
    pub area: Area,
}

impl Plan {
    /// A plan with so many sectors, 1 to 64, to be filled with regions, edges, flights and constraints.
    #[must_use]
    pub fn builder(sectors: u64) -> PlanBuilder {
        PlanBuilder::new(sectors)
    }

    /// The plan and the colouring in a sheet of either form.
    ///
    /// ```
    /// use qirfadhun::Plan;
    ///
    /// let mut sheet = std::fs::read("../sheets/a.sheet")?;
    /// let (plan, colouring) = Plan::read(&sheet)?;
    /// assert_eq!((plan.regions().len(), plan.sectors().len(), colouring.len()), (5, 2, 5));
    ///
    /// sheet[1030] = 9;
    /// let refusal = Plan::read(&sheet).unwrap_err();
    /// assert_eq!(refusal.to_string(), "refused 33 2: a block's two check bytes are not those of its other bytes (block 2)");
    /// # Ok::<(), Box<dyn std::error::Error>>(())
    /// ```
    ///
    /// # Errors
    ///
    /// 31 to 38: this is no sheet, it is damaged, or the plan in it is refused. Where that is for the colouring alone,
    /// [`salvage`](fn@crate::salvage) makes a sound sheet of it.
    pub fn read(sheet: &[u8]) -> Result<(Self, Colouring), Refusal> {
        Plan::checked(Numbers::read(sheet)?)
    }

    /// The plan and the colouring of flat lists.
    ///
    /// # Errors
    ///
    /// 1 to 8, 13 and 14, the first that is given.
    pub fn from_numbers(numbers: Numbers) -> Result<(Self, Colouring), Refusal> {
        check(&numbers, &mut numbers.colouring.clone())?;
        Plan::checked(numbers)
    }

    /// The plan of numbers that the library has checked, all but the colouring.
    pub(crate) fn unless_refused(numbers: Numbers) -> Result<Self, Refusal> {
        check(&numbers, &mut vec![1; MOST_REGIONS.min(numbers.workloads.len())])?;
        Ok(Plan::checked(numbers)?.0)
    }

    /// The plan and the colouring of numbers that the library has checked. A kind that it takes and this crate doesn't know is
    /// refused as one that it doesn't take.
    fn checked(mut numbers: Numbers) -> Result<(Self, Colouring), Refusal> {
        let colouring = Colouring { sectors: std::mem::take(&mut numbers.colouring) };
        let mut constraints = Vec::with_capacity(MOST_CONSTRAINTS);
        for (place, four) in (1..).zip(numbers.constraints.chunks(4)) {
            constraints.push(Constraint::of(four).ok_or(Refusal { code: 7, place })?);
        }
        Ok((Plan { checked: Arc::new(Checked { numbers, constraints }) }, colouring))
    }

    /// The flat lists of the plan, with this colouring.
    #[must_use]
    pub fn numbers(&self, colouring: &Colouring) -> Numbers {
        Numbers { colouring: colouring.sectors.clone(), ..self.lists().clone() }
    }

    /// The flat lists without a colouring.
    pub(crate) fn lists(&self) -> &Numbers {
        &self.checked.numbers
    }

    /// The sheet of the plan with this colouring.
    ///
    /// ```
    /// use qirfadhun::{Form, Plan};
    ///
    /// let first = std::fs::read("../sheets/a.sheet")?;
    /// let (plan, colouring) = Plan::read(&first)?;
    /// assert!(plan.write(&colouring, Form::First)? == first);
    /// assert_eq!(plan.write(&colouring, Form::Second)?.len(), first.len() + 512); // with a block of outside areas
    ///
    /// let (flown, colouring) = Plan::read(&std::fs::read("../sheets/flights.sheet")?)?;
    /// assert_eq!(flown.write(&colouring, Form::First).unwrap_err().code, 41); // nothing is left out silently
    /// # Ok::<(), Box<dyn std::error::Error>>(())
    /// ```
    ///
    /// # Errors
    ///
    /// 8, where the colouring has not one sector for each region, or one that the plan doesn't have. In the first form also 41, where the plan has an outside area, a flight or
    /// a constraint of kind 5.
    pub fn write(&self, colouring: &Colouring, form: Form) -> Result<Vec<u8>, Refusal> {
        let second = self.numbers(colouring).write_second()?;
        match form {
            Form::Second => Ok(second),
            Form::First => {
                let mut first = vec![0; second.len()];
                let bytes = lists::to_first(&second, &mut first)?;
                first.truncate(bytes);
                Ok(first)
            }
        }
    }

    /// The colouring of these sectors' numbers, one for each region.
    ///
    /// # Errors
    ///
    /// 8: with place 0 there is not one sector for each region, with another that region's is not one of the plan.
    pub fn colouring(&self, sectors: impl IntoIterator<Item = u64>) -> Result<Colouring, Refusal> {
        let most = self.regions().len() + 1; // one too many is refused as any number is
        let mut sectors: Vec<u64> = sectors.into_iter().take(most).collect();
        check(self.lists(), &mut sectors)?;
        Ok(Colouring { sectors })
    }

    /// Judges a colouring of the plan, and takes moves from there.
    ///
    /// # Errors
    ///
    /// 8, where the colouring has not one sector for each region, or one that the plan doesn't have. A colouring of another plan
    /// that fits this one is taken.
    pub fn judge(&self, colouring: &Colouring) -> Result<Board, Refusal> {
        Board::new(self.clone(), colouring.clone())
    }

    /// A builder that has all that the plan has, to make another plan of it.
    #[must_use]
    pub fn to_builder(&self) -> PlanBuilder {
        PlanBuilder::of(self.lists().clone())
    }

    /// The regions, from 1.
    pub fn regions(&self) -> impl ExactSizeIterator<Item = Region> + DoubleEndedIterator + Clone {
        Region::up_to(self.lists().regions)
    }

    /// The region with this number, if the plan has it.
    #[must_use]
    pub fn region(&self, number: u64) -> Option<Region> {
        Region::new(number).filter(|region| region.get() <= self.lists().regions)
    }

    /// The sectors, from 1, empty ones among them.
    pub fn sectors(&self) -> impl ExactSizeIterator<Item = Sector> + DoubleEndedIterator + Clone {
        Sector::up_to(self.lists().sectors)
    }

    /// The sector with this number, if the plan has it.
    #[must_use]
    pub fn sector(&self, number: u64) -> Option<Sector> {
        Sector::new(number).filter(|sector| sector.get() <= self.lists().sectors)
    }

    /// The workload of a region, if the plan has it.
    #[must_use]
    pub fn workload(&self, region: Region) -> Option<Workload> {
        self.lists().workloads.get(region.index()).copied().map(Workload)
    }

    /// The area of a region's face to the outside, 0 where it has none, if the plan has the region.
    #[must_use]
    pub fn outside(&self, region: Region) -> Option<Area> {
        self.lists().outside.get(region.index()).copied().map(Area)
    }

    /// The edges, in their order.
    pub fn edges(&self) -> impl ExactSizeIterator<Item = Edge> + Clone + '_ {
        let edge = |three: &[u64]| Edge { between: [three[0], three[1]].map(Region::checked), area: Area(three[2]) };
        self.lists().edges.chunks_exact(3).map(edge)
    }

    /// Each flight with its visits: the region, and how long it stays there.
    pub fn flights(&self) -> impl Iterator<Item = (Flight, Vec<(Region, Seconds)>)> + '_ {
        let mut visits = self.lists().visits.chunks_exact(2).map(|two| (Region::checked(two[0]), Seconds(two[1])));
        let flights = Flight::up_to(self.lists().counts.len() as u64).zip(&self.lists().counts);
        flights.map(move |(flight, &count)| (flight, visits.by_ref().take(count as usize).collect()))
    }

    /// Each constraint with its place.
    pub fn constraints(&self) -> impl ExactSizeIterator<Item = (Place, Constraint)> + Clone + '_ {
        Place::up_to(self.checked.constraints.len() as u64).zip(self.checked.constraints.iter().copied())
    }

    /// The constraint at a place, or `None` where the list ends before it.
    #[must_use]
    pub fn constraint(&self, place: Place) -> Option<Constraint> {
        self.checked.constraints.get(place.index()).copied()
    }
}

/// Has the library check the numbers with this colouring, by a call without moves.
fn check(numbers: &Numbers, colouring: &mut [u64]) -> Result<(), Refusal> {
    let mut verdicts = [0; crate::board::VERDICT * MOST_CONSTRAINTS];
    let mut work = [0; crate::work::room(MOST_REGIONS, MOST_SECTORS)];
    numbers.call_on(colouring, &[], &mut [], &mut verdicts, &mut work)?;
    Ok(())
}
