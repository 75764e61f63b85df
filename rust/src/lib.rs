//! A safe face of the proved library that judges airspace sector plans and reads and writes the sheets they are stored in.
//!
//! A [`Plan`] has regions, sectors, edges, flights and constraints, and is checked once. A [`Board`] is a colouring of it under
//! judgement: it takes moves and has the [`Verdict`] on each constraint, with the [`Reason`]s why it is broken.
//!
//! ```
//! let board = qirfadhun::Board::read(&std::fs::read("../sheets/a.sheet")?)?;
//! for verdict in board.verdicts() {
//!     println!("{verdict}");
//!     for reason in verdict.reasons()? {
//!         println!("    {reason}");
//!     }
//! }
//! assert_eq!(board.total(), 15);
//! # Ok::<(), Box<dyn std::error::Error>>(())
//! ```
//!
//! No call has a premise: whatever is handed over, as long as memory has room for it, it ends, without a panic, and answers either what was asked for or a
//! [`Refusal`], after which nothing is changed. Totals, deltas, violations, labels, components and workloads are those of the
//! proved calls. What a reason says is read off them and off the plan, and its parts are held to the proved violation. Likewise the
//! neighbour that a lost region is said to go with is held to the sector that it is proved to be given.
//!
//! Not proved, but measured on the largest plans: judging and moves take up to 200 KiB of the stack, salvaging 104, reading and
//! converting 96, writing 4, and a question to [`lists::Sheet`] 300. A thread with 512 KiB has room for every call.
//!
//! A search proposes changes in lists, and the board answers with the difference that each would make to the total, or with a
//! [`Row`] for each [`Move`]:
//!
//! ```
//! use qirfadhun::{Board, Change};
//!
//! let mut board = Board::read(&std::fs::read("../sheets/grid-64.sheet")?)?;
//! let plan = board.plan().clone();
//! let changes = plan.regions().flat_map(|region| plan.sectors().map(move |sector| Change::Give(region, sector)));
//! let (best, delta) = board.probe_all(changes).min_by_key(|&(_, delta)| delta).unwrap();
//! let before = board.total() as i64;
//! board.make(best)?;
//! assert_eq!(board.total() as i64, before + delta);
//! # Ok::<(), Box<dyn std::error::Error>>(())
//! ```
//!
//! A sheet that comes back spoiled is refused. Where that is for its colouring alone, [`salvage`](fn@salvage) makes a sound sheet of
//! it, and names each region that lost its sector, with what it was given and why:
//!
//! ```
//! let mut spoiled = std::fs::read("../sheets/grid-512.sheet")?;
//! *spoiled.last_mut().unwrap() ^= 1; // in the last block of the colouring, which has the regions from 501 on
//! let salvage = qirfadhun::salvage(&spoiled)?;
//! for lost in salvage.lost()? {
//!     println!("{lost}"); // Region 501 is in sector 9 now, as region 50 is, its lowest-numbered neighbour whose sector survived.
//! }
//! assert_eq!(salvage.lost()?.len(), 12);
//! # Ok::<(), Box<dyn std::error::Error>>(())
//! ```
//!
//! The proved program `figures` reads up to 1,000 sheets and prints figures over them, one number a line. A [`Review`] is read from
//! that text, and has each number by its name; the program `review` shows it for files.
//!
//! There are two sheets. The [first](Form::First) has the letters SCTR in every block; it carries no outside areas and no flights,
//! and holds constraints of the kinds 1 to 4 only. The [second](Form::Second) has the letters SCT2, and carries a whole plan.
//! Either is read by its letters.
//!
//! [`lists`] has the calls on flat lists of numbers that all this stands on.

#![deny(missing_docs)]

#[cfg(doctest)]
#[doc = include_str!("../../README.md")]
struct Readme;

mod board;
mod builder;
pub mod codes;
mod colouring;
mod constraint;
mod form;
pub mod limits;
pub mod lists;
mod moves;
mod numbers;
mod plan;
mod reason;
mod refusal;
mod relation;
mod review;
mod salvage;
mod sectors;
mod stretches;
mod verdict;
mod work;

pub use board::Board;
pub use builder::PlanBuilder;
pub use colouring::Colouring;
pub use constraint::{Constraint, Kind};
pub use form::Form;
pub use moves::{Change, Deltas, Move, Row, Rows};
pub use numbers::{Area, Flight, Place, Region, Seconds, Sector, Workload};
pub use plan::{Edge, Plan};
pub use reason::{Cause, Reason, Unexplained};
pub use refusal::Refusal;
pub use relation::{Relation, Side};
pub use review::{Extreme, Review, Unfit, Unread};
pub use salvage::{salvage, Lost, Salvage, Untraced};
pub use sectors::{Component, SectorFigures};
pub use stretches::Stretch;
pub use verdict::Verdict;
