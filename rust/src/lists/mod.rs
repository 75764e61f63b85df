//! The calls on flat lists of numbers, for those who lend their own memory and count nanoseconds.
//!
//! Nothing here tells a workload from an area, or a verdict from its neighbour: two lists of one type can be exchanged, and a
//! constraint is known by its place alone. [`Plan`](crate::Plan) and [`Board`](crate::Board) make the same calls, and can't be
//! handed the wrong list.

mod call;
mod converting;
mod numbers;
mod raw;
mod salvaging;
mod sheet;
mod storing;

use crate::Refusal;
pub use call::{call, call_records, Totals};
pub use converting::{to_first, to_second};
pub use numbers::Numbers;
pub use salvaging::salvage;
pub use sheet::Sheet;
pub use storing::{read, write, write_records, write_second, Head};

/// A constraint as a record; the list of four numbers has them in the same order.
#[repr(C)]
#[derive(Clone, Copy, Debug, PartialEq, Eq)]
pub struct Constraint {
    /// The kind, 1 to 5.
    pub kind: u64,
    /// The relation, 1 to 6; for the kinds 2 and 3 it is 1.
    pub relation: u64,
    /// The limit, at most 100,000,000,000.
    pub limit: u64,
    /// The weight, 1 to 1,000.
    pub weight: u64,
}

/// What was asked for, unless the code says that it is refused.
fn unless_refused<T>(code: u64, place: u64, asked_for: T) -> Result<T, Refusal> {
    match code {
        0 => Ok(asked_for),
        code => Err(Refusal { code, place }),
    }
}
