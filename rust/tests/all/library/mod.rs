//! What is under test: the safe functions, and the archive's own, of whose answers the safe ones pass on only a part.

pub use qirfadhun::lists::{
    call, call_records, read, salvage, to_first, to_second, write, write_records, write_second, Constraint, Sheet,
};

#[path = "../../../src/lists/raw.rs"]
pub mod raw;
