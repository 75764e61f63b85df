//! An independent implementation of documents 01 and 02, written from them alone and sharing nothing with the library.
//! It is simple rather than fast: whatever is asked is worked out from scratch.

mod blocks;
mod call;
mod converting;
mod figures;
mod form;
mod limits;
mod meaning;
mod plan;
mod salvaging;
mod sheet;
mod verdicts;

pub use blocks::fletcher;
pub use call::call;
pub use converting::{to_first, to_second};
pub use figures::Figures;
pub use form::{Form, FIRST, FORMS, SECOND};
pub use limits::*;
pub use meaning::{distance, Meaning};
pub use plan::{Plan, Visit};
pub use salvaging::salvage;
pub use sheet::{lay_out, read, write, write_second};
pub use verdicts::Verdicts;
