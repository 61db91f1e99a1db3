//! Safe functions over the proved library Dayunglipo: descriptions of
//! generators read and written, generators run, and the question whether they
//! fill their cells evenly.
//!
//! Every function takes any arguments and gives a reply; none panics. A reply
//! holds its refusal number, 0 if accepted. With a refusal all other numbers
//! in it are 0, and lent memory is as it was. `include/dayunglipo.h` has the
//! table of refusal numbers.

#![warn(missing_docs)]

mod calls;
mod raw;
mod types;

mod basis;
mod listing;
mod question;
mod report;

pub use calls::{outputs, read, value, write};
pub use types::*;

pub use basis::{basis, basis_check, Basis};
pub use listing::{listing, TEXT_BYTES};
pub use question::{question, Reply};
pub use report::{report, Report};
