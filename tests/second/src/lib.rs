//! An independent second program for document 01: it reads and writes
//! generator descriptions, runs the generators forward, and answers the
//! (t, l) questions from what every unit state puts out.
//!
//! It is written from document 01 alone, plainly rather than quickly, so that
//! it can be compared with the proved build. The modules follow the headings
//! of the document; `bits` is the one helper they share.

pub mod bits;
pub mod cells;
pub mod description;
pub mod generator;
pub mod listing;
pub mod refusals;
pub mod report;
pub mod value;

pub use cells::{basis, basis_check, question, Answer};
pub use description::{read, write, Fields};
pub use generator::{outputs, state_bits};
pub use listing::listing;
pub use refusals::{refusal, WORK_WORDS};
pub use report::{report, Report};
pub use value::value;
