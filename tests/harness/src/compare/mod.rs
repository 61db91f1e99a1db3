//! Each call, made to both programs with the same arguments: the replies are
//! compared, and all lent memory with its guards.

mod calls;
pub use calls::{outputs, reading, value, writing};

mod basis;
pub use basis::{basis, basis_check};
mod listing;
pub use listing::listing;
mod question;
pub use question::question;
mod report;
pub use report::report;

use crate::lent::{Element, Lent};
use crate::tally::Tally;

/// Compares what both programs left in their copies of the lent memory.
fn memory<T: Element>(
    tally: &mut Tally,
    call: &str,
    ours: &Lent<T>,
    theirs: &Lent<T>,
    line: impl FnOnce() -> String,
) {
    if let Some((place, got, wanted)) = ours.difference(theirs) {
        tally.mismatch(
            call,
            &format!("{}: at place {place} got {got:x?}, wanted {wanted:x?}", line()),
        );
    }
}
