//! The (t, l) question.

use crate::raw;
use crate::types::{Dimension, Fields, Resolution, ROW_WORDS};

/// The reply to a question.
#[repr(C)]
#[derive(Clone, Copy, Debug, PartialEq, Eq)]
pub struct Reply {
    /// The refusal number, 0 if accepted.
    pub refusal: u32,
    /// Whether all cells get equally many start states.
    pub yes: bool,
    /// The first bit that is a sum of earlier ones, if the answer is no.
    pub d: usize,
    /// The bits that always sum to zero, d included.
    pub set: [u64; ROW_WORDS],
}

/// Whether all start states spread evenly over the 2^(t·l) cells. The work
/// buffer has at least `WORK_WORDS` words; that many are zero afterwards.
pub fn question(g: &Fields, t: Dimension, l: Resolution, work: &mut [u64]) -> Reply {
    // SAFETY: the pointer and the length are those of one slice.
    unsafe { raw::dayunglipo_question(*g, t.0, l.0, work.as_mut_ptr(), work.len()) }
}
