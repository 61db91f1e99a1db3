//! The reduced basis of (t, l).

use crate::raw;
use crate::types::{Dimension, Fields, Resolution};

/// What the basis call gives across the boundary.
#[repr(C)]
pub struct BasisReply {
    refusal: u32,
    words: usize,
}

/// What the basis call gives: the front part of the work buffer itself.
#[derive(Debug, PartialEq, Eq)]
pub struct Basis<'a> {
    /// The refusal number, 0 if accepted.
    pub refusal: u32,
    /// The rows, 8 words for each unit of rank; none with a refusal.
    pub rows: &'a mut [u64],
}

/// The refusal number of a basis call with a work buffer of so many words.
pub fn basis_check(g: &Fields, t: Dimension, l: Resolution, room: usize) -> u32 {
    // SAFETY: no memory is lent.
    unsafe { raw::dayunglipo_basis_check(*g, t.0, l.0, room) }
}

/// The reduced row echelon form of the t·l rows over the state bits, at the
/// front of the work buffer, which has at least `WORK_WORDS` words.
pub fn basis<'a>(g: &Fields, t: Dimension, l: Resolution, work: &'a mut [u64]) -> Basis<'a> {
    // SAFETY: the pointer and the length are those of one slice.
    let reply = unsafe { raw::dayunglipo_basis(*g, t.0, l.0, work.as_mut_ptr(), work.len()) };
    let rows = work.get_mut(..reply.words).unwrap_or_default();
    Basis { refusal: reply.refusal, rows }
}
