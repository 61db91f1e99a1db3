//! Reading, writing, outputs and value.
//!
//! In every call here a slice is lent as its pointer and its length, and the
//! library keeps within them and keeps nothing afterwards.

use crate::raw;
use crate::types::{Dimension, Fields, Reading, Valued, Words};

/// Takes a description apart.
pub fn read(bytes: &[u8]) -> Reading {
    // SAFETY: the pointer and the length are those of one slice.
    unsafe { raw::dayunglipo_read(bytes.as_ptr(), bytes.len()) }
}

/// Puts the description at the front of `out` and leaves the rest; gives the
/// refusal number.
pub fn write(g: &Fields, out: &mut [u8]) -> u32 {
    // SAFETY: the pointer and the length are those of one slice.
    unsafe { raw::dayunglipo_write(*g, out.as_mut_ptr(), out.len()) }
}

/// Puts the first t outputs from the start state at the front of `out` and
/// leaves the rest; gives the refusal number.
pub fn outputs(g: &Fields, t: Dimension, state: &Words, out: &mut [u32]) -> u32 {
    // SAFETY: the pointer and the length are those of one slice.
    unsafe { raw::dayunglipo_outputs(*g, t.0, *state, out.as_mut_ptr(), out.len()) }
}

/// The number Y / 2^L, exactly.
pub fn value(y: u64, bits: u32) -> Valued {
    // SAFETY: no memory is lent.
    unsafe { raw::dayunglipo_value(y, bits) }
}
