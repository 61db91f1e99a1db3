//! The text of the listing program.

use crate::raw;

/// The least text buffer of a listing, in bytes.
pub const TEXT_BYTES: usize = 16_480;

/// Puts the text of a description's report, or of its refusal, at the front
/// of `text`, and gives its length; 0 where `text` has fewer than `TEXT_BYTES` bytes.
pub fn listing(bytes: &[u8], text: &mut [u8]) -> usize {
    // SAFETY: each pointer and length are those of one slice, and slices do not overlap.
    unsafe {
        raw::dayunglipo_listing(
            bytes.as_ptr(),
            bytes.len(),
            text.as_mut_ptr(),
            text.len(),
        )
    }
}
