//! The whole report of a generator.

use crate::raw;
use crate::types::{Fields, MOST_BITS, MOST_OUTPUT};

/// The report.
#[repr(C)]
#[derive(Clone, Copy, Debug, PartialEq, Eq)]
pub struct Report {
    /// The refusal number, 0 if accepted.
    pub refusal: u32,
    /// l_t for t = 1 to 480, at place t−1; zero past k.
    pub resolutions: [u32; MOST_BITS],
    /// t_l for l = 1 to 32, at place l−1; zero past L.
    pub dimensions: [u32; MOST_OUTPUT],
    /// The sum of the gaps Λ_t = min(L, k div t) − l_t.
    pub resolution_sum: u32,
    /// The sum of the gaps Δ_l = (k div l) − t_l.
    pub dimension_sum: u32,
    /// Whether the sum of Λ is 0.
    pub me: bool,
}

/// Makes the whole report. The work buffer has at least `WORK_WORDS` words;
/// that many are zero afterwards.
pub fn report(g: &Fields, work: &mut [u64]) -> Report {
    // SAFETY: the pointer and the length are those of one slice.
    unsafe { raw::dayunglipo_report(*g, work.as_mut_ptr(), work.len()) }
}
