//! Plain Rust for the same work: loops as one would write them, no proofs.

pub mod bits;
pub mod elimination;
pub mod words;

pub mod report;
pub mod rows;

use dayunglipo::Fields;

/// The i for which a_i is 1.
pub fn taps(g: &Fields, last: usize) -> Vec<usize> {
    let is_tap = |i: &usize| g.coefficients[(i - 1) / 8] & (128 >> ((i - 1) % 8)) != 0;
    (1..=last).filter(is_tap).collect()
}
