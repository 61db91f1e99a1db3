//! The whole report of a generator.

use crate::cells::OutputRows;
use crate::description::Fields;
use crate::generator::state_bits;
use crate::refusals::{of_report, WORK_WORDS};

/// The report; with a refusal all else is zero.
#[derive(Clone, Debug, PartialEq, Eq)]
pub struct Report {
    /// The refusal number, 0 if accepted.
    pub refusal: u32,
    /// k, the number of state bits.
    pub k: u32,
    /// L, the bits of an output.
    pub l: u32,
    /// l_t for t = 1 to 480, at place t−1; zero past k.
    pub resolutions: [u32; 480],
    /// t_l for l = 1 to 32, at place l−1; zero past L.
    pub dimensions: [u32; 32],
    /// The sum of Λ_t over t = 1 to k.
    pub sum_lambda: u32,
    /// The sum of Δ_l over l = 1 to L.
    pub sum_delta: u32,
    /// Whether the sum of Λ is 0.
    pub me: bool,
}

impl Default for Report {
    fn default() -> Report {
        Report {
            refusal: 0,
            k: 0,
            l: 0,
            resolutions: [0; 480],
            dimensions: [0; 32],
            sum_lambda: 0,
            sum_delta: 0,
            me: false,
        }
    }
}

/// l_t* = min(L, k div t), the resolution no generator can pass.
pub fn best_resolution(k: usize, length: usize, t: usize) -> usize {
    length.min(k / t)
}

/// Makes the whole report; the first 7,696 words of the work buffer are zero
/// after it.
pub fn report(fields: &Fields, work: &mut [u64]) -> Report {
    let refusal = of_report(fields, work.len());
    if refusal != 0 {
        return Report { refusal, ..Report::default() };
    }
    work[..WORK_WORDS].fill(0);
    let (k, length) = (state_bits(fields), fields.output_bits as usize);
    let rows = OutputRows::run(fields, k);
    let says_yes = |t: usize, l: usize| rows.first_dependence(t, l).is_none();
    let mut report = Report { k: k as u32, l: length as u32, ..Report::default() };
    for t in 1..=k {
        let best = best_resolution(k, length, t);
        let found = (1..=best).rev().find(|&l| says_yes(t, l)).unwrap_or(0);
        report.resolutions[t - 1] = found as u32;
        report.sum_lambda += (best - found) as u32;
    }
    for l in 1..=length {
        let best = k / l;
        let found = (1..=best).rev().find(|&t| says_yes(t, l)).unwrap_or(0);
        report.dimensions[l - 1] = found as u32;
        report.sum_delta += (best - found) as u32;
    }
    report.me = report.sum_lambda == 0;
    report
}
