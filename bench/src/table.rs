//! The table: one line for a case, with medians and their ratio.

use crate::clock::seconds;

/// Samples of each side.
const SAMPLES: usize = 41;

/// A sample repeats its work until it takes about so many seconds.
const LEAST_SAMPLE: f64 = 400e-6;

pub fn heading() {
    println!("{:<58} {:>12} {:>12} {:>8}", "medians", "Rattle us", "Rust us", "ratio");
}

/// Times both, sample by sample in turn, and prints the line. The ratio is the
/// median of the pairs' ratios, as both of a pair meet the same machine.
pub fn line(name: &str, mut proved: impl FnMut(), mut plain: impl FnMut()) {
    let (often, plain_often) = (repetitions(&mut proved), repetitions(&mut plain));
    let pairs: Vec<(f64, f64)> = (0..samples(&mut proved))
        .map(|_| (sample(&mut proved, often), sample(&mut plain, plain_often)))
        .collect();
    let ours = median(pairs.iter().map(|pair| pair.0 * 1e6));
    let theirs = median(pairs.iter().map(|pair| pair.1 * 1e6));
    let ratio = median(pairs.iter().map(|pair| pair.0 / pair.1));
    println!("{name:<58} {ours:>12.2} {theirs:>12.2} {ratio:>8.2}");
}

/// Fewer samples of what takes long.
fn samples(work: &mut impl FnMut()) -> usize {
    let once = sample(work, 1);
    if once > 0.2 {
        5
    } else if once > 0.02 {
        11
    } else {
        SAMPLES
    }
}

/// How often a sample repeats the work.
fn repetitions(work: &mut impl FnMut()) -> u32 {
    let once = sample(work, 1).max(1e-8);
    (LEAST_SAMPLE / once).ceil() as u32
}

/// The processor's seconds for one repetition.
fn sample(work: &mut impl FnMut(), repetitions: u32) -> f64 {
    let start = seconds();
    for _ in 0..repetitions {
        work();
    }
    (seconds() - start) / f64::from(repetitions)
}

fn median(numbers: impl Iterator<Item = f64>) -> f64 {
    let mut sorted: Vec<f64> = numbers.collect();
    sorted.sort_by(f64::total_cmp);
    sorted[sorted.len() / 2]
}
