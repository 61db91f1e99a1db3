//! Compares every call of the proved library, through the Rust wrapper, with
//! the independent second program: replies, and lent memory word by word.
//!
//! `harness [SEED] [ROUNDS]`; the seed decides everything that is random. It
//! ends with status 1 after a mismatch, and where a refusal number that a
//! call can give was never seen.

mod buffers;
mod compare;
mod convert;
mod faults;
mod large;
mod lent;
mod published;
mod random;
mod rounds;
mod table;
mod tally;
mod trial;
mod values;

use random::Random;
use std::process::ExitCode;
use std::time::Instant;
use tally::Tally;

const USUAL_SEED: u64 = 20_021_115;
const USUAL_ROUNDS: u64 = 120_000;

fn main() -> ExitCode {
    let numbers: Vec<Option<u64>> = std::env::args().skip(1).map(|a| a.parse().ok()).collect();
    if numbers.len() > 2 || numbers.contains(&None) {
        eprintln!("usage: harness [SEED] [ROUNDS]");
        return ExitCode::from(2);
    }
    let argument = |i: usize, usual| numbers.get(i).copied().flatten().unwrap_or(usual);
    let (seed, most) = (argument(0, USUAL_SEED), argument(1, USUAL_ROUNDS));
    println!("harness: seed {seed}, {most} random rounds");
    let mut tally = Tally::new(seed);
    let mut random = Random::new(seed);
    group(&mut tally, "the table of document 01", table::check);
    group(&mut tally, "values", |tally| values::check(tally, &mut random, most));
    group(&mut tally, "faults, alone and in pairs", faults::check);
    group(&mut tally, "buffers", buffers::check);
    group(&mut tally, "published and extreme", |tally| published::check(tally, &mut random));
    group(&mut tally, "large", |tally| large::check(tally, &mut random, most));
    group(&mut tally, "random rounds", |tally| rounds::check(tally, &mut random, most));
    ExitCode::from(u8::from(!tally.passed()))
}

/// Runs one group and tells how long it took.
fn group(tally: &mut Tally, name: &'static str, check: impl FnOnce(&mut Tally)) {
    let (start, before) = (Instant::now(), tally.compared());
    tally.enter(name);
    check(tally);
    let (made, seconds) = (tally.compared() - before, start.elapsed().as_secs_f64());
    println!("{name}: {made} comparisons, {seconds:.1} s");
}
