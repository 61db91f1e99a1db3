//! The self-test: groups of checks, each able to fail, on a deterministic
//! stream of random cases. The first mismatch prints a line that tells how
//! to see it again and ends the program.

mod borders;
mod brute_force;
mod buffers;
mod bytes;
mod faults;
mod large_cases;
mod listings;
mod random;
mod raw;
mod refusal_numbers;
mod table;
mod textbook;
mod textbook_runs;
mod values;
mod whole_reports;

use random::Random;
use std::fmt::Debug;
use std::panic::{catch_unwind, AssertUnwindSafe};

/// The seed taken when none is given.
pub const USUAL_SEED: u64 = 20_020_101;

/// Counts the checks, and ends the program at the first mismatch.
pub struct Checks {
    seed: u64,
    group: &'static str,
    in_group: u64,
    total: u64,
}

impl Checks {
    /// Counts a check; `what` tells how to see it again if it fails.
    pub fn that(&mut self, holds: bool, what: impl FnOnce() -> String) {
        self.in_group += 1;
        if !holds {
            println!("MISMATCH seed {} group {}: {}", self.seed, self.group, what());
            std::process::exit(1);
        }
    }

    /// Counts a check that two things are the same.
    pub fn same<T: PartialEq + Debug>(&mut self, got: T, wanted: T, what: impl FnOnce() -> String) {
        let agree = got == wanted;
        self.that(agree, || format!("{}: got {got:?}, wanted {wanted:?}", what()));
    }

    /// Runs a group and prints its line. Each group has its own random
    /// stream, so that it can change without moving the others.
    fn group(&mut self, name: &'static str, checks: fn(&mut Checks, &mut Random)) {
        self.group = name;
        self.in_group = 0;
        let stream = name
            .bytes()
            .fold(self.seed, |sum, byte| sum.wrapping_mul(257).wrapping_add(u64::from(byte)));
        let run = AssertUnwindSafe(|| checks(self, &mut Random::new(stream)));
        if catch_unwind(run).is_err() {
            self.that(false, || "panic".to_string());
        }
        println!("{name}: {} checks", self.in_group);
        self.total += self.in_group;
    }
}

/// Runs all groups and gives the last line.
pub fn run(seed: u64) -> String {
    println!("seed {seed}");
    let mut checks = Checks { seed, group: "", in_group: 0, total: 0 };
    checks.group("(a) table of document 01", table::check);
    checks.group("(b) listing", listings::check);
    checks.group("(c) refusal numbers", refusal_numbers::check);
    checks.group("(c) lent buffers", buffers::check);
    checks.group("(c) borders of the ranges", borders::check);
    checks.group("(d) brute force", brute_force::check);
    checks.group("(d) larger generators", large_cases::check);
    checks.group("(e) whole reports", whole_reports::check);
    checks.group("(f) description bytes", bytes::check);
    checks.group("(g) textbook generators", textbook_runs::check);
    checks.group("(h) values", values::check);
    format!("second: {} checks passed\n", checks.total)
}
