//! Counts comparisons by call and refusal number, and prints mismatches.

use std::fmt::Debug;

/// The calls, and the refusal numbers that each can give.
const CALLS: [(&str, &[u32]); 9] = [
    ("read", &[0, 1, 2, 3, 4, 5, 6]),
    ("write", &[0, 1, 3, 4, 5, 6, 11]),
    ("outputs", &[0, 1, 3, 4, 5, 6, 7, 9, 11]),
    ("value", &[0, 4, 6]),
    ("question", &[0, 1, 3, 4, 5, 6, 7, 8, 11]),
    ("basis check", &[0, 1, 3, 4, 5, 6, 7, 8, 10, 11]),
    ("basis", &[0, 1, 3, 4, 5, 6, 7, 8, 10, 11]),
    ("report", &[0, 1, 3, 4, 5, 6, 11]),
    ("listing", &[0, 1, 2, 3, 4, 5, 6, 11]),
];

/// After so many mismatches the rest is not looked at.
const MOST_MISMATCHES: u64 = 10;

pub struct Tally {
    seed: u64,
    group: &'static str,
    counts: [[u64; 12]; CALLS.len()],
    mismatches: u64,
}

impl Tally {
    pub fn new(seed: u64) -> Tally {
        Tally { seed, group: "", counts: [[0; 12]; CALLS.len()], mismatches: 0 }
    }

    /// Names the group that the next comparisons belong to.
    pub fn enter(&mut self, group: &'static str) {
        self.group = group;
    }

    /// How many comparisons were made.
    pub fn compared(&self) -> u64 {
        self.counts.iter().flatten().sum()
    }

    /// Counts one call that the second program answers with this number.
    pub fn count(&mut self, call: &str, refusal: u32) {
        let known = CALLS.iter().position(|(name, _)| *name == call);
        match known.and_then(|i| self.counts[i].get_mut(refusal as usize)) {
            Some(count) => *count += 1,
            None => self.mismatch(call, &format!("unknown call or refusal {refusal}")),
        }
    }

    /// Whether the two are the same; prints them and the arguments if not.
    pub fn same<T: PartialEq + Debug + ?Sized>(
        &mut self,
        call: &str,
        ours: &T,
        theirs: &T,
        arguments: impl FnOnce() -> String,
    ) {
        if ours != theirs {
            self.mismatch(call, &format!("{}: got {ours:?}, wanted {theirs:?}", arguments()));
        }
    }

    /// Prints one mismatch; too many end the program.
    pub fn mismatch(&mut self, call: &str, text: &str) {
        println!("MISMATCH seed {} in {}: {call} {text}", self.seed, self.group);
        self.mismatches += 1;
        if self.mismatches == MOST_MISMATCHES {
            println!("harness: {MOST_MISMATCHES} mismatches, the rest is not looked at");
            std::process::exit(1);
        }
    }

    /// Prints the counts; whether all is as it should be.
    pub fn passed(&mut self) -> bool {
        println!("calls by refusal number:");
        for (i, (call, numbers)) in CALLS.iter().enumerate() {
            let total: u64 = self.counts[i].iter().sum();
            let shown = numbers.iter().map(|n| format!(" {n}:{}", self.counts[i][*n as usize]));
            println!("  {call:<12} {total:>8} {}", shown.collect::<String>());
            if let Some(n) = numbers.iter().find(|n| self.counts[i][**n as usize] == 0) {
                self.mismatch(call, &format!("never gave {n}"));
            }
        }
        println!("harness: {} comparisons, {} mismatches", self.compared(), self.mismatches);
        self.mismatches == 0
    }
}
