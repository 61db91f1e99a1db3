//! A few random generators with up to 480 state bits, through every call.

use crate::random::{generator, state, Random};
use crate::tally::Tally;
use crate::trial::Trial;

pub fn check(tally: &mut Tally, random: &mut Random, rounds: u64) {
    for round in 0..rounds / 2_000 {
        let fields = generator(random, (round % 4) as u8 + 1, 480);
        let k = Trial::new(fields, 1, 1).k();
        let l = random.between(1, fields.bits.into());
        let t = random.between(1, k);
        let within = random.between(1, (k / l).max(1));
        Trial::new(fields, t, l).starting(state(random, k)).cheap_calls(tally);
        Trial::new(fields, within, l).cell_calls(tally);
        if round % 4 == round / 4 % 4 {
            Trial::new(fields, t, l).cell_calls(tally);
            Trial::new(fields, 1, 1).report_calls(tally);
        }
    }
}
