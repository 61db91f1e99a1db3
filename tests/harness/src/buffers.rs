//! Buffers of every length about the least: none, one short, exact, longer.

use crate::compare;
use crate::convert::bytes_of;
use crate::random::{generator, state, Random};
use crate::tally::Tally;
use crate::trial::Trial;
use dayunglipo::WORK_WORDS;

pub fn check(tally: &mut Tally) {
    let mut random = Random::new(1);
    for kind in 1..=4 {
        let fields = generator(&mut random, kind, 60);
        let length = bytes_of(&fields).len();
        let whole = Trial::new(fields, 1, 1);
        for guarded in [false, true] {
            let trial = Trial { guarded, ..whole.clone() }.starting(state(&mut random, whole.k()));
            for byte_room in 0..length + 10 {
                compare::writing(tally, &Trial { byte_room, ..trial.clone() });
            }
            for t in [1, 2, trial.k() / 2 + 1, trial.k()] {
                output_rooms(tally, &Trial { t, ..trial.clone() });
            }
            work_rooms(tally, &trial);
        }
        lengths(tally, &bytes_of(&fields));
    }
}

/// Every room from none to some more than t.
fn output_rooms(tally: &mut Tally, trial: &Trial) {
    for output_room in 0..trial.t + 10 {
        compare::outputs(tally, &Trial { output_room, ..trial.clone() });
    }
}

fn work_rooms(tally: &mut Tally, trial: &Trial) {
    for work_room in [0, 1, 8, WORK_WORDS - 1, WORK_WORDS, WORK_WORDS + 1, WORK_WORDS + 100] {
        let trial = Trial { work_room, ..trial.clone() };
        trial.cell_calls(tally);
        trial.report_calls(tally);
    }
    for text_room in [0, 1, dayunglipo::TEXT_BYTES - 1, dayunglipo::TEXT_BYTES] {
        compare::listing(tally, &bytes_of(&trial.fields), text_room);
    }
}

/// A sound description cut to every length and made longer.
fn lengths(tally: &mut Tally, bytes: &[u8]) {
    let longer: Vec<u8> = bytes.iter().chain(&[0; 10]).copied().collect();
    for length in 0..=longer.len() {
        compare::reading(tally, &longer[..length]);
        if length != bytes.len() {
            compare::listing(tally, &longer[..length], dayunglipo::TEXT_BYTES);
        }
    }
}
