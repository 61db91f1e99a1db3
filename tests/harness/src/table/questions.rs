//! The cases that are questions.

use super::{g, small_gfsr, TWISTED, TWISTER};
use crate::tally::Tally;
use dayunglipo::{question, Dimension, Fields, Reply, Resolution, WORK_WORDS};

fn ask(fields: &Fields, t: usize, l: usize, room: usize) -> Reply {
    question(fields, Dimension(t), Resolution(l), &mut vec![7; room])
}

const YES: Reply = Reply { refusal: 0, yes: true, d: 0, set: [0; 8] };

/// A no with d and the set's first word.
fn no(d: usize, set: u64) -> Reply {
    Reply { refusal: 0, yes: false, d, set: [set, 0, 0, 0, 0, 0, 0, 0] }
}

fn refused(refusal: u32) -> Reply {
    Reply { refusal, ..no(0, 0) }
}

pub fn check(tally: &mut Tally) {
    let cases = [
        ("case 1", g(1), (2, 1), YES),
        ("case 2", g(1), (2, 2), no(2, 0b110)),
        ("case 3", g(2), (2, 2), YES),
        ("case 4", g(2), (4, 1), YES),
        ("case 5", g(4), (2, 2), no(2, 0b111)),
        ("case 7", g(15), (2, 1), no(1, 0b11)),
        ("case 8", small_gfsr(), (2, 2), YES),
        ("case 9", small_gfsr(), (3, 1), no(2, 0b111)),
        ("case 10", TWISTED, (4, 1), YES),
        ("case 11", TWISTER, (3, 1), YES),
        ("case 13", g(1), (4, 4), no(4, 0b10010)),
        ("case 17", g(1), (0, 0), refused(7)),
    ];
    for (case, fields, (t, l), wanted) in cases {
        tally.same("question", &ask(&fields, t, l, WORK_WORDS), &wanted, || case.into());
    }
    let short = ask(&g(1), 2, 1, WORK_WORDS - 1);
    tally.same("question", &short, &refused(11), || "case 16".into());
}
