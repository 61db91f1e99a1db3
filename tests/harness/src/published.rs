//! Published parameters brought to r = 15, and the extremes of every kind.

use crate::random::{set_coefficients, state, Random};
use crate::tally::Tally;
use crate::trial::Trial;
use dayunglipo::{Fields, Words};

/// TT800's twist and tempering on 15 words.
pub const TT800: Fields = Fields {
    kind: 3,
    r: 15,
    m: 7,
    w: 32,
    bits: 32,
    a: 0x8ebf_d028,
    s: 7,
    b: 0x2b5b_2500,
    t: 15,
    c: 0xdb8b_0000,
    ..Fields::ZERO
};

/// MT19937's twist and tempering on 15 words.
pub const MT19937: Fields = Fields {
    kind: 4,
    r: 15,
    m: 7,
    w: 32,
    p: 31,
    bits: 32,
    a: 0x9908_b0df,
    u: 11,
    s: 7,
    b: 0x9d2c_5680,
    t: 15,
    c: 0xefc6_0000,
    v: 18,
    ..Fields::ZERO
};

/// Kind 1 with the coefficients a_i for the given i.
pub fn tausworthe(k: u16, bits: u8, nu: u8, taps: &[usize]) -> Fields {
    with_taps(Fields { kind: 1, k, bits, nu, ..Fields::ZERO }, taps)
}

/// Kind 2 with the coefficients a_i for the given i.
pub fn gfsr(r: u16, w: u8, bits: u8, taps: &[usize]) -> Fields {
    with_taps(Fields { kind: 2, r, w, bits, ..Fields::ZERO }, taps)
}

fn with_taps(mut fields: Fields, taps: &[usize]) -> Fields {
    for i in taps {
        fields.coefficients[(i - 1) / 8] |= 128 >> ((i - 1) % 8);
    }
    fields
}

/// Generators of known design: trinomials, TT800, MT19937, and neighbours.
fn known() -> Vec<Fields> {
    vec![
        TT800,
        MT19937,
        Fields { p: 0, ..MT19937 },
        Fields { m: 14, ..TT800 },
        Fields { m: 1, p: 16, ..MT19937 },
        Fields { bits: 31, ..MT19937 },
        // The parts of taus88 and LFSR113 as kind 1: x^k + x^q + 1, s steps.
        tausworthe(31, 32, 12, &[18, 31]),
        tausworthe(29, 32, 4, &[27, 29]),
        tausworthe(28, 32, 17, &[25, 28]),
        tausworthe(31, 32, 18, &[25, 31]),
        // R250's and a small GFSR's taps.
        gfsr(250, 1, 1, &[147, 250]),
        gfsr(15, 32, 32, &[1, 15]),
    ]
}

/// The smallest and the largest k of every kind, ν 1 and 255, L above k,
/// transitions that lose bits, and no coefficients at all.
fn extremes() -> Vec<Fields> {
    let small = Fields { r: 2, m: 1, w: 1, bits: 1, a: 1, s: 1, t: 1, ..Fields::ZERO };
    vec![
        tausworthe(1, 1, 1, &[1]),
        tausworthe(1, 32, 255, &[1]),
        tausworthe(1, 32, 1, &[]),
        tausworthe(4, 32, 1, &[3, 4]),
        tausworthe(4, 32, 255, &[3, 4]),
        tausworthe(9, 32, 9, &[4, 5]),
        tausworthe(480, 32, 1, &[17, 33, 480]),
        tausworthe(480, 1, 1, &[]),
        tausworthe(60, 32, 255, &[1, 59]),
        gfsr(1, 1, 1, &[1]),
        gfsr(1, 1, 1, &[]),
        gfsr(1, 32, 32, &[1]),
        gfsr(480, 1, 1, &[111, 480]),
        gfsr(15, 32, 31, &[2, 14]),
        Fields { kind: 3, ..small },
        Fields { kind: 3, a: 0, b: 1, c: 1, ..small },
        Fields { kind: 3, r: 480, m: 479, ..small },
        Fields { kind: 3, r: 240, w: 2, bits: 2, a: 2, b: 1, ..small },
        Fields { kind: 3, a: 0, ..TT800 },
        Fields { kind: 4, u: 1, v: 1, ..small },
        Fields { kind: 4, r: 2, w: 2, p: 1, bits: 2, a: 3, u: 2, v: 1, ..small },
        Fields { kind: 4, r: 480, m: 1, u: 1, v: 1, ..small },
        Fields { a: 0, p: 0, ..MT19937 },
        Fields { u: 32, s: 32, t: 32, v: 32, b: u32::MAX, c: u32::MAX, ..MT19937 },
    ]
}

pub fn check(tally: &mut Tally, random: &mut Random) {
    let mut dense = tausworthe(480, 32, 7, &[480]);
    set_coefficients(random, &mut dense, 480);
    for fields in known().into_iter().chain(extremes()).chain([dense]) {
        runs(tally, random, fields);
        cells(tally, fields);
        Trial::new(fields, 1, 1).report_calls(tally);
    }
    // A long stride costs the second program most; a few of its calls.
    let long = tausworthe(480, 32, 255, &[1, 240, 480]);
    runs(tally, random, long);
    for (t, l) in [(15, 32), (16, 32), (30, 16), (40, 1)] {
        Trial::new(long, t, l).cell_calls(tally);
    }
    Trial::new(long, 1, 1).report_calls(tally);
}

/// Outputs from no bits, all bits and random bits.
fn runs(tally: &mut Tally, random: &mut Random, fields: Fields) {
    let k = Trial::new(fields, 1, 1).k();
    let mut all = Words::default();
    (0..k).for_each(|i| all.words[i / 64] |= 1 << (i % 64));
    for start in [Words::default(), all, state(random, k)] {
        for t in [1, k / 2 + 1, k] {
            Trial::new(fields, t, 1).starting(start).cheap_calls(tally);
        }
    }
}

/// The corners of the (t, l) square, and about t·l = k.
fn cells(tally: &mut Tally, fields: Fields) {
    let (k, length) = (Trial::new(fields, 1, 1).k(), usize::from(fields.bits));
    let mut pairs = vec![(1, 1), (k, 1), (1, length), (k, length)];
    for l in [1, 2, length.div_ceil(2), length] {
        pairs.push((k / l, l));
        pairs.push((k / l + 1, l));
    }
    pairs.sort_unstable();
    pairs.dedup();
    for (t, l) in pairs {
        Trial::new(fields, t, l).cell_calls(tally);
    }
}
