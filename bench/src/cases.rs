//! The generators that are timed: every kind at its largest k.

use crate::random::Random;
use dayunglipo::{Fields, Words};

/// The coefficients of the i that are given.
fn with_taps(mut g: Fields, taps: &[usize]) -> Fields {
    for i in taps {
        g.coefficients[(i - 1) / 8] |= 128 >> ((i - 1) % 8);
    }
    g
}

/// About half of a_1 to a_last, a_last among them.
fn dense(g: Fields, last: usize) -> Fields {
    let mut random = Random(7);
    let mut taps: Vec<usize> = (1..last).filter(|_| random.word() >> 63 == 1).collect();
    taps.push(last);
    with_taps(g, &taps)
}

fn tausworthe(nu: u8) -> Fields {
    Fields { kind: 1, k: 480, nu, bits: 32, ..Fields::ZERO }
}

fn gfsr(r: u16, w: u8) -> Fields {
    dense(Fields { kind: 2, r, w, bits: w, ..Fields::ZERO }, r.into())
}

/// Names and generators. The words of kinds 3 and 4 are those of TT800 and MT19937.
pub fn cases() -> Vec<(&'static str, Fields)> {
    let words = Fields { r: 15, m: 7, w: 32, bits: 32, s: 7, t: 15, ..Fields::ZERO };
    let twisted = Fields { kind: 3, a: 0x8ebf_d028, b: 0x2b5b_2500, c: 0xdb8b_0000, ..words };
    let (a, b, c) = (0x9908_b0df, 0x9d2c_5680, 0xefc6_0000);
    let twister = Fields { kind: 4, a, u: 11, b, c, v: 18, ..words };
    vec![
        ("kind 1, k 480, nu 1, dense", dense(tausworthe(1), 480)),
        ("kind 1, k 480, nu 32, dense", dense(tausworthe(32), 480)),
        ("kind 1, k 480, nu 255, dense", dense(tausworthe(255), 480)),
        ("kind 1, k 480, nu 255, two taps", with_taps(tausworthe(255), &[239, 480])),
        ("kind 2, r 15, w 32", gfsr(15, 32)),
        ("kind 2, r 480, w 1", gfsr(480, 1)),
        ("kind 3, r 15, w 32", twisted),
        ("kind 4, r 15, w 32, p 0", twister),
        ("kind 4, r 15, w 32, p 31", Fields { p: 31, ..twister }),
    ]
}

/// k of a generator.
pub fn state_bits(g: &Fields) -> usize {
    match g.kind {
        1 => g.k.into(),
        _ => usize::from(g.r) * usize::from(g.w) - usize::from(g.p),
    }
}

/// A random start state of k bits.
pub fn state(k: usize) -> Words {
    let mut random = Random(11);
    let mut state = Words::default();
    (0..k).for_each(|i| state.words[i / 64] |= (random.word() >> 63) << (i % 64));
    state
}
