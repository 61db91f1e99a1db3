//! The small generators that document 01 works by hand: its replies stand
//! here as numbers, and all calls are compared as well.

use crate::published::{gfsr, tausworthe};
use crate::tally::Tally;
use crate::trial::Trial;
use dayunglipo::Fields;

mod questions;
mod rows;
mod sums;
mod text;

/// Gν: x_n = x_(n−3) + x_(n−4), k = 4, L = 4.
pub fn g(nu: u8) -> Fields {
    tausworthe(4, 4, nu, &[3, 4])
}

/// The generator of cases 8 and 9.
pub fn small_gfsr() -> Fields {
    gfsr(2, 2, 2, &[1, 2])
}

/// The generator of case 10.
pub const TWISTED: Fields =
    Fields { kind: 3, r: 2, m: 1, w: 2, bits: 2, a: 3, s: 1, t: 1, ..Fields::ZERO };

/// The generator of case 11.
pub const TWISTER: Fields = Fields { kind: 4, p: 1, u: 2, s: 2, t: 2, v: 2, ..TWISTED };

pub fn check(tally: &mut Tally) {
    for fields in [g(1), g(2), g(4), g(15), small_gfsr(), TWISTED, TWISTER] {
        for t in 0..=5 {
            for l in 0..=5 {
                Trial::new(fields, t, l).all_calls(tally);
            }
        }
    }
    let half = dayunglipo::value(1, 1);
    tally.same("value", &(half.refusal, half.value), &(0, 0.5), || "case 12".into());
    limits(tally);
    questions::check(tally);
    rows::check(tally);
    sums::check(tally);
    text::check(tally);
}

/// Cases 14 and 15, by writing.
fn limits(tally: &mut Tally) {
    let fits = Fields { r: 15, w: 32, ..TWISTER };
    let cases = [
        ("case 14, k = 480", Fields { k: 480, ..g(1) }, 0),
        ("case 14, k = 481", Fields { k: 481, ..g(1) }, 3),
        ("case 15, r = 15, w = 32", fits, 0),
        ("case 15, r = 16, w = 31, p = 16", Fields { r: 16, w: 31, p: 16, ..fits }, 3),
    ];
    for (case, fields, wanted) in cases {
        let got = dayunglipo::write(&fields, &mut [0; 65]);
        tally.same("write", &got, &wanted, || case.into());
    }
}
