//! The cases that speak of reports.

use super::{g, small_gfsr, TWISTED, TWISTER};
use crate::tally::Tally;
use dayunglipo::{report, WORK_WORDS};

pub fn check(tally: &mut Tally) {
    let cases = [
        ("the listing's example", g(1), (1, 1, false)),
        ("case 4", g(2), (0, 0, true)),
        ("case 9", small_gfsr(), (2, 2, false)),
        ("case 10", TWISTED, (0, 0, true)),
        ("case 11", TWISTER, (0, 0, true)),
    ];
    for (case, fields, wanted) in cases {
        let got = report(&fields, &mut vec![7; WORK_WORDS]);
        let sums = (got.resolution_sum, got.dimension_sum, got.me);
        tally.same("report", &(got.refusal, sums), &(0, wanted), || case.into());
    }
    let short = report(&g(1), &mut vec![7; WORK_WORDS - 1]).refusal;
    tally.same("report", &short, &11, || "case 16".into());
}
