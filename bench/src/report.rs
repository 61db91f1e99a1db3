//! The whole report, against both plain plans.

use crate::cases::{cases, state_bits};
use crate::plain::report::{by_pair, by_resolution};
use crate::table;
use dayunglipo::{Fields, Report, WORK_WORDS};
use std::hint::black_box;

type Plan = fn(&Fields) -> Report;

pub fn time() {
    let mut work = vec![0; WORK_WORDS];
    for (name, g) in cases() {
        let ours = dayunglipo::report(&g, &mut work);
        let plans: [(&str, Plan); 2] = [("by l", by_resolution), ("by pair", by_pair)];
        for (plan, plain) in plans {
            assert_eq!(ours, plain(&g), "the reports differ: {name}");
            table::line(
                &format!("report, k {}, {name} / {plan}", state_bits(&g)),
                || {
                    black_box(dayunglipo::report(black_box(&g), &mut work));
                },
                || {
                    black_box(plain(black_box(&g)));
                },
            );
        }
    }
}
