//! The text of the listing program.

use crate::description::read;
use crate::refusals::WORK_WORDS;
use crate::report::{best_resolution, report, Report};

/// What the listing program prints for this standard input.
pub fn listing(input: &[u8]) -> Vec<u8> {
    let text = match read(input) {
        Ok(fields) => report_text(&report(&fields, &mut vec![0; WORK_WORDS])),
        Err(number) => format!("refused {number}\n"),
    };
    text.into_bytes()
}

/// The lines of an accepted report.
fn report_text(report: &Report) -> String {
    let (k, length) = (report.k as usize, report.l as usize);
    let mut text = format!("k {k} L {length}\n");
    for t in 1..=k {
        let best = best_resolution(k, length, t);
        let found = report.resolutions[t - 1] as usize;
        text += &format!("t {t} {best} {found} {}\n", best - found);
    }
    for l in 1..=length {
        let best = k / l;
        let found = report.dimensions[l - 1] as usize;
        text += &format!("l {l} {best} {found} {}\n", best - found);
    }
    text += &format!("sum {} {}\n", report.sum_lambda, report.sum_delta);
    text += if report.me { "ME yes\n" } else { "ME no\n" };
    text
}
