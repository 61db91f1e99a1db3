//! The cases that are bases.

use super::g;
use crate::tally::Tally;
use dayunglipo::{basis, basis_check, Dimension, Resolution, WORK_WORDS};

pub fn check(tally: &mut Tally) {
    let mut work = vec![7; WORK_WORDS];
    let got = basis(&g(4), Dimension(2), Resolution(2), &mut work);
    let mut rows = [0; 24];
    (rows[0], rows[8], rows[16]) = (1, 2, 4);
    tally.same("basis", &(got.refusal, &*got.rows), &(0, &rows[..]), || "case 6".into());
    tally.same("basis", &work[24..], &[0; WORK_WORDS - 24][..], || "case 6, behind".into());
    for (room, wanted) in [(WORK_WORDS, 0), (WORK_WORDS - 1, 11)] {
        let got = basis_check(&g(1), Dimension(2), Resolution(1), room);
        tally.same("basis check", &got, &wanted, || format!("case 16, {room}"));
    }
    let got = basis_check(&g(1), Dimension(0), Resolution(0), WORK_WORDS);
    tally.same("basis check", &got, &7, || "case 17".into());
}
