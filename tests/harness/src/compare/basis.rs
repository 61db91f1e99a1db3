//! The basis and its check.

use super::memory;
use crate::convert::widened;
use crate::lent::Lent;
use crate::tally::Tally;
use crate::trial::Trial;
use dayunglipo::{Dimension, Resolution};

pub fn basis_check(tally: &mut Tally, trial: &Trial) {
    let (t, l) = (Dimension(trial.t), Resolution(trial.l));
    let got = dayunglipo::basis_check(&trial.fields, t, l, trial.work_room);
    let fields = widened(&trial.fields);
    let wanted = second::basis_check(&fields, trial.t as u64, trial.l as u64, trial.work_room);
    tally.count("basis check", wanted);
    tally.same("basis check", &got, &wanted, || trial.line());
}

pub fn basis(tally: &mut Tally, trial: &Trial) {
    let mut ours = Lent::<u64>::new(trial.work_room, trial.guarded);
    let mut theirs = ours.clone();
    let (t, l) = (Dimension(trial.t), Resolution(trial.l));
    let got = dayunglipo::basis(&trial.fields, t, l, ours.part());
    let got = (got.refusal, got.rows.len());
    let fields = widened(&trial.fields);
    let wanted = second::basis(&fields, trial.t as u64, trial.l as u64, theirs.part());
    tally.count("basis", wanted.0);
    tally.same("basis", &got, &wanted, || trial.line());
    memory(tally, "basis", &ours, &theirs, || trial.line());
}
