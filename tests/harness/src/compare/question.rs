//! The question.

use super::memory;
use crate::convert::widened;
use crate::lent::Lent;
use crate::tally::Tally;
use crate::trial::Trial;
use dayunglipo::{Dimension, Resolution};

pub fn question(tally: &mut Tally, trial: &Trial) {
    let mut ours = Lent::<u64>::new(trial.work_room, trial.guarded);
    let mut theirs = ours.clone();
    let (t, l) = (Dimension(trial.t), Resolution(trial.l));
    let got = dayunglipo::question(&trial.fields, t, l, ours.part());
    let fields = widened(&trial.fields);
    let wanted = second::question(&fields, trial.t as u64, trial.l as u64, theirs.part());
    tally.count("question", wanted.refusal);
    let reply = (got.refusal, got.yes, got.d, got.set);
    let answer = (wanted.refusal, wanted.yes, wanted.d as usize, wanted.set);
    tally.same("question", &reply, &answer, || trial.line());
    memory(tally, "question", &ours, &theirs, || trial.line());
}
