//! Reading, writing, outputs and value.

use super::memory;
use crate::convert::{hex, widened};
use crate::lent::Lent;
use crate::tally::Tally;
use crate::trial::Trial;
use dayunglipo::{Dimension, Valued};

pub fn reading(tally: &mut Tally, bytes: &[u8]) {
    // A block of its own, so that a memory checker sees a step outside.
    let bytes: Box<[u8]> = bytes.into();
    let ours = dayunglipo::read(&bytes);
    let (refusal, fields) = match second::read(&bytes) {
        Ok(fields) => (0, fields),
        Err(number) => (number, second::Fields::default()),
    };
    tally.count("read", refusal);
    tally.same("read", &(ours.refusal, widened(&ours.fields)), &(refusal, fields), || hex(&bytes));
}

pub fn writing(tally: &mut Tally, trial: &Trial) {
    let mut ours = Lent::<u8>::new(trial.byte_room, trial.guarded);
    let mut theirs = ours.clone();
    let got = dayunglipo::write(&trial.fields, ours.part());
    let wanted = second::write(&widened(&trial.fields), theirs.part());
    tally.count("write", wanted);
    tally.same("write", &got, &wanted, || trial.line());
    memory(tally, "write", &ours, &theirs, || trial.line());
}

pub fn outputs(tally: &mut Tally, trial: &Trial) {
    let mut ours = Lent::<u32>::new(trial.output_room, trial.guarded);
    let mut theirs = ours.clone();
    let got = dayunglipo::outputs(&trial.fields, Dimension(trial.t), &trial.state, ours.part());
    let fields = widened(&trial.fields);
    let wanted = second::outputs(&fields, trial.t as u64, &trial.state.words, theirs.part());
    tally.count("outputs", wanted);
    tally.same("outputs", &got, &wanted, || trial.line());
    memory(tally, "outputs", &ours, &theirs, || trial.line());
}

pub fn value(tally: &mut Tally, y: u64, bits: u32) {
    let Valued { refusal, value } = dayunglipo::value(y, bits);
    let wanted = second::value(y, bits.into());
    tally.count("value", wanted.0);
    tally.same("value", &(refusal, value.to_bits()), &wanted, || format!("y {y} L {bits}"));
}
