//! Random rounds: a small random generator, damaged once in two times, with
//! random arguments and rooms, through every call.

use crate::compare;
use crate::convert::bytes_of;
use crate::random::{generator, state, Random};
use crate::tally::Tally;
use crate::trial::Trial;
use dayunglipo::{Fields, Words, WORK_WORDS};

pub fn check(tally: &mut Tally, random: &mut Random, rounds: u64) {
    for round in 0..rounds {
        let trial = trial(random);
        let bytes = damaged_bytes(random, &trial.fields);
        compare::reading(tally, &bytes);
        if round % 64 == 1 {
            compare::listing(tally, &bytes, dayunglipo::TEXT_BYTES);
        }
        trial.cheap_calls(tally);
        // What is refused costs little; of what is accepted the second program takes long.
        let refused = second::refusal(&crate::convert::widened(&trial.fields)) != 0;
        if refused || round % 8 == 0 {
            trial.cell_calls(tally);
        }
        if refused && round % 8 == 0 || round % 64 == 0 {
            trial.report_calls(tally);
        }
    }
}

/// Random fields and arguments, each with a chance to be wrong.
fn trial(random: &mut Random) -> Trial {
    let kind = random.between(1, 4) as u8;
    let most = if random.once_in(100) { 480 } else { random.between(2, 40) };
    let mut fields = generator(random, kind, most);
    if random.once_in(2) {
        for _ in 0..random.between(1, 3) {
            damage(random, &mut fields);
        }
    }
    let k = Trial::new(fields, 1, 1).k();
    let t = count(random, k);
    let l = count(random, fields.bits.into());
    let mut trial = Trial::new(fields, t, l).starting(start(random, k));
    trial.guarded = random.once_in(2);
    let shift = random.one_of(&[0, 0, 0, 1, 5, usize::MAX]);
    trial.byte_room = trial.byte_room.wrapping_add(shift);
    trial.output_room = t.min(600).saturating_add_signed(random.one_of(&[0, 0, 0, 1, 7, -1, -9]));
    trial.work_room = WORK_WORDS + random.between(0, 3);
    if random.once_in(20) {
        trial.work_room = random.one_of(&[0, 8, WORK_WORDS - 1]);
    }
    trial
}

/// A count that should be 1 to `most`: mostly it is, else it is near or far.
fn count(random: &mut Random, most: usize) -> usize {
    match random.between(1, 12) {
        1 => random.one_of(&[0, most + 1, most + 2, 481, 1 << 63, usize::MAX]),
        // Cut off to fewer bits it would be in range.
        4 => random.one_of(&[1 << 8, 1 << 16, 1 << 32]) + random.between(1, most.max(1)),
        2 => random.word() as usize,
        3 => most,
        _ => random.between(1, most.max(1)),
    }
}

/// A start state: random, with a bit too many, or with all bits.
fn start(random: &mut Random, k: usize) -> Words {
    let mut words = state(random, k.min(480));
    match random.between(1, 20) {
        1 => words.words[k / 64 % 8] |= 1 << (k % 64),
        2 => words.words[random.between(0, 7)] |= 1 << random.between(0, 63),
        3 => words.words = [u64::MAX; 8],
        _ => {}
    }
    words
}

/// Sets one field, of whatever kind, to a near, far or random number.
fn damage(random: &mut Random, fields: &mut Fields) {
    let any = random.word() as u32;
    let byte = random.one_of(&[0, 1, 2, 31, 32, 33, 127, 128, 255, any as u8]);
    let pair = random.one_of(&[0, 1, 2, 14, 15, 16, 479, 480, 481, 256, 65_535, any as u16]);
    let word = random.one_of(&[0, 1, 1 << 31, u32::MAX, any, any >> 16]);
    match random.between(0, 15) {
        0 => fields.kind = random.one_of(&[0, 1, 2, 3, 4, 5, 254, 255, byte]),
        1 => fields.k = pair,
        2 => fields.nu = byte,
        3 => fields.r = pair,
        4 => fields.m = pair,
        5 => fields.w = byte,
        6 => fields.p = byte,
        7 => fields.bits = byte,
        8 => fields.a = word,
        9 => fields.u = byte,
        10 => fields.s = byte,
        11 => fields.b = word,
        12 => fields.t = byte,
        13 => fields.c = word,
        14 => fields.v = byte,
        _ => fields.coefficients[random.between(0, 59)] ^= 1 << random.between(0, 7),
    }
}

/// The description with some bytes flipped, cut off or added.
fn damaged_bytes(random: &mut Random, fields: &Fields) -> Vec<u8> {
    let mut bytes = bytes_of(fields);
    for _ in 0..random.between(0, 2) {
        let place = random.between(0, bytes.len() - 1);
        bytes[place] ^= random.word() as u8;
    }
    match random.between(1, 10) {
        1 => bytes.truncate(random.between(0, bytes.len() - 1)),
        2 => bytes.resize(bytes.len() + random.between(1, 70), 0),
        _ => {}
    }
    bytes
}
