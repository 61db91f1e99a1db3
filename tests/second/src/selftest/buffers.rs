//! Group (c), second part: lent buffers of exactly the length, one short,
//! and longer, where the tail stays untouched.

use super::random::{self, Random};
use super::raw::{raw_bytes, show};
use super::Checks;
use second::{basis, outputs, question, report, state_bits, write, Fields, WORK_WORDS};

pub fn check(checks: &mut Checks, random: &mut Random) {
    for round in 0..400 {
        let fields = random::generator(random, round % 4 + 1, 24);
        byte_buffers(checks, &fields);
        output_buffers(checks, random, &fields);
        work_buffers(checks, random, &fields);
    }
}

const MARK: u8 = 0xb7;

/// Lengths one short of enough, enough, and longer.
fn lengths(enough: usize) -> [usize; 4] {
    [enough - 1, enough, enough + 1, enough + 9]
}

fn byte_buffers(checks: &mut Checks, fields: &Fields) {
    let bytes = raw_bytes(fields, fields.kind).unwrap_or_default();
    for length in lengths(bytes.len()) {
        let mut lent = vec![MARK; length];
        let number = write(fields, &mut lent);
        let mut wanted = vec![MARK; length];
        if length >= bytes.len() {
            wanted[..bytes.len()].copy_from_slice(&bytes);
        }
        let case = || format!("write into {length} bytes, {}", show(fields));
        checks.same(number, if length < bytes.len() { 11 } else { 0 }, case);
        checks.same(lent, wanted, case);
    }
}

fn output_buffers(checks: &mut Checks, random: &mut Random, fields: &Fields) {
    let k = state_bits(fields);
    let state = random::state(random, k);
    let mut all = vec![0; k];
    outputs(fields, k as u64, &state, &mut all);
    let t = random.between(1, k as u64) as usize;
    for length in lengths(t) {
        let mut lent = vec![u32::MAX; length];
        let number = outputs(fields, t as u64, &state, &mut lent);
        let mut wanted = vec![u32::MAX; length];
        if length >= t {
            wanted[..t].copy_from_slice(&all[..t]);
        }
        let case = || format!("outputs {t} {state:x?} into {length}, {}", show(fields));
        checks.same(number, if length < t { 11 } else { 0 }, case);
        checks.same(lent, wanted, case);
    }
    let below = |y: &u32| u64::from(*y) >> fields.output_bits == 0;
    checks.that(all.iter().all(below), || format!("outputs {k} {state:x?}, {}", show(fields)));
}

fn work_buffers(checks: &mut Checks, random: &mut Random, fields: &Fields) {
    let k = state_bits(fields) as u64;
    let t = random.between(1, k);
    let l = random.between(1, fields.output_bits);
    let l_of_basis = l.min(k / t);
    for length in lengths(WORK_WORDS) {
        let wanted = if length < WORK_WORDS { 11 } else { 0 };
        let case = |call: &str| format!("{call} {t} {l}, {length} words, {}", show(fields));
        let mut lent = vec![u64::MAX; length];
        checks.same(question(fields, t, l, &mut lent).refusal, wanted, || case("question"));
        checks.that(left_behind(&lent, 0), || case("question left its buffer wrong"));
        let mut lent = vec![u64::MAX; length];
        checks.same(report(fields, &mut lent).refusal, wanted, || case("report"));
        checks.that(left_behind(&lent, 0), || case("report left its buffer wrong"));
        let mut lent = vec![u64::MAX; length];
        let (number, words) = basis(fields, t, l_of_basis, &mut lent);
        checks.same(number, wanted, || case("basis"));
        checks.that(left_behind(&lent, words), || case("basis left its buffer wrong"));
    }
}

/// Whether a buffer of marks is unchanged if it was too short, and else is
/// zero behind so many words up to 7,696 and unchanged behind those.
fn left_behind(lent: &[u64], words: usize) -> bool {
    let marked = |part: &[u64]| part.iter().all(|&word| word == u64::MAX);
    if lent.len() < WORK_WORDS {
        return marked(lent) && words == 0;
    }
    lent[words..WORK_WORDS].iter().all(|&word| word == 0) && marked(&lent[WORK_WORDS..])
}
