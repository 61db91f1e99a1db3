//! Group (f): description bytes: the layout, round trips, and that nothing
//! panics on damaged bytes or wild fields.

use super::random::{self, Random};
use super::raw::{hex, raw_bytes, show};
use super::Checks;
use second::{
    basis, outputs, question, read, refusal, report, state_bits, write, Fields, WORK_WORDS,
};
use std::panic::{catch_unwind, AssertUnwindSafe};

pub fn check(checks: &mut Checks, random: &mut Random) {
    layout(checks);
    for round in 0..8_000 {
        let fields = random::generator(random, round % 4 + 1, 480);
        round_trip(checks, &fields);
        damaged(checks, random, &fields);
    }
    for _ in 0..4_000 {
        let fields = wild_fields(random);
        never_panics(checks, &fields, random);
    }
}

/// Bodies written out by hand, every byte another.
fn layout(checks: &mut Checks) {
    let twister =
        [4, 0, 15, 0, 7, 32, 31, 30, 17, 18, 19, 20, 21, 22, 23, 24, 25, 26, 27, 28, 29, 1, 2, 3];
    let wanted = Fields {
        kind: 4,
        r: 15,
        m: 7,
        w: 32,
        p: 31,
        output_bits: 30,
        a: 0x1112_1314,
        shift_u: 21,
        shift_s: 22,
        b: 0x1718_191a,
        shift_t: 27,
        c: 0x1c1d_0102,
        shift_v: 3,
        ..Fields::default()
    };
    checks.same(read(&twister), Ok(wanted), || format!("read {}", hex(&twister)));
    let twisted = [3, 0, 14, 0, 6, 31, 29, 17, 18, 19, 20, 21, 22, 23, 24, 25, 26, 27, 28, 1, 2];
    let wanted = Fields {
        kind: 3,
        r: 14,
        m: 6,
        w: 31,
        output_bits: 29,
        a: 0x1112_1314,
        shift_s: 21,
        shift_t: 22,
        b: 0x1718_191a,
        c: 0x1b1c_0102,
        ..Fields::default()
    };
    checks.same(read(&twisted), Ok(wanted), || format!("read {}", hex(&twisted)));
    layout_with_coefficients(checks);
}

/// Kinds 1 and 2, with a number above 255 and a coefficient in the last byte.
fn layout_with_coefficients(checks: &mut Checks) {
    let mut coefficients = [0; 60];
    (coefficients[0], coefficients[1], coefficients[59]) = (0x81, 0x80, 0x01);
    let tail: Vec<u8> = coefficients.to_vec();
    let tausworthe = [&[1, 1, 0xe0, 20, 255], tail.as_slice()].concat();
    let wanted =
        Fields { kind: 1, k: 480, output_bits: 20, nu: 255, coefficients, ..Fields::default() };
    for i in 1..=480 {
        let is_set = [1, 8, 9, 480].contains(&i);
        checks.same(wanted.coefficient(i), is_set, || format!("coefficient a_{i}"));
    }
    checks.same(read(&tausworthe), Ok(wanted), || format!("read {}", hex(&tausworthe)));
    let gfsr = [&[2, 1, 0xe0, 1, 1], tail.as_slice()].concat();
    let wanted =
        Fields { kind: 2, r: 480, w: 1, output_bits: 1, coefficients, ..Fields::default() };
    checks.same(read(&gfsr), Ok(wanted), || format!("read {}", hex(&gfsr)));
}

/// Written bytes are the raw ones, and reading gives the fields again.
fn round_trip(checks: &mut Checks, fields: &Fields) {
    let raw = raw_bytes(fields, fields.kind).unwrap_or_default();
    let mut written = vec![0; raw.len()];
    checks.same(write(fields, &mut written), 0, || format!("write {}", show(fields)));
    checks.same(&written, &raw, || format!("write {}", show(fields)));
    checks.same(read(&written).as_ref(), Ok(fields), || format!("read {}", hex(&written)));
}

/// A few bytes changed, and at times the length: either a refusal 1 to 6, or
/// fields that are written as the same bytes.
fn damaged(checks: &mut Checks, random: &mut Random, fields: &Fields) {
    let mut bytes = raw_bytes(fields, fields.kind).unwrap_or_default();
    for _ in 0..random.between(1, 3) {
        let place = random.between(0, bytes.len() as u64 - 1) as usize;
        bytes[place] = random.word() as u8;
    }
    if random.once_in(4) {
        bytes.resize(random.between(0, 70) as usize, random.word() as u8);
    }
    let made = catch_unwind(|| read(&bytes));
    checks.that(made.is_ok(), || format!("panic, read {}", hex(&bytes)));
    match made {
        Ok(Ok(fields)) => {
            let mut written = vec![0; bytes.len()];
            checks.same(write(&fields, &mut written), 0, || format!("write {}", hex(&bytes)));
            checks.same(&written, &bytes, || format!("write {}", hex(&bytes)));
            if state_bits(&fields) <= 40 {
                never_panics(checks, &fields, random);
            }
        }
        Ok(Err(number)) => {
            checks.that((1..=6).contains(&number), || format!("read {}", hex(&bytes)))
        }
        Err(_) => (),
    }
}

/// Fields of small, borderline and wild numbers.
fn wild_fields(random: &mut Random) -> Fields {
    let mut number = || match random.between(0, 5) {
        0 => 0,
        1 | 2 => random.between(1, 5),
        3 => random.between(31, 34),
        4 => random.between(255, 481),
        _ => random.word() >> random.between(0, 63),
    };
    let mut fields = Fields {
        kind: number(),
        k: number(),
        r: number(),
        m: number(),
        w: number(),
        p: number(),
        output_bits: number(),
        nu: number(),
        a: number(),
        b: number(),
        c: number(),
        shift_s: number(),
        shift_t: number(),
        shift_u: number(),
        shift_v: number(),
        ..Fields::default()
    };
    fields.coefficients[random.between(0, 59) as usize] = random.word() as u8;
    fields
}

/// Every call on these fields, with a t and l of any size, comes back.
fn never_panics(checks: &mut Checks, fields: &Fields, random: &mut Random) {
    let t = random.word() >> random.between(0, 63);
    let l = random.word() >> random.between(0, 63);
    let state = [random.word() >> random.between(0, 63), 0, 0, 0, 0, 0, 0, 0];
    let calls = || {
        let mut work = vec![0; WORK_WORDS];
        let first = [refusal(fields), outputs(fields, t, &state, &mut [0; 480])];
        let asked = [question(fields, t, l, &mut work).refusal, basis(fields, t, l, &mut work).0];
        let last = [report(fields, &mut work).refusal, write(fields, &mut [0; 65])];
        [first, asked, last].concat().into_iter().max()
    };
    let highest = catch_unwind(AssertUnwindSafe(calls));
    let came_back = matches!(highest, Ok(Some(0..=10)));
    checks.that(came_back, || {
        format!("{highest:?}, t {t} l {l} state {}, {}", state[0], show(fields))
    });
}
