//! Group (c), third part: what is just inside or just outside of the ranges.

use super::faults::faultless;
use super::random::Random;
use super::raw::{hex, raw_bytes, show};
use super::Checks;
use second::{read, refusal, Fields};

/// A change to the faultless fields, with the number it earns.
type Border = (u32, fn(&mut Fields));

pub fn check(checks: &mut Checks, _: &mut Random) {
    let of_kinds: [(u64, &[Border]); 6] =
        [(1, &TAUSWORTHE), (2, &WORDS), (3, &WORDS), (3, &TWISTED), (4, &TWISTED), (4, &TWISTER)];
    for (kind, borders) in of_kinds {
        for (wanted, change) in borders {
            let mut fields = faultless(kind).fields;
            change(&mut fields);
            judged(checks, *wanted, &fields);
        }
    }
    judged(checks, 0, &gfsr_of_bits(480));
    judged(checks, 3, &gfsr_of_bits(481));
}

/// The fields and their description.
fn judged(checks: &mut Checks, wanted: u32, fields: &Fields) {
    checks.same(refusal(fields), wanted, || show(fields));
    let bytes = raw_bytes(fields, fields.kind).unwrap_or_default();
    let got = read(&bytes).err().unwrap_or(0);
    checks.same(got, wanted, || format!("read {}", hex(&bytes)));
}

/// Kind 2 with w = 1 and every coefficient.
fn gfsr_of_bits(r: u64) -> Fields {
    Fields { kind: 2, r, w: 1, output_bits: 1, coefficients: [255; 60], ..Fields::default() }
}

const FULL_WORD: u64 = 0xffff_ffff;

const TAUSWORTHE: [Border; 8] = [
    (0, |f| f.coefficients = [0; 60]),
    (0, |f| (f.k, f.coefficients) = (1, [0; 60])),
    (0, |f| (f.output_bits, f.nu) = (32, 255)),
    (0, |f| (f.output_bits, f.nu) = (1, 1)),
    (0, |f| (f.k, f.coefficients) = (480, [255; 60])),
    (6, |f| (f.k, f.coefficients) = (479, [255; 60])),
    (6, |f| f.k = 2),
    (0, |f| f.k = 3),
];

/// For kinds 2 and 3, whose r = 3 words have w = 3 bits.
const WORDS: [Border; 7] = [
    (0, |f| f.r = 160),
    (3, |f| f.r = 161),
    (0, |f| (f.r, f.w) = (15, 32)),
    (3, |f| (f.r, f.w) = (16, 32)),
    (0, |f| (f.r, f.w, f.output_bits) = (15, 32, 32)),
    (0, |f| f.output_bits = 3),
    (0, |f| f.output_bits = 1),
];

/// For kinds 3 and 4.
const TWISTED: [Border; 12] = [
    (0, |f| f.m = 2),
    (0, |f| f.r = 2),
    (3, |f| (f.r, f.m) = (2, 2)),
    (0, |f| (f.r, f.m) = (160, 159)),
    (3, |f| (f.r, f.m) = (161, 159)),
    (0, |f| (f.shift_s, f.shift_t) = (3, 3)),
    (0, |f| (f.shift_s, f.shift_t) = (1, 1)),
    (0, |f| (f.a, f.b, f.c) = (7, 7, 7)),
    (0, |f| (f.a, f.b, f.c) = (0, 0, 0)),
    (0, |f| (f.r, f.w, f.a, f.b, f.c) = (15, 32, FULL_WORD, FULL_WORD, FULL_WORD)),
    (6, |f| (f.r, f.w, f.a, f.b, f.c) = (15, 31, FULL_WORD, 0, 0)),
    (0, |f| (f.w, f.shift_s, f.shift_t) = (32, 32, 32)),
];

const TWISTER: [Border; 8] = [
    (0, |f| f.p = 0),
    (0, |f| f.p = 2),
    (3, |f| f.p = 3),
    (3, |f| (f.r, f.p) = (161, 2)),
    (3, |f| (f.r, f.w, f.p) = (16, 31, 16)),
    (0, |f| (f.shift_u, f.shift_v) = (3, 3)),
    (0, |f| (f.shift_u, f.shift_v) = (1, 1)),
    (0, |f| (f.w, f.p, f.shift_u, f.shift_v) = (32, 31, 32, 32)),
];
