//! Input and expected output of the build's own program `handed`: bases that are handed back, and the whole
//! lent buffer after each.

use crate::vectors::{described, large_generators, record, small_generators};
use second::{Fields, WORK_WORDS};

/// The words behind the work buffer, and what every word holds before a call.
const BEHIND: usize = 8;
const MARK: u64 = 0xaaaa_aaaa_aaaa_aaaa;

/// How much of the buffer is lent.
const ALL: u8 = 0;
const ENOUGH: u8 = 1;
const SHORT: u8 = 2;

/// A description, t, l, and how much of the buffer is lent.
type Request = (Vec<u8>, u16, u8, u8);

pub fn input() -> Vec<u8> {
    let bytes = |(description, t, l, room): &Request| {
        let [high, low] = t.to_be_bytes();
        record(description, &[high, low, *l, *room])
    };
    requests().iter().flat_map(bytes).collect()
}

pub fn text() -> String {
    requests().iter().map(one).collect()
}

fn one((description, t, l, room): &Request) -> String {
    let fields = second::read(description).unwrap_or_default();
    let mut work = vec![MARK; WORK_WORDS + BEHIND];
    let lent = [WORK_WORDS + BEHIND, WORK_WORDS, WORK_WORDS - 1][*room as usize];
    let (refusal, length) = second::basis(&fields, u64::from(*t), u64::from(*l), &mut work[..lent]);
    format!("{refusal}\n{}{}\n", rows(&work[..length]), runs(&work))
}

fn rows(part: &[u64]) -> String {
    let row = |words: &[u64]| {
        let words: Vec<String> = words.iter().map(|word| format!("{word:016x}")).collect();
        words.join(" ") + "\n"
    };
    part.chunks(8).map(row).collect()
}

/// Every word of the buffer, and how often it stands there in a row.
fn runs(work: &[u64]) -> String {
    let run = |words: &[u64]| format!("{} {:016x}\n", words.len(), words[0]);
    work.chunk_by(|a, b| a == b).map(run).collect()
}

/// The largest t and l of a basis, for each of a few resolutions; then every refusal that a basis has.
fn requests() -> Vec<Request> {
    let whole = |fields: &Fields, l: u64, room: u8| -> Request {
        let t = second::state_bits(fields) as u64 / l;
        (described(fields), t as u16, l as u8, room)
    };
    let mut all: Vec<Request> = Vec::new();
    for fields in small_generators() {
        all.push(whole(&fields, 1, ALL));
        all.push(whole(&fields, fields.output_bits.min(2), ENOUGH));
    }
    for fields in large_generators() {
        all.push((described(&fields), 3, fields.output_bits.min(5) as u8, ALL));
    }
    let (first, k) = (described(&small_generators()[0]), 4);
    let pairs = [(0, 1), (k + 1, 1), (1, 0), (1, 5), (k, 2)];
    all.extend(pairs.map(|(t, l)| (first.clone(), t, l, ALL)));
    all.extend([(1, 1), (0, 0)].map(|(t, l)| (first.clone(), t, l, SHORT)));
    all.push((Vec::new(), 1, 1, ALL));
    all
}
