//! Input and expected output of the build's own programs `published` and `asked`: this program makes both,
//! so that what those print is compared with what document 01 says and not with themselves.

use second::{Fields, WORK_WORDS};

/// The bytes of a record: the description's length, the description padded to this many bytes, what follows.
const PADDED: usize = 65;

/// What a record of `asked` asks.
const QUESTIONS: u8 = 0;
const REPORT: u8 = 1;
const SHORT_BUFFER: u8 = 2;
const ZERO_PAIR: u8 = 3;

pub fn published_input() -> Vec<u8> {
    generators().iter().flat_map(|fields| published_record(fields)).collect()
}

pub fn published_text() -> String {
    generators().iter().map(outputs_text).collect()
}

pub fn asked_input() -> Vec<u8> {
    requests().iter().flat_map(|(mode, bytes)| record(bytes, &[*mode])).collect()
}

pub fn asked_text() -> String {
    requests().iter().map(|(mode, bytes)| asked_one(*mode, bytes)).collect()
}

pub fn record(bytes: &[u8], rest: &[u8]) -> Vec<u8> {
    let mut record = vec![bytes.len() as u8];
    record.extend_from_slice(bytes);
    record.resize(1 + PADDED, 0);
    record.extend_from_slice(rest);
    record
}

pub fn described(fields: &Fields) -> Vec<u8> {
    let mut bytes = [0; PADDED];
    assert_eq!(second::write(fields, &mut bytes), 0, "{fields:?}");
    let length = [PADDED, PADDED, 21, 24][fields.kind as usize - 1];
    bytes[..length].to_vec()
}

/// A start state whose bits look random, with none set from k on.
fn start_state(fields: &Fields) -> [u64; 8] {
    let k = second::state_bits(fields);
    let mut mixed = 0x9e37_79b9_7f4a_7c15_u64;
    std::array::from_fn(|word| {
        mixed = mixed.wrapping_mul(0xd134_2543_de82_ef95).wrapping_add(word as u64 + 1);
        let kept = k.saturating_sub(64 * word).min(64);
        if kept == 64 { mixed } else { mixed & ((1 << kept) - 1) }
    })
}

fn count(fields: &Fields) -> u64 {
    second::state_bits(fields).min(40) as u64
}

fn published_record(fields: &Fields) -> Vec<u8> {
    let mut rest = vec![count(fields) as u8];
    start_state(fields).iter().for_each(|word| rest.extend(word.to_be_bytes()));
    record(&described(fields), &rest)
}

fn outputs_text(fields: &Fields) -> String {
    let mut out = vec![0; count(fields) as usize];
    assert_eq!(second::outputs(fields, count(fields), &start_state(fields), &mut out), 0);
    out.iter().map(|number| format!("{number}\n")).collect::<String>() + "\n"
}

fn asked_one(mode: u8, bytes: &[u8]) -> String {
    match second::read(bytes) {
        Err(number) => format!("refused {number}\n"),
        Ok(fields) => match mode {
            QUESTIONS => questions_text(&fields),
            REPORT => report_text(&fields),
            SHORT_BUFFER => answer_text(&fields, 1, 1, WORK_WORDS - 1),
            _ => answer_text(&fields, 0, 0, WORK_WORDS),
        },
    }
}

fn questions_text(fields: &Fields) -> String {
    let mut text = String::new();
    for t in 1..=second::state_bits(fields) as u64 {
        for l in 1..=fields.output_bits {
            text += &answer_text(fields, t, l, WORK_WORDS);
        }
    }
    text
}

fn answer_text(fields: &Fields, t: u64, l: u64, room: usize) -> String {
    let answer = second::question(fields, t, l, &mut vec![0; room]);
    let set: String = answer.set.iter().map(|word| format!(" {word:016x}")).collect();
    format!("{t} {l} {} {} {}{set}\n", answer.refusal, u8::from(answer.yes), answer.d)
}

fn report_text(fields: &Fields) -> String {
    let report = second::report(fields, &mut vec![0; WORK_WORDS]);
    let tables = report.resolutions.iter().chain(&report.dimensions);
    let numbers: String = tables.map(|number| format!("{number}\n")).collect();
    format!("{numbers}{} {} {}\n", report.sum_lambda, report.sum_delta, u8::from(report.me))
}

fn taps(mut fields: Fields, taps: &[usize]) -> Fields {
    taps.iter().for_each(|&tap| fields.set_coefficient(tap));
    fields
}

fn tausworthe(k: u64, output_bits: u64, nu: u64, at: &[usize]) -> Fields {
    taps(Fields { kind: 1, k, output_bits, nu, ..Fields::default() }, at)
}

fn gfsr(r: u64, w: u64, output_bits: u64, at: &[usize]) -> Fields {
    taps(Fields { kind: 2, r, w, output_bits, ..Fields::default() }, at)
}

/// The words of TT800, at another length.
fn tt800(r: u64, m: u64) -> Fields {
    let (a, b, c) = (0x8ebf_d028, 0x2b5b_2500, 0xdb8b_0000);
    let (shift_s, shift_t) = (7, 15);
    Fields { kind: 3, r, m, w: 32, output_bits: 32, a, b, c, shift_s, shift_t, ..Fields::default() }
}

/// The words of MT19937, at another length.
fn mt19937(r: u64, m: u64, p: u64) -> Fields {
    let (a, b, c) = (0x9908_b0df, 0x9d2c_5680, 0xefc6_0000);
    let shifts = Fields { shift_u: 11, shift_s: 7, shift_t: 15, shift_v: 18, ..Fields::default() };
    Fields { kind: 4, r, m, w: 32, p, output_bits: 32, a, b, c, ..shifts }
}

fn small_twisted(r: u64, m: u64, w: u64, kind: u64, p: u64) -> Fields {
    let shifts = Fields { shift_s: 1, shift_t: w, ..Fields::default() };
    let body = Fields { kind, r, m, w, output_bits: w, a: (1 << w) - 1, b: 1, c: 1, ..shifts };
    if kind == 3 { body } else { Fields { p, shift_u: w, shift_v: 1, ..body } }
}

/// Published parameters, and generators at the borders of every kind.
fn generators() -> Vec<Fields> {
    vec![
        tt800(15, 7),
        mt19937(15, 8, 31),
        mt19937(15, 8, 0),
        tausworthe(480, 32, 1, &[3, 480]),
        tausworthe(480, 32, 255, &[1, 7, 100, 480]),
        tausworthe(31, 32, 18, &[25, 31]),
        tausworthe(5, 20, 3, &[2, 5]),
        tausworthe(4, 4, 1, &[1]),
        tausworthe(1, 1, 1, &[]),
        tausworthe(1, 32, 255, &[1]),
        gfsr(15, 32, 32, &[1, 4, 15]),
        gfsr(480, 1, 1, &[7, 480]),
        gfsr(1, 1, 1, &[1]),
        gfsr(4, 3, 2, &[]),
        small_twisted(2, 1, 1, 3, 0),
        small_twisted(3, 2, 4, 3, 0),
        small_twisted(2, 1, 2, 4, 1),
        small_twisted(3, 1, 5, 4, 3),
    ]
}

/// A dozen small generators of every kind, for every (t, l).
pub fn small_generators() -> Vec<Fields> {
    vec![
        tausworthe(4, 4, 1, &[3, 4]),
        tausworthe(4, 4, 2, &[3, 4]),
        tausworthe(4, 4, 4, &[3, 4]),
        tausworthe(4, 4, 15, &[3, 4]),
        tausworthe(5, 8, 3, &[2, 5]),
        tausworthe(4, 4, 1, &[1]),
        gfsr(2, 2, 2, &[1, 2]),
        gfsr(3, 2, 1, &[]),
        small_twisted(2, 1, 2, 3, 0),
        small_twisted(3, 2, 3, 3, 0),
        small_twisted(2, 1, 2, 4, 1),
        small_twisted(3, 1, 3, 4, 2),
    ]
}

/// Every kind at its largest k.
pub fn large_generators() -> Vec<Fields> {
    vec![
        tausworthe(480, 32, 1, &[3, 480]),
        tausworthe(480, 32, 32, &[1, 7, 100, 480]),
        gfsr(15, 32, 32, &[1, 4, 15]),
        gfsr(480, 1, 1, &[7, 480]),
        tt800(15, 7),
        mt19937(15, 8, 0),
        mt19937(15, 8, 31),
    ]
}

/// Cases 1 to 17 of document 01 among the small generators, and the large ones' reports.
fn requests() -> Vec<(u8, Vec<u8>)> {
    let mut all: Vec<(u8, Vec<u8>)> =
        small_generators().iter().map(|fields| (QUESTIONS, described(fields))).collect();
    all.extend(small_generators().iter().map(|fields| (REPORT, described(fields))));
    all.extend(large_generators().iter().map(|fields| (REPORT, described(fields))));
    let first = described(&tausworthe(4, 4, 1, &[3, 4]));
    all.push((SHORT_BUFFER, first.clone()));
    all.push((ZERO_PAIR, first.clone()));
    let mut too_large = described(&tausworthe(480, 32, 1, &[480]));
    too_large[2] += 1;
    all.push((QUESTIONS, too_large));
    let mut too_wide = described(&mt19937(15, 8, 16));
    (too_wide[2], too_wide[5]) = (16, 31);
    all.push((QUESTIONS, too_wide));
    all.push((QUESTIONS, Vec::new()));
    all.push((QUESTIONS, first[..64].to_vec()));
    all
}
