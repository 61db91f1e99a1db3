//! "The generator": the recurrences, run literally as document 01 writes
//! them. A run makes the whole sequence it needs, then reads outputs off it.

use crate::bits::{Bits, SET_WORDS};
use crate::description::Fields;
use crate::refusals::of_outputs;

/// k, the number of state bits of accepted fields.
pub fn state_bits(fields: &Fields) -> usize {
    let bits = match fields.kind {
        1 => fields.k,
        4 => fields.r * fields.w - fields.p,
        _ => fields.r * fields.w,
    };
    bits as usize
}

/// Puts the first t outputs from a start state at the front of the buffer;
/// gives the refusal number, 0 if accepted.
pub fn outputs(fields: &Fields, t: u64, state: &[u64; 8], out: &mut [u32]) -> u32 {
    let number = of_outputs(fields, t, state, out.len());
    if number == 0 {
        let made = run(fields, &state_from_words(fields, state), t as usize);
        out[..t as usize].copy_from_slice(&made);
    }
    number
}

/// The k state bits, bit 0 first, out of the 8 words.
fn state_from_words(fields: &Fields, state: &[u64; SET_WORDS]) -> Vec<bool> {
    (0..state_bits(fields)).map(|number| Bits(*state).has(number)).collect()
}

/// The first t outputs from a start state of k bits, for accepted fields.
pub fn run(fields: &Fields, start: &[bool], t: usize) -> Vec<u32> {
    match fields.kind {
        1 => run_tausworthe(fields, start, t),
        2 => run_words(fields, start, t, &gfsr_taps(fields), gfsr_word, |_, x| x),
        3 => run_words(fields, start, t, &[], twisted_word, temper_twisted),
        _ => run_words(fields, start, t, &[], twister_word, temper_twister),
    }
}

/// The number whose bits these are, the first the most significant.
fn number_of(bits: &[bool]) -> u64 {
    bits.iter().fold(0, |sum, &bit| 2 * sum + u64::from(bit))
}

/// Kind 1: the sequence x_0, x_1, … and bit j of output n is x_(nν+j).
fn run_tausworthe(fields: &Fields, start: &[bool], t: usize) -> Vec<u32> {
    let (k, nu, length) = (start.len(), fields.nu as usize, fields.output_bits as usize);
    // a_k first, so that it meets x_(n−k), the oldest of the k before x_n.
    let coefficients: Vec<bool> = (1..=k).rev().map(|i| fields.coefficient(i)).collect();
    let mut x = start.to_vec();
    while x.len() < (t - 1) * nu + length {
        let next = sum_of_products(&coefficients, &x[x.len() - k..]);
        x.push(next);
    }
    (0..t).map(|n| number_of(&x[n * nu..n * nu + length]) as u32).collect()
}

/// The sum modulo 2 of the products, place by place.
fn sum_of_products(left: &[bool], right: &[bool]) -> bool {
    left.iter().zip(right).fold(false, |sum, (&one, &other)| sum ^ (one & other))
}

/// The words v_n from n = 1−r on, as kinds 2 to 4 make them.
struct Sequence {
    r: isize,
    words: Vec<u64>,
}

impl Sequence {
    /// v_n, for n from 1−r to the last one made.
    fn v(&self, n: isize) -> u64 {
        self.words[(n + self.r - 1) as usize]
    }

    /// The start: state bits in groups of w are v_0, v_(−1), …, v_(1−r).
    /// The last p bits of v_(1−r), which kind 4 lacks, are put as zero.
    fn start(fields: &Fields, start: &[bool]) -> Sequence {
        let (r, w) = (fields.r as usize, fields.w as usize);
        let mut bits = start.to_vec();
        bits.resize(r * w, false);
        let words = bits.chunks(w).rev().map(number_of).collect();
        Sequence { r: r as isize, words }
    }
}

/// Kinds 2 to 4: output n is the leading L bits of v_n, tempered.
fn run_words(
    fields: &Fields,
    start: &[bool],
    t: usize,
    taps: &[isize],
    next_word: fn(&Fields, &[isize], &Sequence, isize) -> u64,
    temper: fn(&Fields, u64) -> u64,
) -> Vec<u32> {
    let mut sequence = Sequence::start(fields, start);
    for n in 1..t as isize {
        let word = next_word(fields, taps, &sequence, n);
        sequence.words.push(word);
    }
    let dropped = fields.w - fields.output_bits;
    let output = |n| (temper(fields, sequence.v(n)) >> dropped) as u32;
    (0..t as isize).map(output).collect()
}

/// The i for which a_i is 1, in kind 2.
fn gfsr_taps(fields: &Fields) -> Vec<isize> {
    let is_tap = |i: &isize| fields.coefficient(*i as usize);
    (1..=fields.r as isize).filter(is_tap).collect()
}

/// Kind 2: v_n = a_1·v_(n−1) + … + a_r·v_(n−r).
fn gfsr_word(_: &Fields, taps: &[isize], sequence: &Sequence, n: isize) -> u64 {
    taps.iter().fold(0, |sum, i| sum ^ sequence.v(n - i))
}

/// Kind 3: v_n = v_(n+m−r) + A·v_(n−r).
fn twisted_word(fields: &Fields, _: &[isize], sequence: &Sequence, n: isize) -> u64 {
    let (r, m) = (fields.r as isize, fields.m as isize);
    sequence.v(n + m - r) ^ twist(fields, sequence.v(n - r))
}

/// Kind 4: as kind 3, but A takes the first w−p bits of v_(n−r) and then the
/// last p bits of v_(n−r+1).
fn twister_word(fields: &Fields, _: &[isize], sequence: &Sequence, n: isize) -> u64 {
    let (r, m) = (fields.r as isize, fields.m as isize);
    let last_p = (1u64 << fields.p) - 1;
    let joined = (sequence.v(n - r) & !last_p) | (sequence.v(n - r + 1) & last_p);
    sequence.v(n + m - r) ^ twist(fields, joined)
}

/// A·x: x shifted right by one, plus a if the last bit of x is 1.
fn twist(fields: &Fields, x: u64) -> u64 {
    (x >> 1) ^ if x & 1 == 1 { fields.a } else { 0 }
}

/// The two left steps of the tempering. What leaves the w bits meets no bit
/// of b or c, which are below 2^w.
fn temper_twisted(fields: &Fields, x: u64) -> u64 {
    let y = x ^ ((x << fields.shift_s) & fields.b);
    y ^ ((y << fields.shift_t) & fields.c)
}

/// Kind 4's tempering: right U, the two steps of kind 3, right V.
fn temper_twister(fields: &Fields, x: u64) -> u64 {
    let y = temper_twisted(fields, x ^ (x >> fields.shift_u));
    y ^ (y >> fields.shift_v)
}
