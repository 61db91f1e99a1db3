//! Output bits as rows of state bits, all of them made once.

use super::taps;
use dayunglipo::{Fields, ROW_WORDS};

/// A row: bit s says whether state bit s is in the sum.
pub type Row = [u64; ROW_WORDS];

const NONE: Row = [0; ROW_WORDS];

fn unit(bit: usize) -> Row {
    let mut row = NONE;
    row[bit / 64] = 1 << (bit % 64);
    row
}

fn add(to: &mut Row, from: &Row) {
    to.iter_mut().zip(from).for_each(|(x, y)| *x ^= y);
}

/// Row n·L + j is bit j of output n, for the first k outputs.
#[inline(never)]
pub fn all(g: &Fields, k: usize) -> Vec<Row> {
    match g.kind {
        1 => tausworthe(g, k),
        2 => words(g, k, gfsr_word(g), |_| {}),
        3 => words(g, k, twister_word(g), |x| left_steps(g, x)),
        _ => words(g, k, twister_word(g), |x| temper(g, x)),
    }
}

/// Kind 1: the row of x_(n+1) is that of x_n moved up, with x_k worked out.
fn tausworthe(g: &Fields, k: usize) -> Vec<Row> {
    let (nu, length) = (usize::from(g.nu), usize::from(g.bits));
    let mut next = NONE;
    taps(g, k).iter().for_each(|i| add(&mut next, &unit(k - i)));
    let mut row = unit(0);
    let mut sequence = Vec::with_capacity((k - 1) * nu + length);
    for _ in 0..(k - 1) * nu + length {
        sequence.push(row);
        let last = row[(k - 1) / 64] >> ((k - 1) % 64) & 1 == 1;
        row[(k - 1) / 64] &= !(1 << ((k - 1) % 64));
        for i in (1..ROW_WORDS).rev() {
            row[i] = row[i] << 1 | row[i - 1] >> 63;
        }
        row[0] <<= 1;
        if last {
            add(&mut row, &next);
        }
    }
    (0..k).flat_map(|n| sequence[n * nu..n * nu + length].iter().copied()).collect()
}

/// Kinds 2 to 4: every word is w rows. `next` makes the word v_n out of all
/// before it, `temper` changes a copy of it.
fn words(
    g: &Fields,
    k: usize,
    next: impl Fn(&[Row], &mut Vec<Row>),
    temper: impl Fn(&mut [Row]),
) -> Vec<Row> {
    let (r, w) = (usize::from(g.r), usize::from(g.w));
    let bit = |i: usize| if i < k { unit(i) } else { NONE };
    let mut made: Vec<Row> = (0..r).rev().flat_map(|i| (i * w..(i + 1) * w).map(bit)).collect();
    let mut word = Vec::with_capacity(w);
    let mut rows = Vec::with_capacity(k * usize::from(g.bits));
    for n in 0..k {
        if n > 0 {
            word.clear();
            next(&made, &mut word);
            made.extend_from_slice(&word);
        }
        word.clear();
        word.extend_from_slice(&made[made.len() - w..]);
        temper(&mut word);
        rows.extend_from_slice(&word[..g.bits.into()]);
    }
    rows
}

fn gfsr_word(g: &Fields) -> impl Fn(&[Row], &mut Vec<Row>) {
    let (taps, w) = (taps(g, g.r.into()), usize::from(g.w));
    move |made, word| {
        word.resize(w, NONE);
        for i in &taps {
            let from = &made[made.len() - i * w..][..w];
            word.iter_mut().zip(from).for_each(|(x, y)| add(x, y));
        }
    }
}

/// Kinds 3 and 4; kind 3 has p = 0.
fn twister_word(g: &Fields) -> impl Fn(&[Row], &mut Vec<Row>) {
    let (r, m, w, p) = (usize::from(g.r), usize::from(g.m), usize::from(g.w), usize::from(g.p));
    let a = g.a;
    move |made, word| {
        let old = &made[made.len() - r * w..];
        word.extend_from_slice(&old[m * w..(m + 1) * w]);
        let joined = |j: usize| if j < w - p { &old[j] } else { &old[w + j] };
        word.iter_mut().skip(1).enumerate().for_each(|(j, row)| add(row, joined(j)));
        for j in (0..w).filter(|j| a >> (w - 1 - j) & 1 == 1) {
            add(&mut word[j], joined(w - 1));
        }
    }
}

/// x + ((x left by) and mask); the bit j takes the bit j + by.
fn left_step(x: &mut [Row], by: u8, mask: u32) {
    let (w, by) = (x.len(), usize::from(by));
    for j in (0..w - by).filter(|j| mask >> (w - 1 - j) & 1 == 1) {
        let from = x[j + by];
        add(&mut x[j], &from);
    }
}

/// x + (x right by); the bit j takes the bit j − by.
fn right_step(x: &mut [Row], by: u8) {
    for j in (by.into()..x.len()).rev() {
        let from = x[j - usize::from(by)];
        add(&mut x[j], &from);
    }
}

fn left_steps(g: &Fields, x: &mut [Row]) {
    left_step(x, g.s, g.b);
    left_step(x, g.t, g.c);
}

fn temper(g: &Fields, x: &mut [Row]) {
    right_step(x, g.u);
    left_steps(g, x);
    right_step(x, g.v);
}
