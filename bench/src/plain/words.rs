//! Kinds 2 to 4 run plainly: a ring of words, the newest in place of the oldest.

use super::taps;
use dayunglipo::{Fields, Words};

/// The first outputs, as many as there is room for.
#[inline(never)]
pub fn outputs(g: &Fields, state: &Words, out: &mut [u32]) {
    match g.kind {
        2 => gfsr(g, start(g, state), out),
        3 => twister(g, start(g, state), |x| left_steps(g, x), out),
        _ => twister(g, start(g, state), |x| temper(g, x), out),
    }
}

/// v_(1−r), …, v_0; what the last word of kind 4 lacks is zero.
fn start(g: &Fields, state: &Words) -> Vec<u32> {
    let (r, w) = (usize::from(g.r), usize::from(g.w));
    let bit = |i: usize| (state.words[i / 64] >> (i % 64)) as u32 & 1;
    let word = |i: usize| (i * w..(i + 1) * w).fold(0, |x, i| x << 1 | bit(i));
    (0..r).rev().map(word).collect()
}

fn gfsr(g: &Fields, mut ring: Vec<u32>, out: &mut [u32]) {
    let r = ring.len();
    let taps = taps(g, r);
    let before = |at: usize, i: usize| if at >= i { at - i } else { at + r - i };
    let mut at = r - 1;
    for (n, y) in out.iter_mut().enumerate() {
        if n > 0 {
            at = if at + 1 == r { 0 } else { at + 1 };
            ring[at] = taps.iter().fold(0, |sum, i| sum ^ ring[before(at, *i)]);
        }
        *y = ring[at] >> (g.w - g.bits);
    }
}

/// Kinds 3 and 4; kind 3 has p = 0.
fn twister(g: &Fields, mut ring: Vec<u32>, temper: impl Fn(u32) -> u32, out: &mut [u32]) {
    let (r, m) = (ring.len(), usize::from(g.m));
    let last_p = (1u32 << g.p) - 1;
    let after = |at: usize, i: usize| if at + i < r { at + i } else { at + i - r };
    let mut at = r - 1;
    for (n, y) in out.iter_mut().enumerate() {
        if n > 0 {
            at = after(at, 1);
            let x = ring[at] & !last_p | ring[after(at, 1)] & last_p;
            ring[at] = ring[after(at, m)] ^ x >> 1 ^ if x & 1 == 1 { g.a } else { 0 };
        }
        *y = temper(ring[at]) >> (g.w - g.bits);
    }
}

/// A left shift that may be by all 32 bits.
fn left(x: u32, by: u8) -> u32 {
    x.checked_shl(by.into()).unwrap_or(0)
}

fn right(x: u32, by: u8) -> u32 {
    x.checked_shr(by.into()).unwrap_or(0)
}

fn left_steps(g: &Fields, x: u32) -> u32 {
    let y = x ^ left(x, g.s) & g.b;
    y ^ left(y, g.t) & g.c
}

fn temper(g: &Fields, x: u32) -> u32 {
    let y = left_steps(g, x ^ right(x, g.u));
    y ^ right(y, g.v)
}
