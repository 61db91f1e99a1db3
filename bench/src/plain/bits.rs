//! Kind 1 run plainly, for k of at least 32. With many coefficients the last k
//! bits stand packed in words, and a new bit is the parity of those under a
//! mask; with few they stand in a ring, a byte each, and the taps are added.

use super::taps;
use dayunglipo::{Fields, Words, ROW_WORDS};

/// More taps than this, and packed words are quicker than a ring.
const FEW: usize = 16;

/// The first outputs, as many as there is room for.
#[inline(never)]
pub fn outputs(g: &Fields, state: &Words, out: &mut [u32]) {
    let taps = taps(g, g.k.into());
    if taps.len() > FEW {
        packed(g, &taps, state, out);
    } else {
        ring(g, &taps, state, out);
    }
}

fn packed(g: &Fields, taps: &[usize], state: &Words, out: &mut [u32]) {
    let (k, nu) = (usize::from(g.k), usize::from(g.nu));
    let mut mask = [0u64; ROW_WORDS];
    for i in taps {
        mask[(k - i) / 64] |= 1 << ((k - i) % 64);
    }
    let mut x = state.words;
    for (n, y) in out.iter_mut().enumerate() {
        for _ in 0..if n == 0 { 0 } else { nu } {
            let sum = x.iter().zip(&mask).fold(0, |sum, (x, m)| sum ^ (x & m));
            for i in 0..ROW_WORDS - 1 {
                x[i] = x[i] >> 1 | x[i + 1] << 63;
            }
            x[ROW_WORDS - 1] >>= 1;
            x[(k - 1) / 64] |= u64::from(sum.count_ones() & 1) << ((k - 1) % 64);
        }
        *y = (x[0] as u32).reverse_bits() >> (32 - g.bits);
    }
}

fn ring(g: &Fields, taps: &[usize], state: &Words, out: &mut [u32]) {
    let (k, nu) = (usize::from(g.k), usize::from(g.nu));
    let mut ring: Vec<u8> = (0..k).map(|i| (state.words[i / 64] >> (i % 64) & 1) as u8).collect();
    let before = |at: usize, i: usize| if at >= i { at - i } else { at + k - i };
    let mut at = 0;
    for (n, y) in out.iter_mut().enumerate() {
        for _ in 0..if n == 0 { 0 } else { nu } {
            ring[at] = taps.iter().fold(0, |sum, i| sum ^ ring[before(at, *i)]);
            at = if at + 1 == k { 0 } else { at + 1 };
        }
        let bits = ring[at..].iter().chain(&ring[..at]).take(g.bits.into());
        *y = bits.fold(0, |sum, bit| 2 * sum + u32::from(*bit));
    }
}
