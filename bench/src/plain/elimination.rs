//! The loops of the elimination, and the reduced rows by columns.

use crate::engine::Shape;

/// The lowest set bit of the words, of which those before `from` are zero.
fn leading_bit(row: &[u64], from: usize) -> Option<usize> {
    for (i, word) in row.iter().enumerate().skip(from) {
        if *word != 0 {
            return Some(64 * i + word.trailing_zeros() as usize);
        }
    }
    None
}

/// Eliminates row by row up to the first that is a sum of earlier ones; gives
/// its number. A slot has the row that a bit leads, counted from 1.
#[inline(never)]
pub fn eliminate(buf: &mut [u64], s: Shape, slots: &mut [usize]) -> usize {
    slots[..64 * s.lead].fill(0);
    for r in 0..s.rows {
        let (before, rest) = buf.split_at_mut(r * s.stride);
        let row = &mut rest[..s.width];
        let mut from = 0;
        loop {
            let Some(bit) = leading_bit(&row[..s.lead], from) else { return r };
            if slots[bit] == 0 {
                slots[bit] = r + 1;
                break;
            }
            let start = (slots[bit] - 1) * s.stride;
            from = bit / 64;
            for (x, y) in row[from..].iter_mut().zip(&before[start + from..start + s.width]) {
                *x ^= *y;
            }
        }
    }
    s.rows
}

/// Whether row p has bit c.
fn has(buf: &[u64], s: Shape, p: usize, c: usize) -> bool {
    (buf[p * s.stride + c / 64] >> (c % 64)) & 1 == 1
}

/// Adds row p to row q, from the word `start` on.
fn add(buf: &mut [u64], s: Shape, q: usize, p: usize, start: usize) {
    let (to, from) = if q < p {
        let (low, high) = buf.split_at_mut(p * s.stride);
        (&mut low[q * s.stride + start..q * s.stride + s.width], &high[start..s.width])
    } else {
        let (low, high) = buf.split_at_mut(q * s.stride);
        (&mut high[start..s.width], &low[p * s.stride + start..p * s.stride + s.width])
    };
    for (x, y) in to.iter_mut().zip(from) {
        *x ^= *y;
    }
}

/// The reduced row echelon form by columns, closed up at the front; gives the rank.
#[inline(never)]
pub fn basis(buf: &mut [u64], s: Shape, _: &mut [usize]) -> usize {
    let mut rank = 0;
    for c in 0..64 * s.lead {
        let Some(p) = (rank..s.rows).find(|p| has(buf, s, *p, c)) else { continue };
        if p != rank {
            add(buf, s, rank, p, c / 64);
        }
        for q in 0..s.rows {
            if q != rank && has(buf, s, q, c) {
                add(buf, s, q, rank, c / 64);
            }
        }
        rank += 1;
    }
    for p in 0..rank {
        buf.copy_within(p * s.stride..p * s.stride + s.width, p * s.width);
    }
    buf[rank * s.width..s.rows * s.stride].fill(0);
    rank
}
