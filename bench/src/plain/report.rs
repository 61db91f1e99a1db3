//! The report written for its purpose: rows made once, then the elimination by
//! slots, in two plans.

use super::elimination::eliminate;
use super::rows::{self, Row};
use crate::cases::state_bits;
use crate::engine::Shape;
use dayunglipo::{Fields, Report, MOST_BITS, MOST_OUTPUT, ROW_WORDS};

/// Memory for one elimination.
struct Room {
    buf: Vec<u64>,
    slots: Vec<usize>,
}

/// How many of the first `count` bits at resolution l come before one that is
/// a sum of earlier ones.
fn independent(all: &[Row], length: usize, l: usize, count: usize, room: &mut Room) -> usize {
    let places = (0..count).map(|i| i / l * length + i % l);
    for (to, place) in room.buf.chunks_exact_mut(ROW_WORDS).zip(places) {
        to.copy_from_slice(&all[place]);
    }
    let shape = Shape { rows: count, stride: ROW_WORDS, width: ROW_WORDS, lead: ROW_WORDS };
    eliminate(&mut room.buf, shape, &mut room.slots)
}

/// The report, given whether (t, l) gets a yes.
fn filled(k: usize, length: usize, mut yes: impl FnMut(usize, usize) -> bool) -> Report {
    let (mut resolutions, mut dimensions) = ([0; MOST_BITS], [0; MOST_OUTPUT]);
    let (mut resolution_sum, mut dimension_sum) = (0, 0);
    for t in 1..=k {
        let best = length.min(k / t);
        let found = (1..=best).rev().find(|l| yes(t, *l)).unwrap_or(0);
        resolutions[t - 1] = found as u32;
        resolution_sum += (best - found) as u32;
    }
    for l in 1..=length {
        let found = (1..=k / l).rev().find(|t| yes(*t, l)).unwrap_or(0);
        dimensions[l - 1] = found as u32;
        dimension_sum += (k / l - found) as u32;
    }
    let me = resolution_sum == 0;
    Report { refusal: 0, resolutions, dimensions, resolution_sum, dimension_sum, me }
}

fn room(k: usize) -> Room {
    Room { buf: vec![0; k * ROW_WORDS], slots: vec![0; 64 * ROW_WORDS] }
}

/// An elimination for each resolution: it settles every t at once.
#[inline(never)]
pub fn by_resolution(g: &Fields) -> Report {
    let (k, length) = (state_bits(g), usize::from(g.bits));
    let all = rows::all(g, k);
    let mut room = room(k);
    let settled: Vec<usize> =
        (1..=length).map(|l| independent(&all, length, l, k / l * l, &mut room)).collect();
    filled(k, length, |t, l| t * l <= settled[l - 1])
}

/// An elimination for each pair (t, l) that is asked.
#[inline(never)]
pub fn by_pair(g: &Fields) -> Report {
    let (k, length) = (state_bits(g), usize::from(g.bits));
    let all = rows::all(g, k);
    let mut room = room(k);
    filled(k, length, |t, l| independent(&all, length, l, t * l, &mut room) == t * l)
}
