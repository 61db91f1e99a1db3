//! The elimination on random matrices of 480 rows and 480 bits.

use crate::engine::{self, Shape};
use crate::plain::elimination as plain;
use crate::random::Random;
use crate::table;
use std::hint::black_box;

type Engine = fn(&mut [u64], Shape, &mut [usize]) -> usize;

const BITS: usize = 480;

/// Random rows, with the unit sets behind them where there is room.
fn matrix(random: &mut Random, s: Shape) -> Vec<u64> {
    let mut m = vec![0u64; s.rows * s.stride];
    for p in 0..s.rows {
        for i in 0..BITS {
            m[p * s.stride + i / 64] |= (random.word() >> 63) << (i % 64);
        }
        if s.width > s.lead {
            m[p * s.stride + s.lead + p / 64] |= 1 << (p % 64);
        }
    }
    m
}

/// A sample's work: copies a matrix and eliminates it, each time the next of them.
fn work<'a>(engine: Engine, ms: &'a [Vec<u64>], s: Shape) -> impl FnMut() + 'a {
    let mut buf = vec![0; s.rows * s.stride];
    let mut slots = vec![0; 64 * s.lead];
    let mut at = 0;
    move || {
        at = (at + 1) % ms.len();
        buf.copy_from_slice(&ms[at]);
        black_box(engine(black_box(&mut buf), s, &mut slots));
    }
}

/// Both leave the same rows and give the same number.
fn agree(ours: Engine, theirs: Engine, ms: &[Vec<u64>], s: Shape) {
    for m in ms {
        let (mut a, mut b) = (m.clone(), m.clone());
        let mut slots = vec![0; 64 * s.lead];
        let (x, y) = (ours(&mut a, s, &mut slots), theirs(&mut b, s, &mut slots));
        assert_eq!((x, a), (y, b), "the two eliminations differ");
    }
}

pub fn time() {
    let mut random = Random(0x9e37_79b9_7f4a_7c15);
    let cases: [(&str, Engine, Engine, usize, usize); 4] = [
        ("with sets (width 16, stride 16)", engine::eliminate, plain::eliminate, 16, 16),
        ("without sets (width 8, stride 16)", engine::eliminate, plain::eliminate, 16, 8),
        ("without sets (width 8, stride 8)", engine::eliminate, plain::eliminate, 8, 8),
        ("reduced (width 8, stride 16)", engine::basis, plain::basis, 16, 8),
    ];
    for (name, ours, theirs, stride, width) in cases {
        let s = Shape { rows: BITS, stride, width, lead: 8 };
        let ms: Vec<Vec<u64>> = (0..30).map(|_| matrix(&mut random, s)).collect();
        agree(ours, theirs, &ms, s);
        let name = format!("elimination, 480 rows, {name}");
        table::line(&name, work(ours, &ms, s), work(theirs, &ms, s));
    }
}
