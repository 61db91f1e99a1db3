//! 480 outputs from one start state, preparation and all.

use crate::cases::{cases, state, state_bits};
use crate::plain;
use crate::table;
use dayunglipo::{Dimension, Fields, Words};
use std::hint::black_box;

fn plainly(g: &Fields, start: &Words, out: &mut [u32]) {
    match g.kind {
        1 => plain::bits::outputs(g, start, out),
        _ => plain::words::outputs(g, start, out),
    }
}

pub fn time() {
    for (name, g) in cases() {
        let k = state_bits(&g);
        let start = state(k);
        let (mut ours, mut theirs) = (vec![0u32; k], vec![0u32; k]);
        let refusal = dayunglipo::outputs(&g, Dimension(k), &start, &mut ours);
        plainly(&g, &start, &mut theirs);
        assert_eq!((refusal, &ours), (0, &theirs), "the outputs differ: {name}");
        table::line(
            &format!("{k} outputs, {name}"),
            || {
                black_box(dayunglipo::outputs(black_box(&g), Dimension(k), &start, &mut ours));
            },
            || plainly(black_box(&g), &start, black_box(&mut theirs)),
        );
    }
}
