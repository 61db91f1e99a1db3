//! "Refusal numbers": each check stands for one row of the table, and the
//! checks are made in rising order, so the first that applies is the lowest.

use crate::bits::{Bits, SET_WORDS};
use crate::description::Fields;
use crate::generator::state_bits;

/// The words of 64 bits a work buffer has at least (481 rows of 16).
pub const WORK_WORDS: usize = 7_696;

/// The most state bits, and the most bits in the r words of kinds 2 to 4.
const MOST_STATE_BITS: u64 = 480;

/// The lowest of 1, 3, 4, 5 and 6 that applies to the fields, or 0.
pub fn refusal(fields: &Fields) -> u32 {
    if !(1..=4).contains(&fields.kind) {
        1
    } else if sizes_out_of_range(fields) {
        3
    } else if output_bits_out_of_range(fields) {
        4
    } else if steps_out_of_range(fields) {
        5
    } else if words_too_wide(fields) || coefficient_past_last(fields) || foreign_field(fields) {
        6
    } else {
        0
    }
}

/// Refusal 3: k, r, w, r·w, m or p.
fn sizes_out_of_range(f: &Fields) -> bool {
    if f.kind == 1 {
        return !(1..=MOST_STATE_BITS).contains(&f.k);
    }
    let least_r = if f.kind == 2 { 1 } else { 2 };
    if !(1..=32).contains(&f.w) || f.r < least_r || f.r > MOST_STATE_BITS / f.w {
        return true;
    }
    let m_wrong = f.kind != 2 && !(1..f.r).contains(&f.m);
    let p_wrong = f.kind == 4 && f.p >= f.w;
    m_wrong || p_wrong
}

/// Refusal 4: L; kind 1 bounds it by 32, the others by w.
fn output_bits_out_of_range(f: &Fields) -> bool {
    let most = if f.kind == 1 { 32 } else { f.w };
    !(1..=most).contains(&f.output_bits)
}

/// Refusal 5: ν of kind 1, the shifts of kinds 3 and 4.
fn steps_out_of_range(f: &Fields) -> bool {
    let shift_wrong = |shift: u64| !(1..=f.w).contains(&shift);
    match f.kind {
        1 => !(1..=255).contains(&f.nu),
        2 => false,
        3 => shift_wrong(f.shift_s) || shift_wrong(f.shift_t),
        _ => [f.shift_u, f.shift_s, f.shift_t, f.shift_v].into_iter().any(shift_wrong),
    }
}

/// Refusal 6, first case: a, b or c not below 2^w.
fn words_too_wide(f: &Fields) -> bool {
    f.kind >= 3 && [f.a, f.b, f.c].iter().any(|&word| word >> f.w != 0)
}

/// Refusal 6, second case: a coefficient past a_k or a_r.
fn coefficient_past_last(f: &Fields) -> bool {
    let last = match f.kind {
        1 => f.k as usize,
        2 => f.r as usize,
        _ => return false,
    };
    (last + 1..=480).any(|i| f.coefficient(i))
}

/// Refusal 6, third case: a field the kind hasn't got is not zero.
fn foreign_field(f: &Fields) -> bool {
    let owners: [(u64, &[u64]); 13] = [
        (f.k, &[1]),
        (f.nu, &[1]),
        (f.r, &[2, 3, 4]),
        (f.w, &[2, 3, 4]),
        (f.m, &[3, 4]),
        (f.a, &[3, 4]),
        (f.b, &[3, 4]),
        (f.c, &[3, 4]),
        (f.shift_s, &[3, 4]),
        (f.shift_t, &[3, 4]),
        (f.p, &[4]),
        (f.shift_u, &[4]),
        (f.shift_v, &[4]),
    ];
    let number = owners.iter().any(|(field, kinds)| *field != 0 && !kinds.contains(&f.kind));
    number || (f.kind >= 3 && f.coefficients.iter().any(|&byte| byte != 0))
}

/// Refusal 7: t is not 1 to k. The fields are accepted ones.
fn dimension_out_of_range(f: &Fields, t: u64) -> bool {
    t < 1 || t > state_bits(f) as u64
}

/// Refusal 8: l is not 1 to L.
fn resolution_out_of_range(f: &Fields, l: u64) -> bool {
    l < 1 || l > f.output_bits
}

/// Refusal 9: a start-state bit numbered k or more is set.
fn state_too_long(f: &Fields, state: &[u64; SET_WORDS]) -> bool {
    let state = Bits(*state);
    (state_bits(f)..64 * SET_WORDS).any(|number| state.has(number))
}

/// The refusal number of an outputs call: 7, 9 and 11 after the fields.
pub fn of_outputs(f: &Fields, t: u64, state: &[u64; SET_WORDS], lent: usize) -> u32 {
    match refusal(f) {
        0 if dimension_out_of_range(f, t) => 7,
        0 if state_too_long(f, state) => 9,
        0 if (lent as u64) < t => 11,
        number => number,
    }
}

/// The refusal number of a question: 7, 8 and 11 after the fields.
pub fn of_question(f: &Fields, t: u64, l: u64, lent: usize) -> u32 {
    match refusal(f) {
        0 if dimension_out_of_range(f, t) => 7,
        0 if resolution_out_of_range(f, l) => 8,
        0 if lent < WORK_WORDS => 11,
        number => number,
    }
}

/// The refusal number of a basis call: 7, 8, 10 and 11 after the fields.
pub fn of_basis(f: &Fields, t: u64, l: u64, lent: usize) -> u32 {
    match refusal(f) {
        0 if dimension_out_of_range(f, t) => 7,
        0 if resolution_out_of_range(f, l) => 8,
        0 if t * l > state_bits(f) as u64 => 10,
        0 if lent < WORK_WORDS => 11,
        number => number,
    }
}

/// The refusal number of a report: 11 after the fields.
pub fn of_report(f: &Fields, lent: usize) -> u32 {
    match refusal(f) {
        0 if lent < WORK_WORDS => 11,
        number => number,
    }
}
