//! Faults to put into the arguments of a call, each with the refusal number
//! it earns. Two faults of the same number never undo each other.

use second::description::whole_length;
use second::{state_bits, Fields, WORK_WORDS};

/// The arguments of all calls together; the last three are lent lengths.
#[derive(Clone, Debug)]
pub struct Arguments {
    pub fields: Fields,
    pub t: u64,
    pub l: u64,
    pub state: [u64; 8],
    pub bytes: usize,
    pub outs: usize,
    pub work: usize,
}

impl Arguments {
    /// Takes so much off every lent buffer, or all there is.
    fn shorten_buffers(&mut self, less: usize) {
        for length in [&mut self.bytes, &mut self.outs, &mut self.work] {
            *length = length.saturating_sub(less);
        }
    }
}

/// A change that makes arguments wrong in one way.
#[derive(Clone, Copy)]
pub struct Fault {
    pub number: u32,
    pub name: &'static str,
    pub make: fn(&mut Arguments),
}

/// Faultless arguments with buffers exactly long enough. Kinds 2 to 4 have
/// w = 3, r = 3 and L = 2; kind 1 has k = 6 and L = 2.
pub fn faultless(kind: u64) -> Arguments {
    let mut fields = Fields { kind, output_bits: 2, ..Fields::default() };
    match kind {
        1 => (fields.k, fields.nu) = (6, 2),
        _ => (fields.r, fields.w) = (3, 3),
    }
    if kind <= 2 {
        fields.set_coefficient(1);
        fields.set_coefficient(3);
    } else {
        (fields.m, fields.a, fields.b, fields.c) = (1, 7, 5, 6);
        (fields.shift_s, fields.shift_t) = (1, 2);
    }
    if kind == 4 {
        (fields.p, fields.shift_u, fields.shift_v) = (1, 3, 2);
    }
    let bytes = whole_length(kind).unwrap_or(0);
    let state = [5, 0, 0, 0, 0, 0, 0, 0];
    Arguments { fields, t: 2, l: 2, state, bytes, outs: 2, work: WORK_WORDS }
}

/// Puts the faults in, the highest number first: the later ones look at
/// fields that are still faultless, and the lowest has the last word.
pub fn put_faults(arguments: &mut Arguments, faults: &[Fault]) {
    let mut ordered = faults.to_vec();
    ordered.sort_by_key(|fault| std::cmp::Reverse(fault.number));
    for fault in ordered {
        (fault.make)(arguments);
    }
}

/// Every fault that arguments of this kind can have.
pub fn all_faults(kind: u64) -> Vec<Fault> {
    let of_kind = match kind {
        1 => [tausworthe_faults(), foreign_to_tausworthe()],
        2 => [gfsr_faults(), foreign_to_gfsr()],
        3 => [[word_faults(), twisted_faults()].concat(), foreign_to_twisted()],
        _ => [[word_faults(), twisted_faults(), twister_faults()].concat(), foreign_to_twister()],
    };
    [of_kind.concat(), kind_faults(), call_faults()].concat()
}

/// Makes a list of faults: a number, then the changes that earn it.
macro_rules! faults {
    ($($number:literal: { $($change:expr),* $(,)? })*) => {
        vec![$($(Fault {
            number: $number,
            name: stringify!($change),
            make: $change,
        }),*),*]
    };
}

/// The last ones would be a kind if the number were cut short.
fn kind_faults() -> Vec<Fault> {
    faults! {
        1: {
            |x| x.fields.kind = 0,
            |x| x.fields.kind = 5,
            |x| x.fields.kind = u64::MAX,
            |x| x.fields.kind |= 1 << 8,
            |x| x.fields.kind |= 1 << 32,
        }
    }
}

/// What is wrong outside of the fields.
fn call_faults() -> Vec<Fault> {
    faults! {
        7: {
            |x| x.t = 0,
            |x| x.t = state_bits(&x.fields) as u64 + 1,
            |x| x.t = (1 << 32) + 1,
            |x| x.t = u64::MAX,
        }
        8: {
            |x| x.l = 0,
            |x| x.l = x.fields.output_bits + 1,
            |x| x.l = (1 << 32) + 1,
            |x| x.l = u64::MAX,
        }
        9: {
            |x| x.state[0] |= 1 << state_bits(&x.fields),
            |x| x.state[0] |= 1 << 63,
            |x| x.state[1] |= 1,
            |x| x.state[7] |= 1 << 63,
        }
        10: {
            |x| (x.t, x.l) = (state_bits(&x.fields) as u64 / 2 + 1, 2),
            |x| (x.t, x.l) = (state_bits(&x.fields) as u64, 2),
        }
        11: {
            |x| x.shorten_buffers(1),
            |x| x.shorten_buffers(usize::MAX),
        }
    }
}

fn tausworthe_faults() -> Vec<Fault> {
    faults! {
        3: {
            |x| x.fields.k = 0,
            |x| x.fields.k = 481,
            |x| x.fields.k = (1 << 16) + 6,
            |x| x.fields.k = (1 << 32) + 6,
        }
        4: {
            |x| x.fields.output_bits = 0,
            |x| x.fields.output_bits = 33,
            |x| x.fields.output_bits = (1 << 8) + 2,
        }
        5: {
            |x| x.fields.nu = 0,
            |x| x.fields.nu = 256,
            |x| x.fields.nu = (1 << 8) + 2,
        }
        6: {
            |x| x.fields.set_coefficient(7),
            |x| x.fields.set_coefficient(9),
            |x| x.fields.set_coefficient(480),
        }
    }
}

/// Faults of the sizes that kinds 2 to 4 share.
fn word_faults() -> Vec<Fault> {
    faults! {
        3: {
            |x| x.fields.r = 0,
            |x| x.fields.r = 481,
            |x| x.fields.r = (1 << 32) + 3,
            |x| (x.fields.r, x.fields.w) = (1 << 63, 2),
            |x| x.fields.w = 0,
            |x| x.fields.w = 33,
            |x| x.fields.w = (1 << 8) + 3,
            |x| x.fields.w = u64::MAX,
        }
        4: {
            |x| x.fields.output_bits = 0,
            |x| x.fields.output_bits = 4,
            |x| x.fields.output_bits = 33,
            |x| x.fields.output_bits = (1 << 8) + 2,
        }
    }
}

fn gfsr_faults() -> Vec<Fault> {
    let coefficients = faults! {
        6: {
            |x| x.fields.set_coefficient(4),
            |x| x.fields.set_coefficient(9),
            |x| x.fields.set_coefficient(480),
        }
    };
    [word_faults(), coefficients].concat()
}

/// What kinds 3 and 4 share beyond the sizes.
fn twisted_faults() -> Vec<Fault> {
    faults! {
        3: {
            |x| x.fields.r = 1,
            |x| x.fields.m = 0,
            |x| x.fields.m = 3,
            |x| x.fields.m = (1 << 16) + 1,
        }
        5: {
            |x| x.fields.shift_s = 0,
            |x| x.fields.shift_s = 4,
            |x| x.fields.shift_s = (1 << 8) + 1,
            |x| x.fields.shift_t = 0,
            |x| x.fields.shift_t = 4,
            |x| x.fields.shift_t = (1 << 32) + 1,
        }
        6: {
            |x| x.fields.a = 8,
            |x| x.fields.b = 8,
            |x| x.fields.c = 8,
            |x| x.fields.a = (1 << 32) + 1,
            |x| x.fields.b = (1 << 32) + 1,
            |x| x.fields.c = (1 << 32) + 1,
        }
    }
}

fn twister_faults() -> Vec<Fault> {
    faults! {
        3: {
            |x| x.fields.p = 3,
            |x| x.fields.p = 1 << 8,
        }
        5: {
            |x| x.fields.shift_u = 0,
            |x| x.fields.shift_u = 4,
            |x| x.fields.shift_v = 0,
            |x| x.fields.shift_v = 4,
        }
    }
}

fn foreign_to_tausworthe() -> Vec<Fault> {
    let words = faults! {
        6: {
            |x| x.fields.r = 3,
            |x| x.fields.w = 3,
        }
    };
    [words, foreign_twist(), foreign_right_shifts()].concat()
}

fn foreign_to_gfsr() -> Vec<Fault> {
    [foreign_bits(), foreign_twist(), foreign_right_shifts()].concat()
}

fn foreign_to_twisted() -> Vec<Fault> {
    [foreign_bits(), foreign_coefficients(), foreign_right_shifts()].concat()
}

fn foreign_to_twister() -> Vec<Fault> {
    [foreign_bits(), foreign_coefficients()].concat()
}

/// Numbers only kind 1 has.
fn foreign_bits() -> Vec<Fault> {
    faults! {
        6: {
            |x| x.fields.k = 9,
            |x| x.fields.k = 1 << 16,
            |x| x.fields.nu = 1,
            |x| x.fields.nu = 1 << 32,
        }
    }
}

/// Numbers only kinds 3 and 4 have.
fn foreign_twist() -> Vec<Fault> {
    faults! {
        6: {
            |x| x.fields.m = 1,
            |x| x.fields.a = 1,
            |x| x.fields.b = 1,
            |x| x.fields.c = 1,
            |x| x.fields.shift_s = 1,
            |x| x.fields.shift_t = 1,
        }
    }
}

/// Numbers only kind 4 has.
fn foreign_right_shifts() -> Vec<Fault> {
    faults! {
        6: {
            |x| x.fields.p = 1,
            |x| x.fields.shift_u = 1,
            |x| x.fields.shift_v = 1,
        }
    }
}

/// Coefficients only kinds 1 and 2 have.
fn foreign_coefficients() -> Vec<Fault> {
    faults! {
        6: {
            |x| x.fields.set_coefficient(1),
            |x| x.fields.set_coefficient(480),
        }
    }
}
