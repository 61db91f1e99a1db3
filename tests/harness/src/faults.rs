//! Every refusal number of every call by each of its cases, then all pairs of
//! two faults at once.

use crate::tally::Tally;
use crate::trial::Trial;
use dayunglipo::{Dimension, Fields};

/// Something wrong with a trial: the number it must give, and what to spoil.
pub struct Fault {
    pub number: u32,
    pub spoil: fn(&mut Trial),
}

const fn fault(number: u32, spoil: fn(&mut Trial)) -> Fault {
    Fault { number, spoil }
}

/// Faults of any kind's fields, and of the other arguments.
const COMMON: &[Fault] = &[
    fault(1, |x| x.fields.kind = 0),
    fault(1, |x| x.fields.kind = 5),
    fault(1, |x| x.fields.kind = 255),
    fault(4, |x| x.fields.bits = 0),
    fault(4, |x| x.fields.bits = 33),
    fault(4, |x| x.fields.bits = 255),
    fault(7, |x| x.t = 0),
    fault(7, |x| x.t = x.k() + 1),
    fault(7, |x| x.t = usize::MAX),
    fault(7, |x| x.t = 1 << 63),
    fault(7, |x| x.t = 1 << 32 | 1),
    fault(7, |x| x.t = 1 << 16 | 1),
    fault(8, |x| x.l = 0),
    fault(8, |x| x.l = usize::from(x.fields.bits) + 1),
    fault(8, |x| x.l = usize::MAX),
    fault(8, |x| x.l = 1 << 32 | 1),
    fault(8, |x| x.l = 1 << 8 | 1),
    fault(9, |x| x.state.words[x.k() / 64 % 8] |= 1 << (x.k() % 64)),
    fault(9, |x| x.state.words[7] |= 1 << 63),
    fault(10, |x| (x.t, x.l, x.output_room) = (x.k(), 2, x.k())),
    fault(11, |x| short(x, 1)),
    fault(11, |x| short(x, usize::MAX)),
];

/// Makes all buffers shorter; none is left below no room at all.
fn short(x: &mut Trial, by: usize) {
    x.byte_room = x.byte_room.saturating_sub(by);
    x.output_room = x.output_room.saturating_sub(by);
    x.work_room = x.work_room.saturating_sub(by);
}

/// Fields that only kinds 3 and 4 have, set in kinds 1 and 2.
const FOREIGN_TWIST: &[Fault] = &[
    fault(6, |x| x.fields.m = 256),
    fault(6, |x| x.fields.p = 1),
    fault(6, |x| x.fields.a = 1 << 31),
    fault(6, |x| x.fields.b = 1),
    fault(6, |x| x.fields.c = 1),
    fault(6, |x| x.fields.u = 1),
    fault(6, |x| x.fields.s = 1),
    fault(6, |x| x.fields.t = 1),
    fault(6, |x| x.fields.v = 128),
];

const TAUSWORTHE: &[Fault] = &[
    fault(3, |x| x.fields.k = 0),
    fault(3, |x| x.fields.k = 481),
    fault(3, |x| x.fields.k = 65_535),
    fault(5, |x| x.fields.nu = 0),
    fault(6, |x| x.fields.coefficients[1] |= 128),
    fault(6, |x| x.fields.coefficients[59] |= 1),
    fault(6, |x| x.fields.r = 1),
    fault(6, |x| x.fields.w = 1),
];

const GFSR: &[Fault] = &[
    fault(3, |x| x.fields.r = 0),
    fault(3, |x| x.fields.r = 121),
    fault(3, |x| x.fields.r = 65_535),
    fault(3, |x| x.fields.w = 0),
    fault(3, |x| x.fields.w = 33),
    fault(3, |x| x.fields.w = 255),
    fault(4, |x| x.fields.bits = 5),
    fault(6, |x| x.fields.coefficients[0] |= 1),
    fault(6, |x| x.fields.coefficients[59] |= 1),
    fault(6, |x| x.fields.k = 1),
    fault(6, |x| x.fields.nu = 1),
];

/// Faults of kinds 3 and 4.
const TWISTED: &[Fault] = &[
    fault(3, |x| x.fields.r = 1),
    fault(3, |x| x.fields.r = 121),
    fault(3, |x| x.fields.r = 65_535),
    fault(3, |x| x.fields.m = 0),
    fault(3, |x| x.fields.m = x.fields.r),
    fault(3, |x| x.fields.m = 65_535),
    fault(3, |x| x.fields.w = 0),
    fault(3, |x| x.fields.w = 33),
    fault(4, |x| x.fields.bits = 5),
    fault(5, |x| x.fields.s = 0),
    fault(5, |x| x.fields.s = 5),
    fault(5, |x| x.fields.t = 0),
    fault(5, |x| x.fields.t = 255),
    fault(6, |x| x.fields.a = 16),
    fault(6, |x| x.fields.b = 16),
    fault(6, |x| x.fields.c = u32::MAX),
    fault(6, |x| x.fields.k = 256),
    fault(6, |x| x.fields.nu = 1),
    fault(6, |x| x.fields.coefficients[0] = 128),
    fault(6, |x| x.fields.coefficients[59] = 1),
];

const ONLY_KIND_3: &[Fault] =
    &[fault(6, |x| x.fields.p = 1), fault(6, |x| x.fields.u = 1), fault(6, |x| x.fields.v = 1)];

const ONLY_KIND_4: &[Fault] = &[
    fault(3, |x| x.fields.p = 4),
    fault(3, |x| x.fields.p = 255),
    fault(5, |x| x.fields.u = 0),
    fault(5, |x| x.fields.u = 5),
    fault(5, |x| x.fields.v = 0),
    fault(5, |x| x.fields.v = 5),
];

/// A generator of each kind with room for all faults, and what can be wrong.
fn spoilt_kinds() -> [(Fields, Vec<&'static [Fault]>); 4] {
    let mut tausworthe = Fields { kind: 1, k: 8, bits: 4, nu: 3, ..Fields::ZERO };
    tausworthe.coefficients[0] = 0x95;
    let mut gfsr = Fields { kind: 2, r: 3, w: 4, bits: 4, ..Fields::ZERO };
    gfsr.coefficients[0] = 0xa0;
    let words = Fields { r: 3, m: 1, w: 4, bits: 4, a: 9, s: 1, b: 6, t: 2, c: 12, ..Fields::ZERO };
    let twisted = Fields { kind: 3, ..words };
    let twister = Fields { kind: 4, p: 1, u: 3, v: 2, ..words };
    [
        (tausworthe, vec![TAUSWORTHE, FOREIGN_TWIST, COMMON]),
        (gfsr, vec![GFSR, FOREIGN_TWIST, COMMON]),
        (twisted, vec![TWISTED, ONLY_KIND_3, COMMON]),
        (twister, vec![TWISTED, ONLY_KIND_4, COMMON]),
    ]
}

pub fn check(tally: &mut Tally) {
    for (fields, lists) in spoilt_kinds() {
        let faults: Vec<&Fault> = lists.into_iter().flatten().collect();
        let sound = Trial::new(fields, 2, 2);
        sound.all_calls(tally);
        for one in &faults {
            let mut trial = sound.clone();
            (one.spoil)(&mut trial);
            trial.all_calls(tally);
            lowest(tally, &trial, one.number);
            for other in &faults {
                let mut twice = trial.clone();
                (other.spoil)(&mut twice);
                twice.all_calls(tally);
            }
        }
    }
}

/// A single fault's number, without the second program: outputs can give all
/// of them but 8 and 10.
fn lowest(tally: &mut Tally, trial: &Trial, number: u32) {
    let mut out = vec![0; trial.output_room];
    let got = dayunglipo::outputs(&trial.fields, Dimension(trial.t), &trial.state, &mut out);
    let wanted = if number == 8 || number == 10 { 0 } else { number };
    tally.same("outputs", &got, &wanted, || trial.line());
}
