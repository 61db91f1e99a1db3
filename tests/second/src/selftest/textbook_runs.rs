//! Group (g): outputs against the textbook generators, and those against
//! published numbers.

use super::random::{self, Random};
use super::raw::show;
use super::textbook::{
    mt19937, QuickTausworthe, ShiftRegister, Tempering, Twister, MT19937_TEMPERING, TT800_MATRIX,
    TT800_TEMPERING,
};
use super::Checks;
use second::{outputs, state_bits, Fields};

pub fn check(checks: &mut Checks, random: &mut Random) {
    published_numbers(checks);
    for _ in 0..300 {
        for kind in [3, 4] {
            let published = published_sizes(random, kind);
            let large = random::generator(random, kind, 480);
            let small = random::generator(random, kind, 30);
            for fields in [published, large, small] {
                twister_like(checks, random, &fields);
            }
        }
        for most in [12, 480] {
            let fields = random::generator(random, 1, most);
            shift_register(checks, random, &fields);
            let fields = random::generator(random, 2, most);
            bit_planes(checks, random, &fields);
        }
        quick_tausworthe(checks, random);
    }
}

/// The first numbers and the 10,000th of MT19937 from its usual seed 5489,
/// so that the textbook itself is known to be right.
fn published_numbers(checks: &mut Checks) {
    let mut twister = mt19937(5489);
    let made: Vec<u64> = (0..10_000).map(|_| twister.genrand()).collect();
    let first = [3_499_211_612, 581_869_302, 3_890_346_734, 3_586_334_585, 545_404_204];
    checks.same(&made[..5], &first, || "MT19937, first numbers".into());
    checks.same(made[9_999], 4_123_659_995, || "MT19937, 10,000th number".into());
}

/// The matrix and tempering of MT19937 or TT800 over 15 words.
fn published_sizes(random: &mut Random, kind: u64) -> Fields {
    let (matrix, tempering) = match kind {
        3 => (TT800_MATRIX, TT800_TEMPERING),
        _ => (0x9908_b0df, MT19937_TEMPERING),
    };
    let (u, v) = tempering.right.unwrap_or((0, 0));
    Fields {
        kind,
        r: 15,
        m: 7,
        w: 32,
        p: if kind == 4 { random.between(0, 31) } else { 0 },
        output_bits: if random.once_in(2) { 32 } else { random.between(1, 32) },
        a: matrix,
        shift_s: u64::from(tempering.s),
        b: tempering.b,
        shift_t: u64::from(tempering.t),
        c: tempering.c,
        shift_u: u64::from(u),
        shift_v: u64::from(v),
        ..Fields::default()
    }
}

/// The textbook's array goes from the oldest word v_(1−r) to v_0.
fn textbook_twister(f: &Fields, words: &[u64]) -> Twister {
    let right = (f.kind == 4).then_some((f.shift_u as u32, f.shift_v as u32));
    let tempering = Tempering { right, s: f.shift_s as u32, b: f.b, t: f.shift_t as u32, c: f.c };
    Twister::new(words.to_vec(), f.m as usize, (f.w as u32, f.p as u32), f.a, tempering)
}

/// Output 0 is the textbook's last start word tempered, and the others are
/// what it makes. The textbook keeps all bits of its oldest word: those the
/// state lacks are random here and must not show.
fn twister_like(checks: &mut Checks, random: &mut Random, f: &Fields) {
    let words: Vec<u64> = (0..f.r).map(|_| random.below_power(f.w)).collect();
    let (k, w) = (state_bits(f), f.w as usize);
    let mut state = [0u64; 8];
    for number in 0..k {
        let word = words[words.len() - 1 - number / w];
        state[number / 64] |= (word >> (w - 1 - number % w) & 1) << (number % 64);
    }
    let mut textbook = textbook_twister(f, &words);
    let mut wanted = vec![textbook.temper(words[words.len() - 1])];
    wanted.extend((1..k).map(|_| textbook.genrand()));
    let wanted: Vec<u32> = wanted.iter().map(|y| (y >> (f.w - f.output_bits)) as u32).collect();
    compare(checks, f, &state, &wanted);
}

/// Runs the library from the state and compares all k outputs.
fn compare(checks: &mut Checks, fields: &Fields, state: &[u64; 8], wanted: &[u32]) {
    let mut made = vec![0; wanted.len()];
    let number = outputs(fields, wanted.len() as u64, state, &mut made);
    let case = || format!("outputs {} {state:x?}, {}", wanted.len(), show(fields));
    checks.same(number, 0, case);
    checks.same(made.as_slice(), wanted, case);
}

fn taps(fields: &Fields, last: u64) -> Vec<usize> {
    (1..=last as usize).filter(|&i| fields.coefficient(i)).collect()
}

fn number_of(bits: &[u8]) -> u32 {
    bits.iter().fold(0, |sum, &bit| sum << 1 | u32::from(bit))
}

/// State bit `number` as 0 or 1.
fn state_bit(state: &[u64; 8], number: usize) -> u8 {
    (state[number / 64] >> (number % 64) & 1) as u8
}

/// Kind 1: what a shift register gives out, every ν shifts.
fn shift_register(checks: &mut Checks, random: &mut Random, fields: &Fields) {
    let k = state_bits(fields);
    let state = random::state(random, k);
    let start: Vec<u8> = (0..k).map(|number| state_bit(&state, number)).collect();
    let mut register = ShiftRegister::new(&start, taps(fields, fields.k));
    let (nu, length) = (fields.nu as usize, fields.output_bits as usize);
    let t = k.min(40);
    let given: Vec<u8> = (0..t * nu + length).map(|_| register.shift()).collect();
    let wanted: Vec<u32> = (0..t).map(|n| number_of(&given[n * nu..][..length])).collect();
    compare(checks, fields, &state, &wanted);
}

/// Kind 2: every bit of the words is a shift register of its own, whose
/// first r−1 bits are those before v_0.
fn bit_planes(checks: &mut Checks, random: &mut Random, fields: &Fields) {
    let (r, w, t) = (fields.r as usize, fields.w as usize, state_bits(fields));
    let state = random::state(random, r * w);
    let mut wanted = vec![0u32; t];
    for j in 0..fields.output_bits as usize {
        let start: Vec<u8> = (0..r).rev().map(|word| state_bit(&state, word * w + j)).collect();
        let mut register = ShiftRegister::new(&start, taps(fields, fields.r));
        for _ in 0..r - 1 {
            register.shift();
        }
        for output in &mut wanted {
            *output = *output << 1 | u32::from(register.shift());
        }
    }
    compare(checks, fields, &state, &wanted);
}

/// Kind 1 with L = 32 above k: the components of taus88 and LFSR113.
fn quick_tausworthe(checks: &mut Checks, random: &mut Random) {
    let taus88 = [(31, 13, 12), (29, 2, 4), (28, 3, 17)];
    let lfsr113 = [(31, 6, 18), (29, 2, 2), (28, 13, 7), (25, 3, 13)];
    for (k, q, s) in taus88.into_iter().chain(lfsr113) {
        let z = random.below_power(32) as u32;
        let mut component = QuickTausworthe { k, q, s, z }.fill();
        let mut fields = Fields {
            kind: 1,
            k: u64::from(k),
            output_bits: 32,
            nu: u64::from(s),
            ..Fields::default()
        };
        fields.set_coefficient((k - q) as usize);
        fields.set_coefficient(k as usize);
        let first = u64::from(z.reverse_bits()) & ((1 << k) - 1);
        let mut wanted = Vec::new();
        for _ in 0..k {
            wanted.push(component.z);
            component.step();
        }
        compare(checks, &fields, &[first, 0, 0, 0, 0, 0, 0, 0], &wanted);
    }
}
