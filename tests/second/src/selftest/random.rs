//! A deterministic random stream (splitmix64) and random generators.

use second::Fields;

/// Splitmix64.
pub struct Random(u64);

impl Random {
    pub fn new(seed: u64) -> Random {
        Random(seed)
    }

    /// The next 64 bits.
    pub fn word(&mut self) -> u64 {
        self.0 = self.0.wrapping_add(0x9e37_79b9_7f4a_7c15);
        let mut z = self.0;
        z = (z ^ (z >> 30)).wrapping_mul(0xbf58_476d_1ce4_e5b9);
        z = (z ^ (z >> 27)).wrapping_mul(0x94d0_49bb_1331_11eb);
        z ^ (z >> 31)
    }

    /// A number from `least` to `most`, both included.
    pub fn between(&mut self, least: u64, most: u64) -> u64 {
        least + self.word() % (most - least + 1)
    }

    /// True once in so many times.
    pub fn once_in(&mut self, times: u64) -> bool {
        self.between(1, times) == 1
    }

    /// A word of w bits.
    pub fn below_power(&mut self, w: u64) -> u64 {
        self.word() >> (64 - w)
    }
}

/// An accepted description of the kind; r·w or k is at most `most`.
pub fn generator(random: &mut Random, kind: u64, most: u64) -> Fields {
    match kind {
        1 => tausworthe(random, most),
        2 => gfsr(random, most),
        _ => twisted(random, kind, most),
    }
}

fn tausworthe(random: &mut Random, most: u64) -> Fields {
    let k = random.between(1, most);
    let output_bits = if random.once_in(3) { 32 } else { k.min(32) };
    let nu = if random.once_in(20) { 255 } else { (k + 5).min(20) };
    let mut fields = Fields {
        kind: 1,
        k,
        output_bits: random.between(1, output_bits),
        nu: random.between(1, nu),
        ..Fields::default()
    };
    set_coefficients(random, &mut fields, k);
    fields
}

fn gfsr(random: &mut Random, most: u64) -> Fields {
    let w = random.between(1, most.min(32));
    let r = random.between(1, most / w);
    let output_bits = random.between(1, w);
    let mut fields = Fields { kind: 2, r, w, output_bits, ..Fields::default() };
    set_coefficients(random, &mut fields, r);
    fields
}

/// Kinds 3 and 4.
fn twisted(random: &mut Random, kind: u64, most: u64) -> Fields {
    let w = random.between(1, (most / 2).min(32));
    let r = random.between(2, most / w);
    let mut fields = Fields {
        kind,
        r,
        m: random.between(1, r - 1),
        w,
        output_bits: random.between(1, w),
        a: random.below_power(w),
        b: random.below_power(w),
        c: random.below_power(w),
        shift_s: random.between(1, w),
        shift_t: random.between(1, w),
        ..Fields::default()
    };
    if kind == 4 {
        fields.p = random.between(0, w - 1);
        fields.shift_u = random.between(1, w);
        fields.shift_v = random.between(1, w);
    }
    fields
}

/// Sets each of a_1 to a_last with a chance of its own: some sets are dense,
/// some have few coefficients, some none.
fn set_coefficients(random: &mut Random, fields: &mut Fields, last: u64) {
    let rarity = random.between(1, 5);
    let none = random.once_in(50);
    for i in 1..=last as usize {
        if random.once_in(rarity) && !none {
            fields.set_coefficient(i);
        }
    }
}

/// A start state of k random bits.
pub fn state(random: &mut Random, k: usize) -> [u64; 8] {
    let mut state = [0; 8];
    for number in 0..k {
        state[number / 64] |= (random.word() & 1) << (number % 64);
    }
    state
}
