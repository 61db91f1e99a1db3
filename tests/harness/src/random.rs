//! A deterministic random stream (splitmix64), random generators and states.

use dayunglipo::{Fields, Words};

/// Splitmix64.
pub struct Random(u64);

impl Random {
    pub fn new(seed: u64) -> Random {
        Random(seed)
    }

    /// The next 64 bits.
    pub fn word(&mut self) -> u64 {
        self.0 = self.0.wrapping_add(0x9e37_79b9_7f4a_7c15);
        let mut z = self.0;
        z = (z ^ (z >> 30)).wrapping_mul(0xbf58_476d_1ce4_e5b9);
        z = (z ^ (z >> 27)).wrapping_mul(0x94d0_49bb_1331_11eb);
        z ^ (z >> 31)
    }

    /// A number from `least` to `most`, both included.
    pub fn between(&mut self, least: usize, most: usize) -> usize {
        least + (self.word() % (most - least + 1) as u64) as usize
    }

    /// True once in so many times.
    pub fn once_in(&mut self, times: usize) -> bool {
        self.between(1, times) == 1
    }

    /// One of the choices.
    pub fn one_of<T: Copy>(&mut self, choices: &[T]) -> T {
        choices[self.between(0, choices.len() - 1)]
    }

    /// A word of w bits, w from 1 to 32.
    fn bits(&mut self, w: usize) -> u32 {
        (self.word() >> (64 - w)) as u32
    }
}

/// An accepted generator of the kind; r·w, or k in kind 1, is at most `most`.
pub fn generator(random: &mut Random, kind: u8, most: usize) -> Fields {
    match kind {
        1 => tausworthe(random, most),
        2 => gfsr(random, most),
        _ => twisted(random, kind, most),
    }
}

fn tausworthe(random: &mut Random, most: usize) -> Fields {
    let k = random.between(1, most);
    let most_bits = if random.once_in(3) { 32 } else { k.min(32) };
    let most_nu = if random.once_in(40) { 255 } else { 20 };
    let bits = random.between(1, most_bits) as u8;
    let nu = random.between(1, most_nu) as u8;
    let mut fields = Fields { kind: 1, k: k as u16, bits, nu, ..Fields::ZERO };
    set_coefficients(random, &mut fields, k);
    fields
}

fn gfsr(random: &mut Random, most: usize) -> Fields {
    let w = random.between(1, most.min(32));
    let r = random.between(1, most / w);
    let bits = random.between(1, w) as u8;
    let mut fields = Fields { kind: 2, r: r as u16, w: w as u8, bits, ..Fields::ZERO };
    set_coefficients(random, &mut fields, r);
    fields
}

/// Kinds 3 and 4.
fn twisted(random: &mut Random, kind: u8, most: usize) -> Fields {
    let w = random.between(1, (most.max(2) / 2).min(32));
    let r = random.between(2, (most / w).max(2));
    let mut fields = Fields {
        kind,
        r: r as u16,
        m: random.between(1, r - 1) as u16,
        w: w as u8,
        bits: random.between(1, w) as u8,
        a: random.bits(w),
        b: random.bits(w),
        c: random.bits(w),
        s: random.between(1, w) as u8,
        t: random.between(1, w) as u8,
        ..Fields::ZERO
    };
    if kind == 4 {
        fields.p = random.between(0, w - 1) as u8;
        fields.u = random.between(1, w) as u8;
        fields.v = random.between(1, w) as u8;
    }
    fields
}

/// Sets each of a_1 to a_last with a chance of its own: some are dense, some
/// have few, some none.
pub fn set_coefficients(random: &mut Random, fields: &mut Fields, last: usize) {
    let rarity = random.between(1, 5);
    let none = random.once_in(50);
    for i in (0..last).filter(|_| !none) {
        if random.once_in(rarity) {
            fields.coefficients[i / 8] |= 128 >> (i % 8);
        }
    }
}

/// A start state of k random bits.
pub fn state(random: &mut Random, k: usize) -> Words {
    let mut state = Words::default();
    for i in 0..k {
        state.words[i / 64] |= (random.word() & 1) << (i % 64);
    }
    state
}
