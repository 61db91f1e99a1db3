//! Generators written once more after the textbooks: in place, with words
//! packed and indices going round, as published programs have them.

use std::collections::VecDeque;

/// The parameters of the tempering; a Mersenne Twister has right shifts too.
#[derive(Clone, Copy)]
pub struct Tempering {
    pub right: Option<(u32, u32)>,
    pub s: u32,
    pub b: u64,
    pub t: u32,
    pub c: u64,
}

/// The Mersenne Twister of Matsumoto and Nishimura (1998) with any sizes: it
/// makes n words at once in place, then hands them out one after another.
/// Without lower bits (p = 0) it is the twisted GFSR of 1992.
pub struct Twister {
    pub mt: Vec<u64>,
    index: usize,
    m: usize,
    upper_mask: u64,
    lower_mask: u64,
    word_mask: u64,
    matrix_a: u64,
    tempering: Tempering,
}

impl Twister {
    pub fn new(
        mt: Vec<u64>,
        m: usize,
        (w, p): (u32, u32),
        a: u64,
        tempering: Tempering,
    ) -> Twister {
        let word_mask = if w == 32 { 0xffff_ffff } else { (1 << w) - 1 };
        let lower_mask = word_mask >> (w - p);
        let upper_mask = word_mask - lower_mask;
        let index = mt.len();
        Twister { mt, index, m, upper_mask, lower_mask, word_mask, matrix_a: a, tempering }
    }

    /// Makes the next n words in place, each from what the array then holds.
    fn generate(&mut self) {
        let (n, m) = (self.mt.len(), self.m);
        for kk in 0..n {
            let y = (self.mt[kk] & self.upper_mask) | (self.mt[(kk + 1) % n] & self.lower_mask);
            let mag01 = [0, self.matrix_a];
            self.mt[kk] = self.mt[(kk + m) % n] ^ (y >> 1) ^ mag01[(y & 1) as usize];
        }
        self.index = 0;
    }

    /// The tempering transform of one word.
    pub fn temper(&self, mut y: u64) -> u64 {
        let Tempering { right, s, b, t, c } = self.tempering;
        if let Some((u, _)) = right {
            y ^= y >> u;
        }
        y ^= (y << s) & self.word_mask & b;
        y ^= (y << t) & self.word_mask & c;
        if let Some((_, v)) = right {
            y ^= y >> v;
        }
        y
    }

    /// The next tempered word.
    pub fn genrand(&mut self) -> u64 {
        if self.index == self.mt.len() {
            self.generate();
        }
        self.index += 1;
        self.temper(self.mt[self.index - 1])
    }
}

/// The published start of the Mersenne Twister with 624 words.
pub fn mt19937(seed: u64) -> Twister {
    let mut mt = vec![seed & 0xffff_ffff];
    for i in 1..624 {
        let last: u64 = mt[i - 1];
        mt.push((1_812_433_253 * (last ^ (last >> 30)) + i as u64) & 0xffff_ffff);
    }
    Twister::new(mt, 397, (32, 31), 0x9908_b0df, MT19937_TEMPERING)
}

pub const MT19937_TEMPERING: Tempering =
    Tempering { right: Some((11, 18)), s: 7, b: 0x9d2c_5680, t: 15, c: 0xefc6_0000 };

/// The matrix and tempering of TT800 (Matsumoto and Kurita 1994).
pub const TT800_MATRIX: u64 = 0x8ebf_d028;
pub const TT800_TEMPERING: Tempering =
    Tempering { right: None, s: 7, b: 0x2b5b_2500, t: 15, c: 0xdb8b_0000 };

/// A shift register: it gives out its front bit and takes in the feedback of
/// the taps, which count back from the end that takes in.
pub struct ShiftRegister {
    cells: VecDeque<u8>,
    taps: Vec<usize>,
}

impl ShiftRegister {
    pub fn new(start: &[u8], taps: Vec<usize>) -> ShiftRegister {
        ShiftRegister { cells: start.iter().copied().collect(), taps }
    }

    /// Shifts once.
    pub fn shift(&mut self) -> u8 {
        let length = self.cells.len();
        let feedback = self.taps.iter().map(|tap| self.cells[length - tap]).sum::<u8>() % 2;
        self.cells.push_back(feedback);
        self.cells.pop_front().unwrap_or(0)
    }
}

/// One component of a combined Tausworthe generator, in L'Ecuyer's quick
/// form: 32 bits, x_n = x_(n−k+q) + x_(n−k), s steps at a time.
#[derive(Clone, Copy)]
pub struct QuickTausworthe {
    pub k: u32,
    pub q: u32,
    pub s: u32,
    pub z: u32,
}

impl QuickTausworthe {
    /// Fills the 32−k bits behind the state by the recurrence.
    pub fn fill(mut self) -> QuickTausworthe {
        let (k, q) = (self.k, self.q);
        for i in k..32 {
            let bit = (self.z >> (31 - (i - k + q)) ^ self.z >> (31 - (i - k))) & 1;
            self.z = (self.z & !(1 << (31 - i))) | bit << (31 - i);
        }
        self
    }

    /// The published step, a shift, an exclusive or and a mask.
    pub fn step(&mut self) {
        let b = ((self.z << self.q) ^ self.z) >> (self.k - self.s);
        let mask = !0u32 << (32 - self.k);
        self.z = ((self.z & mask) << self.s) ^ b;
    }
}
