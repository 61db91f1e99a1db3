//! A set of bit numbers 0 to 511, the form of sets, rows and start states.

/// The words in a set: bit i is worth 2^(i mod 64) in word i div 64.
pub const SET_WORDS: usize = 8;

/// A set of bit numbers; adding two keeps what is in exactly one of them.
#[derive(Clone, Copy, Debug, Default, PartialEq, Eq)]
pub struct Bits(pub [u64; SET_WORDS]);

impl Bits {
    /// The set that holds one number.
    pub fn only(number: usize) -> Bits {
        let mut set = Bits::default();
        set.insert(number);
        set
    }

    /// Puts a number into the set.
    pub fn insert(&mut self, number: usize) {
        self.0[number / 64] |= 1 << (number % 64);
    }

    /// Whether the number is in the set.
    pub fn has(&self, number: usize) -> bool {
        self.0[number / 64] >> (number % 64) & 1 == 1
    }

    /// Adds another set modulo 2.
    pub fn add(&mut self, other: &Bits) {
        for (mine, theirs) in self.0.iter_mut().zip(other.0) {
            *mine ^= theirs;
        }
    }

    /// The lowest number in the set, if it has any.
    pub fn lowest(&self) -> Option<usize> {
        let word = self.0.iter().position(|&word| word != 0)?;
        Some(word * 64 + self.0[word].trailing_zeros() as usize)
    }
}
