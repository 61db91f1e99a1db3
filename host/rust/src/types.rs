//! The structs that cross the boundary, laid out as in the C header.

/// The most state bits, k.
pub const MOST_BITS: usize = 480;
/// The most output bits, L.
pub const MOST_OUTPUT: usize = 32;
/// The bytes that hold the coefficients of kinds 1 and 2.
pub const COEFFICIENT_BYTES: usize = 60;
/// The words of a set, a row or a start state.
pub const ROW_WORDS: usize = 8;
/// The least work buffer, in words of 64 bits.
pub const WORK_WORDS: usize = 7_696;

/// A dimension t. It is a sort of its own, so that (t, l) never turns into (l, t).
#[derive(Clone, Copy, Debug, PartialEq, Eq)]
pub struct Dimension(pub usize);

/// A resolution l.
#[derive(Clone, Copy, Debug, PartialEq, Eq)]
pub struct Resolution(pub usize);

/// A start state: bit i is worth 2^(i mod 64) in word i div 64.
#[repr(C)]
#[derive(Clone, Copy, Debug, Default, PartialEq, Eq)]
pub struct Words {
    /// The words.
    pub words: [u64; ROW_WORDS],
}

/// The kind and the body's fields of a description; those of other kinds are zero.
#[repr(C)]
#[derive(Clone, Copy, Debug, PartialEq, Eq)]
pub struct Fields {
    /// 1 Tausworthe, 2 GFSR, 3 twisted GFSR, 4 Mersenne Twister.
    pub kind: u8,
    /// Kind 1: state bits.
    pub k: u16,
    /// Kind 1: steps between outputs.
    pub nu: u8,
    /// Kinds 2 to 4: words of the state.
    pub r: u16,
    /// Kinds 3 and 4: the nearer of the two words added.
    pub m: u16,
    /// Kinds 2 to 4: bits of a word.
    pub w: u8,
    /// Kind 4: bits that the last word lacks.
    pub p: u8,
    /// L, the bits of an output.
    pub bits: u8,
    /// Kinds 3 and 4: the twist.
    pub a: u32,
    /// Kind 4: U, the right shift that begins the tempering.
    pub u: u8,
    /// Kinds 3 and 4: S, the first left shift.
    pub s: u8,
    /// Kinds 3 and 4: its mask.
    pub b: u32,
    /// Kinds 3 and 4: T, the second left shift.
    pub t: u8,
    /// Kinds 3 and 4: its mask.
    pub c: u32,
    /// Kind 4: V, the right shift that ends the tempering.
    pub v: u8,
    /// Kinds 1 and 2: a_1 is worth 128 in the first byte.
    pub coefficients: [u8; COEFFICIENT_BYTES],
}

impl Fields {
    /// All numbers zero; no generator.
    pub const ZERO: Fields = Fields {
        kind: 0,
        k: 0,
        nu: 0,
        r: 0,
        m: 0,
        w: 0,
        p: 0,
        bits: 0,
        a: 0,
        u: 0,
        s: 0,
        b: 0,
        t: 0,
        c: 0,
        v: 0,
        coefficients: [0; COEFFICIENT_BYTES],
    };
}

/// What reading gives.
#[repr(C)]
#[derive(Clone, Copy, Debug, PartialEq, Eq)]
pub struct Reading {
    /// The refusal number, 0 if accepted.
    pub refusal: u32,
    /// The fields.
    pub fields: Fields,
}

impl Reading {
    /// The fields, or the refusal number.
    pub fn accepted(self) -> Result<Fields, u32> {
        if self.refusal == 0 {
            Ok(self.fields)
        } else {
            Err(self.refusal)
        }
    }
}

/// What the value call gives.
#[repr(C)]
#[derive(Clone, Copy, Debug, PartialEq)]
pub struct Valued {
    /// The refusal number, 0 if accepted.
    pub refusal: u32,
    /// The number Y / 2^L.
    pub value: f64,
}
