//! "Description bytes": one byte of kind, then the body that the kind fixes.

use crate::refusals::refusal;

/// The bytes that hold the coefficients of kinds 1 and 2.
pub const COEFFICIENT_BYTES: usize = 60;

/// The kind and all fields of all kinds; those of other kinds are zero.
///
/// Every number is wider than its place in the bytes, so that a caller can
/// also hand over what no bytes can express and see it refused.
#[derive(Clone, Debug, PartialEq, Eq)]
pub struct Fields {
    pub kind: u64,
    /// k of kind 1; the other kinds work theirs out.
    pub k: u64,
    pub r: u64,
    pub m: u64,
    pub w: u64,
    pub p: u64,
    /// L, the bits of an output.
    pub output_bits: u64,
    /// ν, the steps between outputs of kind 1.
    pub nu: u64,
    pub a: u64,
    pub b: u64,
    pub c: u64,
    /// S, the first left shift of the tempering.
    pub shift_s: u64,
    /// T, the second left shift of the tempering.
    pub shift_t: u64,
    /// U, the right shift that begins kind 4's tempering.
    pub shift_u: u64,
    /// V, the right shift that ends kind 4's tempering.
    pub shift_v: u64,
    /// a_1 is worth 128 in the first byte, a_8 is worth 1, and so on.
    pub coefficients: [u8; COEFFICIENT_BYTES],
}

impl Default for Fields {
    fn default() -> Fields {
        Fields {
            kind: 0,
            k: 0,
            r: 0,
            m: 0,
            w: 0,
            p: 0,
            output_bits: 0,
            nu: 0,
            a: 0,
            b: 0,
            c: 0,
            shift_s: 0,
            shift_t: 0,
            shift_u: 0,
            shift_v: 0,
            coefficients: [0; COEFFICIENT_BYTES],
        }
    }
}

impl Fields {
    /// Whether a_i is 1, for i from 1 to 480.
    pub fn coefficient(&self, i: usize) -> bool {
        self.coefficients[(i - 1) / 8] & (128 >> ((i - 1) % 8)) != 0
    }

    /// Sets a_i to 1, for i from 1 to 480.
    pub fn set_coefficient(&mut self, i: usize) {
        self.coefficients[(i - 1) / 8] |= 128 >> ((i - 1) % 8);
    }
}

/// The whole length of a description of this kind, if there is such a kind.
pub fn whole_length(kind: u64) -> Option<usize> {
    match kind {
        1 | 2 => Some(65),
        3 => Some(21),
        4 => Some(24),
        _ => None,
    }
}

/// Takes a description apart, or gives the refusal number.
pub fn read(bytes: &[u8]) -> Result<Fields, u32> {
    let kind = u64::from(*bytes.first().ok_or(1u32)?);
    let length = whole_length(kind).ok_or(1u32)?;
    if bytes.len() != length {
        return Err(2);
    }
    let fields = take_body(kind, Body(&bytes[1..]));
    match refusal(&fields) {
        0 => Ok(fields),
        number => Err(number),
    }
}

/// What is left of a body while it is read.
struct Body<'a>(&'a [u8]);

impl Body<'_> {
    /// The next number of so many bytes, its high byte first.
    fn number(&mut self, bytes: usize) -> u64 {
        let (taken, rest) = self.0.split_at(bytes);
        self.0 = rest;
        taken.iter().fold(0, |sum, &byte| sum * 256 + u64::from(byte))
    }

    /// The 60 bytes of coefficients.
    fn coefficients(&mut self) -> [u8; COEFFICIENT_BYTES] {
        std::array::from_fn(|_| self.number(1) as u8)
    }
}

/// The fields of a body of the right length, not yet judged.
fn take_body(kind: u64, mut body: Body) -> Fields {
    let mut fields = Fields { kind, ..Fields::default() };
    match kind {
        1 => {
            fields.k = body.number(2);
            fields.output_bits = body.number(1);
            fields.nu = body.number(1);
            fields.coefficients = body.coefficients();
        }
        2 => {
            fields.r = body.number(2);
            fields.w = body.number(1);
            fields.output_bits = body.number(1);
            fields.coefficients = body.coefficients();
        }
        3 => {
            fields.r = body.number(2);
            fields.m = body.number(2);
            fields.w = body.number(1);
            fields.output_bits = body.number(1);
            fields.a = body.number(4);
            fields.shift_s = body.number(1);
            fields.shift_t = body.number(1);
            fields.b = body.number(4);
            fields.c = body.number(4);
        }
        _ => take_twister_body(&mut fields, body),
    }
    fields
}

/// The body of kind 4.
fn take_twister_body(fields: &mut Fields, mut body: Body) {
    fields.r = body.number(2);
    fields.m = body.number(2);
    fields.w = body.number(1);
    fields.p = body.number(1);
    fields.output_bits = body.number(1);
    fields.a = body.number(4);
    fields.shift_u = body.number(1);
    fields.shift_s = body.number(1);
    fields.b = body.number(4);
    fields.shift_t = body.number(1);
    fields.c = body.number(4);
    fields.shift_v = body.number(1);
}

/// Puts the description at the front of the buffer and leaves the rest;
/// gives the refusal number, 0 if accepted.
pub fn write(fields: &Fields, buffer: &mut [u8]) -> u32 {
    let number = refusal(fields);
    if number != 0 {
        return number;
    }
    let bytes = description_bytes(fields);
    if buffer.len() < bytes.len() {
        return 11;
    }
    buffer[..bytes.len()].copy_from_slice(&bytes);
    0
}

/// The bytes of accepted fields.
fn description_bytes(f: &Fields) -> Vec<u8> {
    let mut bytes = vec![f.kind as u8];
    match f.kind {
        1 => {
            put(&mut bytes, &[(f.k, 2), (f.output_bits, 1), (f.nu, 1)]);
            bytes.extend(f.coefficients);
        }
        2 => {
            put(&mut bytes, &[(f.r, 2), (f.w, 1), (f.output_bits, 1)]);
            bytes.extend(f.coefficients);
        }
        3 => {
            put(&mut bytes, &[(f.r, 2), (f.m, 2), (f.w, 1), (f.output_bits, 1), (f.a, 4)]);
            put(&mut bytes, &[(f.shift_s, 1), (f.shift_t, 1), (f.b, 4), (f.c, 4)]);
        }
        _ => {
            put(&mut bytes, &[(f.r, 2), (f.m, 2), (f.w, 1), (f.p, 1), (f.output_bits, 1)]);
            put(&mut bytes, &[(f.a, 4), (f.shift_u, 1), (f.shift_s, 1), (f.b, 4)]);
            put(&mut bytes, &[(f.shift_t, 1), (f.c, 4), (f.shift_v, 1)]);
        }
    }
    bytes
}

/// Appends numbers of so many bytes each, high byte first.
fn put(bytes: &mut Vec<u8>, numbers: &[(u64, usize)]) {
    for &(number, count) in numbers {
        bytes.extend_from_slice(&number.to_be_bytes()[8 - count..]);
    }
}
