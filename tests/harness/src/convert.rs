//! Fields in the second program's form, and as bytes that nobody has judged.

use dayunglipo::Fields;

/// The same fields for the second program, whose numbers are all wide.
pub fn widened(f: &Fields) -> second::Fields {
    second::Fields {
        kind: f.kind.into(),
        k: f.k.into(),
        r: f.r.into(),
        m: f.m.into(),
        w: f.w.into(),
        p: f.p.into(),
        output_bits: f.bits.into(),
        nu: f.nu.into(),
        a: f.a.into(),
        b: f.b.into(),
        c: f.c.into(),
        shift_s: f.s.into(),
        shift_t: f.t.into(),
        shift_u: f.u.into(),
        shift_v: f.v.into(),
        coefficients: f.coefficients,
    }
}

/// k of the fields, if they were accepted; any number otherwise.
pub fn state_bits(f: &Fields) -> usize {
    match f.kind {
        1 => usize::from(f.k),
        4 => (usize::from(f.r) * usize::from(f.w)).saturating_sub(f.p.into()),
        _ => usize::from(f.r) * usize::from(f.w),
    }
}

/// The description bytes, whether the fields are in range or not; of another
/// kind's fields nothing is said.
pub fn bytes_of(f: &Fields) -> Vec<u8> {
    let mut bytes = vec![f.kind];
    let mut put = |number: &[u8]| bytes.extend_from_slice(number);
    match f.kind {
        1 => {
            put(&f.k.to_be_bytes());
            put(&[f.bits, f.nu]);
            put(&f.coefficients);
        }
        2 => {
            put(&f.r.to_be_bytes());
            put(&[f.w, f.bits]);
            put(&f.coefficients);
        }
        3 => {
            put(&f.r.to_be_bytes());
            put(&f.m.to_be_bytes());
            put(&[f.w, f.bits]);
            put(&f.a.to_be_bytes());
            put(&[f.s, f.t]);
            put(&f.b.to_be_bytes());
            put(&f.c.to_be_bytes());
        }
        _ => twister_bytes(f, put),
    }
    bytes
}

/// The body of kind 4; a kind that does not exist gets it too.
fn twister_bytes(f: &Fields, mut put: impl FnMut(&[u8])) {
    put(&f.r.to_be_bytes());
    put(&f.m.to_be_bytes());
    put(&[f.w, f.p, f.bits]);
    put(&f.a.to_be_bytes());
    put(&[f.u, f.s]);
    put(&f.b.to_be_bytes());
    put(&[f.t]);
    put(&f.c.to_be_bytes());
    put(&[f.v]);
}

/// Bytes in hexadecimal.
pub fn hex(bytes: &[u8]) -> String {
    bytes.iter().map(|byte| format!("{byte:02x}")).collect()
}

/// The description in hexadecimal and, as fields can say more, the fields.
pub fn described(f: &Fields) -> String {
    format!("description {} {f:?}", hex(&bytes_of(f)))
}
