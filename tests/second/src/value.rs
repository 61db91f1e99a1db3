//! The value of an output as a fraction of one.

/// The bits of the f64 Y / 2^L, put together from exponent and fraction;
/// gives the refusal number first, 0 if accepted.
pub fn value(y: u64, l: u64) -> (u32, u64) {
    if !(1..=32).contains(&l) {
        return (4, 0);
    }
    if y >= 1 << l {
        return (6, 0);
    }
    if y == 0 {
        return (0, 0);
    }
    let h = u64::from(y.ilog2());
    let exponent = 1023 + h - l;
    let fraction = (y - (1 << h)) << (52 - h);
    (0, exponent << 52 | fraction)
}
