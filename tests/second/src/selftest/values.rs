//! Group (h): the assembled bits against floating division, which is exact
//! here: Y has at most 32 bits and 2^L is a power of two.

use super::random::Random;
use super::Checks;
use second::value;

pub fn check(checks: &mut Checks, random: &mut Random) {
    for l in 1..=32u64 {
        for y in numbers_below_power(random, l) {
            let divided = y as f64 / 2f64.powi(l as i32);
            let wanted = (0, divided.to_bits());
            checks.same(value(y, l), wanted, || format!("value {y} {l}"));
        }
        for y in [1 << l, (1 << l) + 1, 1 << 32, 1 << 63, u64::MAX] {
            checks.same(value(y, l), (6, 0), || format!("value {y} {l}"));
        }
    }
    for l in [0, 33, 64, 65, 256 + 1, 1 << 32, (1 << 32) + 1, u64::MAX] {
        for y in [0, 1, u64::MAX] {
            checks.same(value(y, l), (4, 0), || format!("value {y} {l}"));
        }
    }
}

/// 0, all powers, their neighbours, and random numbers, all below 2^l.
fn numbers_below_power(random: &mut Random, l: u64) -> Vec<u64> {
    let mut numbers = vec![0, (1 << l) - 1];
    for h in 0..l {
        numbers.extend([1 << h, (1 << h) - 1, (1 << h) + 1].into_iter().filter(|y| y >> l == 0));
    }
    numbers.extend((0..2000).map(|_| random.below_power(l)));
    numbers
}
