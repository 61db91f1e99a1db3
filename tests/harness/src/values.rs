//! Values: every L from 0 to 34 with the numbers about its borders, and random ones.

use crate::compare;
use crate::random::Random;
use crate::tally::Tally;

pub fn check(tally: &mut Tally, random: &mut Random, rounds: u64) {
    for bits in (0..=34).chain([63, 64, 65, 255, 256, 257, 65_537, 1 << 31, u32::MAX]) {
        for h in 0..64 {
            let power = 1u64 << h;
            for y in [0, power - 1, power, power + 1, power | 1 << (h / 2), u64::MAX] {
                compare::value(tally, y, bits);
            }
        }
    }
    for _ in 0..rounds {
        let bits = random.between(0, 34) as u32;
        let y = random.word() >> random.between(0, 63);
        let within = y & ((1 << bits) - 1);
        compare::value(tally, y, bits);
        compare::value(tally, within, bits);
    }
}
