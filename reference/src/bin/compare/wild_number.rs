//! Numbers out of their range.

use reference::random::Random;

/// Any number of 64 bits, often one that is right in its lowest bits.
pub fn wild_number(random: &mut Random, right: u64) -> u64 {
    match random.below(6) {
        0 => random.pick(&[0, 9, 255, 256, 257, (1 << 32) + 1, u64::MAX]),
        1 => right + (1 << random.pick(&[3, 8, 16, 32, 63])),
        2 => right.wrapping_neg(),
        3 => right.wrapping_sub(1),
        4 => right + 1,
        _ => random.any(),
    }
}
