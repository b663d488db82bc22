//! Readings that a call is given: 0, 1, and numbers that are none.

use crate::random::Random;

/// Numbers that are no reading: the next ones, the last ones, and those that
/// would be 0 or 1 in fewer bits.
pub const UNKNOWN: [u32; 12] = [
    2,
    3,
    255,
    256,
    257,
    65_536,
    65_537,
    0x7fff_ffff,
    0x8000_0000,
    0x8000_0001,
    0xffff_fffe,
    0xffff_ffff,
];

/// 0 and 1 in equal parts; one of 24 is no reading.
pub fn random(r: &mut Random) -> u32 {
    if r.chance(1, 24) {
        r.pick(&UNKNOWN)
    } else {
        r.below(2) as u32
    }
}

#[cfg(test)]
mod tests {
    use super::*;
    use plain::reading::is_known;

    #[test]
    fn parts_of_the_readings() {
        assert!(UNKNOWN.iter().all(|reading| !is_known(*reading)));
        let mut r = Random::new(4);
        let mut counts = [0; 3];
        for _ in 0..10_000 {
            counts[random(&mut r).min(2) as usize] += 1;
        }
        let [old, new, unknown] = counts;
        assert!(old > 4500 && new > 4500 && unknown > 300, "{counts:?}");
    }
}
