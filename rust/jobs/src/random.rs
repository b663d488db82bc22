//! A small generator of numbers (splitmix64), the same on every machine.

pub struct Random(u64);

/// The next number, and the state after it.
pub fn draw(state: &mut u64) -> u64 {
    *state = state.wrapping_add(0x9e37_79b9_7f4a_7c15);
    let mut z = *state;
    z = (z ^ (z >> 30)).wrapping_mul(0xbf58_476d_1ce4_e5b9);
    z = (z ^ (z >> 27)).wrapping_mul(0x94d0_49bb_1331_11eb);
    z ^ (z >> 31)
}

impl Random {
    pub fn new(seed: u64) -> Self {
        Self(seed)
    }

    pub fn draw(&mut self) -> u64 {
        draw(&mut self.0)
    }

    pub fn bits(&mut self) -> u32 {
        (self.draw() >> 32) as u32
    }

    pub fn byte(&mut self) -> u8 {
        (self.draw() >> 56) as u8
    }

    /// A number below `bound`, which is not 0.
    pub fn below(&mut self, bound: usize) -> usize {
        ((self.bits() as u64 * bound as u64) >> 32) as usize
    }

    /// A number from `low` to `high`, both included.
    pub fn within(&mut self, low: usize, high: usize) -> usize {
        low + self.below(high - low + 1)
    }

    /// True in `part` of `whole` cases.
    pub fn chance(&mut self, part: usize, whole: usize) -> bool {
        self.below(whole) < part
    }

    pub fn pick<T: Copy>(&mut self, items: &[T]) -> T {
        items[self.below(items.len())]
    }
}

#[cfg(test)]
mod tests {
    use super::*;

    #[test]
    fn known_numbers() {
        // First outputs of splitmix64 for seed 0.
        let mut r = Random::new(0);
        assert_eq!(r.draw(), 0xe220a8397b1dcdaf);
        assert_eq!(r.draw(), 0x6e789e6aa1b965f4);
    }

    #[test]
    fn bounds() {
        let mut r = Random::new(1);
        assert!((0..1000).all(|_| r.below(3) < 3));
        assert!((0..1000).all(|_| (2..=4).contains(&r.within(2, 4))));
    }
}
