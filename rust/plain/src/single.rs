//! Section 1: single-precision numbers, by their bits.

use std::cmp::Ordering;

/// A single-precision number; compared by order number, so both zeros are equal.
#[derive(Copy, Clone, Debug)]
pub struct Single(pub u32);

impl Single {
    pub const ZERO: Self = Self::new(0.0);

    pub const fn new(value: f32) -> Self {
        Self(value.to_bits())
    }

    pub const fn value(self) -> f32 {
        f32::from_bits(self.0)
    }

    /// The single nearest to n/65536, ties to even: the quotient is exact in
    /// double precision and is then rounded once.
    pub fn from_fixed(n: i32) -> Self {
        Self::new((f64::from(n) / 65536.0) as f32)
    }

    /// The bits if below 2^31, else minus (bits minus 2^31).
    pub fn order(self) -> i64 {
        let bits = i64::from(self.0);
        if bits < 1 << 31 {
            bits
        } else {
            -(bits - (1 << 31))
        }
    }

    /// Neither infinite nor a NaN.
    pub fn is_finite(self) -> bool {
        (self.0 >> 23) & 0xff != 0xff
    }

    /// A width ratio: 0 to 16.
    pub fn is_ratio(self) -> bool {
        self.is_finite() && (Self::ZERO..=Self::new(16.0)).contains(&self)
    }

    /// The ratio times 100, rounded once.
    pub fn times_100(self) -> Self {
        Self::new(self.value() * 100.0)
    }

    /// The opposite number; of either zero the positive one.
    pub fn opposite(self) -> Self {
        if self == Self::ZERO {
            Self::ZERO
        } else {
            Self::new(-self.value())
        }
    }

    /// Truncated toward zero.
    pub fn truncated(self) -> i64 {
        self.value() as i64
    }

    /// The whole percent of a ratio.
    pub fn whole_percent(self) -> i64 {
        self.times_100().truncated()
    }
}

impl PartialEq for Single {
    fn eq(&self, other: &Self) -> bool {
        self.order() == other.order()
    }
}

impl Eq for Single {}

impl PartialOrd for Single {
    fn partial_cmp(&self, other: &Self) -> Option<Ordering> {
        Some(self.cmp(other))
    }
}

impl Ord for Single {
    fn cmp(&self, other: &Self) -> Ordering {
        self.order().cmp(&other.order())
    }
}
