//! Tags and numbers.

use std::fmt;

/// Four bytes that name a table or an axis.
#[derive(Copy, Clone, PartialEq, Eq, Default)]
pub struct Tag([u8; 4]);

impl Tag {
    pub const fn new(bytes: &[u8; 4]) -> Self {
        Self(*bytes)
    }

    pub const fn from_u32(bits: u32) -> Self {
        Self(bits.to_be_bytes())
    }

    pub const fn to_be_bytes(self) -> [u8; 4] {
        self.0
    }
}

impl fmt::Debug for Tag {
    fn fmt(&self, f: &mut fmt::Formatter<'_>) -> fmt::Result {
        write!(f, "{}", self.0.escape_ascii())
    }
}

/// A signed 16.16 number.
#[derive(Copy, Clone, PartialEq, Eq, Debug)]
pub struct Fixed(i32);

impl Fixed {
    pub const fn from_bits(bits: i32) -> Self {
        Self(bits)
    }

    /// The single nearest to n/65536, ties to even: the conversion rounds so,
    /// and the division by a power of two is exact.
    pub fn to_f32(self) -> f32 {
        self.0 as f32 / 65536.0
    }

    /// Exact.
    pub fn to_f64(self) -> f64 {
        f64::from(self.0) / 65536.0
    }
}

/// An offset from the start of a table.
#[derive(Copy, Clone, PartialEq, Eq, Debug)]
pub struct Offset32(u32);

impl Offset32 {
    pub const fn new(offset: u32) -> Self {
        Self(offset)
    }

    pub const fn to_u32(self) -> u32 {
        self.0
    }
}

#[derive(Copy, Clone, PartialEq, Eq, Debug)]
pub struct GlyphId(u32);

impl GlyphId {
    pub const fn to_u32(self) -> u32 {
        self.0
    }
}

impl From<u16> for GlyphId {
    fn from(id: u16) -> Self {
        Self(id as u32)
    }
}
