//! Stand-in for `parlance`: the attributes as docs/GUIDE.md gives them.
//!
//! Equality is that of the single-precision numbers, so both zeros are equal,
//! and an unstated angle is unequal to every stated one.

use std::fmt;

/// A width as a ratio to the normal one.
#[derive(Copy, Clone, PartialEq, Debug)]
pub struct FontWidth(f32);

impl FontWidth {
    pub const NORMAL: Self = Self(1.0);

    pub const fn from_ratio(ratio: f32) -> Self {
        Self(ratio)
    }

    pub const fn ratio(self) -> f32 {
        self.0
    }

    /// The ratio times 100, rounded once.
    pub fn percentage(self) -> f32 {
        self.0 * 100.0
    }
}

impl Default for FontWidth {
    fn default() -> Self {
        Self::NORMAL
    }
}

impl fmt::Display for FontWidth {
    fn fmt(&self, f: &mut fmt::Formatter<'_>) -> fmt::Result {
        write!(f, "{}%", self.percentage())
    }
}

/// A style; an oblique one has an angle in degrees or leaves it unstated.
#[derive(Copy, Clone, PartialEq, Default, Debug)]
pub enum FontStyle {
    #[default]
    Normal,
    Italic,
    Oblique(Option<f32>),
}

impl fmt::Display for FontStyle {
    fn fmt(&self, f: &mut fmt::Formatter<'_>) -> fmt::Result {
        match self {
            Self::Normal => f.write_str("normal"),
            Self::Italic => f.write_str("italic"),
            Self::Oblique(None) => f.write_str("oblique"),
            Self::Oblique(Some(angle)) => write!(f, "oblique({angle}deg)"),
        }
    }
}

/// A weight, commonly 1 to 1000.
#[derive(Copy, Clone, PartialEq, Debug)]
pub struct FontWeight(f32);

impl FontWeight {
    pub const NORMAL: Self = Self(400.0);
    pub const BOLD: Self = Self(700.0);

    pub const fn new(weight: f32) -> Self {
        Self(weight)
    }

    pub const fn value(self) -> f32 {
        self.0
    }
}

impl Default for FontWeight {
    fn default() -> Self {
        Self::NORMAL
    }
}

impl fmt::Display for FontWeight {
    fn fmt(&self, f: &mut fmt::Formatter<'_>) -> fmt::Result {
        write!(f, "{}", self.0)
    }
}

/// A script by its four letters; only a key here.
#[derive(Copy, Clone, PartialEq, Eq, Hash, Debug)]
pub struct Script([u8; 4]);

impl Script {
    pub const fn from_bytes(bytes: [u8; 4]) -> Self {
        Self(bytes)
    }

    pub const fn to_bytes(self) -> [u8; 4] {
        self.0
    }
}

/// A language; never made here, since locales are out of scope.
#[derive(Copy, Clone, PartialEq, Eq, Hash, Debug)]
pub enum Language {}

impl Language {
    pub fn parse(_text: &str) -> Result<Self, &'static str> {
        Err("languages are out of scope")
    }

    pub fn as_str(&self) -> &str {
        match *self {}
    }

    pub fn language(&self) -> &str {
        match *self {}
    }

    pub fn script(&self) -> Option<&str> {
        match *self {}
    }

    pub fn region(&self) -> Option<&str> {
        match *self {}
    }
}

/// A generic family; never made here, since generic families are out of scope.
#[derive(Copy, Clone, PartialEq, Eq, Hash, Debug)]
pub enum GenericFamily {}

#[cfg(test)]
mod tests {
    use super::*;

    #[test]
    fn equality_is_of_numbers() {
        assert_eq!(FontWidth::from_ratio(0.0), FontWidth::from_ratio(-0.0));
        assert_eq!(FontWeight::new(0.0), FontWeight::new(-0.0));
        assert_eq!(
            FontStyle::Oblique(Some(0.0)),
            FontStyle::Oblique(Some(-0.0))
        );
        assert_ne!(FontStyle::Oblique(None), FontStyle::Oblique(Some(14.0)));
    }

    #[test]
    fn defaults() {
        assert_eq!(FontWidth::default().ratio(), 1.0);
        assert_eq!(FontStyle::default(), FontStyle::Normal);
        assert_eq!(FontWeight::default().value(), 400.0);
        assert_eq!(FontWeight::BOLD.value(), 700.0);
    }
}
