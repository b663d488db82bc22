//! Tags of variation axes and of tables.

use std::{error::Error, fmt, str::FromStr};

/// The tag of a variation axis, or of a font's table: four bytes.
///
/// ```
/// use stemhook::Tag;
///
/// assert_eq!(Tag::WGHT, Tag(*b"wght"));
/// assert_eq!("wght".parse(), Ok(Tag::WGHT));
/// assert_eq!(Tag::WGHT.to_string(), "wght");
/// assert_eq!(format!("{:?}", Tag::WGHT), "wght");
/// ```
#[derive(Clone, Copy, Default, PartialEq, Eq, PartialOrd, Ord, Hash)]
pub struct Tag(pub [u8; 4]);

impl Tag {
    /// Width, in percent.
    pub const WDTH: Self = Self(*b"wdth");
    /// Weight.
    pub const WGHT: Self = Self(*b"wght");
    /// Italic.
    pub const ITAL: Self = Self(*b"ital");
    /// Slant, in degrees.
    pub const SLNT: Self = Self(*b"slnt");
}

impl From<[u8; 4]> for Tag {
    fn from(bytes: [u8; 4]) -> Self {
        Self(bytes)
    }
}

/// The four characters; a byte that is no printable ASCII is written as `\xff`.
impl fmt::Display for Tag {
    fn fmt(&self, f: &mut fmt::Formatter<'_>) -> fmt::Result {
        for byte in self.0 {
            match byte {
                b' '..=b'~' => write!(f, "{}", char::from(byte))?,
                _ => write!(f, "\\x{byte:02x}")?,
            }
        }
        Ok(())
    }
}

/// As it is displayed.
impl fmt::Debug for Tag {
    fn fmt(&self, f: &mut fmt::Formatter<'_>) -> fmt::Result {
        fmt::Display::fmt(self, f)
    }
}

impl FromStr for Tag {
    type Err = ParseTagError;

    /// Four characters of printable ASCII.
    fn from_str(text: &str) -> Result<Self, ParseTagError> {
        let bytes = <[u8; 4]>::try_from(text.as_bytes()).map_err(|_| ParseTagError)?;
        let printable = bytes.iter().all(|byte| (b' '..=b'~').contains(byte));
        printable.then_some(Self(bytes)).ok_or(ParseTagError)
    }
}

/// The error of a text that is no tag.
#[derive(Clone, Copy, Debug, PartialEq, Eq, Hash)]
pub struct ParseTagError;

impl fmt::Display for ParseTagError {
    fn fmt(&self, f: &mut fmt::Formatter<'_>) -> fmt::Result {
        f.write_str("a tag is four characters of printable ASCII")
    }
}

impl Error for ParseTagError {}
