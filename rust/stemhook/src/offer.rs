//! An offer: a face, and what is to be done to it.

use std::{fmt, ops::Deref, slice};

use crate::{ids::FamilyId, limits::OFFER_BYTES, tag::Tag};

/// A face that is offered for a request.
#[derive(Clone, Copy, Debug, PartialEq)]
#[non_exhaustive]
pub struct Offer {
    /// The family.
    pub family: FamilyId,
    /// The face's place in that family.
    pub place: u16,
    /// Whether the face is to be emboldened.
    pub embolden: bool,
    /// Degrees by which the face is to be skewed, above zero to the right, under
    /// both readings; 0 for none.
    pub skew: i8,
    /// The settings of variation axes, at most three.
    pub settings: Settings,
    /// Where the font's characters are mapped.
    pub charmap: CharmapIndex,
}

impl Offer {
    /// Reads the 40 bytes that the offer call writes. A setting count above
    /// three, which the call never writes, is read as three.
    ///
    /// ```
    /// use stemhook::{Offer, Tag};
    ///
    /// let mut bytes = [0; 40];
    /// bytes[3] = 2; // place
    /// bytes[5] = 0xf2; // skew
    /// bytes[6] = 1; // setting count
    /// bytes[8..12].copy_from_slice(b"wght");
    /// bytes[12..16].copy_from_slice(&650.0_f32.to_be_bytes());
    /// let offer = Offer::from_bytes(&bytes);
    /// assert_eq!((offer.family.number(), offer.place, offer.skew), (0, 2, -14));
    /// assert_eq!(offer.settings.len(), 1);
    /// assert_eq!(offer.settings.value(Tag::WGHT), Some(650.0));
    /// ```
    pub fn from_bytes(bytes: &[u8; OFFER_BYTES]) -> Self {
        let half = |at: usize| u16::from_be_bytes([bytes[at], bytes[at + 1]]);
        let word = |at: usize| [bytes[at], bytes[at + 1], bytes[at + 2], bytes[at + 3]];
        let slot = |at: usize| Setting {
            tag: Tag(word(at)),
            value: f32::from_be_bytes(word(at + 4)),
        };
        Self {
            family: FamilyId::new(half(0)),
            place: half(2),
            embolden: bytes[4] != 0,
            skew: i8::from_be_bytes([bytes[5]]),
            settings: Settings {
                slots: [slot(8), slot(16), slot(24)],
                count: bytes[6].min(3),
            },
            charmap: CharmapIndex {
                offset: u32::from_be_bytes(word(32)),
                symbol: bytes[36] != 0,
                mac_roman: bytes[37] != 0,
            },
        }
    }
}

/// The value that an axis is to be set to.
#[derive(Clone, Copy, Default, PartialEq)]
pub struct Setting {
    /// The axis.
    pub tag: Tag,
    /// Its value.
    pub value: f32,
}

/// As `wght=650`.
impl fmt::Display for Setting {
    fn fmt(&self, f: &mut fmt::Formatter<'_>) -> fmt::Result {
        write!(f, "{}={}", self.tag, self.value)
    }
}

impl fmt::Debug for Setting {
    fn fmt(&self, f: &mut fmt::Formatter<'_>) -> fmt::Result {
        fmt::Display::fmt(self, f)
    }
}

/// The settings of an offer: a slice of at most three.
#[derive(Clone, Copy, Default)]
pub struct Settings {
    slots: [Setting; 3],
    /// At most 3.
    count: u8,
}

impl Settings {
    /// The settings, in the order in which they are given.
    pub fn as_slice(&self) -> &[Setting] {
        self.slots
            .get(..usize::from(self.count))
            .unwrap_or(&self.slots)
    }

    /// The value that an axis is set to, if it is set.
    pub fn value(&self, tag: Tag) -> Option<f32> {
        let setting = self.iter().find(|setting| setting.tag == tag)?;
        Some(setting.value)
    }
}

impl Deref for Settings {
    type Target = [Setting];

    fn deref(&self) -> &[Setting] {
        self.as_slice()
    }
}

impl<'a> IntoIterator for &'a Settings {
    type Item = &'a Setting;
    type IntoIter = slice::Iter<'a, Setting>;

    fn into_iter(self) -> Self::IntoIter {
        self.as_slice().iter()
    }
}

impl PartialEq for Settings {
    fn eq(&self, other: &Self) -> bool {
        self.as_slice() == other.as_slice()
    }
}

impl fmt::Debug for Settings {
    fn fmt(&self, f: &mut fmt::Formatter<'_>) -> fmt::Result {
        f.debug_list().entries(self).finish()
    }
}

/// Where a font's characters are mapped: the `cmap` subtable to use.
#[derive(Clone, Copy, Debug, Default, PartialEq, Eq, Hash)]
pub struct CharmapIndex {
    /// The subtable's offset in bytes, from the start of the font file. In an
    /// offer of a [`Job`](crate::Job) that a builder made, of the file that was
    /// given to it.
    pub offset: u32,
    /// Whether it is a symbol subtable.
    pub symbol: bool,
    /// Whether it is a Mac Roman subtable.
    pub mac_roman: bool,
}
