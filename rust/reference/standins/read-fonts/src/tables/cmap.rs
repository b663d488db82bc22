//! cmap, at least 4 bytes: the choice of a subtable.
//!
//! The subtables themselves have no meaning here, so reading one always
//! fails.

use super::u16_field;
use crate::{
    FontData, FontRead, ReadError, TopLevelTable,
    types::{GlyphId, Offset32, Tag},
};

#[derive(Copy, Clone, Debug)]
pub struct Cmap<'a>(FontData<'a>);

impl TopLevelTable for Cmap<'_> {
    const TAG: Tag = Tag::new(b"cmap");
}

impl<'a> Cmap<'a> {
    pub(crate) fn new(data: FontData<'a>) -> Self {
        Self(data)
    }

    /// The records that lie in the table and have two bytes at their offset
    /// there, with their number and the bytes from that offset on.
    fn qualifying(&self) -> impl Iterator<Item = (u16, EncodingRecord, FontData<'a>)> {
        let data = self.0;
        let count = u16_field(data, 2);
        (0..count).filter_map(move |i| {
            let record = data.part(4 + 8 * i as u64, 8)?;
            let offset = record.u32_at(4)?;
            data.part(offset as u64, 2)?;
            let rest = FontData::new(&data.as_bytes()[offset as usize..]);
            let record = EncodingRecord {
                platform: record.u16_at(0)?,
                encoding: record.u16_at(2)?,
                offset: Offset32::new(offset),
            };
            Some((i, record, rest))
        })
    }

    /// The first record of the best class that has one.
    pub fn best_subtable(&self) -> Option<(u16, EncodingRecord, FontData<'a>)> {
        (0..4).find_map(|class| {
            self.qualifying()
                .find(|(_, record, _)| record.class() == Some(class))
        })
    }
}

#[derive(Copy, Clone, PartialEq, Eq, Debug)]
pub struct EncodingRecord {
    platform: u16,
    encoding: u16,
    offset: Offset32,
}

impl EncodingRecord {
    /// 0 is the best class; none for a pair of no class.
    fn class(&self) -> Option<u8> {
        match (self.platform, self.encoding) {
            (3, 10) | (0, 4) | (0, 6) => Some(0),
            (3, 1) | (0, 0..=3) => Some(1),
            (3, 0) => Some(2),
            (1, 0) => Some(3),
            _ => None,
        }
    }

    pub fn subtable_offset(&self) -> Offset32 {
        self.offset
    }

    pub fn is_symbol(&self) -> bool {
        self.class() == Some(2)
    }

    pub fn is_mac_roman(&self) -> bool {
        self.class() == Some(3)
    }
}

/// A subtable of some format; never made here.
#[derive(Clone)]
pub enum CmapSubtable<'a> {
    Format0(Subtable<'a>),
    Format4(Subtable<'a>),
    Format6(Subtable<'a>),
    Format10(Subtable<'a>),
    Format12(Subtable<'a>),
    Format13(Subtable<'a>),
    Other(Subtable<'a>),
}

impl<'a> FontRead<'a> for CmapSubtable<'a> {
    fn read(_data: FontData<'a>) -> Result<Self, ReadError> {
        Err(ReadError::OutOfScope)
    }
}

/// No value of this type exists.
#[derive(Clone)]
pub struct Subtable<'a>(Never, std::marker::PhantomData<&'a ()>);

#[derive(Copy, Clone)]
enum Never {}

impl Subtable<'_> {
    pub fn map_codepoint(&self, _codepoint: u32) -> Option<GlyphId> {
        match self.0 {}
    }

    pub fn start_char_code(&self) -> u32 {
        match self.0 {}
    }

    pub fn glyph_id_array(&self) -> &[GlyphField] {
        match self.0 {}
    }
}

/// A glyph number in a list.
pub struct GlyphField(Never);

impl GlyphField {
    pub fn get(&self) -> u16 {
        match self.0 {}
    }
}
