//! Stand-in for `read-fonts`: font tables with the meanings of
//! docs/GUIDE.md, section 2.
//!
//! - The first record with a tag counts.
//! - A table that reaches past the file, or is shorter than needed, is absent.
//! - Offsets and lengths are plain numbers; no sum wraps. A table's offset
//!   counts from the first byte of the file, in a collection too.

pub mod tables;
pub mod types;

use tables::{cmap::Cmap, fvar::Fvar, head::Head, os2::Os2, post::Post};
use types::Tag;

/// Bytes of a font or of a part of it; every read is checked.
#[derive(Copy, Clone, Debug)]
pub struct FontData<'a>(&'a [u8]);

impl<'a> FontData<'a> {
    pub fn new(bytes: &'a [u8]) -> Self {
        Self(bytes)
    }

    pub fn as_bytes(&self) -> &'a [u8] {
        self.0
    }

    pub fn len(&self) -> usize {
        self.0.len()
    }

    pub fn is_empty(&self) -> bool {
        self.0.is_empty()
    }

    /// The bytes from `offset` on, `length` of them, if all lie inside.
    pub fn part(&self, offset: u64, length: u64) -> Option<FontData<'a>> {
        let end = offset + length;
        if end > self.0.len() as u64 {
            return None;
        }
        Some(Self(&self.0[offset as usize..end as usize]))
    }

    pub fn u16_at(&self, at: u64) -> Option<u16> {
        let b = self.part(at, 2)?.0;
        Some(u16::from_be_bytes([b[0], b[1]]))
    }

    pub fn u32_at(&self, at: u64) -> Option<u32> {
        let b = self.part(at, 4)?.0;
        Some(u32::from_be_bytes([b[0], b[1], b[2], b[3]]))
    }
}

/// Why something could not be read. The original only asks whether.
#[derive(Copy, Clone, PartialEq, Eq, Debug)]
pub enum ReadError {
    /// The file has no such font: bad start, or header, offsets or directory
    /// past the file.
    BadFont,
    /// The file has fewer fonts.
    InvalidCollectionIndex(u32),
    /// The table is absent as section 2 has it.
    Absent,
    /// A part that section 2 gives no meaning to.
    OutOfScope,
}

/// Something read from the start of some bytes.
pub trait FontRead<'a>: Sized {
    fn read(data: FontData<'a>) -> Result<Self, ReadError>;
}

/// A table found by its tag.
pub trait TopLevelTable {
    const TAG: Tag;
}

/// One record of the table directory: tag, checksum, offset, length.
#[derive(Copy, Clone, Debug)]
pub struct TableRecord<'a>(&'a [u8; 16]);

impl TableRecord<'_> {
    fn field(&self, at: usize) -> [u8; 4] {
        [self.0[at], self.0[at + 1], self.0[at + 2], self.0[at + 3]]
    }

    pub fn tag(&self) -> Tag {
        Tag::new(&self.field(0))
    }

    pub fn offset(&self) -> u32 {
        u32::from_be_bytes(self.field(8))
    }

    pub fn length(&self) -> u32 {
        u32::from_be_bytes(self.field(12))
    }
}

/// The records, read where they stand in the file.
#[derive(Copy, Clone, Debug)]
pub struct TableRecords<'a>(&'a [[u8; 16]]);

impl<'a> TableRecords<'a> {
    pub fn iter(&self) -> impl Iterator<Item = TableRecord<'a>> + use<'a> {
        self.0.iter().map(TableRecord)
    }
}

#[derive(Clone, Debug)]
pub struct TableDirectory<'a>(TableRecords<'a>);

impl<'a> TableDirectory<'a> {
    pub fn table_records(&self) -> TableRecords<'a> {
        self.0
    }
}

/// A collection whose header has been read: of it only the count is looked at.
#[derive(Clone, Debug)]
pub struct CollectionRef<'a> {
    data: FontData<'a>,
    count: u32,
}

impl<'a> CollectionRef<'a> {
    pub fn new(bytes: &'a [u8]) -> Result<Self, ReadError> {
        let data = FontData::new(bytes);
        let header = data.part(0, HEADER);
        let header = header.filter(|header| header.0.starts_with(b"ttcf"));
        let count = header.and_then(|header| header.u32_at(8));
        let count = count.ok_or(ReadError::BadFont)?;
        Ok(Self { data, count })
    }

    /// The font whose directory begins at the offset with the index. All
    /// offsets have to lie in the file.
    pub fn get(&self, index: u32) -> Result<FontRef<'a>, ReadError> {
        if index >= self.count {
            return Err(ReadError::InvalidCollectionIndex(index));
        }
        let offsets = self.data.part(HEADER, 4 * u64::from(self.count));
        let start = offsets.and_then(|offsets| offsets.u32_at(4 * u64::from(index)));
        FontRef::at(self.data, start.ok_or(ReadError::BadFont)?.into())
    }
}

/// A font whose directory has been read. Its tables are parts of the file.
#[derive(Clone, Debug)]
pub struct FontRef<'a> {
    data: FontData<'a>,
    directory: TableDirectory<'a>,
}

impl<'a> FontRef<'a> {
    /// The font with the index; a file that is no collection has one.
    pub fn from_index(bytes: &'a [u8], index: u32) -> Result<Self, ReadError> {
        if let Ok(collection) = CollectionRef::new(bytes) {
            return collection.get(index);
        }
        match index {
            0 => Self::at(FontData::new(bytes), 0),
            _ if (bytes.len() as u64) < HEADER => Err(ReadError::BadFont),
            _ => Err(ReadError::InvalidCollectionIndex(index)),
        }
    }

    /// The font whose directory begins at `start`.
    fn at(data: FontData<'a>, start: u64) -> Result<Self, ReadError> {
        let directory = directory(data, start).ok_or(ReadError::BadFont)?;
        Ok(Self { data, directory })
    }

    pub fn table_directory(&self) -> &TableDirectory<'a> {
        &self.directory
    }

    /// The bytes of the first table with the tag, if it lies in the file and
    /// has at least `needed` bytes.
    fn table(&self, tag: Tag, needed: u64) -> Result<FontData<'a>, ReadError> {
        let mut records = self.directory.0.iter();
        let record = records.find(|record| record.tag() == tag);
        let found = record.and_then(|record| {
            let (offset, length) = (record.offset(), record.length());
            self.data.part(offset.into(), length.into())
        });
        match found {
            Some(table) if table.len() as u64 >= needed => Ok(table),
            _ => Err(ReadError::Absent),
        }
    }
}

/// Bytes of a header: a font's, and a collection's before its offsets.
const HEADER: u64 = 12;

fn directory(data: FontData<'_>, start: u64) -> Option<TableDirectory<'_>> {
    let header = data.part(start, HEADER)?;
    let version = header.u32_at(0)?.to_be_bytes();
    if ![[0, 1, 0, 0], *b"OTTO", *b"true"].contains(&version) {
        return None;
    }
    let count = header.u16_at(4)? as u64;
    let records = data.part(start + HEADER, 16 * count)?;
    let (records, _) = records.0.as_chunks();
    Some(TableDirectory(TableRecords(records)))
}

/// The tables that the original asks for.
pub trait TableProvider<'a> {
    fn cmap(&self) -> Result<Cmap<'a>, ReadError>;
    fn fvar(&self) -> Result<Fvar<'a>, ReadError>;
    fn head(&self) -> Result<Head<'a>, ReadError>;
    fn os2(&self) -> Result<Os2<'a>, ReadError>;
    fn post(&self) -> Result<Post<'a>, ReadError>;
}

impl<'a> TableProvider<'a> for FontRef<'a> {
    fn cmap(&self) -> Result<Cmap<'a>, ReadError> {
        self.table(Cmap::TAG, 4).map(Cmap::new)
    }

    fn fvar(&self) -> Result<Fvar<'a>, ReadError> {
        self.table(Fvar::TAG, 16).map(Fvar::new)
    }

    fn head(&self) -> Result<Head<'a>, ReadError> {
        self.table(Head::TAG, 54).map(Head::new)
    }

    fn os2(&self) -> Result<Os2<'a>, ReadError> {
        self.table(Os2::TAG, 78).map(Os2::new)
    }

    fn post(&self) -> Result<Post<'a>, ReadError> {
        self.table(Post::TAG, 32).map(Post::new)
    }
}

#[cfg(test)]
mod tests;
