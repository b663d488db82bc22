//! The fonts of a file, their directories and tables, found as the picker finds
//! them.

/// The directory of a font that has a good start and the whole directory.
pub struct Directory<'a> {
    file: &'a [u8],
    /// What the font starts with.
    pub start: [u8; 4],
    records: &'a [u8],
}

/// A table that is read.
#[derive(Clone, Copy)]
pub struct Kind {
    pub tag: [u8; 4],
    /// The fewest bytes that it has.
    pub least: usize,
}

/// A table's kind by its tag and its least length.
const fn kind(tag: &[u8; 4], least: usize) -> Kind {
    Kind { tag: *tag, least }
}

pub const OS2: Kind = kind(b"OS/2", 78);
pub const HEAD: Kind = kind(b"head", 54);
pub const POST: Kind = kind(b"post", 32);
pub const FVAR: Kind = kind(b"fvar", 16);
pub const CMAP: Kind = kind(b"cmap", 4);

/// What is found of a table. The first record with its tag counts, also where a
/// later one is sound.
#[derive(Clone, Copy)]
pub enum Lookup<'a> {
    /// No record has the tag.
    Absent,
    /// The record cannot be used.
    Damaged(Damage),
    /// The table lies in the file and has its least length.
    Found(Table<'a>),
}

/// Why the record of a table cannot be used.
#[derive(Clone, Copy)]
pub enum Damage {
    /// The table ends here, and the file before.
    PastEnd(usize),
    /// The table lies in the file, and has so many bytes: too few.
    Short(usize),
}

/// A table that lies in the file.
#[derive(Clone, Copy)]
pub struct Table<'a> {
    /// Where it lies in the file.
    pub offset: usize,
    /// Its bytes.
    pub bytes: &'a [u8],
}

impl<'a> Lookup<'a> {
    /// The table, where it is found.
    pub fn found(self) -> Option<Table<'a>> {
        match self {
            Self::Found(table) => Some(table),
            Self::Absent | Self::Damaged(_) => None,
        }
    }
}

/// Bytes before the records, and before the offsets of a collection.
pub const HEADER: usize = 12;

/// Bytes of a record: tag, checksum, offset, length.
pub const RECORD: usize = 16;

/// What a font starts with.
pub const STARTS: [[u8; 4]; 3] = [[0, 1, 0, 0], *b"OTTO", *b"true"];

/// What a collection starts with.
pub const COLLECTION: [u8; 4] = *b"ttcf";

/// Whether a file is a collection of fonts.
pub fn is_collection(file: &[u8]) -> bool {
    file.starts_with(&COLLECTION)
}

/// How many fonts a file has: what a collection (`ttcf`) states, 0 for one
/// without its 12 header bytes, and 1 for every other file. Whether they can be
/// used is not looked at.
///
/// ```
/// # mod fonts { include!(concat!(env!("CARGO_MANIFEST_DIR"), "/tests/common/fonts.rs")); }
/// # let collection = fonts::collection(&[400, 700]);
/// use stemhook::{FontFile, JobBuilder, face_count};
///
/// let mut builder = JobBuilder::new();
/// let mut faces = Vec::new();
/// for number in 0..u16::try_from(face_count(&collection))? {
///     faces.push(builder.face(FontFile::new(&collection).number(number))?);
/// }
/// assert_eq!(faces.len(), 2);
/// # Ok::<(), Box<dyn std::error::Error>>(())
/// ```
pub fn face_count(file: &[u8]) -> u32 {
    if is_collection(file) {
        word(file, 8).unwrap_or(0)
    } else {
        1
    }
}

/// Where the directory of a font begins. None where the file has no font of the
/// number, or a collection not all of its offsets.
pub fn directory_at(file: &[u8], number: u16) -> Option<usize> {
    if u32::from(number) >= face_count(file) {
        return None;
    }
    if !is_collection(file) {
        return Some(0);
    }
    let offsets = &file[HEADER..];
    let found = offsets.chunks_exact(4).len() >= face_count(file) as usize;
    let offset = word(offsets, 4 * usize::from(number))?;
    found.then_some(offset as usize)
}

impl<'a> Directory<'a> {
    /// The directory of the font of a number. None where there is no such font,
    /// for a bad start, or for a directory past the file.
    pub fn of(file: &'a [u8], number: u16) -> Option<Self> {
        let font = file.get(directory_at(file, number)?..)?;
        let start = *font.first_chunk()?;
        let length = RECORD * usize::from(half(font, 4)?);
        let records = font.get(HEADER..)?.get(..length)?;
        STARTS.contains(&start).then_some(Self {
            file,
            start,
            records,
        })
    }

    /// Looks for a table.
    pub fn look_up(&self, kind: Kind) -> Lookup<'a> {
        let mut records = self.records.chunks_exact(RECORD);
        let record = records.find(|record| record.starts_with(&kind.tag));
        let field = |at| Some(word(record?, at)? as usize);
        let (Some(offset), Some(length)) = (field(8), field(12)) else {
            return Lookup::Absent;
        };
        // Of 32 bits each: the sum has no more than 33.
        let end = offset + length;
        match self.file.get(offset..end) {
            None => Lookup::Damaged(Damage::PastEnd(end)),
            Some(_) if length < kind.least => Lookup::Damaged(Damage::Short(length)),
            Some(bytes) => Lookup::Found(Table { offset, bytes }),
        }
    }

    /// The table that the font's attributes need and that is damaged, if one is.
    ///
    /// They need `OS/2` wherever it has a record, `head` where it has none, and
    /// `post` where `OS/2` says that the font is oblique and not italic.
    pub fn damaged_need(&self) -> Option<(Kind, Damage)> {
        let needed = match self.look_up(OS2) {
            Lookup::Absent => HEAD,
            Lookup::Damaged(_) => OS2,
            Lookup::Found(os2) => {
                let selection = half(os2.bytes, 62)?;
                let (italic, oblique) = (selection & 1 != 0, selection & 1 << 9 != 0);
                (oblique && !italic).then_some(POST)?
            }
        };
        match self.look_up(needed) {
            Lookup::Damaged(damage) => Some((needed, damage)),
            Lookup::Absent | Lookup::Found(_) => None,
        }
    }
}

/// The 16-bit number at a position.
pub fn half(bytes: &[u8], at: usize) -> Option<u16> {
    Some(u16::from_be_bytes(*bytes.get(at..)?.first_chunk()?))
}

/// The 32-bit number at a position.
pub fn word(bytes: &[u8], at: usize) -> Option<u32> {
    Some(u32::from_be_bytes(*bytes.get(at..)?.first_chunk()?))
}

#[cfg(test)]
mod tests {
    use super::*;
    use jobs::bytes::{START, font, head, os2, post};

    /// The damaged table that is needed, by its tag, of a font with some tables.
    fn damaged(tables: &[([u8; 4], Vec<u8>)]) -> Option<[u8; 4]> {
        let file = font(START, tables);
        let directory = Directory::of(&file, 0).expect("it is a font");
        directory.damaged_need().map(|(kind, _)| kind.tag)
    }

    #[test]
    fn what_the_attributes_need() {
        let os2 = |selection| (OS2.tag, os2(400, 5, selection));
        let (sound_head, sound_post) = ((HEAD.tag, head(0)), (POST.tag, post(0)));
        let [no_os2, no_head, no_post] = [OS2, HEAD, POST].map(|kind| (kind.tag, vec![]));
        for (tables, expected) in [
            (vec![], None),
            (vec![os2(0)], None),
            (vec![no_os2.clone(), sound_head.clone()], Some(OS2)),
            (vec![no_head.clone(), no_os2], Some(OS2)),
            (vec![no_head.clone(), os2(0)], None),
            (vec![no_head, no_post.clone()], Some(HEAD)),
            (vec![sound_head, no_post.clone()], None),
            (vec![no_post.clone()], None),
            (vec![no_post.clone(), os2(0)], None),
            (vec![no_post.clone(), os2(!(1 << 9))], None),
            (vec![no_post.clone(), os2(u16::MAX)], None),
            (vec![no_post.clone(), os2(1 << 9)], Some(POST)),
            (vec![no_post.clone(), os2(!1)], Some(POST)),
            (vec![sound_post.clone(), os2(1 << 9)], None),
            (vec![no_post, sound_post, os2(1 << 9)], Some(POST)),
            (vec![os2(1 << 9)], None),
        ] {
            let expected = expected.map(|kind: Kind| kind.tag);
            assert_eq!(damaged(&tables), expected, "{tables:?}");
        }
    }
}
