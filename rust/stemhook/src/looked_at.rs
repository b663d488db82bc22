//! A small font file with just what the picker looks at of a whole one.
//!
//! The picker reads five tables, and of `cmap` its records alone. The small
//! file has the same start; of each of the five that is found its first record
//! and the part that is read; and the `cmap` records with other subtable
//! offsets. A table that is absent is left out. A damaged `OS/2`, `head` or
//! `post` stays damaged: it has a record, and no bytes. A damaged `fvar` or
//! `cmap` is left out, since it counts as an absent one does. So width, style,
//! weight, axes, the kind of charmap and every refusal are those of the whole
//! file, whatever it holds; the charmap's offset is mapped back. Of a font of a
//! collection it is a lone font's file.

use crate::tables::{
    CMAP, Directory, FVAR, HEAD, HEADER, Lookup, OS2, POST, RECORD, Table, half, word,
};

/// The small file, and the way back to the whole one.
pub struct LookedAt {
    pub bytes: Vec<u8>,
    pub subtables: Subtables,
}

/// Where the subtables of the small file's `cmap` lie in the whole file. In the
/// small one the record of a number has that number as its subtable's offset.
#[derive(Clone, Debug, Default, PartialEq, Eq)]
pub struct Subtables {
    /// Where the small file has its `cmap`.
    start: u32,
    /// For each record, where its subtable lies in the whole file.
    whole: Vec<u32>,
}

impl Subtables {
    /// The offset in the whole file, of one in the small file.
    pub fn in_whole(&self, offset: u32) -> Option<u32> {
        let record = offset.checked_sub(self.start)?;
        self.whole.get(usize::try_from(record).ok()?).copied()
    }
}

/// No table has a subtable here.
const NOWHERE: u32 = u32::MAX;

/// Writes the small file of a font. None where the file is too long for 32-bit
/// offsets.
pub fn looked_at(file: &[u8], number: u16) -> Option<LookedAt> {
    u32::try_from(file.len()).ok()?;
    let Some(directory) = Directory::of(file, number) else {
        // These bytes are refused as the file is: for their start, for a
        // directory or offsets past the file, or for the count.
        return Some(LookedAt {
            bytes: file[..file.len().min(HEADER)].to_vec(),
            subtables: Subtables::default(),
        });
    };
    let mut tables = Vec::new();
    for kind in [OS2, HEAD, POST] {
        match directory.look_up(kind) {
            Lookup::Absent => {}
            // Shorter than needed, here too.
            Lookup::Damaged(_) => tables.push((kind.tag, Vec::new())),
            Lookup::Found(table) => tables.push((kind.tag, table.bytes[..kind.least].to_vec())),
        }
    }
    if let Some(fvar) = directory.look_up(FVAR).found().and_then(axes) {
        tables.push((FVAR.tag, fvar.to_vec()));
    }
    let mut whole = Vec::new();
    if let Some(cmap) = directory.look_up(CMAP).found() {
        let (small, offsets) = records(cmap);
        tables.push((CMAP.tag, small));
        whole = offsets;
    }
    let bytes = font_file(directory.start, &tables);
    // `cmap` stands last.
    let start = tables
        .last()
        .map_or(0, |(_, last)| bytes.len() - last.len());
    let start = u32::try_from(start).ok()?;
    Some(LookedAt {
        bytes,
        subtables: Subtables { start, whole },
    })
}

/// The part of `fvar` up to its last axis record; none where it gives no axes.
fn axes(fvar: Table<'_>) -> Option<&[u8]> {
    let field = |at| half(fvar.bytes, at).map(usize::from);
    let (offset, count, size) = (field(4)?, field(8)?, field(10)?);
    let length = (offset + 20 * count).max(16);
    fvar.bytes.get(..length).filter(|_| size == 20)
}

/// The `cmap` records that lie in the table, each with its own number as the
/// subtable's offset, and where the subtables lie in the whole file.
fn records(cmap: Table<'_>) -> (Vec<u8>, Vec<u32>) {
    let stated = half(cmap.bytes, 2).unwrap_or(0);
    let lying = cmap.bytes.get(4..).unwrap_or_default().chunks_exact(8);
    let mut small = vec![0; 4];
    let mut whole = Vec::new();
    for (number, record) in (0_u32..).zip(lying.take(usize::from(stated))) {
        let offset = word(record, 4).unwrap_or(NOWHERE) as usize;
        let inside = offset + 2 <= cmap.bytes.len();
        small.extend_from_slice(&record[..4]);
        small.extend(if inside { number } else { NOWHERE }.to_be_bytes());
        whole.push(u32::try_from(cmap.offset + offset).unwrap_or(NOWHERE));
    }
    // At most as many as the whole table states.
    small[2..4].copy_from_slice(&(whole.len() as u16).to_be_bytes());
    (small, whole)
}

/// A font file of some tables.
fn font_file(start: [u8; 4], tables: &[([u8; 4], Vec<u8>)]) -> Vec<u8> {
    let mut bytes = start.to_vec();
    // At most five.
    bytes.extend((tables.len() as u16).to_be_bytes());
    bytes.resize(HEADER, 0);
    let mut offset = HEADER + RECORD * tables.len();
    for (tag, table) in tables {
        bytes.extend(tag);
        bytes.extend([0; 4]);
        bytes.extend((offset as u32).to_be_bytes());
        bytes.extend((table.len() as u32).to_be_bytes());
        offset += table.len();
    }
    for (_, table) in tables {
        bytes.extend(table);
    }
    bytes
}
