//! Small font files and tables, byte by byte.

use std::fmt::Write as _;

/// Two hexadecimal digits for each byte.
pub fn hex(bytes: &[u8]) -> String {
    let mut text = String::with_capacity(2 * bytes.len());
    for byte in bytes {
        let _ = write!(text, "{byte:02x}");
    }
    text
}

/// Bytes that no field should be mistaken for: none of them repeats its neighbour.
pub fn filler(length: usize, salt: u8) -> Vec<u8> {
    (0..length)
        .map(|i| (i as u8).wrapping_mul(73).wrapping_add(salt) ^ 0xa5)
        .collect()
}

pub fn put16(bytes: &mut [u8], at: usize, value: u16) {
    bytes[at..at + 2].copy_from_slice(&value.to_be_bytes());
}

pub fn put32(bytes: &mut [u8], at: usize, value: u32) {
    bytes[at..at + 4].copy_from_slice(&value.to_be_bytes());
}

pub fn get32(bytes: &[u8], at: usize) -> u32 {
    u32::from_be_bytes([bytes[at], bytes[at + 1], bytes[at + 2], bytes[at + 3]])
}

pub fn os2(weight: u16, width: u16, selection: u16) -> Vec<u8> {
    let mut table = filler(78, 1);
    put16(&mut table, 4, weight);
    put16(&mut table, 6, width);
    put16(&mut table, 62, selection);
    table
}

pub fn post(angle: u32) -> Vec<u8> {
    let mut table = filler(32, 2);
    put32(&mut table, 4, angle);
    table
}

pub fn head(mac_style: u16) -> Vec<u8> {
    let mut table = filler(54, 3);
    put16(&mut table, 44, mac_style);
    table
}

/// One axis as it stands in `fvar`: 16.16 numbers.
#[derive(Copy, Clone, PartialEq, Eq, Debug)]
pub struct FixedAxis {
    pub tag: [u8; 4],
    pub min: u32,
    pub default: u32,
    pub max: u32,
}

/// A header with the given fields and nothing after it.
pub fn fvar_header(offset: u16, count: u16, size: u16) -> Vec<u8> {
    let mut table = filler(16, 4);
    put16(&mut table, 4, offset);
    put16(&mut table, 8, count);
    put16(&mut table, 10, size);
    table
}

/// Axis records, each drawn out with filler or cut to `size` bytes.
pub fn axis_records(axes: &[FixedAxis], size: usize) -> Vec<u8> {
    let mut out = Vec::new();
    for axis in axes {
        let mut record = filler(size.max(20), 5);
        record[..4].copy_from_slice(&axis.tag);
        put32(&mut record, 4, axis.min);
        put32(&mut record, 8, axis.default);
        put32(&mut record, 12, axis.max);
        record.truncate(size);
        out.extend(record);
    }
    out
}

pub fn fvar(axes: &[FixedAxis]) -> Vec<u8> {
    let mut table = fvar_header(16, axes.len() as u16, 20);
    table.extend(axis_records(axes, 20));
    table
}

/// Records of platform, encoding and offset, then `extra` bytes.
pub fn cmap(records: &[(u16, u16, u32)], extra: usize) -> Vec<u8> {
    let mut table = vec![0; 4];
    put16(&mut table, 2, records.len() as u16);
    for (platform, encoding, offset) in records {
        table.extend(platform.to_be_bytes());
        table.extend(encoding.to_be_bytes());
        table.extend(offset.to_be_bytes());
    }
    table.extend(filler(extra, 6));
    table
}

/// One record (3,1) with two bytes at its offset.
pub fn plain_cmap() -> Vec<u8> {
    cmap(&[(3, 1, 12)], 2)
}

pub const START: [u8; 4] = [0, 1, 0, 0];

pub type Table = ([u8; 4], Vec<u8>);

/// A font of the tables in the given order, each right after the last.
pub fn font(start: [u8; 4], tables: &[Table]) -> Vec<u8> {
    font_with_gaps(start, tables, |_| 0)
}

/// The same, with a number of bytes before each table's place.
pub fn font_with_gaps(
    start: [u8; 4],
    tables: &[Table],
    mut gap: impl FnMut(usize) -> usize,
) -> Vec<u8> {
    let mut out = directory(start, tables.len());
    for (i, table) in tables.iter().enumerate() {
        let gap = gap(i);
        out.extend(filler(gap, 8));
        let offset = out.len() as u32;
        put_record(&mut out, i, table, offset);
        out.extend(&table.1);
    }
    out
}

/// A font's header, and room for so many records.
fn directory(start: [u8; 4], tables: usize) -> Vec<u8> {
    let mut out = start.to_vec();
    out.extend((tables as u16).to_be_bytes());
    out.extend(filler(6, 7));
    out.resize(record(tables), 0);
    out
}

/// The directory's record of a table that stands at the offset.
fn put_record(directory: &mut [u8], number: usize, (tag, bytes): &Table, offset: u32) {
    let at = record(number);
    directory[at..at + 4].copy_from_slice(tag);
    put32(directory, at + 4, 0x5eed_0000 + number as u32);
    set_offset(directory, number, offset);
    set_length(directory, number, bytes.len() as u32);
}

/// Bytes of a collection's header, before its offsets.
pub const HEADER: usize = 12;

/// How many fonts a collection says it has; none where the file is no
/// collection or has no whole header.
pub fn fonts_stated(file: &[u8]) -> Option<u32> {
    let header = file.starts_with(b"ttcf") && file.len() >= HEADER;
    header.then(|| get32(file, 8))
}

/// Where a collection's offset of the given number stands.
pub fn font_offset(number: usize) -> usize {
    HEADER + 4 * number
}

/// A font of a collection: its start and its tables.
pub type Member = ([u8; 4], Vec<Table>);

/// A collection's header and offsets; version 2 has three fields of a
/// signature behind them.
pub fn collection_header(version: u16, offsets: &[u32]) -> Vec<u8> {
    let mut out = b"ttcf".to_vec();
    out.extend(version.to_be_bytes());
    out.extend([0, 0]);
    out.extend((offsets.len() as u32).to_be_bytes());
    for offset in offsets {
        out.extend(offset.to_be_bytes());
    }
    if version == 2 {
        out.extend(filler(12, 10));
    }
    out
}

/// A collection in which equal tables stand once. A font's directory stands
/// before the tables, or after them where `last` says so.
pub fn collection(version: u16, fonts: &[Member], last: impl Fn(usize) -> bool) -> Vec<u8> {
    let mut out = collection_header(version, &vec![0; fonts.len()]);
    put_directories(&mut out, fonts, |i| !last(i));
    let mut placed: Vec<(&Table, u32)> = Vec::new();
    for table in fonts.iter().flat_map(|(_, tables)| tables) {
        if placed.iter().all(|(other, _)| *other != table) {
            placed.push((table, out.len() as u32));
            out.extend(&table.1);
        }
    }
    put_directories(&mut out, fonts, &last);
    for (i, (_, tables)) in fonts.iter().enumerate() {
        let directory = get32(&out, font_offset(i)) as usize;
        for (number, table) in tables.iter().enumerate() {
            let same = placed.iter().find(|(other, _)| *other == table);
            let offset = same.expect("every table has its place").1;
            put_record(&mut out[directory..], number, table, offset);
        }
    }
    out
}

/// Directories without their records, of the fonts that are named, and their offsets.
fn put_directories(out: &mut Vec<u8>, fonts: &[Member], named: impl Fn(usize) -> bool) {
    for (i, (start, tables)) in fonts.iter().enumerate() {
        if named(i) {
            let offset = out.len() as u32;
            put32(out, font_offset(i), offset);
            out.extend(directory(*start, tables.len()));
        }
    }
}

/// Where the directory's record of the given number starts.
pub fn record(number: usize) -> usize {
    12 + 16 * number
}

pub fn set_offset(font: &mut [u8], number: usize, offset: u32) {
    put32(font, record(number) + 8, offset);
}

pub fn offset(font: &[u8], number: usize) -> u32 {
    get32(font, record(number) + 8)
}

pub fn set_length(font: &mut [u8], number: usize, length: u32) {
    put32(font, record(number) + 12, length);
}

pub fn length(font: &[u8], number: usize) -> u32 {
    get32(font, record(number) + 12)
}
