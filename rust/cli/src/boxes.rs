//! A font that has a box for every character. A page has it behind each face,
//! so that what a face does not have is not set in some other font unnoticed.

use crate::sfnt::{self, Table};

/// The glyphs: `.notdef` and the box, which look the same.
const GLYPHS: u16 = 2;
const UNITS: u16 = 1000;
const ADVANCE: u16 = 600;

/// The corners of the box: the outer ones, and the inner ones the other way round.
const CORNERS: [(i16, i16); 8] = [
    (80, 0),
    (80, 700),
    (520, 700),
    (520, 0),
    (120, 40),
    (480, 40),
    (480, 660),
    (120, 660),
];

/// The font file.
pub fn font() -> Vec<u8> {
    let glyph = glyph();
    let end = (glyph.len() / 2) as u16;
    let tables = [
        (*b"OS/2", os2()),
        (*b"cmap", cmap()),
        (*b"glyf", [glyph.clone(), glyph].concat()),
        (*b"head", head()),
        (*b"hhea", hhea()),
        (*b"hmtx", halves(&[ADVANCE, 80, ADVANCE, 80])),
        (*b"loca", halves(&[0, end, 2 * end])),
        (*b"maxp", maxp()),
        (*b"name", halves(&[0, 0, 6])),
        (*b"post", [halves(&[3, 0]), vec![0; 28]].concat()),
    ];
    let tables = tables.each_ref().map(|(tag, bytes)| Table {
        tag: *tag,
        sum: sum(bytes),
        bytes,
    });
    sfnt::file([0, 1, 0, 0], &tables)
}

/// A table's checksum.
fn sum(table: &[u8]) -> u32 {
    let mut sum = 0_u32;
    for chunk in table.chunks(4) {
        let mut word = [0; 4];
        word[..chunk.len()].copy_from_slice(chunk);
        sum = sum.wrapping_add(u32::from_be_bytes(word));
    }
    sum
}

fn halves(numbers: &[u16]) -> Vec<u8> {
    numbers.iter().flat_map(|n| n.to_be_bytes()).collect()
}

/// Bytes of zero with some 16-bit fields.
fn fields(length: usize, set: &[(usize, u16)]) -> Vec<u8> {
    let mut table = vec![0; length];
    for (at, number) in set {
        table[*at..at + 2].copy_from_slice(&number.to_be_bytes());
    }
    table
}

/// Weight and width class, the characters of its ends, and its height.
fn os2() -> Vec<u8> {
    let set = [
        (2, ADVANCE),
        (4, 400),
        (6, 5),
        (62, 0x40),
        (64, 0x21),
        (66, 0xffff),
        (68, 800),
        (72, 200),
        (74, 800),
        (76, 200),
    ];
    fields(78, &set)
}

/// One subtable of format 13: all characters after the space to one glyph.
fn cmap() -> Vec<u8> {
    let mut table = halves(&[0, 1, 3, 10]);
    for number in [12_u32, 13 << 16, 28, 0, 1, 0x21, 0x10_ffff, 1] {
        table.extend(number.to_be_bytes());
    }
    table
}

fn glyph() -> Vec<u8> {
    let mut table = halves(&[2, 80, 0, 520, 700, 3, 7, 0]);
    // Each point lies on the outline, and its steps have 16 bits.
    table.extend([1; CORNERS.len()]);
    let xs = CORNERS.map(|(x, _)| x);
    let ys = CORNERS.map(|(_, y)| y);
    for numbers in [xs, ys] {
        let mut last = 0;
        for number in numbers {
            table.extend((number - last).to_be_bytes());
            last = number;
        }
    }
    table
}

fn head() -> Vec<u8> {
    let magic = [(12, 0x5f0f), (14, 0x3cf5)];
    let set = [(0, 1), (4, 1), (16, 3), (18, UNITS), (40, 520), (42, 700)];
    fields(
        54,
        &[&magic[..], &set, &[(36, 80), (46, 8), (48, 2)]].concat(),
    )
}

fn hhea() -> Vec<u8> {
    let descender = 200_u16.wrapping_neg();
    let set = [
        (0, 1),
        (4, 800),
        (6, descender),
        (10, ADVANCE),
        (12, 80),
        (14, 80),
        (16, 520),
        (18, 1),
        (34, GLYPHS),
    ];
    fields(36, &set)
}

fn maxp() -> Vec<u8> {
    let points = CORNERS.len() as u16;
    fields(32, &[(0, 1), (4, GLYPHS), (6, points), (8, 2), (14, 2)])
}

#[cfg(test)]
mod tests {
    use super::*;
    use crate::face::FaceInfo;
    use stemhook::Reading;

    #[test]
    fn it_is_a_font() {
        let font = font();
        let words = FaceInfo::of(&font, Reading::AsStored, 0).unwrap().words();
        assert!(words.starts_with("width 1, normal, weight 400; charmap at "));
        assert!(font.len() < 1024 && font.len().is_multiple_of(4));
    }
}
