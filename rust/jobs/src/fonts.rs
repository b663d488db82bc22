//! Small random fonts and ways to damage one.

use crate::{bytes::*, damaged, numbers::TAGS, random::Random};

/// The pairs that docs/GUIDE.md names (section 2), class by class.
pub const CLASSES: [&[(u16, u16)]; 4] = [
    &[(3, 10), (0, 4), (0, 6)],
    &[(3, 1), (0, 0), (0, 1), (0, 2), (0, 3)],
    &[(3, 0)],
    &[(1, 0)],
];

fn random_axis(r: &mut Random) -> FixedAxis {
    let tag = r.pick(&TAGS);
    let mut number = || match r.below(3) {
        0 => (r.below(1001) as u32) << 16,
        1 => r.bits(),
        _ => r.bits() >> r.below(32),
    };
    FixedAxis {
        tag,
        min: number(),
        default: number(),
        max: number(),
    }
}

fn random_cmap(r: &mut Random) -> Vec<u8> {
    let count = r.within(1, 4);
    let size = 4 + 8 * count + r.within(2, 6);
    let mut records = Vec::new();
    for _ in 0..count {
        let (platform, encoding) = if r.chance(3, 4) {
            r.pick(&CLASSES.concat())
        } else {
            (r.below(5) as u16, r.below(12) as u16)
        };
        let offset = match r.below(6) {
            0 => size - 1 - r.below(4),
            1 => r.below(size + 3),
            2 => r.bits() as usize,
            _ => 4 + 8 * count,
        };
        records.push((platform, encoding, offset as u32));
    }
    cmap(&records, size - 4 - 8 * count)
}

/// A 16.16 number of either sign.
fn random_angle(r: &mut Random) -> u32 {
    let angle = r.bits() >> r.below(32);
    r.pick(&[angle, angle.wrapping_neg()])
}

fn random_table(r: &mut Random, tag: [u8; 4]) -> Table {
    let mut bytes = match &tag {
        b"cmap" => random_cmap(r),
        b"OS/2" => {
            let weight = match r.below(3) {
                0 => r.bits() as u16,
                _ => 100 * r.within(1, 9) as u16,
            };
            let selection = match r.below(3) {
                0 => r.bits() as u16,
                _ => r.pick(&[0x0000, 0x0001, 0x0200, 0x0200, 0x0201, 0x0040]),
            };
            os2(weight, r.below(11) as u16, selection)
        }
        b"post" => post(random_angle(r)),
        b"head" => head(r.bits() as u16 >> r.below(16)),
        b"fvar" => {
            let count = if r.chance(1, 24) {
                r.within(15, 17)
            } else {
                r.below(4)
            };
            let axes: Vec<FixedAxis> = (0..count).map(|_| random_axis(r)).collect();
            fvar(&axes)
        }
        _ => filler(r.below(12), 11),
    };
    match r.below(16) {
        0 => {
            bytes.pop();
        }
        1 => bytes.push(r.byte()),
        2 => bytes.truncate(r.below(bytes.len() + 1)),
        _ => {}
    }
    (tag, bytes)
}

/// A small font, with damage in about two thirds of them.
pub fn random_font(r: &mut Random) -> Vec<u8> {
    let (start, tables) = random_member(r);
    let mut bytes = font_with_gaps(start, &tables, |_| r.pick(&[0, 0, 0, 1, 2, 3]));
    damage(r, &mut bytes, tables.len());
    bytes
}

fn random_member(r: &mut Random) -> Member {
    let start = match r.below(24) {
        0 => r.bits().to_be_bytes(),
        1..=4 => *b"OTTO",
        5..=8 => *b"true",
        _ => START,
    };
    let mut tables = Vec::new();
    for (tag, part) in [
        (*b"cmap", 15),
        (*b"OS/2", 11),
        (*b"post", 9),
        (*b"head", 8),
        (*b"fvar", 9),
        (*b"name", 3),
    ] {
        if r.chance(part, 16) {
            tables.push(random_table(r, tag));
        }
    }
    if r.chance(1, 6) {
        let tag = r.pick(&[*b"cmap", *b"OS/2", *b"post", *b"head", *b"fvar"]);
        tables.push(random_table(r, tag));
    }
    for i in (1..tables.len()).rev() {
        tables.swap(i, r.below(i + 1));
    }
    (start, tables)
}

/// A font file and the number of a font in it.
pub type Numbered = (Vec<u8>, u16);

/// A small font by itself, or in one of six a collection; in one of sixteen
/// one whose damaged tables are known.
pub fn random_file(r: &mut Random) -> Numbered {
    if r.chance(1, 16) {
        return damaged::random(r).0;
    }
    if r.chance(1, 6) {
        return random_collection(r);
    }
    let bytes = random_font(r);
    // Behind a font by itself only 0 is a font's number.
    let number = if r.chance(1, 16) { over(r, 1) } else { 0 };
    (bytes, number)
}

/// A number that is not below the count.
fn over(r: &mut Random, count: u16) -> u16 {
    r.pick(&[count, count, count + 1, 0x0100, 0x8000, 0xffff])
}

/// The number of one of so many fonts, or of none in one of `wrong` cases.
pub fn font_number(r: &mut Random, count: usize, wrong: usize) -> u16 {
    if r.chance(1, wrong) {
        over(r, count as u16)
    } else {
        r.below(count) as u16
    }
}

/// Which directories stand after the tables: none of them, all, or some.
pub fn random_last(r: &mut Random) -> impl Fn(usize) -> bool + use<> {
    let bits = r.pick(&[0b0000, 0b0000, 0b1111, 0b0101, 0b1010, 0b0110]);
    move |i| bits >> i & 1 == 1
}

/// One to four fonts over common tables, half of the collections damaged.
fn random_collection(r: &mut Random) -> Numbered {
    let mut fonts: Vec<Member> = Vec::new();
    for _ in 0..r.within(1, 4) {
        let (start, mut tables) = random_member(r);
        if let Some((_, earlier)) = fonts.last() {
            share(r, &mut tables, earlier);
        }
        fonts.push((start, tables));
    }
    let last = random_last(r);
    let mut bytes = collection(r.pick(&[1, 1, 2]), &fonts, last);
    let number = font_number(r, fonts.len(), 8);
    damage_collection(r, &mut bytes);
    (bytes, number)
}

/// Takes some of the tables from another font.
fn share(r: &mut Random, tables: &mut [Table], from: &[Table]) {
    for table in tables {
        let same = from.iter().find(|(tag, _)| *tag == table.0);
        if let Some(same) = same
            && r.chance(1, 2)
        {
            *table = same.clone();
        }
    }
}

/// None in half of the collections; else the count, an offset, a record, a
/// few bytes or the end.
pub fn damage_collection(r: &mut Random, bytes: &mut Vec<u8>) {
    let Some(count) = fonts_stated(bytes) else {
        return;
    };
    // As many offsets as there are.
    let offsets = (count as usize).min((bytes.len() - HEADER) / 4);
    match r.below(16) {
        0..=7 => {}
        8 => put32(bytes, 8, wrong_count(r, count)),
        9..=10 if offsets > 0 => {
            let at = font_offset(r.below(offsets));
            let offset = wrong_offset(r, get32(bytes, at), bytes.len() as u32);
            put32(bytes, at, offset);
        }
        11..=12 if offsets > 0 => damage_member(r, bytes, offsets),
        13 => {
            let left = r.below(font_offset(offsets) + 1);
            bytes.truncate(left);
        }
        14 => {
            let left = r.below(bytes.len() + 1);
            bytes.truncate(left);
        }
        _ => {
            for _ in 0..r.within(1, 3) {
                let at = r.below(bytes.len());
                bytes[at] ^= 1 << r.below(8);
            }
        }
    }
}

/// 0, a little off, or so large that the offsets' end would wrap.
fn wrong_count(r: &mut Random, count: u32) -> u32 {
    let near = [0, count.wrapping_sub(1), count.wrapping_add(1)];
    let far = [0x0001_0000, 1 << 30, 1 << 31, 3 << 30].map(|far| count.wrapping_add(far));
    let far = if r.chance(1, 8) {
        r.bits()
    } else {
        r.pick(&far)
    };
    let near = r.pick(&near);
    r.pick(&[near, far])
}

/// The collection's own start, around the last place of a header, or beyond.
fn wrong_offset(r: &mut Random, offset: u32, length: u32) -> u32 {
    let end = length.wrapping_sub(12);
    r.pick(&[
        0,
        12,
        end,
        end.wrapping_add(1),
        length,
        offset.wrapping_add(1),
        offset.wrapping_sub(1),
        offset | 1 << 31,
        0xffff_fff4,
        0xffff_ffff,
    ])
}

/// A table's record of one of the fonts, or its table count, a little off.
fn damage_member(r: &mut Random, bytes: &mut [u8], offsets: usize) {
    let start = get32(bytes, font_offset(r.below(offsets))) as usize;
    let Some(font) = bytes.get_mut(start..).filter(|font| font.len() >= 12) else {
        return;
    };
    let stated = usize::from(u16::from_be_bytes([font[4], font[5]]));
    let tables = stated.min((font.len() - 12) / 16);
    if tables > 0 && r.chance(3, 4) {
        damage_record(r, font, tables);
    } else {
        let count = r.pick(&[stated + 1, stated.saturating_sub(1), 0xff]);
        put16(font, 4, count as u16);
    }
}

/// None in a third of the fonts; else a few bytes, a record or the end.
pub fn damage(r: &mut Random, bytes: &mut Vec<u8>, tables: usize) {
    let directory = record(tables);
    match r.below(12) {
        0..=3 => {}
        4..=5 => {
            for _ in 0..r.within(1, 3) {
                let at = r.below(bytes.len());
                bytes[at] ^= 1 << r.below(8);
            }
        }
        6 => {
            for _ in 0..r.within(1, 2) {
                let at = r.below(directory);
                bytes[at] = r.byte();
            }
        }
        7 => {
            for _ in 0..r.within(1, 6) {
                let at = r.below(bytes.len());
                if at >= directory {
                    bytes[at] = r.byte();
                }
            }
        }
        8..=9 if tables > 0 => damage_record(r, bytes, tables),
        10 => {
            let cut = r.within(1, 8).min(bytes.len());
            bytes.truncate(bytes.len() - cut);
        }
        _ => {
            let left = r.below(bytes.len() + 1);
            bytes.truncate(left.max(directory.saturating_sub(1)));
        }
    }
}

/// A table's offset or length a little off, or far.
fn damage_record(r: &mut Random, bytes: &mut [u8], tables: usize) {
    let number = r.below(tables);
    let near = [1, 2, 4, 0u32.wrapping_sub(1), 0u32.wrapping_sub(2)];
    let by = if r.chance(1, 6) {
        r.pick(&[0xffff, 1 << 24, 1 << 31])
    } else {
        r.pick(&near)
    };
    if r.chance(1, 2) {
        let offset = offset(bytes, number).wrapping_add(by);
        set_offset(bytes, number, offset);
    } else {
        let length = length(bytes, number).wrapping_add(by);
        set_length(bytes, number, length);
    }
}
