//! The list of small fonts: those made for a purpose, then random ones.

use crate::{bytes::*, fonts::random_file, random::Random, readings::random};

mod cmap;
mod collections;
mod damaged;
mod fvar;
mod readings;
mod states;

/// How many fonts of the list are made at random.
const RANDOM_FONTS: usize = 240;

/// A font file, the reading, and the number of a font in the file.
#[derive(Clone, PartialEq, Eq, Debug)]
pub struct Entry {
    pub file: Vec<u8>,
    pub reading: u32,
    pub number: u16,
}

impl Entry {
    pub fn new(file: &[u8], reading: u32, number: u16) -> Self {
        let file = file.to_vec();
        Self {
            file,
            reading,
            number,
        }
    }

    /// One at random.
    pub fn random(r: &mut Random) -> Self {
        let (file, number) = random_file(r);
        Self::new(&file, random(r), number)
    }

    /// As it stands in a list: the length, the file, the reading, the number.
    pub fn put(&self, list: &mut Vec<u8>) {
        list.extend((self.file.len() as u32).to_be_bytes());
        list.extend(&self.file);
        list.extend(self.reading.to_be_bytes());
        list.extend(self.number.to_be_bytes());
    }
}

/// Most bytes of the list.
pub const BYTES: usize = 327_680;

#[derive(Default)]
pub struct List {
    pub fonts: Vec<(String, Entry)>,
}

impl List {
    fn add_entry(&mut self, label: impl Into<String>, entry: Entry) {
        self.fonts.push((label.into(), entry));
    }

    /// The first font of a file, under reading 0.
    fn add(&mut self, label: impl Into<String>, file: Vec<u8>) {
        self.add_entry(label, Entry::new(&file, 0, 0));
    }

    /// The font of a number, under reading 0.
    fn add_numbered(&mut self, label: &str, file: &[u8], number: u16) {
        let label = format!("{label}, font {number}");
        self.add_entry(label, Entry::new(file, 0, number));
    }

    /// The font of a number, under any reading.
    fn add_read(&mut self, label: &str, file: &[u8], reading: u32, number: u16) {
        let label = format!("{label}, reading {reading}");
        self.add_entry(label, Entry::new(file, reading, number));
    }

    /// A font with a plain `cmap` after the given tables.
    fn add_tables(&mut self, label: impl Into<String>, tables: &[Table]) {
        let mut tables = tables.to_vec();
        tables.push((*b"cmap", plain_cmap()));
        self.add(label, font(START, &tables));
    }
}

/// The whole list; the seed is for its random part alone.
pub fn list(seed: u64) -> List {
    let mut list = List::default();
    starts(&mut list);
    table_counts(&mut list);
    states::table_states(&mut list);
    os2_fields(&mut list);
    post_angles(&mut list);
    head_fields(&mut list);
    fvar::fvar_shapes(&mut list);
    cmap::cmap_shapes(&mut list);
    orders_of_refusal(&mut list);
    collections::collections(&mut list);
    damaged::damaged_tables(&mut list);
    readings::readings(&mut list);
    let mut r = Random::new(seed);
    for i in 0..RANDOM_FONTS {
        list.add_entry(format!("random {i}"), Entry::random(&mut r));
    }
    list
}

const STARTS: [[u8; 4]; 13] = [
    *b"\0\x01\0\0",
    *b"OTTO",
    *b"true",
    *b"\0\x02\0\0",
    *b"\0\x01\0\x01",
    *b"\x01\x01\0\0",
    *b"\0\0\x01\0",
    *b"\0\0\0\0",
    *b"OTTo",
    *b"True",
    *b"ttcf",
    *b"typ1",
    *b"wOFF",
];

fn starts(list: &mut List) {
    let tables = [(*b"cmap", plain_cmap())];
    for start in STARTS {
        list.add(
            format!("start {}", start.escape_ascii()),
            font(start, &tables),
        );
    }
    let whole = font(START, &tables);
    for length in [0, 1, 3, 4, 5, 6, 11, 12, 13, 27, 28, 29] {
        list.add(format!("first {length} bytes"), whole[..length].to_vec());
    }
    for start in [*b"OTTO", *b"true"] {
        let whole = font(start, &tables);
        list.add("4 bytes", whole[..4].to_vec());
        list.add("11 bytes", whole[..11].to_vec());
        list.add("directory cut by a byte", whole[..27].to_vec());
        list.add("directory alone", whole[..28].to_vec());
        list.add("no tables", font(start, &[]));
    }
}

/// Directories without tables, and counts that are not those of the records.
fn table_counts(list: &mut List) {
    let tables = [(*b"cmap", plain_cmap())];
    list.add("no tables, 12 bytes", font(START, &[]));
    let mut more = font(START, &[]);
    more.extend(filler(40, 9));
    list.add("no tables, more bytes", more);
    for count in [2u16, 3, 0x0100, 0xffff] {
        let mut bytes = font(START, &tables);
        put16(&mut bytes, 4, count);
        list.add(format!("table count {count}"), bytes);
    }
    // 42 bytes and a few more: a directory of two records ends at 44.
    for extra in [2, 1] {
        let mut bytes = font(START, &tables);
        bytes.extend(filler(extra, 9));
        put16(&mut bytes, 4, 2);
        list.add(format!("directory over the tables, {extra} more"), bytes);
    }
    let mut bytes = font(START, &tables);
    put16(&mut bytes, 4, 0);
    list.add("table count 0 with a record", bytes);
    let mut bytes = font(*b"\0\x02\0\0", &tables);
    put16(&mut bytes, 4, 0xffff);
    list.add("bad start and count past the file", bytes);
}

const fn axis(tag: &[u8; 4], number: u32) -> FixedAxis {
    FixedAxis {
        tag: *tag,
        min: 0x0064_0000 + number,
        default: 0x0190_8000 + 3 * number,
        max: 0x0384_0000 - number,
    }
}

fn os2_fields(list: &mut List) {
    for weight in [0, 1, 255, 256, 399, 400, 401, 700, 1000, 4097, 65534, 65535] {
        list.add_tables(
            format!("weight class {weight}"),
            &[(*b"OS/2", os2(weight, 5, 0))],
        );
    }
    for width in (0..=10).chain([255, 256, 257, 32768, 65535]) {
        list.add_tables(
            format!("width class {width}"),
            &[(*b"OS/2", os2(400, width, 0))],
        );
    }
    let mut selections: Vec<u16> = (0..16).map(|bit| 1 << bit).collect();
    selections.extend([
        0x0000, 0x0003, 0x0201, 0x0202, 0x0203, 0xfdfe, 0xfdff, 0xfffe, 0xffff, 0x0300, 0x0042,
    ]);
    for selection in selections {
        let os2 = (*b"OS/2", os2(400, 5, selection));
        list.add_tables(
            format!("fsSelection {selection:04x}"),
            std::slice::from_ref(&os2),
        );
        if selection & 0x0201 != 0 || selection == 0 {
            list.add_tables(
                format!("fsSelection {selection:04x} with post"),
                &[os2, (*b"post", post(0xfff4_0000))],
            );
        }
    }
}

/// 16.16 numbers at the edges of rounding.
const FIXED_NUMBERS: [u32; 57] = [
    0,
    1,
    2,
    3,
    0x000e_0000,
    0x000e_0001,
    0x000d_ffff,
    0x000c_8000,
    0x0014_0000,
    0x005a_0000,
    0x00ff_ffff,
    0x0100_0000,
    0x0100_0001,
    0x0100_0002,
    0x0100_0003,
    0x0100_0005,
    0x01ff_fffd,
    0x01ff_fffe,
    0x01ff_ffff,
    0x0200_0000,
    0x0200_0001,
    0x0200_0002,
    0x0200_0003,
    0x0200_0005,
    0x0200_0006,
    0x0200_0007,
    0x03ff_fffd,
    0x03ff_fffe,
    0x03ff_ffff,
    0x0400_0003,
    0x0400_0004,
    0x0400_0005,
    0x0400_000b,
    0x0400_000c,
    0x0400_000d,
    0x07ff_fffb,
    0x07ff_fffc,
    0x07ff_fffd,
    0x1000_0010,
    0x1000_0030,
    0x1fff_ffef,
    0x1fff_fff0,
    0x1fff_fff1,
    0x4000_003f,
    0x4000_0040,
    0x4000_0041,
    0x4000_00bf,
    0x4000_00c0,
    0x4000_00c1,
    0x7fff_ff3f,
    0x7fff_ff40,
    0x7fff_ff41,
    0x7fff_ff7f,
    0x7fff_ff80,
    0x7fff_ffbf,
    0x7fff_ffc0,
    0x7fff_ffff,
];

/// The same of both signs, and the least of all.
fn fixed_numbers() -> Vec<u32> {
    let negated = FIXED_NUMBERS.map(u32::wrapping_neg);
    let mut seen = FIXED_NUMBERS.to_vec();
    for bits in negated.into_iter().chain([0x8000_0000]) {
        if !seen.contains(&bits) {
            seen.push(bits);
        }
    }
    seen
}

fn post_angles(list: &mut List) {
    for angle in fixed_numbers() {
        list.add_tables(
            format!("post angle {angle:08x}"),
            &[(*b"OS/2", os2(400, 5, 0x0200)), (*b"post", post(angle))],
        );
    }
    // The angle is not asked for.
    list.add_tables(
        "post without OS/2",
        &[(*b"post", post(0x000e_0000)), (*b"head", head(2))],
    );
}

fn head_fields(list: &mut List) {
    for mac_style in [
        0x0000, 0x0001, 0x0002, 0x0003, 0x0004, 0x0100, 0x0200, 0xfffc, 0xfffd, 0xfffe, 0xffff,
    ] {
        list.add_tables(
            format!("macStyle {mac_style:04x}"),
            &[(*b"head", head(mac_style))],
        );
    }
    list.add_tables("no OS/2 and no head", &[]);
    list.add_tables(
        "OS/2 before head",
        &[(*b"head", head(3)), (*b"OS/2", os2(400, 5, 0))],
    );
    list.add_tables(
        "cut OS/2 and cut head",
        &[
            (*b"head", head(3)[..53].to_vec()),
            (*b"OS/2", os2(900, 9, 1)[..77].to_vec()),
        ],
    );
}

fn axes(count: usize) -> Vec<FixedAxis> {
    let tags = [b"wght", b"wdth", b"slnt", b"ital", b"opsz", b"GRAD"];
    (0..count)
        .map(|i| {
            let mut axis = axis(tags[i % 6], i as u32);
            axis.tag[3] = axis.tag[3].wrapping_add((i / 6) as u8);
            axis
        })
        .collect()
}

/// Fonts with more than one reason to be refused.
fn orders_of_refusal(list: &mut List) {
    let many = || (*b"fvar", fvar(&axes(17)));
    list.add("17 axes and no cmap", font(START, &[many()]));
    list.add(
        "17 axes and a cmap of 3",
        font(START, &[many(), (*b"cmap", vec![0, 0, 0])]),
    );
    list.add(
        "17 axes and a bad start",
        font(*b"\0\x02\0\0", &[many(), (*b"cmap", plain_cmap())]),
    );
    list.add(
        "17 axes, then a fvar of 1",
        font(
            START,
            &[many(), (*b"fvar", fvar(&axes(1))), (*b"cmap", plain_cmap())],
        ),
    );
    list.add(
        "all five tables, 16 axes",
        font(
            *b"OTTO",
            &[
                (*b"OS/2", os2(650, 4, 0x0200)),
                (*b"cmap", cmap(&[(0, 3, 28), (3, 1, 28), (3, 10, 30)], 4)),
                (*b"fvar", fvar(&axes(16))),
                (*b"head", head(3)),
                (*b"post", post(0xfff3_4ccd)),
            ],
        ),
    );
}

#[cfg(test)]
mod tests {
    use super::*;

    #[test]
    fn list_is_small_and_repeats() {
        let one = list(1);
        let mut bytes = Vec::new();
        one.fonts.iter().for_each(|(_, font)| font.put(&mut bytes));
        assert!(bytes.len() <= BYTES, "{}", bytes.len());
        assert_eq!(one.fonts, list(1).fonts);
    }
}
