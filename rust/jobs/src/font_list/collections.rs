//! Collections: fonts by their number over common tables.

use super::{List, axes, axis};
use crate::bytes::*;

pub fn collections(list: &mut List) {
    layouts(list);
    cut_files(list);
    counts(list);
    offsets(list);
    tables_of_a_file(list);
    nested(list);
    refusals_by_number(list);
    many_fonts(list);
    lone_files(list);
}

/// Three fonts over one `cmap`; two of them have one `OS/2`.
fn members() -> [Member; 3] {
    let cmap = (*b"cmap", cmap(&[(3, 0, 28), (3, 1, 30), (1, 0, 28)], 4));
    let bold = (*b"OS/2", os2(700, 3, 0x0200));
    let post = (*b"post", post(0xfff4_0000));
    [
        (START, vec![cmap.clone(), (*b"head", head(2))]),
        (*b"OTTO", vec![bold.clone(), cmap.clone(), post]),
        (
            *b"true",
            vec![(*b"fvar", fvar(&[axis(b"wght", 4)])), bold, cmap],
        ),
    ]
}

/// Two bare fonts over one `cmap`, the directory of the second at the end.
fn two() -> Vec<u8> {
    let bare = (START, vec![(*b"cmap", plain_cmap())]);
    let bold = (START, vec![(*b"cmap", plain_cmap()), (*b"head", head(1))]);
    collection(1, &[bare, bold], |i| i == 1)
}

/// Each number up to one over the count, in both versions of the header.
fn layouts(list: &mut List) {
    let members = members();
    for version in [1, 2] {
        for bits in [0b000, 0b111, 0b010, 0b101] {
            let file = collection(version, &members, |i| bits >> i & 1 == 1);
            let label = format!("version {version}, directories last {bits:03b}");
            for number in 0..=3 {
                list.add_numbered(&label, &file, number);
            }
        }
    }
    // The version and what lies behind the offsets are not read.
    for version in [0, 3, 0xffff] {
        let file = collection(version, &members, |_| true);
        list.add_numbered(&format!("version {version}"), &file, 1);
    }
    let mut file = two();
    put32(&mut file, 4, 0x0001_5a5a);
    list.add_numbered("another minor version", &file, 1);
}

/// Cut in the header, in the offsets, and at the end.
fn cut_files(list: &mut List) {
    let file = two();
    for length in 0..=font_offset(2) {
        let label = format!("collection, first {length} bytes");
        for number in [0, 1, 2] {
            list.add_numbered(&label, &file[..length], number);
        }
    }
    for less in [1, 16, 32, 33, 44, 45] {
        let label = format!("collection without its last {less} bytes");
        for number in [0, 1] {
            list.add_numbered(&label, &file[..file.len() - less], number);
        }
    }
}

fn counts(list: &mut List) {
    let file = two();
    let most = ((file.len() - HEADER) / 4) as u32;
    let near = [0, 1, 3, most - 1, most, most + 1, 0x0002_0000];
    // Low bits that would do, and an end of the offsets that would wrap.
    let far = [0x0001_0000, 1 << 30, 1 << 31, 3 << 30];
    let far = far.into_iter().flat_map(|far| [far, far | 1, far | 2]);
    for count in near.into_iter().chain(far).chain([0x3fff_fffd, u32::MAX]) {
        let mut file = file.clone();
        put32(&mut file, 8, count);
        for number in [0, 1, 2] {
            list.add_numbered(&format!("font count {count}"), &file, number);
        }
        list.add_numbered(&format!("font count {count}"), &file, 0xffff);
    }
    let mut file = file;
    put32(&mut file, 8, most);
    list.add_numbered("the last offset that fits", &file, most as u16 - 1);
    list.add_numbered("past the last offset that fits", &file, most as u16);
}

/// The second offset at and around what it may be; the first is as it was.
fn offsets(list: &mut List) {
    let file = two();
    let (first, second) = (get32(&file, font_offset(0)), get32(&file, font_offset(1)));
    let length = file.len() as u32;
    for offset in [
        first,
        0,
        4,
        HEADER as u32,
        first + 1,
        second - 1,
        second + 1,
        length - 13,
        length - 12,
        length - 11,
        length,
        length + 1,
        0x8000_0000 | second,
        0x0100_0000 | second,
        0xffff_fff4,
        0xffff_ffff,
    ] {
        let mut file = file.clone();
        put32(&mut file, font_offset(1), offset);
        for number in [0, 1] {
            list.add_numbered(&format!("second font at {offset}"), &file, number);
        }
    }
    // A font without tables in the last 12 bytes, and in 11.
    let mut file = file;
    put32(&mut file, font_offset(1), length);
    file.extend(font(START, &[]));
    list.add_numbered("header at the end", &file, 1);
    file.pop();
    list.add_numbered("header cut", &file, 1);
}

/// Offsets of tables count from the first byte of the file.
fn tables_of_a_file(list: &mut List) {
    let inner = font(START, &[(*b"cmap", plain_cmap())]);
    let mut file = collection_header(1, &[16]);
    file.extend(&inner);
    list.add_numbered("tables from the directory's start", &file, 0);
    // A table past the rest of the file and yet in it, and one past the file.
    let start = 16;
    for (label, more) in [("in the file", 0), ("past the file", 1)] {
        let mut file = file.clone();
        let end = file.len() as u32;
        let cmap = (end - 14, 14 + more);
        set_offset(&mut file[start..], 0, cmap.0);
        set_length(&mut file[start..], 0, cmap.1);
        list.add_numbered(&format!("table {label}"), &file, 0);
    }
    // The header of the collection as a table of one of its fonts.
    set_offset(&mut file[start..], 0, 0);
    set_length(&mut file[start..], 0, 58);
    list.add_numbered("the whole file as its table", &file, 0);
    // A directory that counts records past the file, another's in front of it.
    let mut file = two();
    let second = get32(&file, font_offset(1)) as usize;
    put16(&mut file, second + 4, 3);
    list.add_numbered("records past the file", &file, 1);
    list.add_numbered("records past the file", &file, 0);
}

/// `ttcf` is no start of a font, wherever it stands.
fn nested(list: &mut List) {
    let inner = two();
    let mut file = collection_header(1, &[16]);
    file.extend(&inner);
    for number in [0, 1] {
        list.add_numbered("collection within a collection", &file, number);
    }
    // An offset that names the inner font itself is as good as any.
    let directory = 16 + get32(&inner, font_offset(0));
    put32(&mut file, font_offset(0), directory);
    set_offset(
        &mut file[directory as usize..],
        0,
        16 + offset(&inner[20..], 0),
    );
    list.add_numbered("font of an inner collection", &file, 0);
    let bare = vec![(*b"cmap", plain_cmap())];
    for start in [*b"ttcf", *b"ttcF", *b"typ1", *b"\0\x02\0\0"] {
        let file = collection(1, &[(start, bare.clone()), (START, bare.clone())], |_| true);
        for number in [0, 1] {
            let label = format!("font that starts {}", start.escape_ascii());
            list.add_numbered(&label, &file, number);
        }
    }
}

/// Each font of a file is refused for itself.
fn refusals_by_number(list: &mut List) {
    let cmap = || (*b"cmap", plain_cmap());
    let many = || (*b"fvar", fvar(&axes(17)));
    let fonts = [
        (START, vec![cmap(), (*b"fvar", fvar(&axes(16)))]),
        (START, vec![many()]),
        (START, vec![many(), cmap()]),
        (
            START,
            vec![(*b"cmap", vec![0, 0, 0]), (*b"OS/2", os2(1, 1, 1))],
        ),
        (START, vec![]),
    ];
    let file = collection(2, &fonts, |i| i > 2);
    for number in 0..=5 {
        list.add_numbered("fonts refused", &file, number);
    }
}

/// Numbers of more than 8 bits.
fn many_fonts(list: &mut List) {
    let offset = font_offset(260) as u32;
    let mut file = collection_header(1, &[offset; 260]);
    let bare = font(START, &[(*b"cmap", plain_cmap())]);
    let bold = font(*b"OTTO", &[(*b"head", head(1)), (*b"cmap", plain_cmap())]);
    // The last font is another than those whose number has the same low bits.
    let last = offset + bare.len() as u32;
    put32(&mut file, font_offset(259), last);
    for (font, tables) in [(bare, 1), (bold, 2)] {
        let start = file.len();
        file.extend(font);
        for table in 0..tables {
            let moved = start as u32 + super::offset(&file[start..], table);
            set_offset(&mut file[start..], table, moved);
        }
    }
    for number in [3, 255, 256, 259, 260] {
        list.add_numbered("260 fonts", &file, number);
    }
}

/// A file that is no collection has one font, if it has 12 bytes.
fn lone_files(list: &mut List) {
    let good = font(START, &[(*b"cmap", plain_cmap())]);
    let bad = font(*b"typ1", &[(*b"cmap", plain_cmap())]);
    let near = font(*b"ttcF", &[(*b"cmap", plain_cmap())]);
    // The count of tables says more than there are.
    let mut cut = good.clone();
    put16(&mut cut, 4, 9);
    let files = [
        ("good", &good[..]),
        ("11 bytes", &good[..11]),
        ("12 bytes", &good[..12]),
        ("bad start", &bad),
        ("near start", &near),
        ("cut directory", &cut),
        ("no cmap", &font(START, &[])),
        ("no bytes", &[]),
    ];
    for (label, file) in files {
        for number in [0, 1, 0x0100, 0xffff] {
            list.add_numbered(&format!("lone file, {label}"), file, number);
        }
    }
}
