//! Jobs with faces from collections.

use super::{Job, List, Request, asking_all, every_field, of_style, of_weight, request, write};
use crate::{
    bytes::*,
    damage::Expected::{self, Accepted, AtNumber, Refused},
    layout::{Face, Style},
};

pub fn jobs(list: &mut List) {
    beside_lone_fonts(list);
    let smallest = collection(1, &[bare()], |_| false);
    let job = Job {
        faces: vec![face(&smallest, 0)],
        ..Job::default()
    };
    every_field(list, "a font number", &job);
    cut_headers(list);
    cut_offsets(list);
    counts(list);
    offsets(list);
    other_refusals(list);
}

fn face(file: &[u8], number: u16) -> Face {
    Face {
        held: true,
        font: file.to_vec(),
        number,
    }
}

fn bare() -> Member {
    (START, vec![(*b"cmap", plain_cmap())])
}

/// Two fonts over one `cmap`; the directory of the second ends the file.
fn two() -> Vec<u8> {
    let bold = vec![(*b"head", head(1)), (*b"cmap", plain_cmap())];
    collection(1, &[bare(), (*b"OTTO", bold)], |i| i == 1)
}

/// Fonts of different weights, styles and axes, some tables in common.
fn members() -> [Member; 3] {
    let axis = FixedAxis {
        tag: *b"wght",
        min: 100 << 16,
        default: 400 << 16,
        max: 900 << 16,
    };
    let cmap = (*b"cmap", cmap(&[(1, 0, 20), (3, 0, 20)], 2));
    let light = (*b"OS/2", os2(300, 5, 0));
    [
        (START, vec![light.clone(), cmap.clone()]),
        (*b"OTTO", vec![cmap.clone(), (*b"OS/2", os2(700, 5, 1))]),
        (*b"true", vec![light, (*b"fvar", fvar(&[axis])), cmap]),
    ]
}

/// A family from a collection beside one of lone fonts with the same tables.
fn beside_lone_fonts(list: &mut List) {
    let members = members();
    type Last = fn(usize) -> bool;
    let layouts: [(&str, u16, Last); 4] = [
        ("directories first", 1, |_| false),
        ("directories last", 1, |_| true),
        ("some directories last", 2, |i| i == 1),
        ("version 2", 2, |_| false),
    ];
    for (label, version, last) in layouts {
        let file = collection(version, &members, last);
        let lone = members.iter().map(|(start, tables)| Face {
            held: true,
            font: font(*start, tables),
            number: 0,
        });
        let job = Job {
            faces: (0..3)
                .map(|number| face(&file, number))
                .chain(lone)
                .collect(),
            families: vec![vec![0, 1, 2], vec![3, 4, 5], vec![2, 4, 0, 1]],
            requests: vec![
                asking_all(3, of_weight(700.0)),
                asking_all(3, of_weight(250.0)),
                asking_all(3, of_style(Style::ITALIC)),
            ],
            ..Job::default()
        };
        list.accepted(format!("collection, {label}"), &job);
    }
}

/// A job of one face and a request for it; `behind` follows the file.
fn job_of(file: &[u8], behind: &[u8]) -> Vec<u8> {
    let mut out = vec![0, 1, 1];
    out.extend((file.len() as u32).to_be_bytes());
    out.extend(file);
    out.extend(behind);
    let rest = Job {
        families: vec![vec![0]],
        requests: vec![Request {
            most: 1,
            ..request(1.0, 700.0)
        }],
        ..Job::<Vec<u8>>::default()
    };
    // Without the count of its faces.
    out.extend(&write(&rest).bytes[2..]);
    out
}

/// Where the length of the one face stands, and its number.
const LENGTH: usize = 3;

fn number_at(file: &[u8]) -> usize {
    LENGTH + 4 + file.len()
}

const BAD: Expected = Refused(21, LENGTH);

fn not_below(file: &[u8]) -> Expected {
    AtNumber(30, number_at(file), LENGTH)
}

impl List {
    fn collection(&mut self, label: &str, file: &[u8], number: u16, expected: Expected) {
        let bytes = job_of(file, &number.to_be_bytes());
        self.add(format!("collection, {label}, {number}"), (bytes, expected));
    }

    /// The job ends with the file, or with the first byte of the number.
    fn without_number(&mut self, label: &str, file: &[u8], expected: Expected) {
        for left in [0, 1] {
            let mut bytes = job_of(file, &[0, 0]);
            bytes.truncate(number_at(file) + left);
            let label = format!("collection, {label}, {left} bytes of its number");
            self.add(label, (bytes, expected));
        }
    }
}

/// Without 12 bytes no number is looked for.
fn cut_headers(list: &mut List) {
    let file = two();
    for length in 0..HEADER {
        let label = format!("first {length} bytes");
        list.collection(&label, &file[..length], 2, BAD);
    }
    for length in [3, 4, 11] {
        let label = format!("first {length} bytes");
        list.without_number(&label, &file[..length], BAD);
    }
}

/// The number first, then all of the offsets, whichever is asked for.
fn cut_offsets(list: &mut List) {
    let file = two();
    for length in HEADER..font_offset(2) {
        let cut = &file[..length];
        let label = format!("first {length} bytes");
        list.collection(&label, cut, 0, BAD);
        list.collection(&label, cut, 2, not_below(cut));
    }
    let header = &file[..HEADER];
    let lacking = AtNumber(18, number_at(header), LENGTH);
    list.without_number("header alone", header, lacking);
    // The offsets alone: there is no font at the end of the file.
    list.collection("offsets alone", &file[..font_offset(2)], 0, BAD);
}

fn counts(list: &mut List) {
    let file = two();
    let most = ((file.len() - HEADER) / 4) as u32;
    let mut count = |count: u32, number: u16, expected: Expected| {
        let mut file = file.clone();
        put32(&mut file, 8, count);
        list.collection(&format!("count {count}"), &file, number, expected);
    };
    let over = not_below(&file);
    for (stated, number, expected) in [
        (0, 0, over),
        (0, 1, over),
        (0, 0xffff, over),
        (1, 0, Accepted),
        (1, 1, over),
        (2, 1, Accepted),
        (2, 2, over),
        (2, 0x0100, over),
        (2, 0xffff, over),
        (most, 0, Accepted),
        (most, 1, Accepted),
        (most, most as u16, over),
        (most + 1, 0, BAD),
        (most + 1, most as u16 + 1, over),
    ] {
        count(stated, number, expected);
    }
    // Counts whose low 16 bits, or whose offsets' end without its high bits,
    // would do.
    for high in [0x0001_0000, 1 << 30, 1 << 31, 3 << 30] {
        for (low, number) in [(2, 1), (2, 2), (0, 0)] {
            count(high | low, number, BAD);
        }
    }
    count(u32::MAX, 0xffff, BAD);
}

fn offsets(list: &mut List) {
    let file = two();
    let length = file.len() as u32;
    let mut offset = |label: &str, number: u16, offset: u32, expected: Expected| {
        let mut file = file.clone();
        put32(&mut file, font_offset(1), offset);
        list.collection(&format!("{label} {offset}"), &file, number, expected);
    };
    let first = get32(&file, HEADER);
    offset("second offset as the first", 1, first, Accepted);
    for bad in [
        0,
        HEADER as u32,
        first + 1,
        length - 12,
        length - 11,
        length,
        length + 1,
        first | 1 << 31,
        0xffff_fff4,
        0xffff_ffff,
    ] {
        offset("second offset", 1, bad, BAD);
    }
    offset(
        "second offset, the first asked for",
        0,
        0xffff_ffff,
        Accepted,
    );
    // The last directory without its last byte.
    let cut = &file[..file.len() - 1];
    list.collection("directory cut", cut, 1, BAD);
    list.collection("directory cut, the first asked for", cut, 0, Accepted);
    // A collection within a collection.
    let mut nested = collection_header(1, &[16]);
    nested.extend(collection(1, &[bare()], |_| false));
    list.collection("within a collection", &nested, 0, BAD);
    list.collection("within a collection", &nested, 1, not_below(&nested));
}

/// The fonts of one file, each with its own refusal, at the length.
fn other_refusals(list: &mut List) {
    let axes = super::axes(17).font;
    let fvar = axes[offset(&axes, 1) as usize..].to_vec();
    let many = (*b"fvar", fvar);
    let without = (START, vec![(*b"head", head(1)), many.clone()]);
    let varied = (START, vec![(*b"cmap", plain_cmap()), many]);
    let wrong = (*b"typ1", vec![(*b"cmap", plain_cmap())]);
    let file = collection(2, &[bare(), without, varied, wrong], |i| i == 2);
    let at = |number: u32| Refused(number, LENGTH);
    for (number, expected) in [(0, Accepted), (1, at(22)), (2, at(23)), (3, BAD)] {
        list.collection("fonts refused", &file, number, expected);
    }
    // 20 comes before all of it.
    for behind in [&[0u8, 1][..], &[0, 9]] {
        let mut bytes = job_of(&file[..20], behind);
        bytes[2] = 2;
        list.add("collection, held 2", (bytes, Refused(20, 2)));
    }
    // Behind a lone font two bytes are the count of the overrides.
    let lone = font(START, &[(*b"cmap", plain_cmap())]);
    let end = number_at(&lone);
    let bytes = job_of(&lone, &[1, 1]);
    list.add("a number behind a lone font", (bytes, Refused(19, end)));
}
