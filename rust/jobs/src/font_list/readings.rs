//! Fonts under reading 1, and under numbers that are no reading.

use super::{Entry, List, axes, axis};
use crate::{
    bytes::*,
    damaged::{Cut, PLANS},
    readings::UNKNOWN,
};

/// Labels of fonts whose slant may play a part: every angle, selection bits
/// with `post` and without, `post` in every state, a font of a collection.
const AGAIN: [&str; 6] = [
    "post ",
    "fsSelection ",
    "damaged post",
    "half-copied",
    "all five tables",
    "version 1, directories last 010, font 1",
];

pub fn readings(list: &mut List) {
    slant_axes(list);
    for label in AGAIN {
        again(list, label);
    }
    unknown(list);
}

/// The fonts whose labels begin so, once more under reading 1.
fn again(list: &mut List, label: &str) {
    let same = list.fonts.iter().filter(|(own, _)| own.starts_with(label));
    let same: Vec<(String, Entry)> = same.cloned().collect();
    assert!(!same.is_empty(), "no font is called {label:?}");
    for (own, entry) in same {
        list.add_read(&own, &entry.file, 1, entry.number);
    }
}

/// A face that leans, with tables beside the others.
fn leaning(selection: u16, angle: u32, more: &[Table]) -> Vec<u8> {
    let mut tables = vec![
        (*b"OS/2", os2(400, 5, selection)),
        (*b"post", post(angle)),
        (*b"cmap", plain_cmap()),
    ];
    tables.extend(more.iter().cloned());
    font(START, &tables)
}

const OBLIQUE: u16 = 1 << 9;

/// An axis keeps its numbers under both readings.
fn slant_axes(list: &mut List) {
    let slant = FixedAxis {
        min: 0xfff1_0000,
        default: 0xfffb_8000,
        max: 0x0005_0000,
        ..axis(b"slnt", 0)
    };
    let zeros = FixedAxis {
        min: 0,
        default: 0,
        max: 0,
        ..slant
    };
    let fvar = (*b"fvar", fvar(&[slant, zeros]));
    for (name, selection) in [("upright", 0), ("oblique", OBLIQUE), ("italic", 1)] {
        let file = leaning(selection, 0xfff4_0000, std::slice::from_ref(&fvar));
        for reading in [0, 1] {
            list.add_read(&format!("slnt axes, {name}"), &file, reading, 0);
        }
    }
}

/// A font that would be read, under each number that is no reading; then fonts
/// that reading 1 refuses for something else, and no reading for the number.
fn unknown(list: &mut List) {
    let good = leaning(OBLIQUE, 0xfff4_0000, &[]);
    for reading in UNKNOWN {
        list.add_read("leans right", &good, reading, 0);
    }
    for (label, file, number) in refused(&good) {
        for reading in [1, 2, 256, 65_536, u32::MAX] {
            list.add_read(label, &file, reading, number);
        }
    }
}

/// Fonts that are refused under both readings: with 21, 30, 31, 22 and 23.
fn refused(good: &[u8]) -> [(&'static str, Vec<u8>, u16); 11] {
    let map = || (*b"cmap", plain_cmap());
    let mut past = good.to_vec();
    put16(&mut past, 4, 0xff);
    let two = collection(1, &[(START, vec![map()]), (START, vec![map()])], |_| false);
    let plan = |number: usize| PLANS[number].lone(|| Cut::Short);
    [
        ("no bytes", vec![], 0),
        ("11 bytes", good[..11].to_vec(), 0),
        ("bad start", font(*b"typ1", &[map()]), 0),
        ("directory past the file", past, 0),
        ("collection of 11 bytes", two[..11].to_vec(), 0),
        ("second font of a lone file", good.to_vec(), 1),
        ("third font of two", two, 2),
        ("damaged OS/2", plan(0), 0),
        ("damaged post", plan(1), 0),
        ("no cmap", font(START, &[]), 0),
        (
            "17 axes",
            font(START, &[map(), (*b"fvar", fvar(&axes(17)))]),
            0,
        ),
    ]
}
