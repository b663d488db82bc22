//! `cmap` tables: classes of records and their order, offsets, counts, places.

use super::List;
use crate::{bytes::*, fonts::CLASSES};

pub fn cmap_shapes(list: &mut List) {
    classes(list);
    four_classes(list);
    offsets(list);
    counts(list);
    short_tables(list);
    places_in_the_file(list);
}

fn add(list: &mut List, label: impl Into<String>, table: Vec<u8>) {
    list.add(label, font(START, &[(*b"cmap", table)]));
}

/// Pairs that docs/GUIDE.md does not name.
const NO_CLASS: [(u16, u16); 17] = [
    (3, 2),
    (0, 5),
    (1, 1),
    (3, 3),
    (3, 9),
    (3, 11),
    (0, 7),
    (2, 0),
    (2, 1),
    (4, 0),
    (1, 10),
    (0, 10),
    (10, 3),
    (0x0103, 1),
    (3, 0x0101),
    (0x0100, 0),
    (0xffff, 0xffff),
];

fn classes(list: &mut List) {
    let pairs: Vec<(u16, u16)> = CLASSES.concat();
    for (p, e) in &pairs {
        add(list, format!("cmap ({p},{e})"), cmap(&[(*p, *e, 12)], 2));
    }
    for (p, e) in NO_CLASS {
        add(list, format!("cmap ({p},{e})"), cmap(&[(p, e, 12)], 2));
        let table = cmap(&[(p, e, 20), (1, 0, 22)], 4);
        add(list, format!("cmap ({p},{e}) then (1,0)"), table);
    }
    // Every two pairs in both orders, a pair with itself too.
    for (p, e) in &pairs {
        for (q, f) in &pairs {
            let table = cmap(&[(*p, *e, 20), (*q, *f, 22)], 4);
            add(list, format!("cmap ({p},{e}) then ({q},{f})"), table);
        }
    }
}

/// One of each class, turned about.
fn four_classes(list: &mut List) {
    let four = [(1, 0, 36), (3, 0, 38), (0, 3, 40), (3, 10, 42)];
    for turn in 0..4 {
        let label = format!("cmap of four classes, turn {turn}");
        let mut records = four;
        records.rotate_left(turn);
        add(list, &label, cmap(&records, 8));
        records.reverse();
        add(list, format!("{label}, back"), cmap(&records, 8));
        // The best one does not qualify.
        for record in &mut records {
            if record.1 == 10 {
                record.2 = 43;
            }
        }
        add(list, format!("{label}, best past"), cmap(&records, 8));
    }
}

/// Offsets of a subtable.
const OFFSETS: [u32; 16] = [
    0,
    1,
    2,
    4,
    11,
    12,
    13,
    14,
    15,
    16,
    0x0001_000c,
    0x7fff_ffff,
    0x8000_000c,
    0xffff_fff0,
    0xffff_fffe,
    0xffff_ffff,
];

/// Two bytes at the offset, just in the table and just past it.
fn offsets(list: &mut List) {
    for offset in OFFSETS {
        let label = format!("cmap offset {offset:x} of");
        add(list, format!("{label} 15"), cmap(&[(3, 1, offset)], 3));
        add(list, format!("{label} 12"), cmap(&[(3, 1, offset)], 0));
        // Another record stands by.
        let table = cmap(&[(3, 1, offset), (1, 0, 0)], 0);
        add(list, format!("{label} 20, or (1,0)"), table);
    }
}

fn counts(list: &mut List) {
    // Beyond the table.
    for extra in [0, 1, 7] {
        for count in [2, 3, 0x0101, 0xffff] {
            let mut table = cmap(&[(3, 1, 0)], extra);
            put16(&mut table, 2, count);
            let label = format!("cmap count {count} with {extra} more bytes");
            add(list, label, table);
        }
    }
    // A second record cut by a byte, and whole.
    for cut in [1, 0, 8] {
        let mut table = cmap(&[(1, 0, 0), (3, 10, 2)], 0);
        table.truncate(20 - cut);
        add(list, format!("cmap second record cut by {cut}"), table);
    }
    // Below the records.
    for count in [0, 1] {
        let mut table = cmap(&[(1, 0, 20), (3, 10, 22)], 4);
        put16(&mut table, 2, count);
        add(list, format!("cmap count {count} of two"), table);
    }
}

fn short_tables(list: &mut List) {
    let mut table = cmap(&[(3, 1, 12)], 2);
    put16(&mut table, 0, 0x0302);
    add(list, "cmap of another version", table);
    for length in 0..=12 {
        for count in [0, 1] {
            let mut table = cmap(&[(3, 1, 0)], 0);
            put16(&mut table, 2, count);
            table.truncate(length);
            add(list, format!("cmap of {length} counted {count}"), table);
        }
    }
}

fn places_in_the_file(list: &mut List) {
    // Two bytes after the table's end lie in the file, but not in the table.
    let mut bytes = font(START, &[(*b"cmap", plain_cmap())]);
    set_length(&mut bytes, 0, 13);
    list.add("cmap subtable past a shorter table", bytes);
    let mut bytes = font(START, &[(*b"cmap", cmap(&[(3, 1, 0)], 0))]);
    set_length(&mut bytes, 0, 11);
    list.add("cmap record past a shorter table", bytes);
    // Over the file's own start: three tables, so the first pair is (3,1).
    let mut bytes = font(
        *b"true",
        &[
            (*b"cmap", vec![]),
            (*b"OS/2", os2(600, 6, 0)),
            (*b"head", head(0)),
        ],
    );
    put16(&mut bytes, 6, 1);
    put32(&mut bytes, 8, 5);
    let size = bytes.len() as u32;
    set_offset(&mut bytes, 0, 0);
    set_length(&mut bytes, 0, size);
    list.add("cmap over the whole file", bytes);
    // Far from the start of the file.
    let far = font_with_gaps(START, &[(*b"cmap", plain_cmap())], |_| 300);
    list.add("cmap after a gap", far);
}
