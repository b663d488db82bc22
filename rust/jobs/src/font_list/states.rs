//! Each of the five tables: present, absent, short, past the file, repeated.

use super::{List, axis};
use crate::bytes::*;

/// A table under test, and what stands beside it so that its lack can be seen.
struct Subject {
    tag: [u8; 4],
    good: fn() -> Vec<u8>,
    other: fn() -> Vec<u8>,
    needed: usize,
    beside: fn() -> Vec<Table>,
}

const SUBJECTS: [Subject; 5] = [
    Subject {
        tag: *b"cmap",
        good: plain_cmap,
        other: || cmap(&[(3, 0, 12), (1, 0, 0)], 2),
        needed: 4,
        beside: || vec![(*b"head", head(1))],
    },
    Subject {
        tag: *b"OS/2",
        good: || os2(300, 3, 1),
        other: || os2(900, 7, 0),
        needed: 78,
        beside: || vec![(*b"cmap", plain_cmap()), (*b"head", head(1))],
    },
    Subject {
        tag: *b"post",
        good: || post(0x000e_0000),
        other: || post(0xfff2_0000),
        needed: 32,
        beside: || {
            vec![
                (*b"OS/2", os2(500, 5, 0x0200)),
                (*b"cmap", cmap(&[(0, 3, 8)], 0)),
            ]
        },
    },
    Subject {
        tag: *b"head",
        good: || head(3),
        other: || head(1),
        needed: 54,
        beside: || vec![(*b"cmap", plain_cmap())],
    },
    Subject {
        tag: *b"fvar",
        good: || fvar(&[axis(b"wght", 0), axis(b"slnt", 1)]),
        other: || fvar(&[axis(b"wdth", 2)]),
        needed: 16,
        beside: || vec![(*b"cmap", plain_cmap())],
    },
];

pub fn table_states(list: &mut List) {
    for subject in &SUBJECTS {
        let mut states = States::new(list, subject);
        states.places();
        states.lengths();
        states.ends();
        states.far_places();
        states.repeated();
        states.near_tags();
    }
}

/// The states of one table.
struct States<'a> {
    list: &'a mut List,
    subject: &'a Subject,
    good: Vec<u8>,
    beside: Vec<Table>,
    /// The font with the table as the last of the file, exactly at its end.
    end: Vec<u8>,
    /// Offset and length of the table there.
    offset: u32,
    length: u32,
}

impl<'a> States<'a> {
    fn new(list: &'a mut List, subject: &'a Subject) -> Self {
        let (good, beside) = ((subject.good)(), (subject.beside)());
        let mut tables = beside.clone();
        tables.push((subject.tag, good.clone()));
        let end = font(START, &tables);
        Self {
            list,
            subject,
            offset: (end.len() - good.len()) as u32,
            length: good.len() as u32,
            good,
            beside,
            end,
        }
    }

    fn add(&mut self, label: impl AsRef<str>, bytes: Vec<u8>) {
        let tag = self.subject.tag.escape_ascii();
        self.list.add(format!("{tag} {}", label.as_ref()), bytes);
    }

    /// A font with tables of the tag after what stands beside them.
    fn with(&self, tables: &[&[u8]]) -> Vec<u8> {
        let mut all = self.beside.clone();
        all.extend(
            tables
                .iter()
                .map(|bytes| (self.subject.tag, bytes.to_vec())),
        );
        font(START, &all)
    }

    /// The bytes as they are, with another offset and length in the record.
    fn recorded(&self, offset: u32, length: u32) -> Vec<u8> {
        let mut bytes = self.end.clone();
        set_offset(&mut bytes, self.beside.len(), offset);
        set_length(&mut bytes, self.beside.len(), length);
        bytes
    }

    fn places(&mut self) {
        self.add("at the end", self.end.clone());
        self.add("absent", self.with(&[]));
        let mut first = vec![(self.subject.tag, self.good.clone())];
        first.extend(self.beside.clone());
        self.add("first", font(START, &first));
        let mut more = self.end.clone();
        more.extend(filler(3, 9));
        self.add("before more bytes", more);
    }

    /// Lengths around the need, the table's bytes staying as they are; then
    /// the file ending with the table.
    fn lengths(&mut self) {
        let needed = self.subject.needed;
        for length in [0, 1, needed - 1, needed, needed + 1] {
            let bytes = self.recorded(self.offset, self.length.min(length as u32));
            self.add(format!("of {length}"), bytes);
        }
        for length in [needed - 1, needed] {
            let bytes = self.with(&[&self.good[..length]]);
            self.add(format!("of {length} at the end"), bytes);
        }
    }

    /// To the end of the file, or past it by a byte.
    fn ends(&mut self) {
        let (offset, length) = (self.offset, self.length);
        self.add(
            "longer than the file by 1",
            self.recorded(offset, length + 1),
        );
        self.add(
            "moved past the file by 1",
            self.recorded(offset + 1, length),
        );
        let mut bytes = self.end.clone();
        bytes.pop();
        self.add("with the file cut by 1", bytes);
        // In the file to its last byte, though the table is longer than needed.
        for (label, longer) in [("to the end", 3), ("past the end by 1", 4)] {
            let mut bytes = self.recorded(offset, length + longer);
            bytes.extend(filler(3, 9));
            self.add(format!("longer, {label}"), bytes);
        }
    }

    /// Near 2^32, where a sum that wrapped would land in the file; then from
    /// the file's start and end.
    fn far_places(&mut self) {
        let (place, whole) = (self.offset, self.length);
        for (offset, length) in [
            (0xffff_ffff, whole),
            (0xffff_ffff, 1),
            (0xffff_fff0, whole + 0x10),
            (place, 0xffff_ffff),
            (place, 0u32.wrapping_sub(place)),
            (place, 0u32.wrapping_sub(place).wrapping_add(whole)),
            (0x8000_0000, whole),
            (0x8000_0000, 0x8000_0000),
            (0x0001_0000 + place, whole),
            (0x0100_0000 + place, whole),
            (place, 0x0001_0000 + whole),
            (place, 0x0100_0000 + whole),
        ] {
            let bytes = self.recorded(offset, length);
            self.add(format!("at {offset:08x} of {length:08x}"), bytes);
        }
        let size = place + whole;
        for (offset, length) in [
            (size, 0),
            (size + 1, 0),
            (size, 1),
            (0, size),
            (0, size + 1),
        ] {
            let bytes = self.recorded(offset, length);
            self.add(format!("at {offset} of {length}"), bytes);
        }
    }

    fn repeated(&mut self) {
        let (good, other) = (self.good.clone(), (self.subject.other)());
        let short = &good[..self.subject.needed - 1];
        let pairs: [(&str, [&[u8]; 2]); 5] = [
            ("short, then good", [short, &good]),
            ("empty, then good", [&[], &good]),
            ("good, then short", [&good, short]),
            ("good, then another", [&good, &other]),
            ("another, then good", [&other, &good]),
        ];
        for (label, tables) in pairs {
            self.add(label, self.with(&tables));
        }
        let two = self.with(&[&good, &other]);
        let past = two.len() as u32 - self.length + 1;
        let mut bytes = two.clone();
        set_offset(&mut bytes, self.beside.len(), past);
        self.add("past the file, then another", bytes);
        let mut bytes = two;
        set_offset(&mut bytes, self.beside.len() + 1, past + self.length);
        self.add("good, then past the file", bytes);
    }

    fn near_tags(&mut self) {
        for (i, flip) in [(0, 0x20), (3, 0x20), (2, 0x01), (1, 0x80)] {
            let mut bytes = self.end.clone();
            bytes[record(self.beside.len()) + i] ^= flip;
            self.add(format!("with another byte {i} of the tag"), bytes);
        }
    }
}
