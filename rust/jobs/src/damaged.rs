//! Fonts with damaged tables, and what each is refused for by how it was
//! built: 31 where the attributes need one, 22 for `cmap`, nothing for others.

use crate::{bytes::*, fonts::Numbered, random::Random};

/// How a table's record is made wrong.
#[derive(Copy, Clone, PartialEq, Eq, Debug)]
pub enum Cut {
    /// Past the file by a byte: too long.
    Longer,
    /// Past the file by a byte: too far on.
    Further,
    /// At the last offset of all.
    Far,
    /// Far on, with an end that is 0 in 32 bits.
    Wrapped,
    /// Of the most length of all.
    Longest,
    /// Of no length.
    Empty,
    /// Of length 1.
    One,
    /// A byte shorter than is needed.
    Short,
}

pub const CUTS: [Cut; 8] = [
    Cut::Longer,
    Cut::Further,
    Cut::Far,
    Cut::Wrapped,
    Cut::Longest,
    Cut::Empty,
    Cut::One,
    Cut::Short,
];

impl Cut {
    pub const fn label(self) -> &'static str {
        match self {
            Self::Longer => "past the file by 1",
            Self::Further => "moved past the file by 1",
            Self::Far => "at ffffffff",
            Self::Wrapped => "at an offset that wraps",
            Self::Longest => "of length ffffffff",
            Self::Empty => "of length 0",
            Self::One => "of length 1",
            Self::Short => "short by 1",
        }
    }

    /// Makes the record of a table wrong, in the directory that begins at `start`.
    fn apply(self, file: &mut [u8], start: usize, number: usize) {
        let size = file.len() as u32;
        let font = &mut file[start..];
        let at = record(number);
        let needed = needed(&font[at..at + 4]);
        let (offset, length) = (offset(font, number), length(font, number));
        let (offset, length) = match self {
            Self::Longer => (offset, size - offset + 1),
            Self::Further => (size - length + 1, length),
            Self::Far => (u32::MAX, length),
            Self::Wrapped => (length.wrapping_neg(), length),
            Self::Longest => (offset, u32::MAX),
            Self::Empty => (offset, 0),
            Self::One => (offset, 1),
            Self::Short => (offset, needed - 1),
        };
        set_offset(font, number, offset);
        set_length(font, number, length);
    }
}

/// The least bytes of a table that is read.
fn needed(tag: &[u8]) -> u32 {
    match tag {
        b"OS/2" => 78,
        b"head" => 54,
        b"post" => 32,
        b"fvar" => 16,
        _ => 4,
    }
}

/// A font with tables of which some are damaged.
pub struct Plan {
    pub label: &'static str,
    /// In the order of the directory.
    tables: fn() -> Vec<Table>,
    /// The places of those that are damaged.
    damaged: &'static [usize],
    /// The refusal, or 0.
    pub refused: u32,
}

impl Plan {
    /// The font by itself; each damaged table is drawn its damage.
    pub fn lone(&self, cut: impl FnMut() -> Cut) -> Vec<u8> {
        let mut file = font(START, &(self.tables)());
        self.damage(&mut file, 0, cut);
        file
    }

    /// The second font of a collection, behind one that has a `cmap` alone. Its
    /// directory stands after the tables, or before them.
    pub fn collected(&self, last: bool, cut: impl FnMut() -> Cut) -> Vec<u8> {
        let bare = (START, vec![(*b"cmap", plain_cmap())]);
        let fonts = [bare, (START, (self.tables)())];
        let mut file = collection(1, &fonts, |i| last && i == 1);
        let start = get32(&file, font_offset(1)) as usize;
        self.damage(&mut file, start, cut);
        file
    }

    fn damage(&self, file: &mut [u8], start: usize, mut cut: impl FnMut() -> Cut) {
        for number in self.damaged {
            cut().apply(file, start, *number);
        }
    }
}

/// A font of one of the plans, by itself or in one of three in a collection;
/// and its refusal, or 0.
pub fn random(r: &mut Random) -> (Numbered, u32) {
    let plan = &PLANS[r.below(PLANS.len())];
    let collected = r.chance(1, 3).then(|| r.chance(1, 2));
    let cut = || r.pick(&CUTS);
    let file = match collected {
        Some(last) => (plan.collected(last, cut), 1),
        None => (plan.lone(cut), 0),
    };
    (file, plan.refused)
}

/// Bits of fsSelection.
const NORMAL: u16 = 0;
const ITALIC: u16 = 1 << 0;
const OBLIQUE: u16 = 1 << 9;

fn bold(selection: u16) -> Table {
    (*b"OS/2", os2(700, 3, selection))
}

fn both() -> Table {
    (*b"head", head(3))
}

fn slope() -> Table {
    (*b"post", post(0xfff4_0000))
}

fn map() -> Table {
    (*b"cmap", plain_cmap())
}

fn axes(count: usize) -> Table {
    let axis = FixedAxis {
        tag: *b"wght",
        min: 100 << 16,
        default: 400 << 16,
        max: 900 << 16,
    };
    (*b"fvar", fvar(&vec![axis; count]))
}

const fn plan(
    label: &'static str,
    refused: u32,
    damaged: &'static [usize],
    tables: fn() -> Vec<Table>,
) -> Plan {
    Plan {
        label,
        tables,
        damaged,
        refused,
    }
}

/// The first three are a needed table each.
pub const PLANS: [Plan; 36] = [
    plan("OS/2 beside head", 31, &[2], || {
        vec![map(), both(), bold(NORMAL)]
    }),
    plan("post, oblique", 31, &[2], || {
        vec![map(), bold(OBLIQUE), slope()]
    }),
    plan("head without OS/2", 31, &[1], || vec![map(), both()]),
    // Needed, beside others or without them.
    plan("OS/2 alone", 31, &[1], || vec![map(), bold(NORMAL)]),
    plan("OS/2 beside post", 31, &[0], || {
        vec![bold(OBLIQUE), map(), slope()]
    }),
    plan("OS/2 and head, both", 31, &[0, 1], || {
        vec![both(), bold(NORMAL), map()]
    }),
    plan("OS/2 and post, both", 31, &[0, 1], || {
        vec![bold(OBLIQUE), slope(), map()]
    }),
    plan("post, every bit but italic", 31, &[1], || {
        vec![bold(!ITALIC), slope(), map()]
    }),
    plan("post beside head, oblique", 31, &[2], || {
        vec![bold(OBLIQUE), both(), slope(), map()]
    }),
    plan("head and post without OS/2, both", 31, &[0, 1], || {
        vec![both(), slope(), map()]
    }),
    // Before a sound one of the tag.
    plan("OS/2 before a sound one", 31, &[0], || {
        vec![bold(ITALIC), bold(NORMAL), map()]
    }),
    plan("head before a sound one", 31, &[0], || {
        vec![(*b"head", head(1)), both(), map()]
    }),
    plan("post before a sound one", 31, &[0], || {
        vec![(*b"post", post(0)), slope(), bold(OBLIQUE), map()]
    }),
    // With reasons for 22 and 23.
    plan("OS/2 without cmap", 31, &[0], || vec![bold(NORMAL)]),
    plan("head without cmap", 31, &[0], || vec![both()]),
    plan("post without cmap", 31, &[1], || {
        vec![bold(OBLIQUE), slope()]
    }),
    plan("OS/2 and cmap, both", 31, &[0, 1], || {
        vec![map(), bold(NORMAL)]
    }),
    plan("head and cmap, both", 31, &[0, 1], || vec![both(), map()]),
    plan("post and cmap, both", 31, &[1, 2], || {
        vec![bold(OBLIQUE), slope(), map()]
    }),
    plan("OS/2 beside 17 axes", 31, &[0], || {
        vec![bold(NORMAL), axes(17), map()]
    }),
    plan("head beside 17 axes", 31, &[1], || {
        vec![axes(17), both(), map()]
    }),
    plan("post beside 17 axes", 31, &[2], || {
        vec![axes(17), bold(OBLIQUE), slope(), map()]
    }),
    // Not needed.
    plan("head beside OS/2", 0, &[2], || {
        vec![map(), bold(NORMAL), both()]
    }),
    plan("post, italic and oblique", 0, &[2], || {
        vec![map(), bold(ITALIC | OBLIQUE), slope()]
    }),
    plan("post, italic", 0, &[2], || {
        vec![map(), bold(ITALIC), slope()]
    }),
    plan("post, normal", 0, &[2], || {
        vec![map(), bold(NORMAL), slope()]
    }),
    plan("post, every bit but oblique", 0, &[2], || {
        vec![map(), bold(!(ITALIC | OBLIQUE)), slope()]
    }),
    plan("post without OS/2", 0, &[1], || vec![map(), slope()]),
    plan("post without OS/2, beside head", 0, &[0], || {
        vec![slope(), both(), map()]
    }),
    plan("a second OS/2", 0, &[1], || {
        vec![bold(NORMAL), bold(ITALIC), map()]
    }),
    plan("a second head", 0, &[1], || {
        vec![both(), (*b"head", head(0)), map()]
    }),
    plan("a second post, oblique", 0, &[2], || {
        vec![bold(OBLIQUE), slope(), (*b"post", post(0)), map()]
    }),
    plan("head, post and fvar, italic", 0, &[0, 1, 2], || {
        vec![both(), slope(), axes(2), bold(ITALIC), map()]
    }),
    plan("fvar", 0, &[1], || vec![map(), axes(1), bold(NORMAL)]),
    plan("fvar of 17 axes", 0, &[0], || vec![axes(17), map()]),
    plan("cmap", 22, &[0], || vec![map(), bold(NORMAL), axes(17)]),
];

#[cfg(test)]
mod tests {
    use super::*;

    /// No two plans have one name, and each damages tables that it has.
    #[test]
    fn plans_fit() {
        for (i, plan) in PLANS.iter().enumerate() {
            let tables = (plan.tables)().len();
            assert!(plan.damaged.iter().all(|number| *number < tables));
            let mut before = PLANS[..i].iter();
            assert!(before.all(|other| other.label != plan.label));
        }
    }

    /// Every record of a damaged table lies past the file or is too short.
    #[test]
    fn cuts_damage() {
        for plan in &PLANS {
            for cut in CUTS {
                let file = plan.lone(|| cut);
                for number in plan.damaged {
                    let tag = &file[record(*number)..][..4];
                    let length = length(&file, *number);
                    let end = u64::from(offset(&file, *number)) + u64::from(length);
                    let past = end > file.len() as u64;
                    assert!(past || length < needed(tag), "{} {cut:?}", plan.label);
                }
            }
        }
    }
}
