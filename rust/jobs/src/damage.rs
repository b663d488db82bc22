//! Ways to damage a job, with what each has to be refused for.

use plain::job::{FACES, FAMILIES, OVERRIDES};

use crate::{
    bytes::{fonts_stated, get32},
    damaged, fonts, generate,
    layout::{Face, Field, Job, Kind, Written, write},
    random::Random,
};

/// What is known of a job by how it was built, its fonts put aside: a font
/// that is refused and stands before comes first.
#[derive(Copy, Clone, PartialEq, Eq, Debug)]
pub enum Expected {
    Accepted,
    /// The table's number and the field's position.
    Refused(u32, usize),
    /// The same at a font number, and the position of its font's length: what
    /// else the font is refused for is met later.
    AtNumber(u32, usize, usize),
    Unknown,
}

use Expected::{Accepted, AtNumber, Refused, Unknown};

/// Whether a refusal is one of a font file.
pub const fn is_font(number: u32) -> bool {
    matches!(number, 21..=23 | 30 | 31)
}

impl Expected {
    /// Whether an answer, 0 for an accepted job, can be the right one.
    pub fn allows(self, number: u32, position: usize) -> bool {
        let font = is_font(number);
        match self {
            Unknown => true,
            Accepted => number == 0 || font,
            Refused(n, at) => (number, position) == (n, at) || (font && position < at),
            AtNumber(n, at, length) => (number, position) == (n, at) || (font && position < length),
        }
    }

    /// Whether an answer is the very one that is known.
    pub fn tells(self, number: u32, position: usize) -> bool {
        match self {
            Unknown => false,
            Accepted => number == 0,
            Refused(n, at) | AtNumber(n, at, _) => (number, position) == (n, at),
        }
    }

    /// Where it is refused, if that is known.
    fn position(self) -> Option<usize> {
        match self {
            Refused(_, at) | AtNumber(_, at, _) => Some(at),
            Accepted | Unknown => None,
        }
    }
}

/// Other bytes for one field.
#[derive(Clone, PartialEq, Eq, Debug)]
pub struct Way {
    pub field: Field,
    pub bytes: Vec<u8>,
    pub expected: Expected,
}

/// Bits of no finite number.
const NOT_FINITE: [u32; 7] = [
    0x7f80_0000,
    0xff80_0000,
    0x7fc0_0000,
    0xffc0_0000,
    0x7f80_0001,
    0xff80_0001,
    0xffff_ffff,
];

/// Bits of finite numbers at the ends, both zeros among them.
const FINITE: [u32; 6] = [0, 0x8000_0000, 1, 0x8000_0001, 0x7f7f_ffff, 0xff7f_ffff];

/// Finite numbers that are no ratio: over 16 or below 0.
const NO_RATIO: [u32; 6] = [
    0x4180_0001,
    0x8000_0001,
    0xbf80_0000,
    0x4188_0000,
    0x7f7f_ffff,
    0xff7f_ffff,
];

/// Ratios at the ends.
const RATIO: [u32; 5] = [0, 0x8000_0000, 1, 0x417f_ffff, 0x4180_0000];

/// Bits that a spare field must not hold.
const NOT_ZERO: [u32; 7] = [
    0x8000_0000,
    1,
    0x0001_0000,
    0x0100_0000,
    0x3f80_0000,
    0x7fc0_0000,
    0xff80_0000,
];

/// Every way that is kept for a field; none for a font file.
pub fn ways(written: &Written, field: Field) -> Vec<Way> {
    let held = &written.bytes[field.at..field.at + field.size];
    let mut out = Vec::new();
    for (expected, values) in values(written, field) {
        for value in values {
            let bytes = value.to_be_bytes()[4 - field.size..].to_vec();
            if bytes != held {
                out.push(Way {
                    field,
                    bytes,
                    expected,
                });
            }
        }
    }
    out
}

/// Values for a field, by what is known of a job with them.
fn values(written: &Written, field: Field) -> Vec<(Expected, Vec<u32>)> {
    let refused = |number: u32, values: &[u32]| (Refused(number, field.at), values.to_vec());
    let accepted = |values: &[u32]| (Accepted, values.to_vec());
    let unknown = |values: &[u32]| (Unknown, values.to_vec());
    let present = present(written, field);
    let less = present.saturating_sub(1);
    match field.kind {
        Kind::Count(limit) => counts(field, limit, present),
        Kind::ByteCount => vec![unknown(&[0, 1, less, (present + 1).min(255), 255])],
        Kind::Held => vec![
            refused(20, &[2, 3, 0x80, 0x81, 0xff]),
            accepted(&[1 - present]),
        ],
        Kind::Length => lengths(written, field, present),
        Kind::File => vec![],
        Kind::FontNumber => font_numbers(written, field),
        Kind::FaceNumber(faces) => {
            let faces = u32::from(faces);
            let over = [faces, faces + 1, 0x8000, 0xffff];
            vec![refused(24, &over), accepted(&[0, faces - 1])]
        }
        Kind::Mask => {
            let over = [8, 9, 0x0f, 0x10, 0x40, 0x80, 0xff, present | 8];
            vec![refused(25, &over), unknown(&[0, 1, 2, 3, 4, 5, 6, 7])]
        }
        Kind::StyleKind => {
            let over = [4, 5, 7, 0x80, 0x83, 0xff];
            vec![refused(25, &over), unknown(&[0, 1, 2, 3])]
        }
        Kind::SpareKind => vec![refused(25, &[1, 2, 3, 4, 0x80, 0xff])],
        Kind::Ratio => vec![
            refused(26, &NOT_FINITE),
            refused(26, &NO_RATIO),
            accepted(&RATIO),
        ],
        Kind::Number => vec![refused(26, &NOT_FINITE), accepted(&FINITE)],
        Kind::Spare => vec![refused(25, &NOT_ZERO)],
        Kind::Free => vec![accepted(&[0, 1, 0xffff, 0xffff_ffff])],
    }
}

/// What stands in a field, its first four bytes.
fn present(written: &Written, field: Field) -> u32 {
    written.bytes[field.at..field.at + field.size.min(4)]
        .iter()
        .fold(0, |value, byte| value << 8 | u32::from(*byte))
}

/// Counts over the limit, and of more or fewer entries than there are.
fn counts(field: Field, limit: u32, present: u32) -> Vec<(Expected, Vec<u32>)> {
    let over = vec![limit + 1, limit + 2, limit | 0x8000, 0xffff];
    let mut others = vec![present.saturating_sub(1), present + 1, 0, limit];
    others.retain(|value| *value <= limit);
    vec![(Refused(19, field.at), over), (Unknown, others)]
}

/// Lengths of a font: past the job, too short for a header, others.
fn lengths(written: &Written, field: Field, present: u32) -> Vec<(Expected, Vec<u32>)> {
    let left = (written.bytes.len() - field.at - 4) as u32;
    let within = |values: &[u32]| -> Vec<u32> {
        let values = values.iter().copied();
        values.filter(|value| *value <= left).collect()
    };
    vec![
        (
            Refused(18, field.at),
            vec![left + 1, 0x7fff_ffff, 0x8000_0000, 0xffff_ffff],
        ),
        // A file without a whole header has a bad start.
        (Refused(21, field.at), within(&[0, 11])),
        (
            Unknown,
            within(&[present.wrapping_sub(1), present + 1, left]),
        ),
    ]
}

/// Font numbers below the count of the collection before them, and others.
fn font_numbers(written: &Written, field: Field) -> Vec<(Expected, Vec<u32>)> {
    let file = file_before(written, field);
    let count = get32(&written.bytes, file.at + 8);
    let (below, over) = [0, 1, count.wrapping_sub(1), count, count.wrapping_add(1)]
        .into_iter()
        .chain([0x00ff, 0x0100, 0x8000, 0xffff])
        .filter(|number| *number <= 0xffff)
        .partition(|number| *number < count);
    let refused = AtNumber(30, field.at, file.at - 4);
    vec![(refused, over), (Accepted, below)]
}

/// The collection that a font number stands behind.
fn file_before(written: &Written, number: Field) -> Field {
    let before = |field: &&Field| field.at + field.size == number.at;
    let file = written.fields.iter().find(before);
    *file.expect("a collection before its font number")
}

/// The bytes with every way done, no two on one field, and what is known of
/// them: the refusal that is met first.
pub fn with_ways(written: &Written, ways: &[Way]) -> (Vec<u8>, Expected) {
    let mut bytes = written.bytes.clone();
    let mut ways: Vec<&Way> = ways.iter().collect();
    ways.sort_by_key(|way| way.field.at);
    let mut expected = Accepted;
    for way in ways {
        let (at, size) = (way.field.at, way.field.size);
        bytes[at..at + size].copy_from_slice(&way.bytes);
        if expected == Accepted {
            expected = way.expected;
        }
    }
    (bytes, expected)
}

/// The first `length` bytes: refused at the field that no longer fits.
pub fn cut(written: &Written, length: usize) -> (Vec<u8>, Expected) {
    let mut fields = written.fields.iter();
    let field = fields.find(|field| field.at + field.size > length);
    let field = *field.expect("a field that is cut");
    let expected = match field.kind {
        Kind::File => Refused(18, field.at - 4),
        Kind::FontNumber => AtNumber(18, field.at, file_before(written, field).at - 4),
        _ => Refused(18, field.at),
    };
    (written.bytes[..length].to_vec(), expected)
}

/// The same with more bytes after its end.
pub fn with_more(written: &Written, more: &[u8]) -> (Vec<u8>, Expected) {
    let mut bytes = written.bytes.clone();
    bytes.extend(more);
    (bytes, Refused(27, written.bytes.len()))
}

/// One of the ways at random, of a kind of field at random.
fn random_way(r: &mut Random, written: &Written) -> Option<Way> {
    let first = r.pick(&written.fields);
    // Fonts and lists have many fields; the others are looked for.
    let kind = match r.below(16) {
        0 => Kind::Mask,
        1 => Kind::Held,
        2 => Kind::StyleKind,
        3 => Kind::SpareKind,
        4..=5 => Kind::Spare,
        6..=7 => Kind::Ratio,
        8..=9 => Kind::Number,
        10 => Kind::Length,
        11 => Kind::FaceNumber(u16::from_be_bytes([written.bytes[0], written.bytes[1]])),
        12 => Kind::Count(FACES),
        13 => Kind::Count(FAMILIES),
        14 => Kind::FontNumber,
        _ => first.kind,
    };
    let fields: Vec<Field> = written
        .fields
        .iter()
        .copied()
        .filter(|field| field.kind == kind)
        .collect();
    let field = if fields.is_empty() {
        first
    } else {
        r.pick(&fields)
    };
    let ways = ways(written, field);
    if ways.is_empty() {
        return None;
    }
    Some(ways[r.below(ways.len())].clone())
}

/// Where a cut falls: mostly near a field's start, else anywhere.
fn random_length(r: &mut Random, written: &Written) -> usize {
    let field = r.pick(&written.fields);
    match r.below(4) {
        0 => field.at,
        1 => field.at + r.below(field.size + 1),
        2 => (field.at + 1).min(written.bytes.len()),
        _ => r.below(written.bytes.len()),
    }
    .min(written.bytes.len() - 1)
}

/// Damages a written job at random.
pub fn random(r: &mut Random, written: &Written) -> (Vec<u8>, Expected) {
    match r.below(16) {
        0..=2 => {
            let length = random_length(r, written);
            cut(written, length)
        }
        3 => {
            let more: Vec<u8> = (0..r.pick(&[1, 1, 2, 8, 40])).map(|_| r.byte()).collect();
            with_more(written, &more)
        }
        4..=5 => changed_byte(r, written),
        6..=7 => font(r, written),
        8..=9 => several(r, written),
        _ => {
            let ways: Vec<Way> = random_way(r, written).into_iter().collect();
            with_ways(written, &ways)
        }
    }
}

fn changed_byte(r: &mut Random, written: &Written) -> (Vec<u8>, Expected) {
    let mut bytes = written.bytes.clone();
    let at = r.below(bytes.len());
    bytes[at] = match r.below(3) {
        0 => bytes[at] ^ (1 << r.below(8)),
        1 => bytes[at].wrapping_add(1),
        _ => r.byte(),
    };
    (bytes, Unknown)
}

/// Two or three ways, and in half of the jobs a cut, before or after their fields.
fn several(r: &mut Random, written: &Written) -> (Vec<u8>, Expected) {
    let mut ways: Vec<Way> = Vec::new();
    for _ in 0..r.within(2, 3) {
        if let Some(way) = random_way(r, written)
            && ways.iter().all(|other| other.field.at != way.field.at)
        {
            ways.push(way);
        }
    }
    let (bytes, expected) = with_ways(written, &ways);
    if r.chance(1, 2) {
        return (bytes, expected);
    }
    let damaged = Written {
        bytes,
        fields: written.fields.clone(),
    };
    let length = random_length(r, &damaged);
    let (bytes, cut) = cut(&damaged, length);
    let expected = match (expected, cut) {
        // A length that lies past the end does so still.
        (met, cut) if met.position().is_some_and(|at| Some(at) < cut.position()) => met,
        // A file that is told to be short may lie before the cut.
        (Refused(21, at), Refused(_, end)) if at == end => Unknown,
        (Unknown, _) => Unknown,
        (_, cut) => cut,
    };
    (bytes, expected)
}

/// Damages one font file, its length field kept true.
fn font(r: &mut Random, written: &Written) -> (Vec<u8>, Expected) {
    let files: Vec<Field> = written
        .fields
        .iter()
        .copied()
        .filter(|field| field.kind == Kind::File && field.size >= 12)
        .collect();
    if files.is_empty() {
        return (written.bytes.clone(), Accepted);
    }
    let field = r.pick(&files);
    let mut file = written.bytes[field.at..field.at + field.size].to_vec();
    if fonts_stated(&file).is_some() {
        fonts::damage_collection(r, &mut file);
    } else {
        let tables = usize::from(u16::from_be_bytes([file[4], file[5]]));
        // A font that is damaged already may count more tables than it has.
        let tables = tables.min((file.len() - 12) / 16);
        fonts::damage(r, &mut file, tables);
    }
    let mut bytes = written.bytes[..field.at - 4].to_vec();
    bytes.extend((file.len() as u32).to_be_bytes());
    bytes.extend(file);
    bytes.extend(&written.bytes[field.at + field.size..]);
    (bytes, Accepted)
}

/// Gives a job a face with damaged tables, in the place of another if there is
/// one. Half of these faces are not held, and half have every attribute
/// overridden: neither changes the refusal.
pub fn tables(r: &mut Random, mut job: Job) -> (Vec<u8>, Expected) {
    let ((font, number), refused) = damaged::random(r);
    let face = Face {
        held: r.chance(1, 2),
        font,
        number,
    };
    let place = r.below(job.faces.len().max(1));
    match job.faces.get_mut(place) {
        Some(other) => *other = face,
        None => job.faces.push(face),
    }
    if r.chance(1, 2) && job.overrides.len() < OVERRIDES as usize {
        job.overrides.push(generate::full_override(r, place));
    }
    let written = write(&job);
    let expected = match refused {
        0 => Accepted,
        _ => Refused(refused, length_of(&written, place)),
    };
    (written.bytes, expected)
}

/// Where the length of a face's font stands.
pub fn length_of(written: &Written, face: usize) -> usize {
    let fields = written.fields.iter();
    let mut lengths = fields.filter(|field| field.kind == Kind::Length);
    lengths.nth(face).expect("a face of the job").at
}
