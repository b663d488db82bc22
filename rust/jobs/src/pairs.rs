//! The cases of the program `pair_cases`: section 7's pairs and larger jobs,
//! with the calls that are made on each.

use crate::{
    bytes::{FixedAxis, START, cmap, font_with_gaps, fvar, os2},
    damage::Expected,
    layout::{Face, Job, Override, Request, Style, write},
    list::Case,
};

/// Reading, request, offer number and bytes of output.
pub type Call = (u32, u32, u32, usize);

/// Cases in the order of the program, under the same names there.
pub fn all() -> Vec<(Case, Vec<Call>)> {
    let mut out = Vec::new();
    zeros(&mut out);
    small_jobs(&mut out);
    larger_jobs(&mut out);
    out
}

type Cases = Vec<(Case, Vec<Call>)>;

fn add(out: &mut Cases, label: &str, bytes: Vec<u8>, expected: Expected, calls: &[Call]) {
    let label = label.into();
    let case = Case {
        label,
        bytes,
        expected,
    };
    out.push((case, calls.to_vec()));
}

fn zeros(out: &mut Cases) {
    let old = [(0, 0, 0, 40), (0, 0, 0, 39)];
    let none = [(2, 0, 0, 40), (2, 0, 0, 39)];
    let refused = Expected::Refused;
    let first = [old[0], none[0]];
    add(out, "no bytes", vec![], refused(18, 0), &first);
    let accepted = Expected::Accepted;
    add(out, "eight zero bytes", vec![0; 8], accepted, &old[..1]);
    let all = [old, none].concat();
    add(out, "nine zero bytes", vec![0; 9], refused(27, 8), &all);
}

/// OS/2, a cmap of one record after a gap, and fvar.
fn font(weight: u16, class: usize, axes: u8, gap: usize) -> Vec<u8> {
    let (platform, encoding) = [(3, 1), (3, 0), (1, 0)][class];
    let axis = |number: u8| FixedAxis {
        tag: match number {
            0 => *b"wght",
            1 => *b"wdth",
            2 => *b"slnt",
            _ => [b'A', b'X', 0, number],
        },
        min: 0,
        default: 400 << 16,
        max: 900 << 16,
    };
    let axes: Vec<FixedAxis> = (0..axes).map(axis).collect();
    let tables = [
        (*b"OS/2", os2(weight, 5, 0)),
        (*b"cmap", cmap(&[(platform, encoding, 12)], 2)),
        (*b"fvar", fvar(&axes)),
    ];
    font_with_gaps(START, &tables, |i| if i == 1 { gap } else { 0 })
}

fn face(held: bool, font: Vec<u8>) -> Face {
    Face {
        held,
        font,
        number: 0,
    }
}

fn style(kind: u8) -> Style {
    let angle = if kind == 3 { 10f32.to_bits() } else { 0 };
    Style { kind, angle }
}

fn request(most: u16, ratio: f32, kind: u8, weight: f32) -> Request {
    Request {
        most,
        ratio: ratio.to_bits(),
        style: style(kind),
        weight: weight.to_bits(),
        families: vec![0],
        fallbacks: vec![],
    }
}

/// Three faces, a family of them in turn, four requests.
fn small(axes: u8, places: u16, ratio: f32) -> Job {
    let mut again = request(65535, 0.75, 1, 950.0);
    again.fallbacks = vec![0];
    Job {
        faces: vec![
            face(true, font(400, 0, axes, 0)),
            face(true, font(700, 1, 0, 0)),
            face(true, font(700, 2, 3, 0)),
        ],
        overrides: vec![],
        families: vec![(0..places).map(|place| place % 3).collect()],
        requests: vec![
            request(8, ratio, 0, 700.0),
            again,
            request(0, 1.0, 0, 700.0),
            request(2, 1.0, 0, 700.0),
        ],
    }
}

/// The first two offers of the first request.
const TWO: [Call; 2] = [(0, 0, 0, 40), (0, 0, 1, 40)];

/// Outputs of four lengths, then each request and what lies past it; some of
/// these under reading 1, and under numbers that are no reading.
const SMALL_CALLS: [Call; 35] = [
    (0, 0, 0, 0),
    (0, 0, 0, 39),
    (0, 0, 0, 40),
    (0, 0, 0, 41),
    (0, 0, 1, 40),
    (0, 0, 2, 40),
    (0, 0, 3, 40),
    (0, 0, u32::MAX, 40),
    (0, 1, 0, 40),
    (0, 1, 1, 40),
    (0, 1, 5, 40),
    (0, 1, 6, 40),
    (0, 2, 0, 40),
    (0, 3, 0, 40),
    (0, 3, 1, 40),
    (0, 3, 2, 40),
    (0, 4, 0, 40),
    (0, 4, 0, 39),
    (0, u32::MAX, 0, 40),
    (1, 0, 0, 40),
    (1, 0, 1, 40),
    (1, 0, 2, 40),
    (1, 0, 3, 40),
    (1, 1, 0, 40),
    (1, 1, 1, 40),
    (1, 1, 5, 40),
    (1, 3, 0, 40),
    (1, 3, 1, 40),
    (1, 4, 0, 40),
    (2, 0, 0, 40),
    (2, 0, 0, 39),
    (2, 4, 0, 40),
    (256, 0, 0, 40),
    (65_537, 0, 0, 40),
    (u32::MAX, 0, 0, 40),
];

fn small_jobs(out: &mut Cases) {
    let bytes = |axes, places, ratio| write(&small(axes, places, ratio)).bytes;
    let job = write(&small(0, 3, 1.0));
    let accepted = Expected::Accepted;
    let refused = Expected::Refused;
    add(out, "small", job.bytes.clone(), accepted, &SMALL_CALLS);
    add(out, "16 axes", bytes(16, 3, 1.0), accepted, &TWO);
    // The length field of the first face, past the count and the held byte.
    add(out, "17 axes", bytes(17, 3, 1.0), refused(23, 3), &TWO);
    // Three faces of three fields, and the counts of faces, overrides and families.
    let places = job.fields[12].at;
    let more = [TWO[0], TWO[1], (0, 1, 85, 40), (0, 1, 86, 40)];
    add(out, "64 places", bytes(0, 64, 1.0), accepted, &more);
    add(
        out,
        "65 places",
        bytes(0, 65, 1.0),
        refused(19, places),
        &more,
    );
    // The three places, the count of requests, and the first one's most.
    let ratio = job.fields[18].at;
    let next = 16f32.next_up();
    add(out, "ratio 16", bytes(0, 3, 16.0), accepted, &TWO);
    add(
        out,
        "ratio over 16",
        bytes(0, 3, next),
        refused(26, ratio),
        &TWO,
    );
}

fn long() -> Job {
    Job {
        faces: vec![face(true, font(300, 0, 1, 1_000_000))],
        overrides: vec![],
        families: vec![vec![0]],
        requests: vec![request(1, 1.0, 0, 700.0)],
    }
}

fn hundreds(i: u16) -> f32 {
    100.0 + 100.0 * f32::from(i % 9)
}

fn ratio(i: u16) -> f32 {
    [0.75, 1.0, 1.25][usize::from(i % 3)]
}

/// Numbers in steps, each as what is left after division.
fn numbers(count: u16, first: u16, step: u16, divisor: u16) -> Vec<u16> {
    (0..count).map(|i| (first + i * step) % divisor).collect()
}

/// Every count at its limit.
fn large() -> Job {
    let kind = |i: u16| (i / 3 % 4) as u8;
    let large_face = |i: u16| {
        let font = font(100 + 100 * (i % 9), usize::from(i % 3), (i % 4) as u8, 0);
        face(!i.is_multiple_of(5), font)
    };
    let given = |i: u16| Override {
        face: i * 7 % 256,
        ratio: Some(ratio(i).to_bits()),
        style: Some(style(kind(i))),
        weight: Some(hundreds(i).to_bits()),
        pairs: vec![(*b"wght", hundreds(i % 7).to_bits())],
    };
    let asked = |i: u16| {
        let most = [0, 1, 8, 65535][usize::from(i % 4)];
        Request {
            families: numbers(i, i, 1, 66),
            fallbacks: numbers(255 - i, i, 5, 66),
            ..request(most, ratio(i / 2), kind(i), hundreds(i))
        }
    };
    Job {
        faces: (0..256).map(large_face).collect(),
        overrides: (0..256).map(given).collect(),
        families: (0..64).map(|i| numbers(64, 4 * i, 3, 256)).collect(),
        requests: (0..256).map(asked).collect(),
    }
}

/// Ends of some lists, and what lies past them; some of these under reading 1.
const LARGE_CALLS: [Call; 16] = [
    (0, 0, 0, 40),
    (0, 1, 0, 40),
    (0, 1, 1, 40),
    (0, 3, 0, 40),
    (0, 3, 631, 40),
    (0, 3, 632, 40),
    (0, 127, 5, 40),
    (0, 254, 7, 40),
    (0, 254, 8, 40),
    (0, 255, 631, 40),
    (0, 255, 632, 40),
    (0, 256, 0, 40),
    (1, 3, 631, 40),
    (1, 255, 631, 40),
    (1, 256, 0, 40),
    (2, 0, 0, 40),
];

fn larger_jobs(out: &mut Cases) {
    let accepted = Expected::Accepted;
    let bytes = write(&long()).bytes;
    add(out, "long font", bytes, accepted, &TWO);
    let bytes = write(&large()).bytes;
    add(out, "large", bytes, accepted, &LARGE_CALLS);
}
