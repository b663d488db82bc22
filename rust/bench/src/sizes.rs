//! The jobs that are measured.

use jobs::{
    bytes::{FixedAxis, START, Table, cmap, filler, font, fvar, head, os2, post},
    layout::{Face, Job, Override, Request, Style, write},
};

/// A font with the five tables that are read and seven others, sorted by tag
/// as fonts have them; `glyf` is drawn out by the given bytes.
pub fn font_file(number: usize, more: usize) -> Vec<u8> {
    let weight = 100 * (1 + number % 9) as u16;
    let width = [5, 5, 3, 7][number / 9 % 4];
    let (selection, angle) = [(0x0040, 0), (0x0001, 0), (0x0200, 0xfff4_0000)][number / 36 % 3];
    let axis = |tag: [u8; 4], min: u32, default: u32, max: u32| FixedAxis {
        tag,
        min: min << 16,
        default: default << 16,
        max: max << 16,
    };
    let axes = [axis(*b"wght", 100, 400, 900), axis(*b"wdth", 75, 100, 125)];
    let subtables = cmap(&[(0, 3, 28), (1, 0, 28), (3, 1, 28)], 60);
    let other = |tag: &[u8; 4], bytes: usize| (*tag, filler(bytes, 11));
    let tables: [Table; 12] = [
        other(b"GSUB", 30),
        (*b"OS/2", os2(weight, width, selection)),
        (*b"cmap", subtables),
        (*b"fvar", fvar(&axes)),
        other(b"glyf", 64 + more),
        (*b"head", head(0)),
        other(b"hhea", 36),
        other(b"hmtx", 16),
        other(b"loca", 8),
        other(b"maxp", 32),
        other(b"name", 40),
        (*b"post", post(angle)),
    ];
    font(START, &tables)
}

fn faces(count: usize, more: usize) -> Vec<Face> {
    (0..count)
        .map(|number| Face {
            held: true,
            font: font_file(number, more),
            number: 0,
        })
        .collect()
}

fn style(number: usize) -> Style {
    let degrees = |angle: f32| Style {
        kind: 3,
        angle: angle.to_bits(),
    };
    [
        Style { kind: 0, angle: 0 },
        Style { kind: 1, angle: 0 },
        Style { kind: 2, angle: 0 },
        degrees(-12.0),
    ][number % 4]
}

/// A request that differs from the last one in weight, style and width.
fn request(number: usize, families: &[u16], fallbacks: &[u16]) -> Request {
    Request {
        most: 8,
        ratio: [1.0f32, 0.875, 1.125][number / 3 % 3].to_bits(),
        style: style(number / 2),
        weight: (50.0 + 75.0 * (number % 12) as f32).to_bits(),
        families: families.to_vec(),
        fallbacks: fallbacks.to_vec(),
    }
}

/// Two faces, one family, one request.
pub fn small() -> Vec<u8> {
    let mut job = Job {
        faces: faces(2, 0),
        families: vec![vec![0, 1]],
        ..Job::default()
    };
    job.requests = vec![request(3, &[0], &[])];
    write(&job).bytes
}

/// 12 faces, two families of them, 20 requests.
pub fn middle(more: usize) -> Vec<u8> {
    let job = Job {
        faces: faces(12, more),
        families: vec![(0..6).collect(), (6..12).collect()],
        requests: (0..20).map(|number| request(number, &[0], &[1])).collect(),
        ..Job::default()
    };
    write(&job).bytes
}

/// 256 faces, as many overrides, 64 families of 64, 256 requests.
pub fn large() -> Vec<u8> {
    let given = |face: usize| Override {
        face: face as u16,
        ratio: Some([1.0f32, 0.75, 1.25][face % 3].to_bits()),
        style: Some(style(face / 5)),
        weight: Some((100.0 * (1 + face % 9) as f32).to_bits()),
        pairs: vec![(*b"wght", (100.0 * (1 + face % 9) as f32).to_bits())],
    };
    let family = |number: usize| (0..64).map(move |place| ((4 * number + place) % 256) as u16);
    let job = Job {
        faces: faces(256, 0),
        overrides: (0..256).map(given).collect(),
        families: (0..64).map(|number| family(number).collect()).collect(),
        requests: (0..256)
            .map(|number| {
                let first = (number % 64) as u16;
                request(number, &[first, (first + 7) % 64], &[(first + 20) % 64])
            })
            .collect(),
    };
    write(&job).bytes
}

/// 255 family numbers that go through all 64 families, from the first one on;
/// each eighth is unknown.
fn long_list(first: usize) -> Vec<u16> {
    let number = |i: usize| match i % 8 {
        7 => 64 + i / 8,
        _ => (first + i - i / 8) % 64,
    };
    (0..255).map(|i| number(i) as u16).collect()
}

/// 256 faces, 64 families of 4 to 8, 256 requests with 255 families and 255
/// fallbacks each, cut by no most.
pub fn lists() -> Vec<u8> {
    let family = |number: usize| {
        let places = 0..4 + number % 5;
        places.map(move |place| ((4 * number + place) % 256) as u16)
    };
    let asked = |number: usize| Request {
        most: u16::MAX,
        ..request(number, &long_list(number), &long_list(number + 29))
    };
    let job = Job {
        faces: faces(256, 0),
        families: (0..64).map(|number| family(number).collect()).collect(),
        requests: (0..256).map(asked).collect(),
        ..Job::default()
    };
    write(&job).bytes
}

/// One family of the faces, one request.
pub fn family(count: usize) -> Vec<u8> {
    let job = Job {
        faces: faces(count, 0),
        families: vec![(0..count as u16).collect()],
        requests: vec![request(3, &[0], &[])],
        ..Job::default()
    };
    write(&job).bytes
}
