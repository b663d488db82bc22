//! The list of jobs: those made for a purpose, then random ones.

use plain::job::BYTES;

use crate::{
    bytes::{FixedAxis, START, Table, font, fvar, os2, plain_cmap},
    damage::{self, Expected, Way},
    generate,
    layout::{Face, Job, Override, Request, Style, Written, write},
    random::Random,
};

mod collections;
mod damaged;
mod named;
mod readings;
mod stages;

/// How many random jobs the stored list has.
pub const RANDOM_JOBS: usize = 225;

/// A job's bytes and what is known of it.
pub struct Case {
    pub label: String,
    pub bytes: Vec<u8>,
    pub expected: Expected,
}

/// The jobs for a purpose; they are the same for every seed.
pub fn made() -> Vec<Case> {
    let mut list = List(Vec::new());
    pairs(&mut list);
    faces_to_try(&mut list);
    style_grids(&mut list);
    weight_grid(&mut list);
    width_grid(&mut list);
    axis_sets(&mut list);
    override_masks(&mut list);
    override_axes(&mut list);
    limits(&mut list);
    every_field(&mut list, "every kind of field", &job_of_every_field());
    collections::jobs(&mut list);
    damaged::jobs(&mut list);
    stages::jobs(&mut list);
    named::jobs(&mut list);
    readings::jobs(&mut list);
    list.0
}

/// Jobs of the most bytes, and of one more: an accepted one, and zeros. Large,
/// so not among those for a purpose, and made one by one.
pub fn largest() -> impl Iterator<Item = Case> {
    let sizes = [("the most", BYTES), ("one over the most", BYTES + 1)];
    let faces = sizes.map(|(label, size)| (label, size, true));
    let zeros = sizes.map(|(label, size)| (label, size, false));
    let all = faces.into_iter().chain(zeros);
    all.map(|(label, size, faces)| {
        let (label, bytes, accepted) = if faces {
            (
                format!("{label} bytes"),
                large_job(size),
                Expected::Accepted,
            )
        } else {
            let left = Expected::Refused(27, 8);
            (format!("{label} zeros"), vec![0; size], left)
        };
        let expected = match size {
            BYTES => accepted,
            _ => Expected::Refused(17, 0),
        };
        Case {
            label,
            bytes,
            expected,
        }
    })
}

/// Two faces, one of them as long as it takes; the family is named again.
fn large_job(size: usize) -> Vec<u8> {
    let mut job = Job {
        faces: vec![face(400), face(700)],
        families: vec![vec![0, 1]],
        requests: vec![Request {
            families: vec![0, 9, 0],
            fallbacks: vec![0],
            ..request(1.0, 700.0)
        }],
        ..Job::default()
    };
    let more = size - write(&job).bytes.len();
    let length = job.faces[1].font.len() + more;
    job.faces[1].font.resize(length, 0);
    write(&job).bytes
}

/// Random jobs without an end.
pub fn random(seed: u64) -> impl Iterator<Item = Case> {
    let mut r = Random::new(seed);
    (0..).map(move |number| random_case(&mut r, number))
}

/// More than half of them keep the layout, and one in twenty has a font with
/// damaged tables.
fn random_case(r: &mut Random, number: usize) -> Case {
    let job = generate::job(r);
    let (bytes, expected) = match r.below(20) {
        0 => damage::tables(r, job),
        1..=12 => (write(&job).bytes, Expected::Accepted),
        _ => damage::random(r, &write(&job)),
    };
    Case {
        label: format!("random {number}"),
        bytes,
        expected,
    }
}

struct List(Vec<Case>);

impl List {
    fn add(&mut self, label: impl Into<String>, (bytes, expected): (Vec<u8>, Expected)) {
        self.0.push(Case {
            label: label.into(),
            bytes,
            expected,
        });
    }

    fn accepted(&mut self, label: impl Into<String>, job: &Job) {
        self.add(label, (write(job).bytes, Expected::Accepted));
    }

    /// The job is accepted within a limit, else refused with number and position.
    fn limited(&mut self, label: String, job: &Job, within: bool, refusal: (u32, usize)) {
        let expected = match refusal {
            _ if within => Expected::Accepted,
            (number, position) => Expected::Refused(number, position),
        };
        self.add(label, (write(job).bytes, expected));
    }
}

/// A held face of a font by itself.
fn held(tables: &[Table]) -> Face {
    Face {
        held: true,
        font: font(START, tables),
        number: 0,
    }
}

fn face(weight: u16) -> Face {
    held(&[(*b"OS/2", os2(weight, 5, 0)), (*b"cmap", plain_cmap())])
}

fn bare_face() -> Face {
    held(&[(*b"cmap", plain_cmap())])
}

fn face_with_axes(tags: &[[u8; 4]]) -> Face {
    let axis = |tag: &[u8; 4]| FixedAxis {
        tag: *tag,
        min: 0,
        default: 400 << 16,
        max: 900 << 16,
    };
    let axes: Vec<FixedAxis> = tags.iter().map(axis).collect();
    held(&[(*b"cmap", plain_cmap()), (*b"fvar", fvar(&axes))])
}

fn axes(count: usize) -> Face {
    let tag = |i: usize| [b'A', b'X', b'0' + (i / 10) as u8, b'0' + (i % 10) as u8];
    let tags: Vec<[u8; 4]> = (0..count).map(tag).collect();
    face_with_axes(&tags)
}

fn request(ratio: f32, weight: f32) -> Request {
    Request {
        most: 8,
        ratio: ratio.to_bits(),
        weight: weight.to_bits(),
        families: vec![0],
        ..Request::default()
    }
}

/// Section 7 of docs/GUIDE.md: its example and its pairs.
fn pairs(list: &mut List) {
    let example = Job {
        faces: vec![face(400), face(700)],
        families: vec![vec![0, 1]],
        requests: vec![request(1.0, 700.0)],
        ..Job::default()
    };
    list.accepted("example of section 7", &example);
    list.accepted("eight zero bytes", &Job::default());
    list.add("nine zero bytes", (vec![0; 9], Expected::Refused(27, 8)));
    for count in [16, 17] {
        let mut job = example.clone();
        job.faces[0] = axes(count);
        let label = format!("{count} axes");
        list.limited(label, &job, count == 16, (23, 3));
    }
    for places in [64, 65] {
        let mut job = example.clone();
        job.families = vec![(0..places).map(|place| place % 2).collect()];
        job.requests[0].most = 100;
        let label = format!("{places} places");
        let faces = write(&example).fields[7].at;
        list.limited(label, &job, places == 64, (19, faces + 4));
    }
    for ratio in [16.0f32, 16f32.next_up()] {
        let mut job = example.clone();
        job.requests[0].ratio = ratio.to_bits();
        let end = write(&job).bytes.len();
        let label = format!("ratio {ratio}");
        list.limited(label, &job, ratio == 16.0, (26, end - 17));
    }
}

/// Ratio, style and weight.
type Attributes = (f32, Style, f32);

const fn of_width(ratio: f32) -> Attributes {
    (ratio, Style::NORMAL, 400.0)
}

const fn of_style(style: Style) -> Attributes {
    (1.0, style, 400.0)
}

const fn of_angle(angle: f32) -> Attributes {
    of_style(Style::stated(angle))
}

const fn of_weight(weight: f32) -> Attributes {
    (1.0, Style::NORMAL, weight)
}

fn asking((ratio, style, weight): Attributes) -> Request {
    Request {
        style,
        ..request(ratio, weight)
    }
}

/// A request for every offer of so many families.
fn asking_all(families: u16, asked: Attributes) -> Request {
    Request {
        most: 65535,
        families: (0..families).collect(),
        ..asking(asked)
    }
}

/// An override of a face that gives what the mask names.
fn given(face: usize, mask: usize, (ratio, style, weight): Attributes) -> Override {
    Override {
        face: face as u16,
        ratio: (mask & 1 != 0).then_some(ratio.to_bits()),
        style: (mask & 2 != 0).then_some(style),
        weight: (mask & 4 != 0).then_some(weight.to_bits()),
        pairs: Vec::new(),
    }
}

/// One face for each, by way of an override; the slanted ones have the axis.
fn overridden(faces: &[Attributes], slanted: impl Fn(usize) -> bool) -> Job {
    let mut job = Job::default();
    for (i, attributes) in faces.iter().enumerate() {
        job.faces.push(if slanted(i) {
            face_with_axes(&[*b"slnt"])
        } else {
            bare_face()
        });
        job.overrides.push(given(i, 7, *attributes));
    }
    job
}

const FOURTEEN: [Attributes; 2] = [of_style(Style::UNSTATED), of_angle(14.0)];
const LEFT: [Attributes; 2] = [of_angle(-10.0), of_angle(-20.0)];

/// Section 7 of docs/GUIDE.md, by its numbers: two faces and a request.
const TWO_FACES: [(u32, [Attributes; 2], Attributes); 11] = [
    (1, [of_weight(300.0), of_weight(600.0)], of_weight(450.0)),
    (2, [of_weight(400.0), of_weight(500.0)], of_weight(450.0)),
    (3, [of_weight(350.0), of_weight(350.0)], of_weight(400.0)),
    (4, [of_weight(600.0), of_weight(600.0)], of_weight(550.0)),
    (5, [of_width(0.75), of_width(1.25)], of_width(1.0)),
    (5, [of_width(0.75), of_width(1.25)], of_width(1.125)),
    (6, FOURTEEN, of_style(Style::ITALIC)),
    (6, FOURTEEN, of_angle(20.0)),
    (7, LEFT, of_angle(-14.0)),
    (7, LEFT, of_angle(-13.5)),
    (
        9,
        [of_style(Style::NORMAL), of_angle(0.0)],
        of_style(Style::ITALIC),
    ),
];

/// Section 7 of docs/GUIDE.md; 12 is no matter of a job.
fn faces_to_try(list: &mut List) {
    let mut add = |number: u32, mut job: Job, request: Attributes| {
        job.families = vec![(0..job.faces.len() as u16).collect()];
        job.requests = vec![asking(request)];
        list.accepted(format!("section 7, {number}"), &job);
    };
    for (number, faces, request) in TWO_FACES {
        add(number, overridden(&faces, |_| false), request);
    }
    for (number, own) in [(8, Style::NORMAL), (13, Style::stated(0.0))] {
        let job = overridden(&[of_style(own); 2], |i| i == 1);
        add(number, job, of_angle(14.0));
    }
    let one = overridden(&[of_weight(400.0)], |_| false);
    for asked in [600.0, 601.0] {
        add(10, one.clone(), of_weight(asked));
    }
    for asked in [0.9, -14.9, 200.0, -200.0] {
        add(11, one.clone(), of_angle(asked));
    }
}

/// 64 families of two to five of the faces, and requests for all of them.
fn grid(list: &mut List, label: &str, mut job: Job, requests: &[Attributes]) {
    let mut r = Random::new(job.faces.len() as u64);
    let faces = job.faces.len();
    job.families = (0..64)
        .map(|_| {
            let places = r.within(2, 5);
            (0..places).map(|_| r.below(faces) as u16).collect()
        })
        .collect();
    job.requests = requests.iter().map(|q| asking_all(64, *q)).collect();
    list.accepted(label, &job);
}

/// Styles at their edges.
const STYLES: [Style; 15] = [
    Style::NORMAL,
    Style::ITALIC,
    Style::UNSTATED,
    Style::stated(14.0),
    Style::stated(14f32.next_up()),
    Style::stated(14f32.next_down()),
    Style::stated(20.0),
    Style::stated(5.0),
    Style::stated(0.0),
    Style::stated(-0.0),
    Style::stated(-5.0),
    Style::stated(-14.0),
    Style::stated((-14f32).next_down()),
    Style::stated((-14f32).next_up()),
    Style::stated(-20.0),
];

fn style_grids(list: &mut List) {
    let faces = STYLES.map(of_style);
    let mut asked = faces.to_vec();
    asked.extend([4.0, -4.0, 16.0, -16.0].map(of_angle));
    grid(list, "styles", overridden(&faces, |_| false), &asked);
    // Twice each, some of them slanted.
    let slanted = |i: usize| i > 15 && i.is_multiple_of(3);
    let twice = overridden(&faces.repeat(2), slanted);
    grid(list, "styles, slanted", twice, &asked);
    // One side only, unstated beside stated 14: its order decides.
    let near = [
        Style::UNSTATED,
        Style::stated(14.0),
        Style::stated(12.0),
        Style::stated(16.0),
        Style::NORMAL,
    ];
    let near = overridden(&near.map(of_style), |_| false);
    grid(list, "styles beside 14", near, &asked);
}

/// Weights at their edges.
fn weight_grid(list: &mut List) {
    let weights = [
        -0.0, 0.0, 300.0, 399.0, 400.0, 401.0, 450.0, 450.0, 499.0, 500.0, 501.0, 600.0, 700.0,
    ];
    let asked = [
        0.0,
        350.0,
        400f32.next_down(),
        400.0,
        425.0,
        450.0,
        500.0,
        500f32.next_up(),
        550.0,
        800.0,
    ];
    let job = overridden(&weights.map(of_weight), |_| false);
    grid(list, "weights", job, &asked.map(of_weight));
}

/// Widths at their edges.
fn width_grid(list: &mut List) {
    let ratios = [
        0.0, -0.0, 0.5, 0.87109375, 0.875, 0.99, 1.0, 1.005, 1.01, 1.125, 1.25, 16.0,
    ];
    let faces = ratios.map(of_width);
    let mut asked = faces.to_vec();
    asked.extend([0.7, 0.98, 1.02, 2.0].map(of_width));
    grid(list, "widths", overridden(&faces, |_| false), &asked);
}

/// A face for each set of the axes that synthesis sets, each a family alone.
fn axis_sets(list: &mut List) {
    let tags = [*b"wght", *b"wdth", *b"slnt", *b"ital"];
    let mut job = Job::default();
    for set in 0..16u16 {
        let tags: Vec<[u8; 4]> = (0..4)
            .filter(|bit| set & (1 << bit) != 0)
            .map(|bit| tags[bit])
            .collect();
        job.faces.push(face_with_axes(&tags));
        job.families.push(vec![set]);
    }
    let asked: [Attributes; 12] = [
        (1.0, Style::NORMAL, 400.0),
        (1.0, Style::NORMAL, 600.0),
        (1.0, Style::NORMAL, 600f32.next_up()),
        (1.0, Style::ITALIC, 399.0),
        (0.875, Style::UNSTATED, 400.0),
        (-0.0, Style::stated(14.5), 400.0),
        (1f32.next_up(), Style::stated(-0.0), 700.0),
        (1.0, Style::stated(0.0), 400.0),
        (2.0, Style::stated(-0.9), 900.0),
        (1.0, Style::stated(-128.5), 400.0),
        (1.0, Style::stated(-129.0), 400.0),
        (16.0, Style::stated(f32::MAX), f32::MAX),
    ];
    job.requests = asked.map(|asked| asking_all(16, asked)).to_vec();
    list.accepted("sets of axes", &job);
}

/// Every mask over a face that has other attributes of its own, and overrides
/// of one face in turn.
fn override_masks(list: &mut List) {
    let mut job = Job::default();
    let narrow = [(*b"OS/2", os2(700, 3, 1)), (*b"cmap", plain_cmap())];
    // Masks 0 to 7; then each of them before another override of the face.
    for face in 0..16 {
        job.faces.push(held(&narrow));
        job.overrides
            .push(given(face, face % 8, (1.25, Style::stated(10.0), 300.0)));
        if face >= 8 {
            job.overrides
                .push(given(face, 5, (0.5, Style::ITALIC, 900.0)));
            job.overrides
                .push(given(face, 2, (1.0, Style::UNSTATED, 1.0)));
        }
        // Each beside one with the attributes of the file.
        job.families.push(vec![0, face as u16]);
    }
    let asked = [
        (0.75, Style::ITALIC, 700.0),
        (1.25, Style::stated(10.0), 300.0),
        (0.5, Style::UNSTATED, 900.0),
        (1.25, Style::ITALIC, 700.0),
        (0.75, Style::NORMAL, 200.0),
    ];
    job.requests = asked.map(|asked| asking_all(16, asked)).to_vec();
    list.accepted("overrides with every mask", &job);
}

/// Pairs of tags that are there twice, once or not.
fn override_axes(list: &mut List) {
    let tags = [*b"GRAD", *b"wght", *b"wght"];
    let pair = |tag: &[u8; 4], value: f32| (*tag, value.to_bits());
    let lists = [
        vec![],
        vec![pair(b"wght", 500.0)],
        vec![pair(b"wght", 500.0), pair(b"wght", 600.0)],
        vec![pair(b"wght", 600.0), pair(b"GRAD", 500.0)],
        vec![pair(b"wghT", 500.0), pair(b"wdth", 500.0)],
        vec![pair(b"wght", -0.0), pair(b"    ", 1.0)],
    ];
    let mut job = Job::default();
    for (face, pairs) in lists.into_iter().enumerate() {
        job.faces.push(face_with_axes(&tags));
        job.families.push(vec![face as u16]);
        job.overrides.push(Override {
            face: face as u16,
            pairs,
            ..Override::default()
        });
    }
    for weight in [400.0, 500.0, 600.0, 0.0] {
        job.requests.push(Request {
            families: (0..6).collect(),
            ..request(1.0, weight)
        });
    }
    list.accepted("overrides of axes", &job);
}

/// Each count at its limit and one over it, the entries being there.
fn limits(list: &mut List) {
    let few = Job {
        faces: vec![bare_face()],
        families: vec![vec![0]],
        requests: vec![request(1.0, 700.0)],
        ..Job::default()
    };
    for count in [256, 257] {
        faces_of_count(list, few.clone(), count);
        overrides_of_count(list, few.clone(), count);
        requests_of_count(list, few.clone(), count);
    }
    for count in [64, 65] {
        let mut job = few.clone();
        job.families = vec![vec![0]; count];
        job.requests[0].families = vec![count as u16 - 1, count as u16, 0];
        let start = write(&few).fields[5].at;
        let label = format!("{count} families");
        list.limited(label, &job, count == 64, (19, start));
    }
    byte_counts(list, few);
    list.accepted("every count at its limit", &full());
}

fn faces_of_count(list: &mut List, mut job: Job, count: usize) {
    job.faces = vec![bare_face(); count];
    job.families[0] = vec![count as u16 - 1, 0];
    let label = format!("{count} faces");
    list.limited(label, &job, count == 256, (19, 0));
}

fn overrides_of_count(list: &mut List, mut job: Job, count: usize) {
    let start = write(&job).fields[4].at;
    let weight = |i: usize| Override {
        weight: Some((i as f32).to_bits()),
        ..Override::default()
    };
    job.overrides = (0..count).map(weight).collect();
    let label = format!("{count} overrides");
    list.limited(label, &job, count == 256, (19, start));
}

fn requests_of_count(list: &mut List, mut job: Job, count: usize) {
    let asked = |i: usize| Request {
        families: vec![0; i % 2],
        ..request(1.0, 600.0 + (i % 3) as f32)
    };
    job.requests = (0..count).map(asked).collect();
    let entries: usize = job.requests.iter().map(|q| 17 + 2 * q.families.len()).sum();
    let start = write(&job).bytes.len() - entries - 2;
    let label = format!("{count} requests");
    list.limited(label, &job, count == 256, (19, start));
}

/// Byte counts have no limit.
fn byte_counts(list: &mut List, mut job: Job) {
    job.faces[0] = axes(2);
    job.overrides = vec![Override {
        pairs: (0..255u8)
            .map(|i| ([b'A', b'X', b'0', b'0' + i % 3], f32::from(i).to_bits()))
            .collect(),
        ..Override::default()
    }];
    job.requests[0].families = vec![0; 255];
    job.requests[0].fallbacks = vec![0; 255];
    job.requests[0].most = 65535;
    list.accepted("255 pairs, families and fallbacks", &job);
}

/// Everything at once.
fn full() -> Job {
    let style = |i: u16| Style {
        kind: (i % 3) as u8,
        angle: 0,
    };
    let hundreds = |i: u16| 100.0 * f32::from(i);
    let full_face = |i: u16| Face {
        held: !i.is_multiple_of(5),
        ..bare_face()
    };
    let given = |i: u16| Override {
        face: i * 7 % 256,
        weight: Some(hundreds(i % 9).to_bits()),
        style: Some(style(i)),
        ..Override::default()
    };
    let asked = |i: u16| Request {
        most: i % 9,
        style: style(i),
        families: vec![i % 65],
        fallbacks: vec![i * 5 % 64],
        ..request(1.0, hundreds(i % 10))
    };
    let family = |f: u16| (0..64).map(|p| (f * 4 + p * 3) % 256).collect();
    Job {
        faces: (0..256).map(full_face).collect(),
        overrides: (0..256).map(given).collect(),
        families: (0..64).map(family).collect(),
        requests: (0..256).map(asked).collect(),
    }
}

/// A small job that has every kind of field but a font number.
fn job_of_every_field() -> Job {
    let slope = Style {
        kind: 3,
        angle: 12.5f32.to_bits(),
    };
    Job {
        faces: vec![bare_face(), bare_face()],
        overrides: vec![
            Override {
                face: 1,
                ratio: Some(0.75f32.to_bits()),
                style: Some(slope),
                weight: Some(700f32.to_bits()),
                pairs: vec![(*b"wght", 650f32.to_bits())],
            },
            Override::default(),
            Override {
                face: 1,
                style: Some(Style { kind: 1, angle: 0 }),
                ..Override::default()
            },
        ],
        families: vec![vec![0, 1], vec![]],
        requests: vec![
            Request {
                style: slope,
                families: vec![0, 9],
                fallbacks: vec![1],
                ..request(1.0, 400.0)
            },
            request(0.75, 900.0),
        ],
    }
}

/// A small job: each cut of it, each way to damage each field of it, and pairs of damages.
fn every_field(list: &mut List, label: &str, job: &Job) {
    let written = write(job);
    list.accepted(label, job);
    for length in 0..written.bytes.len() {
        let label = format!("{label}, first {length} bytes");
        list.add(label, damage::cut(&written, length));
    }
    for more in [&[0u8] as &[u8], &[1], &[0, 0], &[0; 8]] {
        let label = format!("{label}, {} bytes left", more.len());
        list.add(label, damage::with_more(&written, more));
    }
    let fields = written.fields.iter();
    let ways: Vec<Vec<Way>> = fields.map(|field| damage::ways(&written, *field)).collect();
    for way in ways.iter().flatten() {
        let label = format!("{label}, {:?} at {}", way.field.kind, way.field.at);
        let ways = std::slice::from_ref(way);
        list.add(label, damage::with_ways(&written, ways));
    }
    two_damages(list, &written, &ways);
}

/// A field and the next that can be damaged: the first is met first.
fn two_damages(list: &mut List, written: &Written, ways: &[Vec<Way>]) {
    let refused: Vec<&Way> = ways
        .iter()
        .filter_map(|ways| {
            let mut ways = ways.iter();
            ways.find(|way| !matches!(way.expected, Expected::Accepted | Expected::Unknown))
        })
        .collect();
    for two in refused.windows(2) {
        let label = format!("fields at {} and {}", two[0].field.at, two[1].field.at);
        let two = [two[1].clone(), two[0].clone()];
        list.add(label, damage::with_ways(written, &two));
    }
}

#[cfg(test)]
mod tests {
    use super::*;
    use crate::layout::parts;

    /// The default list is small, and the same seed gives the same one.
    #[test]
    fn list_is_small_and_repeats() {
        let all = |seed| -> Vec<Vec<u8>> {
            let cases = made().into_iter().chain(random(seed).take(RANDOM_JOBS));
            cases.map(|case| case.bytes).collect()
        };
        let one = all(1);
        let size: usize = one.iter().map(|bytes| 4 + bytes.len()).sum();
        assert!(size < 600_000, "{size}");
        assert!(one.iter().all(|bytes| bytes.len() <= 65_536));
        assert!(one == all(1));
        assert!(one != all(2));
    }

    #[test]
    fn sizes_of_the_largest() {
        let sizes: Vec<usize> = largest().map(|case| case.bytes.len()).collect();
        assert_eq!(sizes, [BYTES, BYTES + 1, BYTES, BYTES + 1]);
    }

    /// What is written is read back as the same parts.
    #[test]
    fn parts_of_what_is_written() {
        let mut r = Random::new(5);
        for _ in 0..2000 {
            let written = write(&generate::job(&mut r)).bytes;
            let job = parts(&written).expect("a job that keeps the layout");
            assert_eq!(write(&job).bytes, written);
            assert_eq!(parts(&written[..written.len() - 1]), None);
        }
    }

    /// The fields stand one after another and fill the job.
    #[test]
    fn fields_fill_the_job() {
        let mut r = Random::new(6);
        for _ in 0..200 {
            let written = write(&generate::job(&mut r));
            let end = written.fields.iter().fold(0, |at, field| {
                assert_eq!(field.at, at);
                at + field.size
            });
            assert_eq!(end, written.bytes.len());
        }
    }
}
