//! Random jobs that keep the layout; boundaries and ties are common.

use crate::{
    bytes::{
        FixedAxis, Member, START, Table, cmap, collection, filler, font_with_gaps, fvar, head, os2,
        post,
    },
    fonts::{CLASSES, font_number, random_file, random_last},
    layout::{Face, Job, Override, Request, Style},
    numbers::{BANDS, TAGS, nearby, ratio, some, style, weight},
    pools::{Pools, near},
    random::Random,
};

fn pools(r: &mut Random) -> Pools {
    let mut pools = Pools::draw(r, 2);
    // The defaults.
    if r.chance(1, 2) {
        pools.ratios.push(1.0);
        pools.styles.push(Style::NORMAL);
        pools.weights.push(400.0);
    }
    // Angles of one band or two, at one width.
    if r.chance(1, 4) {
        pools.ratios.truncate(1);
        pools.styles = some(r, 2, 4, |r| {
            let band = r.pick(&BANDS);
            Style::stated(r.pick(band))
        });
        if r.chance(1, 3) {
            pools
                .styles
                .push(r.pick(&[Style::NORMAL, Style::ITALIC, Style::UNSTATED]));
        }
    }
    pools
}

/// How large the parts of a job are.
#[derive(Copy, Clone, PartialEq)]
enum Shape {
    Small,
    ManyFaces,
    LongFamilies,
    ManyFamilies,
    ManyRequests,
    LongLists,
    ManyOverrides,
}

fn shape(r: &mut Random) -> Shape {
    match r.below(200) {
        0..=1 => Shape::ManyFaces,
        2..=5 => Shape::LongFamilies,
        6..=8 => Shape::ManyFamilies,
        9..=10 => Shape::ManyRequests,
        11..=12 => Shape::LongLists,
        13..=14 => Shape::ManyOverrides,
        _ => Shape::Small,
    }
}

/// How the axes of one job's faces are spread.
#[derive(Copy, Clone)]
enum Spread {
    Bare,
    Slant,
    Few,
    Varying,
    Many,
}

fn spread(r: &mut Random) -> Spread {
    match r.below(24) {
        0..=9 => Spread::Bare,
        10..=14 => Spread::Slant,
        15..=18 => Spread::Few,
        19..=22 => Spread::Varying,
        _ => Spread::Many,
    }
}

fn axis(r: &mut Random, tag: [u8; 4], pools: &Pools) -> FixedAxis {
    let number = |r: &mut Random| match r.below(4) {
        0 => r.bits(),
        1 => ((r.pick(&pools.weights) as i32) << 16) as u32,
        _ => (r.below(1001) as u32) << 16,
    };
    FixedAxis {
        tag,
        min: number(r),
        default: number(r),
        max: number(r),
    }
}

fn axes(r: &mut Random, spread: Spread, pools: &Pools) -> Vec<FixedAxis> {
    let tags: Vec<[u8; 4]> = match spread {
        Spread::Bare => Vec::new(),
        Spread::Slant if r.chance(1, 3) => vec![*b"slnt"],
        Spread::Slant => Vec::new(),
        Spread::Few => some(r, 0, 3, |r| r.pick(&TAGS)),
        // Each of the four that synthesis sets, in half of the faces.
        Spread::Varying => TAGS[..4]
            .iter()
            .copied()
            .filter(|_| r.chance(1, 2))
            .collect(),
        Spread::Many => some(r, 0, 16, |r| r.pick(&TAGS)),
    };
    tags.into_iter().map(|tag| axis(r, tag, pools)).collect()
}

fn small_cmap(r: &mut Random) -> Vec<u8> {
    if r.chance(2, 3) {
        return cmap(&[(3, 1, 12)], 2);
    }
    let pairs = CLASSES.concat();
    let count = r.within(1, 3);
    let records: Vec<(u16, u16, u32)> = (0..count)
        .map(|i| {
            let (platform, encoding) = r.pick(&pairs);
            (platform, encoding, (4 + 8 * count + i) as u32)
        })
        .collect();
    cmap(&records, count + 1)
}

/// What the fonts of one job are drawn from.
#[derive(Copy, Clone)]
struct Fonts<'a> {
    spread: Spread,
    pools: &'a Pools,
    /// No attributes of their own.
    bare: bool,
    /// Most of them oblique, with an angle.
    leaning: bool,
    /// Held in so many of four.
    held: usize,
}

impl<'a> Fonts<'a> {
    fn draw(r: &mut Random, shape: Shape, pools: &'a Pools) -> Self {
        let spread = spread(r);
        // Many faces are small ones, with one axis at most.
        let bare = shape == Shape::ManyFaces;
        Self {
            spread: if bare && !matches!(spread, Spread::Slant) {
                Spread::Bare
            } else {
                spread
            },
            pools,
            bare,
            leaning: r.chance(1, 4),
            held: r.pick(&[1, 3, 4, 4]),
        }
    }
}

/// So many faces, in one of six from a collection.
fn faces(r: &mut Random, count: usize, fonts: Fonts<'_>) -> Vec<Face> {
    let mut out = Vec::new();
    while out.len() < count {
        let left = count - out.len();
        if r.chance(1, 10) {
            collection_faces(r, left, fonts, &mut out);
        } else {
            out.push(face(r, fonts));
        }
    }
    out
}

/// A face of a font that is accepted, mostly; now and then of any file of the builder's.
fn face(r: &mut Random, fonts: Fonts<'_>) -> Face {
    let (font, number) = if r.chance(1, 150) {
        random_file(r)
    } else {
        let (start, tables) = font(r, fonts);
        let file = font_with_gaps(start, &tables, |_| r.pick(&[0, 0, 0, 0, 1, 3]));
        (file, 0)
    };
    Face {
        held: r.chance(fonts.held, 4),
        font,
        number,
    }
}

/// Up to three faces of one collection, whose fonts have one `cmap` or several.
fn collection_faces(r: &mut Random, left: usize, fonts: Fonts<'_>, out: &mut Vec<Face>) {
    let mut members = some(r, 1, 3, |r| font(r, fonts));
    if r.chance(1, 2) {
        let common = small_cmap(r);
        for (_, tables) in &mut members {
            let own = tables.iter_mut().find(|(tag, _)| tag == b"cmap");
            own.expect("every font has a cmap").1 = common.clone();
        }
    }
    let last = random_last(r);
    let file = collection(r.pick(&[1, 1, 2]), &members, last);
    for _ in 0..r.within(1, 3).min(left) {
        out.push(Face {
            held: r.chance(fonts.held, 4),
            font: file.clone(),
            number: font_number(r, members.len(), 60),
        });
    }
}

/// The start and the tables of a font that is accepted, mostly.
fn font(r: &mut Random, fonts: Fonts<'_>) -> Member {
    let Fonts {
        spread,
        pools,
        bare,
        ..
    } = fonts;
    let mut tables: Vec<Table> = vec![(*b"cmap", small_cmap(r))];
    let mut unneeded = Vec::new();
    if !bare {
        unneeded = attribute_tables(r, fonts, &mut tables);
    }
    let mut axes = axes(r, spread, pools);
    // Just within the limit, or over it.
    if r.chance(1, 400) {
        let count = r.within(15, 18);
        axes = (0..count)
            .map(|i| axis(r, TAGS[i % TAGS.len()], pools))
            .collect();
    }
    if !axes.is_empty() || r.chance(1, 20) {
        tables.push((*b"fvar", fvar(&axes)));
        // Cut in its header it gives no axes.
        if r.chance(1, 40) {
            let last = tables.last_mut().expect("the table");
            cut(r, last, 16);
        }
    }
    if r.chance(1, 20) {
        tables.push((*b"name", filler(r.below(8), 11)));
    }
    let turn = r.below(tables.len());
    tables.rotate_left(turn);
    // Behind the others, some of which may have the tag.
    tables.extend(unneeded);
    let start = r.pick(&[START, START, START, *b"OTTO", *b"true"]);
    (start, tables)
}

/// Puts the tables of the attributes, or none. Gives what may stand behind
/// them though it is damaged: nothing of it is needed.
fn attribute_tables(r: &mut Random, fonts: Fonts<'_>, tables: &mut Vec<Table>) -> Vec<Table> {
    let mut unneeded: Vec<Table> = Vec::new();
    if r.chance(if fonts.leaning { 9 } else { 3 }, 10) {
        let weight = r.pick(&[100, 300, 400, 400, 500, 700, 900, 65535]);
        let width = r.pick(&[0, 1, 3, 4, 5, 5, 5, 6, 8, 9]);
        let selection = match r.below(4) {
            1.. if fonts.leaning => 0x0200,
            _ => r.pick(&[0, 0, 0, 1, 0x0200, 0x0200, 0x0201]),
        };
        tables.push((*b"OS/2", os2(weight, width, selection)));
        if selection != 0x0200 {
            unneeded.push((*b"post", post(0)));
        } else if r.chance(3, 4) {
            tables.push((*b"post", post(post_angle(r, fonts.pools))));
            unneeded.push((*b"post", post(0)));
        }
        unneeded.push((*b"head", head(3)));
        unneeded.push((*b"OS/2", os2(1, 1, 1)));
    } else if r.chance(1, 6) {
        tables.push((*b"head", head(r.below(4) as u16)));
        unneeded.push((*b"head", head(3)));
        unneeded.push((*b"post", post(0)));
    } else {
        unneeded.push((*b"post", post(0)));
    }
    unneeded.retain(|_| r.chance(1, 16));
    for table in &mut unneeded {
        let needed = table.1.len();
        cut(r, table, needed);
    }
    unneeded
}

/// Angles of `post`: those that section 4 parts, of both signs, and the ends.
const POST_ANGLES: [u32; 12] = [
    0x000e_0000,
    0xfff2_0000,
    0x0014_0000,
    0xffec_0000,
    0x000b_8000,
    0xfff4_8000,
    0,
    0,
    1,
    0xffff_ffff,
    0x7fff_ffff,
    0x8000_0000,
];

/// An angle of the job's styles or its opposite, so that fonts and overrides
/// often have the same; or another.
fn post_angle(r: &mut Random, pools: &Pools) -> u32 {
    let style = r.pick(&pools.styles);
    if style.kind != 3 || r.chance(1, 2) {
        return r.pick(&POST_ANGLES);
    }
    let fixed = (f32::from_bits(style.angle) * 65536.0) as i32;
    r.pick(&[fixed, fixed.wrapping_neg()]) as u32
}

/// Leaves less of a table than is needed.
fn cut(r: &mut Random, (_, bytes): &mut Table, needed: usize) {
    let any = r.below(needed);
    bytes.truncate(r.pick(&[0, 1, needed - 1, needed - 1, any]));
}

fn override_entry(r: &mut Random, face: usize, fonts: Fonts<'_>) -> Override {
    let pools = fonts.pools;
    let mut mask = r.pick(&[7, 7, 7, 7, 0, 1, 2, 3, 4, 5, 6]);
    // Most faces that lean do so by what their files say.
    if fonts.leaning && r.chance(3, 4) {
        mask &= !2;
    }
    let pairs = if r.chance(1, 4) {
        let most = r.pick(&[1, 2, 3, 6]);
        some(r, 1, most, |r| {
            let tag = if r.chance(1, 10) {
                r.bits().to_be_bytes()
            } else {
                r.pick(&TAGS)
            };
            let value = r.pick(&pools.weights);
            (tag, nearby(r, value).to_bits())
        })
    } else {
        Vec::new()
    };
    Override {
        face: face as u16,
        ratio: (mask & 1 != 0).then(|| r.pick(&pools.ratios).to_bits()),
        style: (mask & 2 != 0).then(|| r.pick(&pools.styles)),
        weight: (mask & 4 != 0).then(|| r.pick(&pools.weights).to_bits()),
        pairs,
    }
}

fn overrides(r: &mut Random, shape: Shape, faces: usize, fonts: Fonts<'_>) -> Vec<Override> {
    if faces == 0 {
        return Vec::new();
    }
    let mut out = Vec::new();
    let part = r.pick(&[0, 2, 3, 4, 4]);
    for face in 0..faces {
        // Later ones for the same face win.
        while r.chance(part, 5) && out.len() < 256 {
            out.push(override_entry(r, face, fonts));
            if r.chance(4, 5) {
                break;
            }
        }
    }
    if shape == Shape::ManyOverrides {
        let count = r.pick(&[100, 255, 256]);
        while out.len() < count {
            let face = r.below(faces);
            out.push(override_entry(r, face, fonts));
        }
        let long = r.below(out.len());
        out[long].pairs = (0..255)
            .map(|_| (r.pick(&TAGS), weight(r).to_bits()))
            .collect();
    }
    // In turn, or as it comes.
    if r.chance(1, 2) {
        for i in (1..out.len()).rev() {
            out.swap(i, r.below(i + 1));
        }
    }
    out
}

fn families(r: &mut Random, shape: Shape, faces: usize) -> Vec<Vec<u16>> {
    let count = match shape {
        Shape::ManyFamilies => r.pick(&[5, 20, 63, 64]),
        Shape::ManyFaces => r.within(2, 4),
        Shape::LongLists => r.within(1, 3),
        _ => r.pick(&[0, 1, 1, 1, 2, 2, 3, 4]),
    };
    let mut out = Vec::new();
    for _ in 0..count {
        let places = match shape {
            _ if faces == 0 => 0,
            Shape::LongFamilies | Shape::ManyFaces => match r.below(4) {
                0 => r.within(2, 12),
                1 => r.within(2, 63),
                _ => 64,
            },
            Shape::LongLists => r.below(4),
            _ => r.pick(&[0, 1, 2, 2, 3, 3, 4, 5, 6, 8]),
        };
        out.push(members(r, places, faces.max(1)));
    }
    out
}

/// The faces of so many places: in turn from some face on, and around, or so
/// backwards; of the last ones; one alone; or as it comes.
fn members(r: &mut Random, places: usize, faces: usize) -> Vec<u16> {
    let first = r.below(faces);
    let late = faces.saturating_sub(r.pick(&[8, 55, 64, 128]));
    let way = r.below(12);
    let number = |place: usize| match way {
        0..=2 => (first + place) % faces,
        3..=4 => (first + faces - place % faces) % faces,
        5..=7 => r.within(late, faces - 1),
        8 => first,
        _ => r.below(faces),
    };
    (0..places).map(number).map(|face| face as u16).collect()
}

fn list(r: &mut Random, shape: Shape, families: usize, most: usize) -> Vec<u16> {
    let count = match shape {
        Shape::LongLists => r.pick(&[40, 254, 255]),
        _ => r.below(most + 1),
    };
    (0..count)
        .map(|_| match r.below(8) {
            // Unknown, or just so.
            0 => r.pick(&[families as u16, 63, 64, 255, 256, 65535]),
            _ => r.below(families.max(1)) as u16,
        })
        .collect()
}

fn requested_style(r: &mut Random, pools: &Pools) -> Style {
    match r.below(4) {
        0 => r.pick(&pools.styles),
        1 => match r.pick(&pools.styles) {
            Style { kind: 3, angle } => Style::stated(nearby(r, f32::from_bits(angle))),
            _ => r.pick(&[
                Style::NORMAL,
                Style::ITALIC,
                Style::UNSTATED,
                Style::stated(14.0),
            ]),
        },
        2 => r.pick(&[
            Style::NORMAL,
            Style::ITALIC,
            Style::UNSTATED,
            Style::stated(-14.0),
            Style::stated(4.0),
            Style::stated(-4.0),
        ]),
        _ => style(r),
    }
}

fn request(r: &mut Random, shape: Shape, families: usize, pools: &Pools) -> Request {
    let ratio = pools.ratio(r);
    let style = requested_style(r, pools);
    let weight = match r.below(6) {
        0..=1 => r.pick(&pools.weights),
        2 => near(r, &pools.weights),
        3 => {
            let near = r.pick(&pools.weights) + 200.0;
            nearby(r, near)
        }
        4 => near(r, &[400.0, 450.0, 500.0]),
        _ => weight(r),
    };
    Request {
        most: r.pick(&[0, 1, 2, 3, 8, 8, 8, 8, 65535, 65535, 65535]),
        ratio: ratio.to_bits(),
        style,
        weight: weight.to_bits(),
        families: list(r, shape, families, 4),
        fallbacks: list(r, shape, families, 2),
    }
}

/// An override of every attribute.
pub fn full_override(r: &mut Random, face: usize) -> Override {
    Override {
        face: face as u16,
        ratio: Some(ratio(r).to_bits()),
        style: Some(style(r)),
        weight: Some(weight(r).to_bits()),
        pairs: Vec::new(),
    }
}

/// A job that keeps the layout and the limits; one of its fonts may be refused.
pub fn job(r: &mut Random) -> Job {
    let shape = shape(r);
    let pools = pools(r);
    let fonts = Fonts::draw(r, shape, &pools);
    let count = match shape {
        Shape::ManyFaces => r.pick(&[40, 64, 65, 200, 255, 256, 256, 256]),
        _ if r.chance(1, 40) => 0,
        _ => r.pick(&[1, 2, 2, 3, 3, 4, 4, 5, 6, 8, 12]),
    };
    let faces = faces(r, count, fonts);
    let families = families(r, shape, faces.len());
    let count = match shape {
        Shape::ManyRequests => r.pick(&[30, 255, 256]),
        Shape::LongLists => r.within(1, 2),
        _ => r.pick(&[0, 1, 1, 2, 2, 3, 4, 6]),
    };
    Job {
        overrides: overrides(r, shape, faces.len(), fonts),
        requests: (0..count)
            .map(|_| request(r, shape, families.len(), &pools))
            .collect(),
        faces,
        families,
    }
}

#[cfg(test)]
mod tests {
    use super::*;

    /// Whether a request names one of so many families three times or more.
    fn names_again(request: &Request, families: usize) -> bool {
        let named = || request.families.iter().chain(&request.fallbacks);
        let times = |family: usize| named().filter(|n| usize::from(**n) == family).count();
        (0..families).any(|family| times(family) >= 3)
    }

    /// Long families of late faces are not rare, nor are families that are named again.
    #[test]
    fn late_faces_and_families_named_again() {
        let mut r = Random::new(2026);
        let (mut over_127, mut over_200, mut again) = (0, 0, 0);
        for _ in 0..10_000 {
            let job = job(&mut r);
            let long = |family: &&Vec<u16>| family.len() == 64;
            let last = job.families.iter().filter(long).flatten().max();
            over_127 += u32::from(last.is_some_and(|last| *last > 127));
            over_200 += u32::from(last.is_some_and(|last| *last > 200));
            let families = job.families.len();
            again += u32::from(job.requests.iter().any(|q| names_again(q, families)));
        }
        println!("over 127: {over_127}, over 200: {over_200}, named again: {again}");
        assert!(over_127 >= 30 && over_200 >= 20 && again >= 3000);
    }
}
