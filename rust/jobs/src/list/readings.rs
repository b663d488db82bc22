//! Jobs whose offers depend on the reading: fonts that lean, and axes for it.

use super::{
    Attributes, Job, List, Request, asking_all, given, held, of_angle, of_style, of_weight,
};
use crate::{
    bytes::{FixedAxis, Member, START, Table, collection, font, fvar, os2, plain_cmap, post},
    families::readings::ASKED,
    layout::{Face, Style},
    random::Random,
};

pub fn jobs(list: &mut List) {
    both_sides(list);
    two_faces(list);
    every_angle(list);
    beside_others(list);
    overridden_angles(list);
    slant_axes(list);
    one_side_with_an_axis(list);
    collected(list);
}

/// Bits of fsSelection.
const NORMAL: u16 = 0;
const ITALIC: u16 = 1 << 0;
const OBLIQUE: u16 = 1 << 9;

/// A 16.16 number of whole degrees.
const fn degrees(number: i16) -> u32 {
    (number as u32) << 16
}

/// The tables of a face with a `post` angle.
fn tables(selection: u16, angle: u32) -> Vec<Table> {
    vec![
        (*b"OS/2", os2(400, 5, selection)),
        (*b"post", post(angle)),
        (*b"cmap", plain_cmap()),
    ]
}

fn leaning(angle: u32) -> Face {
    held(&tables(OBLIQUE, angle))
}

/// An oblique without `post`.
fn unstated() -> Face {
    held(&[(*b"OS/2", os2(400, 5, OBLIQUE)), (*b"cmap", plain_cmap())])
}

/// All families are asked for each style.
fn job(faces: Vec<Face>, families: Vec<Vec<u16>>, styles: &[Style]) -> Job {
    let count = families.len() as u16;
    let asked = |style: &Style| -> Request { asking_all(count, of_style(*style)) };
    Job {
        requests: styles.iter().map(asked).collect(),
        faces,
        families,
        ..Job::default()
    }
}

/// One face leans right and one left, in both orders.
fn both_sides(list: &mut List) {
    let faces = vec![leaning(degrees(-12)), leaning(degrees(12))];
    let families = vec![vec![0, 1], vec![1, 0], vec![0], vec![1]];
    let job = job(faces, families, &ASKED);
    list.accepted("readings, both sides", &job);
}

/// Two faces of which one leans at least, in both orders.
fn two_faces(list: &mut List) {
    let leaning = [-20, -12, 12, 20].map(|angle| {
        let label = format!("{angle} degrees");
        (label, leaning(degrees(angle)))
    });
    let others = [
        ("0 degrees", held(&tables(OBLIQUE, 0))),
        ("unstated", unstated()),
        ("italic", held(&tables(ITALIC, degrees(-12)))),
        ("upright", held(&tables(NORMAL, degrees(-12)))),
        ("slnt", upright(&[*b"slnt"])),
    ];
    let others = others.map(|(label, face)| (label.to_string(), face));
    let all = [leaning.to_vec(), others.to_vec()].concat();
    for (i, (label, face)) in leaning.iter().enumerate() {
        for (other_label, other) in &all[i + 1..] {
            let faces = vec![face.clone(), other.clone()];
            let families = vec![vec![0, 1], vec![1, 0]];
            let job = job(faces, families, &ASKED[..7]);
            list.accepted(format!("readings, {label} and {other_label}"), &job);
        }
    }
}

/// Angles at the ends and around zero: each but zero beside the next, among
/// them numbers beside their opposites, and all but the last beside zero.
fn every_angle(list: &mut List) {
    let angles = [
        0,
        1,
        0xffff_ffff,
        0x7fff_ffff,
        0x8000_0000,
        0x8000_0001,
        0x0100_0001,
        0xfeff_ffff,
        degrees(14),
        degrees(-14),
    ];
    let mut families: Vec<Vec<u16>> = (1..9).map(|face| vec![face, face + 1]).collect();
    families.extend((1..9).map(|face| vec![0, face]));
    let faces = angles.map(leaning).to_vec();
    let styles = [
        Style::NORMAL,
        Style::ITALIC,
        Style::UNSTATED,
        Style::stated(0.0),
        Style::stated(-0.0),
        Style::stated(32768.0),
        Style::stated(-32768.0),
    ];
    list.accepted("readings, every angle", &job(faces, families, &styles));
}

/// Faces that lean among an upright one, an italic with an angle, an oblique
/// that states none and one of 0 degrees: families of two to five of them.
fn beside_others(list: &mut List) {
    let stated = [-20, -14, -12, 0, 12, 14, 20].map(|angle| leaning(degrees(angle)));
    let mut faces = stated.to_vec();
    faces.push(unstated());
    faces.push(held(&tables(ITALIC, degrees(-12))));
    faces.push(held(&tables(NORMAL, degrees(-12))));
    let mut r = Random::new(4);
    let families = (0..24).map(|_| {
        let places = r.within(2, 5);
        (0..places).map(|_| r.below(10) as u16).collect()
    });
    let families = families.collect();
    let styles = &ASKED[..7];
    list.accepted("readings, beside others", &job(faces, families, styles));
}

/// An override's angle is as it is given, whatever `post` says; one that gives
/// no style leaves the angle as it was read.
fn overridden_angles(list: &mut List) {
    let (style, weight) = (2, 4);
    let own: [(usize, Attributes); 6] = [
        (style, of_angle(12.0)),
        (style, of_angle(-12.0)),
        (style, of_angle(-0.0)),
        (style, of_style(Style::UNSTATED)),
        (style, of_style(Style::NORMAL)),
        (weight, of_weight(700.0)),
    ];
    // Two without an override: one leans left and one right.
    let mut faces = vec![leaning(degrees(12)), leaning(degrees(-12))];
    let mut overrides = Vec::new();
    for (mask, attributes) in own {
        overrides.push(given(faces.len(), mask, attributes));
        faces.push(leaning(degrees(-12)));
    }
    // Of two that give the angle the later counts.
    overrides.push(given(faces.len(), style, of_angle(12.0)));
    overrides.push(given(faces.len(), style, of_angle(-12.0)));
    faces.push(leaning(degrees(12)));
    let count = faces.len() as u16;
    let mut families: Vec<Vec<u16>> = (2..count).map(|face| vec![0, 1, face]).collect();
    families.extend((2..count).map(|face| vec![face, 1]));
    families.push((0..count).collect());
    let mut job = job(faces, families, &ASKED[1..7]);
    job.overrides = overrides;
    list.accepted("readings, overrides", &job);
}

/// An upright face with the axes, each from -15 to 0.
fn upright(tags: &[[u8; 4]]) -> Face {
    let axis = |tag: &[u8; 4]| FixedAxis {
        tag: *tag,
        min: degrees(-15),
        default: 0,
        max: 0,
    };
    let axes: Vec<FixedAxis> = tags.iter().map(axis).collect();
    held(&[(*b"cmap", plain_cmap()), (*b"fvar", fvar(&axes))])
}

/// Upright faces with `slnt`, with `ital`, with both and with neither; the
/// default of `slnt` overridden.
fn slant_axes(list: &mut List) {
    let (slnt, ital) = (*b"slnt", *b"ital");
    let faces = vec![
        upright(&[slnt]),
        upright(&[ital]),
        upright(&[slnt, ital]),
        upright(&[]),
        upright(&[*b"wght", slnt, *b"wdth"]),
        upright(&[slnt]),
    ];
    let families = (0..6).map(|face| vec![face]).collect();
    let mut job = job(faces, families, &ASKED);
    let mut moved = given(5, 0, of_style(Style::NORMAL));
    moved.pairs = vec![(slnt, (-7.5f32).to_bits())];
    job.overrides = vec![moved];
    for request in &mut job.requests {
        (request.ratio, request.weight) = (0.875f32.to_bits(), 700f32.to_bits());
    }
    list.accepted("readings, slant axes", &job);
}

/// An upright face with `slnt` beside one that leans: the reading says whether
/// that one is on the side of the request, and else none is chosen.
fn one_side_with_an_axis(list: &mut List) {
    let faces = vec![
        upright(&[*b"slnt"]),
        leaning(degrees(-12)),
        leaning(degrees(12)),
        leaning(0),
    ];
    let families = vec![
        vec![0, 1],
        vec![1, 0],
        vec![0, 2],
        vec![2, 0],
        vec![0, 3],
        vec![0, 1, 2],
    ];
    let job = job(faces, families, &ASKED);
    list.accepted("readings, one side with an axis", &job);
}

/// Two fonts of a collection that lean to the two sides, beside lone ones.
fn collected(list: &mut List) {
    let members: [Member; 2] = [-12, 12].map(|angle| (START, tables(OBLIQUE, degrees(angle))));
    let file = collection(1, &members, |i| i == 1);
    let of_collection = |number| Face {
        held: true,
        font: file.clone(),
        number,
    };
    let lone = members.iter().map(|(start, tables)| Face {
        held: true,
        font: font(*start, tables),
        number: 0,
    });
    let faces = [0, 1].map(of_collection).into_iter().chain(lone).collect();
    let families = vec![vec![0, 1], vec![1, 0], vec![0, 3], vec![2, 1]];
    let job = job(faces, families, &ASKED[..7]);
    list.accepted("readings, collection", &job);
}
