//! Families whose face numbers are not their places, and lists that name a
//! family again and again.

use super::{
    Attributes, Face, Job, List, Request, asking, asking_all, bare_face, given, of_weight,
    overridden,
};
use crate::layout::Style;

pub fn jobs(list: &mut List) {
    late_faces(list);
    around_64_faces(list);
    out_of_turn(list);
    again_and_again(list);
    every_most(list);
    sixty_four_equal(list);
    every_family_again(list);
}

/// Half of 256 faces have a weight each, the other half are alike; one in
/// seven is not held.
fn late_faces(list: &mut List) {
    let face = |number: usize| Face {
        held: !number.is_multiple_of(7),
        ..bare_face()
    };
    let own = |number: usize| {
        let weight = 100.0 + 5.0 * (number * 37 % 128) as f32;
        let style = match number % 3 {
            0 => Style::ITALIC,
            _ => Style::NORMAL,
        };
        given(number, 6, (1.0, style, weight))
    };
    let families = vec![
        (192..256).collect(),
        (192..256).rev().collect(),
        (128..192).collect(),
        (128..192).rev().collect(),
        (201..256).chain([255; 9]).collect(),
        [200, 255].repeat(32),
        vec![255; 64],
        (0..64).collect(),
        vec![255],
        vec![0, 255],
        vec![128, 127],
    ];
    let asked: [Attributes; 3] = [
        of_weight(450.0),
        (1.0, Style::ITALIC, 700.0),
        (1.0, Style::stated(14.0), 100.0),
    ];
    let job = Job {
        faces: (0..256).map(face).collect(),
        overrides: (128..256).map(own).collect(),
        requests: asked.map(|asked| asking_all(11, asked)).to_vec(),
        families,
    };
    list.accepted("families of late faces", &job);
}

/// As many faces as a family may have, and one more; only the last are bold.
fn around_64_faces(list: &mut List) {
    for count in [64, 65] {
        let last = count as u16 - 1;
        let job = Job {
            faces: vec![bare_face(); count],
            overrides: vec![
                given(count - 2, 4, of_weight(600.0)),
                given(count - 1, 4, of_weight(700.0)),
            ],
            families: vec![
                (last - 63..=last).collect(),
                (last - 63..=last).rev().collect(),
                vec![0, last],
                vec![last],
            ],
            requests: vec![Request {
                most: 8,
                ..asking_all(4, of_weight(650.0))
            }],
        };
        list.accepted(format!("the last of {count} faces"), &job);
    }
}

/// Five weights; families that go backwards, skip faces or repeat one.
fn out_of_turn(list: &mut List) {
    let weights = [400.0, 500.0, 300.0, 700.0, 600.0];
    let mut job = overridden(&weights.map(of_weight), |_| false);
    job.families = vec![
        vec![4, 3, 2, 1, 0],
        vec![4, 2, 0],
        vec![3, 3, 3],
        vec![4],
        vec![1, 4, 1, 2, 4],
    ];
    let asked = [250.0, 400.0, 450.0, 550.0, 700.0];
    job.requests = asked.map(|asked| asking_all(5, of_weight(asked))).to_vec();
    list.accepted("families out of turn", &job);
}

/// Four families: three offers for the weight 700, the default last; no
/// faces; a face that is not held; one offer.
fn few_families() -> Job {
    let weights = [400.0, 700.0, 700.0, 700.0];
    let mut job = overridden(&weights.map(of_weight), |_| false);
    job.faces[2].held = false;
    job.families = vec![vec![1, 0, 2, 3], vec![], vec![2], vec![0]];
    job
}

/// One family alone, named 80 times.
fn again_and_again(list: &mut List) {
    let mut job = few_families();
    job.requests = vec![Request {
        most: 65535,
        families: vec![0; 40],
        fallbacks: vec![0; 40],
        ..asking(of_weight(700.0))
    }];
    list.accepted("a family named 80 times", &job);
}

/// The families again and again, unknown ones between them, cut after each number of offers.
fn every_most(list: &mut List) {
    let mut job = few_families();
    let asked = |most| Request {
        most,
        families: vec![63, 0, 9, 1, 0, 63, 2, 64, 0],
        fallbacks: vec![65535, 9, 0, 3, 2, 255, 0, 256],
        ..asking(of_weight(700.0))
    };
    // 16 offers.
    job.requests = (0..18).map(asked).collect();
    list.accepted("families named again, unknown ones between", &job);
}

/// Families of as many offers as there can be, with the default among the
/// equal faces and behind them.
fn sixty_four_equal(list: &mut List) {
    let mut job = overridden(&[of_weight(400.0), of_weight(700.0)], |_| false);
    let mut default_apart = vec![1; 64];
    default_apart[20] = 0;
    job.families = vec![vec![1; 64], vec![0], default_apart];
    let asked = |most, families: &[u16], fallbacks: &[u16]| Request {
        most,
        families: families.to_vec(),
        fallbacks: fallbacks.to_vec(),
        ..asking(of_weight(700.0))
    };
    job.requests = vec![
        asked(65535, &[0, 1, 0, 63], &[0, 64, 1]),
        asked(65535, &[2, 63, 2], &[0, 2]),
        asked(65, &[2], &[2]),
    ];
    list.accepted("64 offers of a family, named again", &job);
}

/// All 64 families, then all of them backwards, unknown ones between them.
fn every_family_again(list: &mut List) {
    let mut job = few_families();
    let kinds = [vec![1, 0, 2], vec![], vec![0], vec![2], vec![3, 1]];
    job.families = (0..64).map(|f| kinds[f % 5].clone()).collect();
    job.requests = vec![Request {
        most: 65535,
        families: (0..64).collect(),
        fallbacks: (0..72).rev().collect(),
        ..asking(of_weight(700.0))
    }];
    list.accepted("64 families named twice", &job);
}
