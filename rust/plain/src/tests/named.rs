//! The jobs and families of `jobs` whose answers are known by hand: a face that
//! an earlier stage puts aside, face numbers that are not places, and families
//! that are named again.

use super::{Font, Italic, Normal, UNSTATED, attributes, choice, face, oblique, text, with_axis};
use crate::font::Style;
use jobs::{
    families::stages::stages,
    layout::{self, Style as Planned},
    list::made,
};

fn style(planned: Planned) -> Style {
    match planned {
        Planned::NORMAL => Normal,
        Planned::ITALIC => Italic,
        Planned::UNSTATED => UNSTATED,
        stated => oblique(f32::from_bits(stated.angle)),
    }
}

#[test]
fn stages_in_their_turn() {
    let mut tried = 0;
    for stage in stages() {
        for (case, place) in stage.cases() {
            let faces: Vec<Font> = case
                .faces
                .iter()
                .map(|plan| {
                    let own = face(plan.ratio, style(plan.style), plan.weight);
                    let axes = plan.axes.iter();
                    axes.fold(own, |own, axis| with_axis(own, &axis.fixed.tag, 0.0))
                })
                .collect();
            let asked = case.request;
            let request = attributes(asked.ratio, style(asked.style), asked.weight);
            let chosen = choice(&faces, request, case.synthesis);
            assert_eq!(chosen, place, "{}: {request:?}", stage.name);
            tried += 1;
        }
    }
    assert_eq!(tried, 96);
}

/// The job of a label: its bytes, and request, family and place of each offer.
fn offers_of(label: &str) -> (Vec<u8>, Vec<[u16; 3]>) {
    let case = made().into_iter().find(|case| case.label == label);
    let bytes = case.expect("a job with the label").bytes;
    let offers = text(&bytes, 0)
        .lines()
        .skip(1)
        .map(|line| {
            let mut numbers = line.split(' ').map(|word| word.parse().unwrap_or(u16::MAX));
            [(); 3].map(|()| numbers.next().expect("a field"))
        })
        .collect();
    (bytes, offers)
}

/// The offers of a family of `few_families` for the weight 700.
fn few(family: u16) -> Vec<[u16; 2]> {
    match family {
        0 => vec![[0, 0], [0, 3], [0, 1]],
        3 => vec![[3, 0]],
        _ => vec![],
    }
}

#[test]
fn families_named_again() {
    let (_, offers) = offers_of("a family named 80 times");
    let expected = [[0, 0, 0], [0, 0, 3], [0, 0, 1]].repeat(80);
    assert_eq!(offers, expected);
    let (_, offers) = offers_of("families named again, unknown ones between");
    let all: Vec<[u16; 2]> = [0, 0, 0, 0, 3, 0].into_iter().flat_map(few).collect();
    assert_eq!(all.len(), 16);
    let mut expected = Vec::new();
    for most in 0..18 {
        let first = all.iter().take(most);
        expected.extend(first.map(|[family, place]| [most as u16, *family, *place]));
    }
    assert_eq!(offers, expected);
}

/// Places 0 to 63, all offered; and with the default at place 20, last.
#[test]
fn sixty_four_offers() {
    let (_, offers) = offers_of("64 offers of a family, named again");
    let equal: Vec<[u16; 2]> = (0..64).map(|place| [0, place]).collect();
    let others = (0..64).filter(|place| *place != 20);
    let apart: Vec<[u16; 2]> = others.chain([20]).map(|place| [2, place]).collect();
    let one = vec![[1, 0]];
    let mut expected = Vec::new();
    let mut put = |request, lists: &[&Vec<[u16; 2]>]| {
        let offers = lists.iter().copied().flatten();
        expected.extend(offers.map(|[family, place]| [request, *family, *place]));
    };
    put(0, &[&equal, &one, &equal, &equal, &one]);
    put(1, &[&apart, &apart, &equal, &apart]);
    put(2, &[&apart, &vec![apart[0]]]);
    assert_eq!(offers, expected);
}

/// For the weight 450 the least from there up to 500 is chosen, by face
/// number: the same face in both orders.
#[test]
fn late_faces() {
    let (bytes, offers) = offers_of("families of late faces");
    let job = layout::parts(&bytes).expect("an accepted job");
    let weight = |face: u16| match face {
        128.. => 100 + 5 * (u32::from(face) * 37 % 128),
        _ => 400,
    };
    for (family, first) in [(0, 192), (1, 192), (2, 128), (3, 128)] {
        let normal = (first..first + 64).filter(|face| face % 3 != 0);
        let near = normal.filter(|face| (450..=500).contains(&weight(*face)));
        let chosen = near.min_by_key(|face| weight(*face)).expect("a face");
        assert!(chosen % 7 != 0, "{chosen} is held");
        let place = job.families[family].iter().position(|face| *face == chosen);
        let offer = offers
            .iter()
            .find(|offer| offer[..2] == [0, family as u16])
            .expect("an offer");
        assert_eq!(Some(usize::from(offer[2])), place, "family {family}");
    }
}

/// The bold face is the last; the default is the first place with 400.
#[test]
fn last_of_64_and_65_faces() {
    for count in [64, 65] {
        let (_, offers) = offers_of(&format!("the last of {count} faces"));
        let expected = [[0, 63], [0, 0], [1, 0], [1, 2], [2, 1], [2, 0], [3, 0]];
        assert_eq!(offers, expected.map(|[family, place]| [0, family, place]));
    }
}
