//! Families in which a face would win a later stage, had an earlier one not
//! put it aside; and slant axes at one width and not at another.

use super::{Asked, Case, FacePlan, plain, slanted};
use crate::layout::Style;

/// A family, its requests, and the place that is chosen for each of them, with
/// synthesis on and with it off.
#[derive(Clone, Debug)]
pub struct Stage {
    pub name: &'static str,
    pub faces: Vec<FacePlan>,
    pub asked: Vec<(Asked, [Option<usize>; 2])>,
}

impl Stage {
    /// The faces in the other order. No two of them tie, so that the same are chosen.
    fn turned(&self) -> Self {
        let last = self.faces.len() - 1;
        let turn = |chosen: [Option<usize>; 2]| chosen.map(|place| place.map(|place| last - place));
        Self {
            name: self.name,
            faces: self.faces.iter().rev().cloned().collect(),
            asked: self.asked.iter().map(|(q, c)| (*q, turn(*c))).collect(),
        }
    }

    /// Each request, synthesis on and then off, and the place that is chosen.
    pub fn cases(&self) -> impl Iterator<Item = (Case, Option<usize>)> {
        self.asked.iter().flat_map(|(request, chosen)| {
            [true, false].into_iter().zip(*chosen).map(|(on, place)| {
                let case = Case {
                    synthesis: on,
                    request: *request,
                    faces: self.faces.clone(),
                };
                (case, place)
            })
        })
    }
}

/// Every stage, each in both orders of its faces.
pub fn stages() -> Vec<Stage> {
    let mut all = before_weight();
    all.extend([other_width(), own_width(), whole_percent()]);
    all.iter()
        .flat_map(|stage| [stage.clone(), stage.turned()])
        .collect()
}

fn asked(ratio: f32, style: Style, weight: f32) -> Asked {
    Asked {
        ratio,
        style,
        weight,
    }
}

/// Two faces of which the first is chosen: the second is of another style, or
/// of another width, and has what is asked for else.
fn before_weight() -> Vec<Stage> {
    let normal = Style::NORMAL;
    let italic = Style::ITALIC;
    let two = |name, first, second, request| Stage {
        name,
        faces: vec![first, second],
        asked: vec![(request, [Some(0); 2])],
    };
    let narrow = plain(0.75, normal, 400.0);
    vec![
        two(
            "style before weight",
            plain(1.0, normal, 400.0),
            plain(1.0, italic, 700.0),
            asked(1.0, normal, 700.0),
        ),
        two(
            "width before style",
            narrow.clone(),
            plain(1.0, italic, 400.0),
            asked(0.75, italic, 400.0),
        ),
        two(
            "width before weight",
            narrow.clone(),
            plain(1.0, normal, 700.0),
            asked(0.75, normal, 700.0),
        ),
        two(
            "width before style and weight",
            narrow,
            plain(1.0, italic, 700.0),
            asked(0.75, italic, 700.0),
        ),
    ]
}

fn slanted_at(ratio: f32, weight: f32) -> FacePlan {
    FacePlan {
        ratio,
        weight,
        ..slanted(Style::NORMAL)
    }
}

/// Oblique, of every kind that a request may be.
const OBLIQUE: [Style; 5] = [
    Style::UNSTATED,
    Style::stated(14.0),
    Style::stated(0.0),
    Style::stated(-14.0),
    Style::stated(f32::MIN),
];

/// Only the width that is not asked for has the axis.
fn other_width() -> Stage {
    let narrow = OBLIQUE.map(|style| (asked(0.75, style, 400.0), [Some(0); 2]));
    let wide = OBLIQUE.map(|style| (asked(1.0, style, 400.0), [None, Some(1)]));
    Stage {
        name: "slant axis of another width",
        faces: vec![plain(0.75, Style::NORMAL, 400.0), slanted_at(1.0, 400.0)],
        asked: narrow.into_iter().chain(wide).collect(),
    }
}

/// Only the width that is asked for has it; it matters to no other style.
fn own_width() -> Stage {
    let oblique = OBLIQUE.map(|style| (asked(0.75, style, 400.0), [None, Some(0)]));
    let others = [Style::NORMAL, Style::ITALIC];
    let others = others.map(|style| (asked(0.75, style, 400.0), [Some(0); 2]));
    Stage {
        name: "slant axis of the width",
        faces: vec![slanted_at(0.75, 400.0), plain(1.0, Style::NORMAL, 400.0)],
        asked: oblique.into_iter().chain(others).collect(),
    }
}

/// The axis is of another ratio, and of the same whole percent.
fn whole_percent() -> Stage {
    Stage {
        name: "slant axis of the whole percent",
        faces: vec![
            plain(0.875, Style::NORMAL, 400.0),
            slanted_at(0.87109375, 300.0),
            plain(1.0, Style::NORMAL, 400.0),
        ],
        asked: vec![
            (asked(0.875, Style::stated(14.0), 400.0), [None, Some(0)]),
            (asked(0.875, Style::ITALIC, 300.0), [Some(1); 2]),
            (asked(1.0, Style::stated(14.0), 400.0), [Some(2); 2]),
        ],
    }
}
