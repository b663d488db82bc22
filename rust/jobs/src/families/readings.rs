//! Faces with axes for a slope and without, each alone in a family, asked for
//! every kind of style.

use super::{Asked, Case, FacePlan, with_axes};
use crate::layout::Style;

/// Both sides, both zeros and what lies beside them, and the ends.
pub const ASKED: [Style; 14] = [
    Style::NORMAL,
    Style::ITALIC,
    Style::UNSTATED,
    Style::stated(12.0),
    Style::stated(-12.0),
    Style::stated(0.0),
    Style::stated(-0.0),
    Style::stated(1e-45),
    Style::stated(-1e-45),
    Style::stated(0.9),
    Style::stated(-0.9),
    Style::stated(-14.0),
    Style::stated(f32::MAX),
    Style::stated(f32::MIN),
];

/// Axes of an upright face.
const AXES: [&[[u8; 4]]; 7] = [
    &[],
    &[*b"slnt"],
    &[*b"ital"],
    &[*b"slnt", *b"ital"],
    &[*b"ital", *b"slnt"],
    &[*b"slnt", *b"slnt"],
    &[*b"wght", *b"wdth", *b"slnt"],
];

/// Styles that synthesis leaves as they are.
const SLOPES: [Style; 4] = [
    Style::ITALIC,
    Style::UNSTATED,
    Style::stated(12.0),
    Style::stated(-0.0),
];

fn faces() -> Vec<FacePlan> {
    let upright = AXES.map(|tags| with_axes(Style::NORMAL, tags));
    let sloping = SLOPES.map(|style| with_axes(style, &[*b"slnt"]));
    upright.into_iter().chain(sloping).collect()
}

/// Each face for each style, narrower and bolder than it is.
pub fn cases() -> Vec<Case> {
    let ask = |face: FacePlan| {
        ASKED.map(|style| Case {
            synthesis: true,
            request: Asked {
                ratio: 0.875,
                style,
                weight: 700.0,
            },
            faces: vec![face.clone()],
        })
    };
    faces().into_iter().flat_map(ask).collect()
}
