//! Ratios, angles, styles and weights with the edges of docs/GUIDE.md among
//! them, and the tags of axes.

use crate::{layout::Style, random::Random};

/// The four axes that synthesis sets, and two others.
pub const TAGS: [[u8; 4]; 6] = [*b"wght", *b"wdth", *b"slnt", *b"ital", *b"opsz", *b"GRAD"];

const RATIOS: [f32; 26] = [
    0.0,
    -0.0,
    0.5,
    0.625,
    0.75,
    0.87,
    0.875,
    0.87109375,
    0.87890625,
    0.88,
    0.98,
    0.99,
    0.995,
    1.0,
    1.0,
    1.0,
    1.005,
    1.01,
    1.02,
    1.125,
    1.121_093_8,
    1.25,
    1.5,
    2.0,
    15.999,
    16.0,
];

const ANGLES: [f32; 44] = [
    0.0,
    0.0,
    -0.0,
    1e-45,
    -1e-45,
    0.5,
    -0.5,
    0.9,
    -0.9,
    1.0,
    -1.0,
    7.0,
    -7.0,
    10.0,
    -10.0,
    12.0,
    13.5,
    -13.5,
    14.0,
    14.0,
    14.0,
    -14.0,
    -14.0,
    14.9,
    -14.9,
    15.0,
    -15.0,
    20.0,
    -20.0,
    30.0,
    -30.0,
    90.0,
    -90.0,
    127.5,
    128.0,
    -128.5,
    -129.0,
    200.0,
    -200.0,
    256.0,
    -256.5,
    65536.0,
    f32::MAX,
    f32::MIN,
];

const WEIGHTS: [f32; 26] = [
    0.0,
    -0.0,
    1.0,
    100.0,
    200.0,
    250.0,
    300.0,
    350.0,
    399.0,
    400.0,
    400.0,
    400.0,
    401.0,
    450.0,
    499.0,
    500.0,
    500.0,
    501.0,
    550.0,
    600.0,
    700.0,
    900.0,
    1000.0,
    -100.0,
    f32::MAX,
    f32::MIN,
];

/// The number or, now and then, one of the two singles beside it.
pub fn nearby(r: &mut Random, number: f32) -> f32 {
    let near = match r.below(8) {
        0 => number.next_up(),
        1 => number.next_down(),
        _ => number,
    };
    if near.is_finite() { near } else { number }
}

/// A ratio: 0 to 16.
pub fn ratio(r: &mut Random) -> f32 {
    let ratio = match r.below(4) {
        // Hundredths: the product with 100 often falls just short of the whole.
        0 => r.below(201) as f32 / 100.0,
        _ => r.pick(&RATIOS),
    };
    near_ratio(r, ratio)
}

/// The ratio or one beside it, within the bounds.
pub fn near_ratio(r: &mut Random, ratio: f32) -> f32 {
    nearby(r, ratio).clamp(-0.0, 16.0)
}

pub fn angle(r: &mut Random) -> f32 {
    let angle = match r.below(8) {
        0 => r.below(601) as f32 / 10.0 - 30.0,
        _ => r.pick(&ANGLES),
    };
    nearby(r, angle)
}

pub fn style(r: &mut Random) -> Style {
    match r.below(8) {
        0..=1 => Style::NORMAL,
        2 => Style::ITALIC,
        3 => Style::UNSTATED,
        _ => Style::stated(angle(r)),
    }
}

pub fn weight(r: &mut Random) -> f32 {
    let weight = match r.below(12) {
        0 => r.below(1001) as f32,
        // Large enough for the sum with 200 to be rounded.
        1 => 4_000_000.0 + r.below(1 << 28) as f32,
        2 => r.bits() as i32 as f32 / 65536.0,
        _ => r.pick(&WEIGHTS),
    };
    nearby(r, weight)
}

pub fn some<T>(
    r: &mut Random,
    low: usize,
    high: usize,
    mut one: impl FnMut(&mut Random) -> T,
) -> Vec<T> {
    (0..r.within(low, high)).map(|_| one(r)).collect()
}

/// Angles that section 4 of docs/GUIDE.md puts into groups together.
pub const BANDS: [&[f32]; 5] = [
    &[0.5, 1.0, 7.0, 10.0, 12.0, 13.5, 13.999999],
    &[14.0, 14.000_001, 15.0, 20.0, 30.0, 90.0],
    &[-0.5, -1.0, -7.0, -10.0, -12.0, -13.5, -13.999999],
    &[-14.0, -14.000_001, -15.0, -20.0, -30.0, -90.0],
    &[0.0, -0.0, 1e-45, -1e-45],
];
