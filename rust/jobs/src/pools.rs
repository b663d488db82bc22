//! Values that the faces and requests of one case share, so that ties are common.

use crate::{
    layout::Style,
    numbers::{near_ratio, nearby, ratio, some, style, weight},
    random::Random,
};

pub struct Pools {
    pub ratios: Vec<f32>,
    pub styles: Vec<Style>,
    pub weights: Vec<f32>,
}

/// A number of the list or, now and then, one beside it.
pub fn near(r: &mut Random, list: &[f32]) -> f32 {
    let near = r.pick(list);
    nearby(r, near)
}

impl Pools {
    /// Up to so many of each, or more of one than of the others; and now and
    /// then ratios of one whole percent, unstated beside 14, both zeros.
    pub fn draw(r: &mut Random, usual: usize) -> Self {
        let (ratios, styles, weights) = match r.below(5) {
            0 => (1, 1, 6),
            1 => (1, 6, 2),
            2 => (5, 2, 2),
            3 => (2, 4, 4),
            _ => (usual, usual, usual),
        };
        let mut pools = Self {
            ratios: some(r, 1, ratios, ratio),
            styles: some(r, 1, styles, style),
            weights: some(r, 1, weights, weight),
        };
        if r.chance(1, 6) {
            pools.ratios.extend([0.875, 0.87109375]);
        }
        if r.chance(1, 5) {
            pools.styles.extend([Style::UNSTATED, Style::stated(14.0)]);
        }
        if r.chance(1, 8) {
            let zeros = [Style::stated(0.0), Style::stated(-0.0)];
            pools.styles.extend(zeros);
        }
        pools
    }

    /// A ratio to ask for: mostly one of them.
    pub fn ratio(&self, r: &mut Random) -> f32 {
        match r.below(4) {
            0 => ratio(r),
            1 => {
                let near = r.pick(&self.ratios);
                near_ratio(r, near)
            }
            _ => r.pick(&self.ratios),
        }
    }
}
