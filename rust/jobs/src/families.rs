//! Families with a request each, and how each face of them is made: a small
//! font file, then an override.

use crate::{
    bytes::{FixedAxis, START, font, fvar, plain_cmap},
    layout::{Override, Style},
    numbers::{BANDS, TAGS, nearby, some, style, weight},
    pools::{Pools, near},
    random::Random,
};

pub mod readings;
pub mod stages;

/// An axis as `fvar` gives it, and a default that an override sets. An
/// override reaches only the first axis with a tag.
#[derive(Copy, Clone, PartialEq, Debug)]
pub struct AxisPlan {
    pub fixed: FixedAxis,
    pub default: Option<f32>,
}

/// A face before it is made.
#[derive(Clone, PartialEq, Debug)]
pub struct FacePlan {
    pub ratio: f32,
    pub style: Style,
    pub weight: f32,
    pub axes: Vec<AxisPlan>,
}

impl FacePlan {
    /// A small font with the axes; its other attributes are the defaults.
    pub fn file(&self) -> Vec<u8> {
        let axes: Vec<FixedAxis> = self.axes.iter().map(|axis| axis.fixed).collect();
        font(START, &[(*b"cmap", plain_cmap()), (*b"fvar", fvar(&axes))])
    }

    /// What turns the font's attributes into the face's.
    pub fn given(&self) -> Override {
        let mut pairs = Vec::new();
        for (i, axis) in self.axes.iter().enumerate() {
            let tag = axis.fixed.tag;
            let first = self.axes[..i].iter().all(|before| before.fixed.tag != tag);
            if let (true, Some(default)) = (first, axis.default) {
                pairs.push((tag, default.to_bits()));
            }
        }
        Override {
            face: 0,
            ratio: Some(self.ratio.to_bits()),
            style: Some(self.style),
            weight: Some(self.weight.to_bits()),
            pairs,
        }
    }
}

/// What is asked for.
#[derive(Copy, Clone, PartialEq, Debug)]
pub struct Asked {
    pub ratio: f32,
    pub style: Style,
    pub weight: f32,
}

/// A family and a request.
#[derive(Clone, PartialEq, Debug)]
pub struct Case {
    pub synthesis: bool,
    pub request: Asked,
    pub faces: Vec<FacePlan>,
}

/// Random cases without an end.
pub fn random(seed: u64) -> impl Iterator<Item = Case> {
    let mut r = Random::new(seed);
    std::iter::repeat_with(move || random_case(&mut r))
}

/// The same, and in one of eight both zeros among the weights, the ratios or
/// both, of the faces as of the request.
pub fn with_zeros(seed: u64) -> impl Iterator<Item = Case> {
    let mut r = Random::new(!seed);
    random(seed).map(move |mut case| {
        if r.chance(1, 8) {
            let which = r.pick(&[(true, false), (false, true), (true, true)]);
            put_zeros(&mut r, &mut case, which);
        }
        case
    })
}

fn put_zeros(r: &mut Random, case: &mut Case, (weights, ratios): (bool, bool)) {
    let mut put = |ratio: &mut f32, weight: &mut f32| {
        if weights && r.chance(2, 3) {
            *weight = r.pick(&[0.0, -0.0]);
        }
        if ratios && r.chance(2, 3) {
            *ratio = r.pick(&[0.0, -0.0]);
        }
    };
    put(&mut case.request.ratio, &mut case.request.weight);
    for face in &mut case.faces {
        put(&mut face.ratio, &mut face.weight);
    }
}

fn plain(ratio: f32, style: Style, weight: f32) -> FacePlan {
    FacePlan {
        ratio,
        style,
        weight,
        axes: Vec::new(),
    }
}

fn slanted(style: Style) -> FacePlan {
    with_axes(style, &[*b"slnt"])
}

/// A face of width 1 and weight 400 with axes from -15 to 0.
fn with_axes(style: Style, tags: &[[u8; 4]]) -> FacePlan {
    let axis = |tag: &[u8; 4]| AxisPlan {
        fixed: FixedAxis {
            tag: *tag,
            min: 0xfff1_0000,
            default: 0,
            max: 0,
        },
        default: None,
    };
    FacePlan {
        axes: tags.iter().map(axis).collect(),
        ..plain(1.0, style, 400.0)
    }
}

fn weights(list: &[f32]) -> Vec<FacePlan> {
    list.iter().map(|w| plain(1.0, Style::NORMAL, *w)).collect()
}

fn styles(list: &[Style]) -> Vec<FacePlan> {
    list.iter().map(|s| plain(1.0, *s, 400.0)).collect()
}

/// The cases for a purpose: those of section 7, the stages, then those whose
/// synthesis depends on the reading.
pub fn made() -> Vec<Case> {
    let stages = stages::stages();
    let cases = stages.iter().flat_map(|stage| stage.cases());
    let mut out = faces_to_try();
    out.extend(cases.map(|(case, _)| case));
    out.extend(readings::cases());
    out
}

/// Section 7 of docs/GUIDE.md, each with synthesis on and off. Its 12 is among
/// the fonts.
pub fn faces_to_try() -> Vec<Case> {
    let with = |synthesis: bool| {
        tries().into_iter().map(move |(request, faces)| Case {
            synthesis,
            request,
            faces,
        })
    };
    with(true).chain(with(false)).collect()
}

/// The requests and families of section 7, in its order.
fn tries() -> Vec<(Asked, Vec<FacePlan>)> {
    let asked = |ratio, style, weight| Asked {
        ratio,
        style,
        weight,
    };
    let width = |ratio| asked(ratio, Style::NORMAL, 400.0);
    let style = |style| asked(1.0, style, 400.0);
    let oblique = |angle| style(Style::stated(angle));
    let weight = |weight| asked(1.0, Style::NORMAL, weight);
    let widths = [0.75, 1.25].map(|x| plain(x, Style::NORMAL, 400.0));
    let fourteen = styles(&[Style::UNSTATED, Style::stated(14.0)]);
    let left = styles(&[Style::stated(-10.0), Style::stated(-20.0)]);
    let one_slanted = |style| vec![plain(1.0, style, 400.0), slanted(style)];
    let mut out = vec![
        (weight(450.0), weights(&[300.0, 600.0])),
        (weight(450.0), weights(&[400.0, 500.0])),
        (weight(400.0), weights(&[350.0, 350.0])),
        (weight(550.0), weights(&[600.0, 600.0])),
        (width(1.0), widths.to_vec()),
        (width(1.125), widths.to_vec()),
        (style(Style::ITALIC), fourteen.clone()),
        (oblique(20.0), fourteen),
        (oblique(-14.0), left.clone()),
        (oblique(-13.5), left),
        (oblique(14.0), one_slanted(Style::NORMAL)),
        (
            style(Style::ITALIC),
            styles(&[Style::NORMAL, Style::stated(0.0)]),
        ),
        (weight(600.0), weights(&[400.0])),
        (weight(601.0), weights(&[400.0])),
    ];
    let angles = [0.9, -14.9, 200.0, -200.0];
    out.extend(angles.map(|angle| (oblique(angle), styles(&[Style::NORMAL]))));
    out.push((oblique(14.0), one_slanted(Style::stated(0.0))));
    out
}

/// The values of a case, and whether its request is mostly one for a slope.
fn pools(r: &mut Random) -> (Pools, bool) {
    let mut pools = Pools::draw(r, 3);
    let mut sloping = false;
    // Several angles of one side or two, at one width.
    if r.chance(1, 3) {
        pools.styles = slopes(r);
        pools.ratios.truncate(1);
        sloping = true;
    }
    // Nothing on the side of an oblique request: italic, normal, the rule of
    // the slant axis.
    else if r.chance(1, 3) {
        let side = r.pick(&[20.0, -20.0, 5.0, -5.0]);
        let others = [
            Style::NORMAL,
            Style::NORMAL,
            Style::ITALIC,
            Style::stated(0.0),
            Style::stated(-0.0),
            Style::stated(side),
            Style::stated(side + 1.0),
        ];
        pools.styles = some(r, 1, 3, |r| r.pick(&others));
        sloping = true;
    }
    (pools, sloping)
}

fn slopes(r: &mut Random) -> Vec<Style> {
    let mut styles = Vec::new();
    for _ in 0..r.pick(&[1, 1, 2]) {
        let band = r.pick(&BANDS);
        styles.extend(some(r, 2, 4, |r| Style::stated(r.pick(band))));
        if band.contains(&14.0) {
            styles.push(Style::UNSTATED);
        }
    }
    if r.chance(1, 4) {
        styles.push(r.pick(&[Style::NORMAL, Style::ITALIC]));
    }
    styles
}

/// Requests between the angles of the bands, and at their ends.
const SLOPES: [Style; 17] = [
    Style::ITALIC,
    Style::ITALIC,
    Style::UNSTATED,
    Style::stated(0.0),
    Style::stated(-0.0),
    Style::stated(4.0),
    Style::stated(-4.0),
    Style::stated(11.0),
    Style::stated(-11.0),
    Style::stated(13.999),
    Style::stated(-13.999),
    Style::stated(14.0),
    Style::stated(-14.0),
    Style::stated(16.0),
    Style::stated(-16.0),
    Style::stated(100.0),
    Style::stated(-100.0),
];

fn request(r: &mut Random, pools: &Pools, sloping: bool) -> Asked {
    let ratio = pools.ratio(r);
    let style = match r.below(4) {
        _ if sloping && r.chance(2, 3) => r.pick(&SLOPES),
        0 => r.pick(&pools.styles),
        1 => match r.pick(&pools.styles) {
            Style { kind: 3, angle } => Style::stated(nearby(r, f32::from_bits(angle))),
            Style::UNSTATED => Style::stated(nearby(r, 14.0)),
            _ => r.pick(&[
                Style::NORMAL,
                Style::ITALIC,
                Style::UNSTATED,
                Style::stated(14.0),
            ]),
        },
        _ => style(r),
    };
    let weight = match r.below(6) {
        0 => r.pick(&pools.weights),
        1 => near(r, &pools.weights),
        2 => nearby_sum(r, pools),
        3 => near(r, &[400.0, 450.0, 500.0]),
        _ => weight(r),
    };
    Asked {
        ratio,
        style,
        weight,
    }
}

/// A weight 200 above one of the family, or the single on either side.
fn nearby_sum(r: &mut Random, pools: &Pools) -> f32 {
    let sum = r.pick(&pools.weights) + 200.0;
    let near = match r.below(3) {
        0 => sum.next_up(),
        1 => sum.next_down(),
        _ => sum,
    };
    near.clamp(f32::MIN, f32::MAX)
}

fn fixed(r: &mut Random) -> u32 {
    match r.below(4) {
        0 => r.bits(),
        1 => 0,
        _ => (r.below(1001) as u32) << 16,
    }
}

fn axis(r: &mut Random, tag: [u8; 4], request: &Asked, weight: f32) -> AxisPlan {
    let fixed = FixedAxis {
        tag,
        min: fixed(r),
        default: fixed(r),
        max: fixed(r),
    };
    let default = match r.below(4) {
        0 => None,
        1 => Some(request.weight),
        2 => Some(nearby(r, request.weight)),
        _ => Some(nearby(r, weight)),
    };
    AxisPlan { fixed, default }
}

/// How the axes of one case are spread.
#[derive(Copy, Clone, PartialEq)]
enum Spread {
    Bare,
    SlantHere,
    SlantElsewhere,
    Few,
    Many,
    Varying,
}

fn spread(r: &mut Random) -> Spread {
    match r.below(10) {
        0..=2 => Spread::Bare,
        3..=4 => Spread::SlantHere,
        5 => Spread::SlantElsewhere,
        6 => Spread::Few,
        7 => Spread::Many,
        _ => Spread::Varying,
    }
}

fn axes(r: &mut Random, spread: Spread, request: &Asked, plan: &FacePlan) -> Vec<AxisPlan> {
    let same = plan.ratio == request.ratio;
    let tags: Vec<[u8; 4]> = match spread {
        Spread::Bare => Vec::new(),
        Spread::SlantHere if r.chance(1, 3) => vec![*b"slnt"],
        Spread::SlantElsewhere if !same && r.chance(2, 3) => vec![*b"slnt"],
        Spread::SlantHere | Spread::SlantElsewhere => Vec::new(),
        Spread::Few => some(r, 0, 3, |r| r.pick(&TAGS)),
        Spread::Many => some(r, 0, 16, |r| r.pick(&TAGS)),
        // Each of the four that synthesis sets, in half of the faces, turned about.
        Spread::Varying => {
            let mut tags = TAGS[..4].to_vec();
            tags.retain(|_| r.chance(1, 2));
            if !tags.is_empty() {
                let turn = r.below(tags.len());
                tags.rotate_left(turn);
            }
            tags
        }
    };
    tags.into_iter()
        .map(|tag| axis(r, tag, request, plan.weight))
        .collect()
}

fn random_case(r: &mut Random) -> Case {
    let spread = spread(r);
    let count = match r.below(40) {
        0..=1 => 1,
        _ if spread == Spread::Varying => r.within(1, 4),
        2..=35 => r.within(2, 8),
        _ if spread == Spread::Many => r.within(2, 8),
        36..=37 => r.within(9, 24),
        38 => r.within(25, 63),
        _ => 64,
    };
    let (mut pools, sloping) = pools(r);
    if spread == Spread::Varying {
        pools.styles.extend([Style::NORMAL; 4]);
    }
    let request = request(r, &pools, sloping);
    let mut plans: Vec<FacePlan> = Vec::new();
    for _ in 0..count {
        // A face may stand twice in a family.
        if !plans.is_empty() && r.chance(1, 12) {
            let again = plans[r.below(plans.len())].clone();
            plans.push(again);
            continue;
        }
        let mut plan = plain(
            r.pick(&pools.ratios),
            r.pick(&pools.styles),
            r.pick(&pools.weights),
        );
        plan.axes = axes(r, spread, &request, &plan);
        plans.push(plan);
    }
    Case {
        synthesis: r.chance(1, 2),
        request,
        faces: plans,
    }
}

#[cfg(test)]
mod tests {
    use super::*;

    /// Every number is one of section 1, and the same seed gives the same list.
    #[test]
    fn random_cases() {
        let ok = |ratio: f32, style: Style, weight: f32| {
            (0.0..=16.0).contains(&ratio)
                && f32::from_bits(style.angle).is_finite()
                && weight.is_finite()
        };
        for case in random(7).take(400) {
            let Asked {
                ratio,
                style,
                weight,
            } = case.request;
            assert!(ok(ratio, style, weight));
            assert!((1..=64).contains(&case.faces.len()));
            for face in &case.faces {
                assert!(ok(face.ratio, face.style, face.weight));
                assert!(face.axes.len() <= 16);
            }
        }
        let first = |seed| -> Vec<Case> { random(seed).take(200).collect() };
        assert_eq!(first(3), first(3));
        assert_ne!(first(3), first(4));
    }
}
