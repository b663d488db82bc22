//! Faces by value with what is given to them: the cases of the program
//! `override_cases`, in its order and under its names, and random ones.

use plain::{
    Single,
    font::{Angle, Attributes, Axis, CharmapIndex, Font, Override, Style, Tag},
};

use crate::{
    layout,
    numbers::{self, TAGS, some},
    random::Random,
};

/// What a face is given, and by which call.
#[derive(Clone, Debug)]
pub enum Given {
    /// By `apply_override`.
    Override(Override),
    /// By `maybe_override_attributes`.
    Maybe(Attributes),
}

#[derive(Clone, Debug)]
pub struct Case {
    pub name: String,
    pub face: Font,
    pub given: Given,
}

const KEEP: Override = Override {
    ratio: None,
    style: None,
    weight: None,
    axes: Vec::new(),
};

const UNSTATED: Style = Style::Oblique(Angle::Unstated);

const fn degrees(angle: f32) -> Style {
    Style::Oblique(Angle::Degrees(Single::new(angle)))
}

const fn attributes(ratio: f32, style: Style, weight: f32) -> Attributes {
    Attributes {
        ratio: Single::new(ratio),
        style,
        weight: Single::new(weight),
    }
}

const DEFAULT: Attributes = Attributes::DEFAULT;
/// Each differs from its default.
const OWN: Attributes = attributes(0.75, Style::Italic, 300.0);
const GIVEN: Attributes = attributes(0.5, degrees(10.0), 700.0);
const MINUS_ZEROS: Attributes = attributes(-0.0, degrees(-0.0), -0.0);

/// A tag, minimum, default and maximum.
type Numbers = (&'static Tag, f32, f32, f32);

const SLANT: Numbers = (b"slnt", -15.0, 0.0, 15.0);

fn axis((tag, minimum, default, maximum): Numbers) -> Axis {
    Axis {
        tag: *tag,
        minimum: Single::new(minimum),
        default: Single::new(default),
        maximum: Single::new(maximum),
    }
}

/// A face whose axes begin with wght, wdth, wght and the one given.
fn face(attributes: Attributes, fourth: Numbers, count: usize) -> Font {
    let first = [
        (b"wght", 100.0, 400.0, 900.0),
        (b"wdth", 50.0, 100.0, 200.0),
        (b"wght", 1.0, 2.0, 3.0),
        fourth,
    ];
    let unused = std::iter::repeat((b"\0\0\0\0", 0.0, 0.0, 0.0));
    Font {
        attributes,
        axes: first
            .into_iter()
            .chain(unused)
            .take(count)
            .map(axis)
            .collect(),
        charmap: CharmapIndex {
            offset: 0,
            symbol: false,
            mac_roman: false,
        },
    }
}

fn upright(ratio: f32, weight: f32) -> Attributes {
    attributes(ratio, Style::Normal, weight)
}

fn styled(style: Style) -> Attributes {
    attributes(1.0, style, 400.0)
}

fn width(ratio: f32) -> Override {
    Override {
        ratio: Some(Single::new(ratio)),
        ..KEEP
    }
}

fn style(style: Style) -> Override {
    Override {
        style: Some(style),
        ..KEEP
    }
}

fn weight(weight: f32) -> Override {
    Override {
        weight: Some(Single::new(weight)),
        ..KEEP
    }
}

fn all(of: Attributes) -> Override {
    Override {
        ratio: Some(of.ratio),
        style: Some(of.style),
        weight: Some(of.weight),
        axes: Vec::new(),
    }
}

/// The cases of `override_cases`.
pub fn made() -> Vec<Case> {
    let mut list = List(Vec::new());
    set_attributes(&mut list);
    set_numbers(&mut list);
    pairs_of_axes(&mut list);
    pairs_at_edges(&mut list);
    own_faces(&mut list);
    own_numbers(&mut list);
    maybe_faces(&mut list);
    maybe_given(&mut list);
    list.0
}

struct List(Vec<Case>);

impl List {
    fn add(&mut self, kind: &str, name: &str, face: Font, given: Given) {
        let name = format!("{kind} {name}");
        self.0.push(Case { name, face, given });
    }

    /// An override of attributes and no axis.
    fn set(&mut self, name: &str, given: Override) {
        self.add("set", name, face(OWN, SLANT, 3), Given::Override(given));
    }

    /// An override of axes and no attribute; the longer of tags and values is cut.
    fn pairs(&mut self, name: &str, count: usize, tags: &[&Tag], values: &[f32]) {
        let values = values.iter().copied().map(Single::new);
        let axes = tags.iter().map(|tag| **tag).zip(values).collect();
        let given = Given::Override(Override { axes, ..KEEP });
        self.add("pairs", name, face(OWN, SLANT, count), given);
    }

    /// A face under an override that keeps all, and under the default attributes.
    fn own(&mut self, name: &str, attributes: Attributes, fourth: Numbers, count: usize) {
        let face = face(attributes, fourth, count);
        self.add("own", name, face.clone(), Given::Override(KEEP));
        self.add("own, maybe", name, face, Given::Maybe(DEFAULT));
    }

    /// Attributes given to a face with no axes.
    fn maybe(&mut self, name: &str, attributes: Attributes, given: Attributes) {
        let face = face(attributes, SLANT, 0);
        self.add("maybe", name, face, Given::Maybe(given));
    }
}

fn set_attributes(list: &mut List) {
    list.set("nothing", KEEP);
    list.set("width", width(1.25));
    list.set("style normal", style(Style::Normal));
    list.set("style unstated", style(UNSTATED));
    list.set("style stated", style(degrees(-14.0)));
    list.set("weight", weight(650.5));
    list.set("all", all(attributes(2.0, degrees(20.0), 900.0)));
    list.set("defaults", all(DEFAULT));
    list.set("zeros", all(attributes(0.0, degrees(0.0), 0.0)));
    list.set("minus zeros", all(MINUS_ZEROS));
    list.set("below zero", all(attributes(0.5, degrees(-90.0), -1.5)));
}

fn set_numbers(list: &mut List) {
    list.set("ratio 16", width(16.0));
    list.set("ratio over 16", width(16f32.next_up()));
    list.set("ratio below 0", width(-0.001));
    list.set("ratio NaN", width(f32::NAN));
    list.set("ratio infinite", width(f32::INFINITY));
    list.set("angle NaN", style(degrees(f32::NAN)));
    list.set("angle infinite", style(degrees(-f32::INFINITY)));
    list.set("weight NaN", weight(f32::NAN));
    list.set("weight infinite", weight(f32::INFINITY));
}

fn pairs_of_axes(list: &mut List) {
    list.pairs("one", 3, &[b"wdth"], &[75.0]);
    let tags: [&Tag; 3] = [b"wdth", b"wght", b"wdth"];
    list.pairs("later wins", 3, &tags, &[75.0, 650.0, 125.0]);
    list.pairs("repeated axis", 3, &[b"wght"], &[650.0]);
    list.pairs("last of the count", 4, &[b"slnt"], &[-10.0]);
    list.pairs("unknown tag", 3, &[b"opsz"], &[12.0]);
    list.pairs("tag past the count", 3, &[b"slnt"], &[-10.0]);
    list.pairs("no axes", 0, &[b"wght"], &[650.0]);
    list.pairs("above the maximum", 3, &[b"wdth"], &[1000.0]);
    list.pairs("below the minimum", 3, &[b"wdth"], &[-5.0]);
    list.pairs("minus zero", 3, &[b"wdth"], &[-0.0]);
}

fn pairs_at_edges(list: &mut List) {
    list.pairs("more tags", 3, &[b"wdth", b"wght"], &[75.0]);
    list.pairs("more values", 3, &[b"wdth"], &[75.0, 650.0]);
    list.pairs("NaN past the tags", 3, &[b"wdth"], &[75.0, f32::NAN]);
    list.pairs("16 axes", 16, &[b"\0\0\0\0"], &[7.0]);
    list.pairs("17 axes", 17, &[b"wght"], &[650.0]);
    list.pairs("17 axes, NaN", 17, &[b"wght"], &[f32::NAN]);
    list.pairs("NaN", 3, &[b"wdth"], &[f32::NAN]);
    list.pairs("infinite", 3, &[b"wdth"], &[f32::INFINITY]);
    let tags: [&Tag; 2] = [b"wdth", b"opsz"];
    list.pairs("NaN at an unknown tag", 3, &tags, &[75.0, f32::NAN]);
}

fn own_faces(list: &mut List) {
    const NAN: f32 = f32::NAN;
    list.own("no defaults", OWN, SLANT, 4);
    list.own("defaults", DEFAULT, SLANT, 4);
    list.own("16 axes", OWN, SLANT, 16);
    list.own("NaN past the count", OWN, (b"slnt", NAN, NAN, NAN), 3);
    list.own("17 axes", OWN, SLANT, 17);
    list.own("17 axes, ratio NaN", upright(NAN, 400.0), SLANT, 17);
    list.own("17 axes, minimum NaN", OWN, (b"slnt", NAN, 0.0, 15.0), 17);
}

fn own_numbers(list: &mut List) {
    const NAN: f32 = f32::NAN;
    const INFINITY: f32 = f32::INFINITY;
    let slant = |minimum, default, maximum| (b"slnt", minimum, default, maximum);
    list.own("minimum NaN", OWN, slant(NAN, 0.0, 15.0), 4);
    list.own("default infinite", OWN, slant(-15.0, INFINITY, 15.0), 4);
    list.own("maximum infinite", OWN, slant(-15.0, 0.0, -INFINITY), 4);
    list.own("ratio NaN", upright(NAN, 400.0), SLANT, 3);
    list.own("ratio infinite", upright(INFINITY, 400.0), SLANT, 3);
    list.own("ratio over 16", upright(16f32.next_up(), 400.0), SLANT, 3);
    list.own("angle NaN", styled(degrees(NAN)), SLANT, 3);
    list.own("angle infinite", styled(degrees(INFINITY)), SLANT, 3);
    list.own("weight NaN", upright(1.0, NAN), SLANT, 3);
    list.own("weight infinite", upright(1.0, -INFINITY), SLANT, 3);
}

fn maybe_faces(list: &mut List) {
    list.maybe("all are defaults", DEFAULT, GIVEN);
    list.maybe("none is a default", OWN, GIVEN);
    list.maybe("style alone", upright(0.75, 300.0), GIVEN);
    list.maybe("style and weight", upright(0.75, 400.0), GIVEN);
    list.maybe("width and style", upright(1.0, 300.0), GIVEN);
    list.maybe("width and weight", styled(Style::Italic), GIVEN);
    let beside = upright(1f32.next_up(), 400f32.next_up());
    list.maybe("beside the defaults", beside, GIVEN);
    list.maybe("unstated", styled(UNSTATED), GIVEN);
    list.maybe("stated 0", styled(degrees(0.0)), GIVEN);
    list.maybe("minus zeros", MINUS_ZEROS, GIVEN);
}

fn maybe_given(list: &mut List) {
    list.maybe("given defaults", OWN, DEFAULT);
    list.maybe("given unstated", DEFAULT, styled(UNSTATED));
    list.maybe("given minus zeros", DEFAULT, MINUS_ZEROS);
    list.maybe("given ratio 16", DEFAULT, upright(16.0, 1.0));
    list.maybe("given ratio NaN", OWN, upright(f32::NAN, 400.0));
    let over = upright(16f32.next_up(), 400.0);
    list.maybe("given ratio over 16", OWN, over);
    list.maybe("given angle NaN", OWN, styled(degrees(f32::NAN)));
    let infinite = upright(1.0, f32::INFINITY);
    list.maybe("given weight infinite", OWN, infinite);
}

/// Random cases without an end; none of them is refused. Half of the
/// attributes are the defaults, so that both ways of each are common.
pub fn random(seed: u64) -> impl Iterator<Item = Case> {
    let mut r = Random::new(seed);
    (0..).map(move |number| Case {
        name: format!("random {number}"),
        face: Font {
            attributes: random_attributes(&mut r),
            axes: some(&mut r, 0, 4, random_axis),
            ..face(DEFAULT, SLANT, 0)
        },
        given: if r.chance(1, 2) {
            Given::Maybe(random_attributes(&mut r))
        } else {
            Given::Override(random_override(&mut r))
        },
    })
}

fn random_style(r: &mut Random) -> Style {
    match numbers::style(r) {
        layout::Style::NORMAL => Style::Normal,
        layout::Style::ITALIC => Style::Italic,
        layout::Style::UNSTATED => UNSTATED,
        stated => degrees(f32::from_bits(stated.angle)),
    }
}

fn random_attributes(r: &mut Random) -> Attributes {
    let mut attributes = DEFAULT;
    if r.chance(1, 2) {
        attributes.ratio = Single::new(numbers::ratio(r));
    }
    if r.chance(1, 2) {
        attributes.style = random_style(r);
    }
    if r.chance(1, 2) {
        attributes.weight = Single::new(numbers::weight(r));
    }
    attributes
}

/// Whole numbers, which `fvar` can hold.
fn random_axis(r: &mut Random) -> Axis {
    let mut whole = || Single::new(r.below(2001) as f32 - 1000.0);
    let (minimum, default, maximum) = (whole(), whole(), whole());
    Axis {
        tag: r.pick(&TAGS),
        minimum,
        default,
        maximum,
    }
}

fn random_override(r: &mut Random) -> Override {
    let given = random_attributes(r);
    Override {
        ratio: r.chance(1, 2).then_some(given.ratio),
        style: r.chance(1, 2).then_some(given.style),
        weight: r.chance(1, 2).then_some(given.weight),
        axes: some(r, 0, 3, |r| {
            (r.pick(&TAGS), Single::new(numbers::weight(r)))
        }),
    }
}
