//! What a font says of its face, as the package `plain` reads it.
//!
//! The picker reads the same by itself. The two are compared on generated and
//! damaged fonts, under both readings.

use plain::{
    Single,
    font::{self, Font},
};
use stemhook::{Angle, Attributes, CharmapIndex, Override, Reading, Style, Tag};

use crate::{
    json::Json,
    values::{attributes_words, style_words},
};

#[derive(Clone, Debug, PartialEq)]
pub struct FaceInfo(Font);

/// A variation axis.
#[derive(Clone, Copy, Debug, PartialEq)]
pub struct Axis {
    pub tag: Tag,
    pub minimum: f32,
    pub default: f32,
    pub maximum: f32,
}

impl FaceInfo {
    /// Reads a font of a file under a reading; none where it is refused.
    pub fn of(file: &[u8], reading: Reading, number: u16) -> Option<Self> {
        let read = font::read(file, reading.number(), number);
        read.ok().map(Self)
    }

    /// Applies an override.
    pub fn apply(&mut self, given: &Override) {
        let pairs = given.pairs.iter();
        let plain = font::Override {
            ratio: given.width.map(Single::new),
            style: given.style.map(plain_style),
            weight: given.weight.map(Single::new),
            axes: pairs
                .map(|(tag, value)| (tag.0, Single::new(*value)))
                .collect(),
        };
        font::apply_override(&mut self.0, &plain);
    }

    pub fn attributes(&self) -> Attributes {
        let own = &self.0.attributes;
        Attributes {
            width: own.ratio.value(),
            style: style(own.style),
            weight: own.weight.value(),
        }
    }

    /// The axes, in the font's order.
    pub fn axes(&self) -> impl Iterator<Item = Axis> + '_ {
        self.0.axes.iter().map(|axis| Axis {
            tag: Tag(axis.tag),
            minimum: axis.minimum.value(),
            default: axis.default.value(),
            maximum: axis.maximum.value(),
        })
    }

    pub fn charmap(&self) -> CharmapIndex {
        CharmapIndex {
            offset: self.0.charmap.offset,
            symbol: self.0.charmap.symbol,
            mac_roman: self.0.charmap.mac_roman,
        }
    }

    /// In words, on one line.
    pub fn words(&self) -> String {
        let mut words = attributes_words(&self.attributes());
        for (at, axis) in self.axes().enumerate() {
            words += if at == 0 { "; " } else { ", " };
            words += &format!(
                "{} {} to {} (default {})",
                axis.tag, axis.minimum, axis.maximum, axis.default
            );
        }
        format!("{words}; {}", charmap_words(&self.charmap()))
    }

    pub fn json(&self) -> Json {
        let axis = |axis: Axis| {
            Json::Object(vec![
                ("tag", Json::text(axis.tag)),
                ("minimum", Json::Number(axis.minimum)),
                ("default", Json::Number(axis.default)),
                ("maximum", Json::Number(axis.maximum)),
            ])
        };
        let mut pairs = attributes_json(&self.attributes());
        pairs.push(("axes", Json::List(self.axes().map(axis).collect())));
        pairs.push(("charmap", charmap_json(&self.charmap())));
        Json::Object(pairs)
    }
}

fn style(style: font::Style) -> Style {
    match style {
        font::Style::Normal => Style::Normal,
        font::Style::Italic => Style::Italic,
        font::Style::Oblique(font::Angle::Unstated) => Style::Oblique(Angle::Unstated),
        font::Style::Oblique(font::Angle::Degrees(degrees)) => {
            Style::Oblique(Angle::Degrees(degrees.value()))
        }
    }
}

fn plain_style(style: Style) -> font::Style {
    match style {
        Style::Normal => font::Style::Normal,
        Style::Italic => font::Style::Italic,
        Style::Oblique(Angle::Unstated) => font::Style::Oblique(font::Angle::Unstated),
        Style::Oblique(Angle::Degrees(degrees)) => {
            font::Style::Oblique(font::Angle::Degrees(Single::new(degrees)))
        }
    }
}

/// `charmap at 236 (symbol)`.
pub fn charmap_words(charmap: &CharmapIndex) -> String {
    let kind = if charmap.symbol {
        " (symbol)"
    } else if charmap.mac_roman {
        " (Mac Roman)"
    } else {
        ""
    };
    format!("charmap at {}{kind}", charmap.offset)
}

pub fn charmap_json(charmap: &CharmapIndex) -> Json {
    Json::Object(vec![
        ("offset", Json::Whole(charmap.offset.into())),
        ("symbol", Json::Bool(charmap.symbol)),
        ("macRoman", Json::Bool(charmap.mac_roman)),
    ])
}

pub fn attributes_json(attributes: &Attributes) -> Vec<(&'static str, Json)> {
    let (style, angle) = match attributes.style {
        Style::Oblique(Angle::Degrees(degrees)) => ("oblique".into(), Json::Number(degrees)),
        style => (style_words(style), Json::Null),
    };
    vec![
        ("width", Json::Number(attributes.width)),
        ("style", Json::Text(style)),
        ("angle", angle),
        ("weight", Json::Number(attributes.weight)),
    ]
}
