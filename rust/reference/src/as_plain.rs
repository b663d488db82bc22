//! The original's values in the words of the plain reading, which has the
//! lines and the records. Numbers keep their bits.

use plain::{
    Single,
    font::{Angle, Attributes, Axis, CharmapIndex, Font, Style, Tag},
    synthesis,
};

use crate::{FontInfo, FontStyle, FontWeight, FontWidth, Synthesis, describe, turned};

fn style(style: FontStyle) -> Style {
    match style {
        FontStyle::Normal => Style::Normal,
        FontStyle::Italic => Style::Italic,
        FontStyle::Oblique(None) => Style::Oblique(Angle::Unstated),
        FontStyle::Oblique(Some(angle)) => Style::Oblique(Angle::Degrees(Single::new(angle))),
    }
}

pub fn attributes(width: FontWidth, of: FontStyle, weight: FontWeight) -> Attributes {
    Attributes {
        ratio: Single::new(width.ratio()),
        style: style(of),
        weight: Single::new(weight.value()),
    }
}

/// A face, its charmap index left out.
pub fn face(info: &FontInfo) -> Font {
    let axis = |axis: &crate::AxisInfo| Axis {
        tag: axis.tag.to_be_bytes(),
        minimum: Single::new(axis.min),
        default: Single::new(axis.default),
        maximum: Single::new(axis.max),
    };
    Font {
        attributes: attributes(info.width(), info.style(), info.weight()),
        axes: info.axes().iter().map(axis).collect(),
        charmap: CharmapIndex {
            offset: 0,
            symbol: false,
            mac_roman: false,
        },
    }
}

/// A face with its charmap index.
pub fn font(info: &FontInfo) -> Font {
    Font {
        charmap: describe::charmap(info),
        ..face(info)
    }
}

/// A synthesis under a reading.
pub fn synthesis(of: &Synthesis, reading: u32) -> synthesis::Synthesis {
    let setting = |setting: &(read_fonts::types::Tag, f32)| -> (Tag, Single) {
        let value = turned::value(*setting, reading);
        (setting.0.to_be_bytes(), Single::new(value))
    };
    synthesis::Synthesis {
        embolden: of.embolden(),
        skew: of.skew().unwrap_or(0.0) as i8,
        settings: of.variation_settings().iter().map(setting).collect(),
    }
}
