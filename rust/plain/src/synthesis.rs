//! Section 5: what is to be set on an offered face.

use crate::{
    font::{Attributes, Font, Style, Tag},
    reading::slant,
    single::Single,
};

#[derive(Clone, PartialEq, Eq, Default, Debug)]
pub struct Synthesis {
    pub embolden: bool,
    pub skew: i8,
    /// Tag and value, at most three of them.
    pub settings: Vec<(Tag, Single)>,
}

/// Of a face for a request, under a reading that there is.
pub fn synthesis(font: &Font, reading: u32, request: &Attributes) -> Synthesis {
    let own = &font.attributes;
    let mut out = Synthesis::default();
    if font.has(b"wdth") && own.ratio != request.ratio {
        out.settings.push((*b"wdth", request.ratio.times_100()));
    }
    match font.axis(b"wght") {
        Some(axis) => {
            if axis.default != request.weight {
                out.settings.push((*b"wght", request.weight));
            }
        }
        None => {
            let sum = Single::new(own.weight.value() + 200.0);
            out.embolden = request.weight > sum;
        }
    }
    if own.style == Style::Normal {
        style(font, reading, request.style, &mut out);
    }
    out
}

/// The style, of a normal face. The reading changes the value of `slnt` alone.
fn style(font: &Font, reading: u32, request: Style, out: &mut Synthesis) {
    let slnt = |degrees: Single| (*b"slnt", slant(reading, degrees));
    match request {
        Style::Normal => {}
        Style::Italic => {
            if font.has(b"ital") {
                out.settings.push((*b"ital", Single::new(1.0)));
            } else if font.has(b"slnt") {
                out.settings.push(slnt(Single::new(14.0)));
            } else {
                out.skew = 14;
            }
        }
        Style::Oblique(angle) => {
            let degrees = angle.degrees();
            if font.has(b"slnt") {
                out.settings.push(slnt(degrees));
            } else if degrees > Single::ZERO && font.has(b"ital") {
                out.settings.push((*b"ital", Single::new(1.0)));
            } else {
                out.skew = degrees.truncated().clamp(-128, 127) as i8;
            }
        }
    }
}
