//! Fonts, faces, families and offers as the lists and the programs have them:
//! numbers by their bits, no line ends.

use std::fmt::Write as _;

use crate::{
    font::{Attributes, Axis, Font, Tag},
    matching,
    offers::Offer,
    reading::READINGS,
    single::Single,
    synthesis::{Synthesis, synthesis},
};

/// A font: `refused N`, or `read RATIO KIND ANGLE WEIGHT OFFSET SYMBOL MAC COUNT TAG=MIN,DEFAULT,MAX ..`.
pub fn font(read: &Result<Font, u32>) -> String {
    let font = match read {
        Err(number) => return format!("refused {number}"),
        Ok(font) => font,
    };
    format!(
        "read {} {} {}{}",
        attributes(&font.attributes),
        font.charmap,
        font.axes.len(),
        axes(&font.axes)
    )
}

/// A face by value: `refused N`, or `RATIO KIND ANGLE WEIGHT TAG=MIN,DEFAULT,MAX ..`.
pub fn face(given: &Result<Font, u32>) -> String {
    match given {
        Err(number) => format!("refused {number}"),
        Ok(font) => attributes(&font.attributes) + &axes(&font.axes),
    }
}

fn attributes(of: &Attributes) -> String {
    let (kind, angle) = of.style.fields();
    format!("{:08x} {kind} {angle:08x} {:08x}", of.ratio.0, of.weight.0)
}

fn axes(axes: &[Axis]) -> String {
    let mut text = String::new();
    for axis in axes {
        let _ = write!(
            text,
            " {:08x}={:08x},{:08x},{:08x}",
            u32::from_be_bytes(axis.tag),
            axis.minimum.0,
            axis.default.0,
            axis.maximum.0,
        );
    }
    text
}

/// The bytes of a family with its request, big-endian, as `match_cases` reads them.
pub fn family_bytes(synthesis: bool, request: &Attributes, faces: &[Font]) -> Vec<u8> {
    let mut out = vec![u8::from(synthesis)];
    put_attributes(&mut out, request);
    out.push(faces.len() as u8);
    for face in faces {
        put_attributes(&mut out, &face.attributes);
        out.push(face.axes.len() as u8);
        for axis in &face.axes {
            out.extend(axis.tag);
            for number in [axis.minimum, axis.default, axis.maximum] {
                out.extend(number.0.to_be_bytes());
            }
        }
    }
    out
}

fn put_attributes(out: &mut Vec<u8>, attributes: &Attributes) {
    let (kind, angle) = attributes.style.fields();
    out.extend(attributes.ratio.0.to_be_bytes());
    out.push(kind);
    out.extend(angle.to_be_bytes());
    out.extend(attributes.weight.0.to_be_bytes());
}

/// What is said of a family for a request.
pub struct Answer {
    pub choice: Option<usize>,
    pub equal: Vec<usize>,
    pub default: usize,
    /// Of the chosen face, or of the default where none is chosen, under each
    /// reading.
    pub syntheses: [Synthesis; 2],
}

impl Answer {
    /// By the plain reading; there is a face.
    pub fn of(faces: &[Font], request: &Attributes, on: bool) -> Self {
        let faces: Vec<&Font> = faces.iter().collect();
        let choice = matching::choice(&faces, request, on);
        let default = matching::default(&faces);
        let shown = faces[choice.unwrap_or(default)];
        Self {
            choice,
            equal: matching::equal_list(&faces, request, on),
            default,
            syntheses: READINGS.map(|reading| synthesis(shown, reading, request)),
        }
    }

    /// `CHOICE LIST DEFAULT BOLD SKEW TAG=BITS .. | BOLD SKEW TAG=BITS ..`: the
    /// synthesis under reading 0, and under reading 1.
    pub fn line(&self) -> String {
        let or_none = |text: String| if text.is_empty() { "-".into() } else { text };
        let choice = self.choice.map(|place| place.to_string());
        let equal: Vec<String> = self.equal.iter().map(usize::to_string).collect();
        let [old, new] = &self.syntheses;
        let words = |of: &Synthesis| marks(of) + &settings(&of.settings);
        format!(
            "{} {} {} {} | {}",
            or_none(choice.unwrap_or_default()),
            or_none(equal.join(",")),
            self.default,
            words(old),
            words(new),
        )
    }
}

/// An offer: `REQUEST FAMILY PLACE BOLD SKEW TAG=BITS ..`, and OFFSET, SYMBOL
/// and MAC after the skew where the charmap index is asked for.
pub fn offer(request: usize, offer: &Offer, indexed: bool) -> String {
    let mut line = format!(
        "{request} {} {} {}",
        offer.family,
        offer.place,
        marks(&offer.synthesis)
    );
    if indexed {
        let _ = write!(line, " {}", offer.charmap);
    }
    line + &settings(&offer.synthesis.settings)
}

/// `BOLD SKEW`.
fn marks(synthesis: &Synthesis) -> String {
    let embolden = if synthesis.embolden { 'b' } else { '-' };
    format!("{embolden} {}", synthesis.skew)
}

fn settings(settings: &[(Tag, Single)]) -> String {
    let mut text = String::new();
    for (tag, value) in settings {
        let _ = write!(text, " {}={:08x}", tag.escape_ascii(), value.0);
    }
    text
}
