//! Faces by value under the original's `apply_override` and
//! `maybe_override_attributes`.

use jobs::{
    bytes::{FixedAxis, START, font, fvar, plain_cmap},
    overrides::{Case, Given},
};
use plain::{
    Single,
    font::{Angle, Attributes, Font, Override, Style},
    lines,
};
use read_fonts::types::Tag;

use crate::{FontInfo, FontInfoOverride, FontStyle, FontWeight, FontWidth, as_plain, describe};

fn style(style: Style) -> FontStyle {
    match style {
        Style::Normal => FontStyle::Normal,
        Style::Italic => FontStyle::Italic,
        Style::Oblique(Angle::Unstated) => FontStyle::Oblique(None),
        Style::Oblique(Angle::Degrees(degrees)) => FontStyle::Oblique(Some(degrees.value())),
    }
}

fn width(ratio: Single) -> FontWidth {
    FontWidth::from_ratio(ratio.value())
}

fn weight(weight: Single) -> FontWeight {
    FontWeight::new(weight.value())
}

fn apply(info: &mut FontInfo, given: &Override) {
    let pairs: Vec<(Tag, f32)> = given
        .axes
        .iter()
        .map(|(tag, value)| (Tag::new(tag), value.value()))
        .collect();
    info.apply_override(&FontInfoOverride {
        family_name: None,
        width: given.ratio.map(width),
        style: given.style.map(style),
        weight: given.weight.map(weight),
        axes: Some(&pairs),
    });
}

fn maybe(info: &mut FontInfo, given: &Attributes) {
    info.maybe_override_attributes(width(given.ratio), style(given.style), weight(given.weight));
}

/// A face of the original that is the given one, by way of a font file for the
/// axes and an override for the attributes; none where no file gives such axes.
fn make(face: &Font) -> Option<FontInfo> {
    let fixed = |number: Single| (number.value() * 65536.0) as i32 as u32;
    let axis = |axis: &plain::font::Axis| FixedAxis {
        tag: axis.tag,
        min: fixed(axis.minimum),
        default: fixed(axis.default),
        max: fixed(axis.maximum),
    };
    let axes: Vec<FixedAxis> = face.axes.iter().map(axis).collect();
    let file = font(START, &[(*b"cmap", plain_cmap()), (*b"fvar", fvar(&axes))]);
    let mut info = describe::read(&file, 0).ok()?;
    let own = &face.attributes;
    apply(
        &mut info,
        &Override {
            ratio: Some(own.ratio),
            style: Some(own.style),
            weight: Some(own.weight),
            axes: Vec::new(),
        },
    );
    let made = lines::face(&Ok(as_plain::face(&info)));
    (made == lines::face(&Ok(face.clone()))).then_some(info)
}

/// The line of a case by the original, without its name. It refuses nothing;
/// none for a face that it cannot be given.
pub fn line(case: &Case) -> Option<String> {
    let mut info = make(&case.face)?;
    match &case.given {
        Given::Override(given) => apply(&mut info, given),
        Given::Maybe(given) => maybe(&mut info, given),
    }
    Some(lines::face(&Ok(as_plain::face(&info))))
}

#[cfg(test)]
mod tests {
    use super::*;
    use jobs::overrides;

    /// The stored lines of the proved code, but for those that are refused.
    #[test]
    fn stored_lines() {
        let stored = include_str!("../../../crates/override_cases/stdout");
        let cases = overrides::made();
        assert_eq!(stored.lines().count(), cases.len());
        let (mut maybe, mut other) = (0, 0);
        for (case, stored) in cases.iter().zip(stored.lines()) {
            let (name, stored) = stored.split_once(": ").expect("a name and a line");
            assert_eq!(case.name, name);
            if stored.starts_with("refused ") {
                continue;
            }
            assert_eq!(line(case).as_deref(), Some(stored), "{name}");
            match case.given {
                Given::Maybe(_) => maybe += 1,
                Given::Override(_) => other += 1,
            }
        }
        assert_eq!((maybe, other), (18, 30));
    }

    /// The plain reading beside the original, on faces with many defaults.
    #[test]
    fn random_cases() {
        let mut changed = 0;
        for case in overrides::random(2026).take(200_000) {
            let plain = by_plain(&case);
            assert_eq!(line(&case), Some(plain.clone()), "{case:?}");
            changed += u32::from(plain != lines::face(&Ok(case.face)));
        }
        assert!(changed > 100_000, "{changed}");
    }

    fn by_plain(case: &Case) -> String {
        lines::face(&match &case.given {
            Given::Override(given) => plain::font::overridden(&case.face, given),
            Given::Maybe(given) => plain::font::maybe_overridden(&case.face, given),
        })
    }
}
