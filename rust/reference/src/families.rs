//! The list of families with a request each, and what the original answers.

use std::{io, path::Path};

use jobs::{
    families::{self, FacePlan},
    layout::{Override, Style},
};
use plain::{
    font::Font,
    lines::{self, Answer},
    reading::READINGS,
};
use read_fonts::types::Tag;

use crate::{
    Attributes, FamilyInfo, FontInfo, FontInfoOverride, FontStyle, FontWeight, FontWidth, as_plain,
    describe, family_name::FamilyNameMap, lists, matching::match_fonts,
};

/// A family and a request; the faces are the original's.
pub struct Case {
    pub synthesis: bool,
    pub request: Attributes,
    pub faces: Vec<FontInfo>,
}

impl Case {
    pub fn new(case: &families::Case) -> Self {
        let request = case.request;
        Self {
            synthesis: case.synthesis,
            request: Attributes::new(
                FontWidth::from_ratio(request.ratio),
                style(request.style),
                FontWeight::new(request.weight),
            ),
            faces: case.faces.iter().map(make).collect(),
        }
    }
}

/// Makes the face by way of a font file and an override, as fontique does.
pub fn make(plan: &FacePlan) -> FontInfo {
    let mut info = describe::read(&plan.file(), 0).expect("a font that is not refused");
    apply(&mut info, &plan.given());
    info
}

/// An override of a job, by the original.
pub fn apply(info: &mut FontInfo, given: &Override) {
    let single = f32::from_bits;
    let pairs: Vec<(Tag, f32)> = given
        .pairs
        .iter()
        .map(|(tag, bits)| (Tag::new(tag), single(*bits)))
        .collect();
    info.apply_override(&FontInfoOverride {
        family_name: None,
        width: given.ratio.map(|bits| FontWidth::from_ratio(single(bits))),
        style: given.style.map(style),
        weight: given.weight.map(|bits| FontWeight::new(single(bits))),
        axes: Some(&pairs),
    });
}

/// A style of a job, in the original's words.
pub fn style(style: Style) -> FontStyle {
    match style.kind {
        0 => FontStyle::Normal,
        1 => FontStyle::Italic,
        2 => FontStyle::Oblique(None),
        _ => FontStyle::Oblique(Some(f32::from_bits(style.angle))),
    }
}

/// The request and the faces of a case as the original holds them.
fn held(case: &Case) -> (plain::font::Attributes, Vec<Font>) {
    let Attributes {
        width,
        style,
        weight,
    } = case.request;
    let request = as_plain::attributes(width, style, weight);
    (request, case.faces.iter().map(as_plain::face).collect())
}

/// The bytes of a case and what the original answers to it, a line without its
/// end.
pub fn answer(case: &Case) -> (Vec<u8>, String) {
    let (request, faces) = held(case);
    let bytes = lines::family_bytes(case.synthesis, &request, &faces);
    (bytes, line(case))
}

/// The same line by the plain reading.
pub fn plain_line(case: &Case) -> String {
    let (request, faces) = held(case);
    Answer::of(&faces, &request, case.synthesis).line()
}

/// What the original answers: choice, equal list, default, and synthesis under
/// each reading; no line end.
pub fn line(case: &Case) -> String {
    let Attributes {
        width,
        style,
        weight,
    } = case.request;
    let name = FamilyNameMap::default().get_or_insert("family");
    let family = FamilyInfo::new(name, case.faces.iter().cloned());
    let choice = family.match_index(width, style, weight, case.synthesis);
    let default = family.default_font_index();
    let shown = &family.fonts()[choice.unwrap_or(default)];
    let synthesis = shown.synthesis(width, style, weight);
    let answer = Answer {
        choice,
        equal: match_fonts(family.fonts(), width, style, weight, case.synthesis).collect(),
        default,
        syntheses: READINGS.map(|reading| as_plain::synthesis(&synthesis, reading)),
    };
    answer.line()
}

/// Writes `stdin` and `stdout` into the folder, once the plain reading has the
/// same lines.
pub fn write(folder: &Path, cases: &[Case]) -> io::Result<()> {
    let mut stdin = Vec::new();
    let mut stdout = String::new();
    for case in cases {
        let (bytes, line) = answer(case);
        let plain = plain_line(case);
        if line != plain {
            let difference = format!("difference in a family: {line}, plain {plain}");
            return Err(io::Error::other(difference));
        }
        stdin.extend(bytes);
        stdout.push_str(&line);
        stdout.push('\n');
    }
    lists::write(folder, &stdin, &stdout)
}

/// The cases for a purpose first, then random ones, `count` in all.
pub fn cases(seed: u64, count: usize) -> Vec<Case> {
    let random = families::random(seed);
    let cases = families::made().into_iter().chain(random).take(count);
    cases.map(|case| Case::new(&case)).collect()
}

#[cfg(test)]
mod tests {
    use super::*;
    use jobs::families::{faces_to_try, stages::stages};

    /// The choices that section 7 names, synthesis on and then off.
    #[test]
    fn section_7() {
        let lines: Vec<String> = cases(0, faces_to_try().len()).iter().map(line).collect();
        let choices: Vec<&str> = lines
            .iter()
            .map(|line| line.split(' ').next().unwrap())
            .collect();
        let on = [
            "0", "1", "1", "0", "0", "1", "0", "1", "1", "0", "-", "0", "0", "0", "0", "0", "0",
            "0", "-",
        ];
        assert_eq!(&choices[..on.len()], &on);
        assert_eq!(choices[on.len() + 10], "0");
        assert_eq!(lines[12], "0 0 0 - 0 | - 0");
        assert_eq!(lines[13], "0 0 0 b 0 | b 0");
        let skews: Vec<&str> = lines[14..18]
            .iter()
            .map(|line| line.split(' ').nth(4).unwrap())
            .collect();
        assert_eq!(skews, ["0", "-14", "127", "-128"]);
    }

    /// The face that an earlier stage puts aside is not chosen.
    #[test]
    fn stages_in_their_turn() {
        for stage in stages() {
            for (case, place) in stage.cases() {
                let line = line(&Case::new(&case));
                let chosen = line.split(' ').next().unwrap();
                let expected = place.map_or("-".into(), |place| place.to_string());
                assert_eq!(chosen, expected, "{}: {case:?}", stage.name);
            }
        }
    }

    /// Every number is one of section 1 once the faces are made.
    #[test]
    fn numbers_of_made_faces() {
        for case in cases(7, 400) {
            for face in &case.faces {
                assert!((0.0..=16.0).contains(&face.width().ratio()));
                assert!(face.weight().value().is_finite());
                assert!(face.axes().len() <= 16);
                assert!(face.axes().iter().all(|axis| axis.default.is_finite()));
            }
        }
    }
}
