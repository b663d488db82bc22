//! Families: choice, equal list, default, and synthesis under each reading, of
//! the linked program beside the plain reading, and beside the original where
//! that is here.

use jobs::{
    families::{self, Asked, Case, FacePlan},
    layout::{Override, Style as JobStyle},
    random::Random,
};
use plain::{
    Single,
    font::{self, Angle, Attributes, Font, Style},
    lines::{self, Answer},
};

use crate::{
    kinds::Kinds,
    original::{self, Family},
    program::Program,
    shrink,
};

fn style(style: JobStyle) -> Style {
    match style.kind {
        0 => Style::Normal,
        1 => Style::Italic,
        2 => Style::Oblique(Angle::Unstated),
        _ => Style::Oblique(Angle::Degrees(Single(style.angle))),
    }
}

fn plain_override(given: &Override) -> font::Override {
    font::Override {
        ratio: given.ratio.map(Single),
        style: given.style.map(style),
        weight: given.weight.map(Single),
        axes: given
            .pairs
            .iter()
            .map(|(tag, bits)| (*tag, Single(*bits)))
            .collect(),
    }
}

/// A face as the plain reading holds it.
fn face(plan: &FacePlan) -> Font {
    let mut font = font::read(&plan.file(), 0, 0).expect("a font that is not refused");
    font::apply_override(&mut font, &plain_override(&plan.given()));
    font
}

fn attributes(asked: Asked) -> Attributes {
    Attributes {
        ratio: Single::new(asked.ratio),
        style: style(asked.style),
        weight: Single::new(asked.weight),
    }
}

/// Bytes and lines of a case by the plain reading.
fn by_plain(case: &Case) -> Family {
    let request = attributes(case.request);
    let faces: Vec<Font> = case.faces.iter().map(face).collect();
    [true, false].map(|on| {
        let line = Answer::of(&faces, &request, on).line();
        (lines::family_bytes(on, &request, &faces), line)
    })
}

/// Bytes and lines that all sides have to give; none where the original has others.
fn expected(case: &Case) -> Option<Family> {
    let plain = by_plain(case);
    let same = original::family(case).is_none_or(|answers| answers == plain);
    same.then_some(plain)
}

/// What has been compared.
#[derive(Default)]
pub struct Counts {
    pub families: u64,
    pub choices: u64,
    /// Lines without a choice.
    pub none: u64,
    /// Lines whose synthesis is another under reading 1.
    pub differing: u64,
    /// Of those, lines that set `slnt` to minus zero under reading 0.
    pub minus_zeros: u64,
    pub kinds: Kinds,
}

/// `slnt` is set last, and under reading 0 to minus zero.
const MINUS_ZERO: &str = " slnt=80000000 | ";

/// Whether the synthesis of a line is the same under both readings.
fn same_synthesis(line: &str) -> bool {
    let (old, new) = line.split_once(" | ").expect("two readings");
    old.ends_with(&format!(" {new}"))
}

impl Counts {
    fn add(&mut self, case: &Case, lines: &[String; 2]) {
        self.families += 1;
        self.choices += 2;
        let count = |so: &dyn Fn(&str) -> bool| lines.iter().filter(|line| so(line)).count() as u64;
        self.none += count(&|line| line.starts_with('-'));
        self.differing += count(&|line| !same_synthesis(line));
        self.minus_zeros += count(&|line| line.contains(MINUS_ZERO));
        self.kinds.add(case);
    }

    pub fn text(&self) -> String {
        format!(
            "families {} choices {} of them none chosen {}\nlines that differ between the readings {} of them from minus zero {}\n{}",
            self.families,
            self.choices,
            self.none,
            self.differing,
            self.minus_zeros,
            self.kinds.text()
        )
    }
}

/// Compares families until so many choices have been compared.
pub fn compare(program: &Program, seed: u64, choices: u64) -> Result<Counts, String> {
    let mut counts = Counts::default();
    let mut seeds = Random::new(seed);
    let mut first = families::made();
    while counts.choices < choices {
        // What did not fit is left: the next chunk has a new seed.
        let random = families::with_zeros(seeds.draw());
        let cases = std::mem::take(&mut first).into_iter().chain(random);
        chunk(program, cases, choices, &mut counts)?;
    }
    Ok(counts)
}

/// As many cases as the program reads at once, up to so many choices.
fn chunk(
    program: &Program,
    cases: impl Iterator<Item = Case>,
    choices: u64,
    counts: &mut Counts,
) -> Result<(), String> {
    let mut list = Vec::new();
    let mut asked: Vec<(Case, [String; 2])> = Vec::new();
    for case in cases {
        let answers = expected(&case).ok_or_else(|| tell(program, &case))?;
        let size: usize = answers.iter().map(|(bytes, _)| bytes.len()).sum();
        if list.len() + size > program.most {
            break;
        }
        let lines = answers.map(|(bytes, line)| {
            list.extend(bytes);
            line
        });
        asked.push((case, lines));
        if counts.choices + 2 * asked.len() as u64 >= choices {
            break;
        }
    }
    same(program, &list, &asked, counts)
}

/// Whether the program prints two lines for each case, and the right ones.
fn same(
    program: &Program,
    list: &[u8],
    asked: &[(Case, [String; 2])],
    counts: &mut Counts,
) -> Result<(), String> {
    let lines = program.lines(list)?;
    let (pairs, rest) = lines.as_chunks::<2>();
    for (i, (case, expected)) in asked.iter().enumerate() {
        if pairs.get(i) != Some(expected) {
            return Err(tell(program, case));
        }
        counts.add(case, expected);
    }
    if pairs.len() != asked.len() || !rest.is_empty() {
        return Err(format!(
            "{}: {} lines for {} cases",
            program.name,
            lines.len(),
            2 * asked.len()
        ));
    }
    Ok(())
}

/// What the program prints for a case, or why it prints nothing.
fn printed(program: &Program, case: &Case) -> String {
    let list: Vec<u8> = by_plain(case)
        .into_iter()
        .flat_map(|(bytes, _)| bytes)
        .collect();
    program.printed(&list)
}

fn both(answers: Family) -> String {
    answers.map(|(_, line)| line).join("\n  ")
}

/// The smallest family that was found to differ, and what each side says.
fn tell(program: &Program, case: &Case) -> String {
    let least = shrink::family(case, |case| {
        Some(printed(program, case)) != expected(case).map(both)
    });
    let alone = shrink::alone(Some(printed(program, &least)) != expected(&least).map(both));
    format!(
        "difference in a family, synthesis on and then off{alone}: {least:?}\nthe guide (plain):\n  {}\nthe original:\n  {}\nthe proved code:\n  {}",
        both(by_plain(&least)),
        original::family(&least).map_or("nothing".into(), both),
        printed(program, &least)
    )
}

#[cfg(test)]
mod tests {
    use super::*;
    use crate::program::MATCH_CASES;

    /// The plain reading and the original agree on bytes and lines.
    #[cfg(feature = "original")]
    #[test]
    fn plain_and_original() {
        for case in families::with_zeros(31).take(3000) {
            assert_eq!(original::family(&case), Some(by_plain(&case)));
        }
    }

    #[test]
    fn no_difference() {
        let counts = compare(&MATCH_CASES, 3, 6001).unwrap();
        assert_eq!((counts.choices, counts.families), (6002, 3001));
        assert!(counts.none > 50);
        assert!(counts.differing > 300 && counts.minus_zeros > 10);
    }

    #[test]
    fn lines_under_both_readings() {
        assert!(same_synthesis(
            "0 0 0 b 0 wght=44228000 | b 0 wght=44228000"
        ));
        assert!(same_synthesis("- - 1 - 0 | - 0"));
        assert!(!same_synthesis(
            "0 0 0 - 0 slnt=41600000 | - 0 slnt=c1600000"
        ));
        assert!(!same_synthesis(
            "0 0 0 - 0 slnt=80000000 | - 0 slnt=00000000"
        ));
    }

    /// What the program prints, with both parts of each line changed.
    fn printed(list: &[u8], change: fn(&str, &str) -> [String; 2]) -> Result<String, String> {
        let text = (MATCH_CASES.run)(&MATCH_CASES, list)?;
        let line = |line: &str| {
            let (old, new) = line.split_once(" | ").expect("two readings");
            change(old, new).join(" | ") + "\n"
        };
        Ok(text.lines().map(line).collect())
    }

    /// The reading is ignored, the sign of a zero kept, or the other line turned
    /// too; each is told with one face that has the axis.
    #[test]
    fn wrong_readings_are_told() {
        type Run = fn(&Program, &[u8]) -> Result<String, String>;
        let ignored: Run = |_, list| {
            printed(list, |old, _| {
                let words: Vec<&str> = old.split(' ').skip(3).collect();
                [old.into(), words.join(" ")]
            })
        };
        let signed: Run = |_, list| {
            printed(list, |old, new| {
                let new = new.replace("slnt=00000000", "slnt=80000000");
                [old.into(), new]
            })
        };
        let both: Run = |_, list| {
            printed(list, |old, new| {
                let old = old.replace("slnt=41600000", "slnt=c1600000");
                [old, new.into()]
            })
        };
        for run in [ignored, signed, both] {
            let wrong = Program { run, ..MATCH_CASES };
            let told = compare(&wrong, 3, 6000).err().expect("a difference");
            assert_eq!(told.matches("FacePlan").count(), 1, "{told}");
            assert_eq!(told.matches("AxisPlan").count(), 1, "{told}");
            assert!(told.contains("slnt="), "{told}");
        }
    }

    /// A wrong line is told with a small family.
    #[test]
    fn wrong_lines_are_told() {
        // The embolden mark is lost.
        let lost = Program {
            run: |_, list| {
                let text = (MATCH_CASES.run)(&MATCH_CASES, list)?;
                Ok(text.replace(" b ", " - "))
            },
            ..MATCH_CASES
        };
        let told = compare(&lost, 3, 6000).err().expect("a difference");
        assert!(told.contains("the guide (plain):") && told.contains("the proved code:"));
        assert_eq!(told.matches("FacePlan").count(), 1, "{told}");
        // The last line is missing.
        let cut = Program {
            run: |_, list| {
                let text = (MATCH_CASES.run)(&MATCH_CASES, list)?;
                Ok(text[..text.trim_end().rfind('\n').unwrap_or(0)].to_string())
            },
            ..MATCH_CASES
        };
        assert!(compare(&cut, 3, 6000).is_err());
        // A line more.
        let more = Program {
            run: |_, list| {
                let text = (MATCH_CASES.run)(&MATCH_CASES, list)?;
                Ok(text + "0 0 0 - 0 | - 0\n")
            },
            ..MATCH_CASES
        };
        assert!(compare(&more, 3, 6000).is_err());
    }
}
