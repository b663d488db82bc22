//! Faces by value: the proved `apply_override` and `maybe_override_attributes`,
//! in the linked program `override_cases`, beside the plain reading and the
//! original.

use jobs::overrides::{self, Case, Given};
use plain::{font, lines};

use crate::{original, program::OVERRIDE_CASES};

/// What the program prints.
pub fn printed() -> Result<String, String> {
    (OVERRIDE_CASES.run)(&OVERRIDE_CASES, &[])
}

fn by_plain(case: &Case) -> String {
    lines::face(&match &case.given {
        Given::Override(given) => font::overridden(&case.face, given),
        Given::Maybe(given) => font::maybe_overridden(&case.face, given),
    })
}

/// What has been compared.
#[derive(Default, PartialEq, Eq, Debug)]
pub struct Counts {
    /// With the plain reading: of `apply_override`, of `maybe_override_attributes`.
    pub plain: [u64; 2],
    /// With the original, which refuses nothing: those that are not refused.
    pub original: [u64; 2],
}

impl Counts {
    pub fn text(&self) -> String {
        let [set, maybe] = self.plain;
        let [set_there, maybe_there] = self.original;
        let with_original = if original::HERE {
            format!(", with the original {set_there} and {maybe_there} that are not refused")
        } else {
            String::new()
        };
        format!(
            "overrides: lines of apply_override {set}, of maybe_override_attributes {maybe}{with_original}\n"
        )
    }
}

/// Compares the printed lines, all of them, in their order.
pub fn compare(printed: &str) -> Result<Counts, String> {
    let cases = overrides::made();
    let mut counts = Counts::default();
    let mut lines = printed.lines();
    for case in &cases {
        let kind = usize::from(matches!(case.given, Given::Maybe(_)));
        let proved = lines.next().unwrap_or_default();
        let plain = by_plain(case);
        let by_original = original::face(case).filter(|_| !plain.starts_with("refused "));
        let named = |line: &str| format!("{}: {line}", case.name);
        let others = by_original.iter().chain([&plain]);
        if others.into_iter().any(|line| named(line) != proved) {
            return Err(format!(
                "difference in a face by value: {case:?}\nthe guide (plain): {plain}\nthe original: {}\nthe proved code: {proved}",
                by_original.as_deref().unwrap_or("nothing"),
            ));
        }
        counts.plain[kind] += 1;
        counts.original[kind] += u64::from(by_original.is_some());
    }
    match lines.next() {
        None => Ok(counts),
        Some(line) => Err(format!("override_cases: a line more: {line}")),
    }
}

#[cfg(test)]
mod tests {
    use super::*;

    #[test]
    fn no_difference() {
        let counts = compare(&printed().unwrap()).unwrap();
        assert_eq!(counts.plain, [56, 35]);
        let original = if original::HERE { [30, 18] } else { [0, 0] };
        assert_eq!(counts.original, original);
    }

    /// Every line is looked at: each one that is wrong is told, with its name.
    #[test]
    fn wrong_lines_are_told() {
        let printed = printed().unwrap();
        let lines: Vec<&str> = printed.lines().collect();
        for (number, line) in lines.iter().enumerate() {
            let last = line.chars().last().expect("a character");
            let other = if last == '0' { '1' } else { '0' };
            let wrong = format!("{}{other}", &line[..line.len() - 1]);
            let mut planted = lines.clone();
            planted[number] = &wrong;
            let told = compare(&planted.join("\n")).unwrap_err();
            let (name, _) = line.split_once(": ").expect("a name");
            assert!(told.contains(&format!("name: {name:?}")), "{told}");
            assert!(told.contains(&wrong), "{told}");
        }
    }

    #[test]
    fn missing_and_more_lines_are_told() {
        let printed = printed().unwrap();
        let (most, last) = printed.trim_end().rsplit_once('\n').expect("lines");
        assert!(compare(most).is_err());
        assert!(compare(&format!("{printed}{last}\n")).is_err());
    }
}
