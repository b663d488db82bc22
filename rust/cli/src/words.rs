//! The words of a command line: options, their values, and operands.

use std::{
    ffi::{OsStr, OsString},
    os::unix::ffi::{OsStrExt, OsStringExt},
    vec,
};

use crate::failure::{Failure, usage};

/// What an option takes.
#[derive(Clone, Copy, Debug, PartialEq, Eq)]
pub enum Takes {
    Nothing,
    /// The next word, or what stands after `=`.
    Value,
    /// What stands after `=`, if anything does.
    Joined,
}

/// An option as it is typed.
#[derive(Clone, Copy, Debug)]
pub struct Name<T> {
    pub long: &'static str,
    pub short: Option<u8>,
    pub takes: Takes,
    pub option: T,
}

#[derive(Debug, PartialEq)]
pub enum Word<T> {
    Option(T, Option<OsString>),
    Operand(OsString),
}

/// The words of a command line, by a command's options.
pub struct Words<T> {
    names: Vec<Name<T>>,
    words: vec::IntoIter<OsString>,
    /// What is left of a word of short options.
    cluster: Vec<u8>,
    /// Whether `--` was met.
    ended: bool,
}

impl<T: Copy> Words<T> {
    pub fn new(names: Vec<Name<T>>, words: Vec<OsString>) -> Self {
        Self {
            names,
            words: words.into_iter(),
            cluster: Vec::new(),
            ended: false,
        }
    }

    pub fn next(&mut self) -> Result<Option<Word<T>>, Failure> {
        if !self.cluster.is_empty() {
            return self.short().map(Some);
        }
        let mut word = self.words.next();
        if !self.ended && word.as_deref() == Some(OsStr::new("--")) {
            self.ended = true;
            word = self.words.next();
        }
        let Some(word) = word else {
            return Ok(None);
        };
        let bytes = word.as_bytes();
        if self.ended || bytes == b"-" || !bytes.starts_with(b"-") {
            return Ok(Some(Word::Operand(word)));
        }
        if bytes.starts_with(b"--") {
            return self.long(&word).map(Some);
        }
        self.cluster = bytes.get(1..).unwrap_or_default().to_vec();
        self.short().map(Some)
    }

    /// A word that starts with `--`.
    fn long(&mut self, word: &OsStr) -> Result<Word<T>, Failure> {
        let bytes = word.as_bytes();
        let (name, joined) = match bytes.iter().position(|byte| *byte == b'=') {
            Some(at) => (&bytes[..at], Some(&bytes[at + 1..])),
            None => (bytes, None),
        };
        let Some(known) = self.find(|known| known.long.as_bytes() == name) else {
            return usage(format!("unknown option {}", shown(OsStr::from_bytes(name))));
        };
        let joined = joined.map(|value| OsString::from_vec(value.to_vec()));
        self.option(known, known.long, joined)
    }

    /// The next of the short options in a word.
    fn short(&mut self) -> Result<Word<T>, Failure> {
        let letter = self.cluster.remove(0);
        let name = format!("-{}", letter.escape_ascii());
        let Some(known) = self.find(|known| known.short == Some(letter)) else {
            return usage(format!("unknown option {name}"));
        };
        let mut joined = None;
        let equals = self.cluster.first() == Some(&b'=');
        if equals || (known.takes != Takes::Nothing && !self.cluster.is_empty()) {
            let value = std::mem::take(&mut self.cluster);
            joined = Some(OsString::from_vec(value[usize::from(equals)..].to_vec()));
        }
        self.option(known, &name, joined)
    }

    fn find(&self, wanted: impl Fn(&Name<T>) -> bool) -> Option<Name<T>> {
        self.names.iter().copied().find(wanted)
    }

    /// An option with its value.
    fn option(
        &mut self,
        known: Name<T>,
        typed: &str,
        joined: Option<OsString>,
    ) -> Result<Word<T>, Failure> {
        let value = match (known.takes, joined) {
            (Takes::Nothing, Some(_)) => return usage(format!("{typed} takes no value")),
            (Takes::Value, None) => match self.words.next() {
                Some(value) => Some(value),
                None => return usage(format!("{typed} needs a value")),
            },
            (_, joined) => joined,
        };
        Ok(Word::Option(known.option, value))
    }
}

/// A word or file name as a message has it: on one line and in its order,
/// whatever it holds.
pub fn shown(name: impl AsRef<OsStr>) -> String {
    let mut line = String::new();
    for character in name.as_ref().to_string_lossy().chars() {
        let turns = matches!(character, '\u{2028}'..='\u{202e}' | '\u{2066}'..='\u{2069}');
        if character.is_control() || turns {
            line.extend(character.escape_default());
        } else {
            line.push(character);
        }
    }
    line
}

#[cfg(test)]
mod tests {
    use super::*;

    fn words(typed: &[&str]) -> Result<Vec<Word<char>>, Failure> {
        let name = |long, short, takes, option| Name {
            long,
            short,
            takes,
            option,
        };
        let names = vec![
            name("--quiet", Some(b'q'), Takes::Nothing, 'q'),
            name("--output", Some(b'o'), Takes::Value, 'o'),
            name("--family", None, Takes::Joined, 'f'),
        ];
        let mut words = Words::new(names, typed.iter().map(OsString::from).collect());
        let mut all = Vec::new();
        while let Some(word) = words.next()? {
            all.push(word);
        }
        Ok(all)
    }

    fn option(option: char, value: Option<&str>) -> Word<char> {
        Word::Option(option, value.map(OsString::from))
    }

    fn operand(name: &str) -> Word<char> {
        Word::Operand(name.into())
    }

    #[test]
    fn values_joined_and_apart() {
        for typed in [
            &["--output", "x"][..],
            &["--output=x"],
            &["-o", "x"],
            &["-ox"],
            &["-o=x"],
        ] {
            let expected = [option('o', Some("x"))];
            assert_eq!(words(typed).unwrap(), expected, "{typed:?}");
        }
        let typed = ["-qqo", "-", "--output=", "--family", "a", "--family=b"];
        let expected = [
            option('q', None),
            option('q', None),
            option('o', Some("-")),
            option('o', Some("")),
            option('f', None),
            operand("a"),
            option('f', Some("b")),
        ];
        assert_eq!(words(&typed).unwrap(), expected);
    }

    #[test]
    fn operands() {
        let typed = ["a", "-", "", "--", "--quiet", "--", "-q"];
        let expected = ["a", "-", "", "--quiet", "--", "-q"].map(operand);
        assert_eq!(words(&typed).unwrap(), expected);
        assert_eq!(words(&["--"]).unwrap(), []);
    }

    #[test]
    fn wrong_options() {
        for (typed, expected) in [
            (&["--wide"][..], "unknown option --wide"),
            (&["--wide=3"], "unknown option --wide"),
            (&["-qx"], "unknown option -x"),
            (&["--q\n"], "unknown option --q\\n"),
            (&["--quiet=1"], "--quiet takes no value"),
            (&["-q=1"], "-q takes no value"),
            (&["--output"], "--output needs a value"),
            (&["-o"], "-o needs a value"),
        ] {
            match words(typed) {
                Err(Failure::Usage { message, .. }) => assert_eq!(message, expected),
                other => panic!("{typed:?}: {other:?}"),
            }
        }
    }

    #[test]
    fn shown_on_one_line() {
        assert_eq!(shown("a\nb\u{1b}[2J\u{2028}é"), "a\\nb\\u{1b}[2J\\u{2028}é");
        assert_eq!(shown("a\u{202e}b\u{2066}"), "a\\u{202e}b\\u{2066}");
        assert_eq!(shown(OsStr::from_bytes(b"a\xff")), "a\u{fffd}");
    }
}
