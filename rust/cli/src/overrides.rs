//! Overrides as they are typed: FILE:KEY=VALUE,..

use std::{
    ffi::{OsStr, OsString},
    fs,
    os::unix::ffi::OsStrExt,
    path::{Path, PathBuf},
    str::FromStr,
};

use stemhook::{Override, Tag};

use crate::{
    failure::{Failure, usage},
    font::Font,
    values,
    words::shown,
};

/// An override, and the file or the font that it is for.
#[derive(Clone, Debug, PartialEq)]
pub struct FileOverride {
    pub file: PathBuf,
    pub given: Override,
}

impl FileOverride {
    /// Reads the text. A colon may stand in the file's name: the first one
    /// after which the rest can be read parts the two.
    pub fn parse(text: &OsString) -> Result<Self, Failure> {
        let bytes = text.as_bytes();
        let colons = bytes.iter().enumerate().filter(|(_, byte)| **byte == b':');
        let mut wrong = None;
        for (at, _) in colons {
            let file = PathBuf::from(OsStr::from_bytes(&bytes[..at]));
            match pairs(&bytes[at + 1..]) {
                Ok(given) if at > 0 => return Ok(Self { file, given }),
                Ok(_) => wrong = wrong.or(Some("the file's name is empty".into())),
                // Of several, the one of the last colon before the first `=`.
                Err(message) if !bytes[..at].contains(&b'=') => wrong = Some(message),
                Err(_) => {}
            }
        }
        let message = wrong.unwrap_or_else(|| "it is not FILE:KEY=VALUE,..".into());
        usage(format!("--override {}: {message}", shown(text)))
    }
}

/// Whether a name is that of a font: its file's, or its own, FILE#N, unless a
/// file beside it has that very name.
pub fn names(name: &Path, font: &Font) -> bool {
    let own = |one: Font| one.index() == font.index() && names_file(&one.file, &font.file);
    let very_name = || {
        font.file
            .with_file_name(name.file_name().unwrap_or_default())
    };
    names_file(name, &font.file) || (Font::numbered(name).is_some_and(own) && !very_name().exists())
}

/// Whether a name is that of a file: its path, however it is written, or its
/// name alone.
pub fn names_file(name: &Path, file: &Path) -> bool {
    let real = |path: &Path| fs::canonicalize(path).ok();
    name == file
        || Some(name.as_os_str()) == file.file_name()
        || real(name).is_some_and(|name| Some(name) == real(file))
}

/// The pairs after the file's name.
fn pairs(bytes: &[u8]) -> Result<Override, String> {
    let text = str::from_utf8(bytes).map_err(|_| "it is not UTF-8")?;
    let mut given = Override::default();
    for pair in text.split(',') {
        let Some((key, value)) = pair.split_once('=') else {
            return Err(format!("{pair:?} is not KEY=VALUE"));
        };
        let twice = match key {
            "width" => given.width.is_some(),
            "style" => given.style.is_some(),
            "weight" => given.weight.is_some(),
            _ => false,
        };
        if twice {
            return Err(format!("{key} is given twice"));
        }
        let said = match key {
            "width" => values::width(value).map(|width| given.width = Some(width)),
            "style" => values::style(value).map(|style| given.style = Some(style)),
            "weight" => values::number(value).map(|weight| given.weight = Some(weight)),
            _ => match Tag::from_str(key) {
                Ok(tag) => values::number(value).map(|value| given.pairs.push((tag, value))),
                Err(_) => {
                    return Err(format!(
                        "{key:?} is not width, style, weight or an axis of four characters"
                    ));
                }
            },
        };
        said.map_err(|message| format!("{key}: {message}"))?;
    }
    Ok(given)
}

#[cfg(test)]
mod tests {
    use super::*;
    use stemhook::{Angle, Style};

    fn parse(text: &str) -> Result<FileOverride, String> {
        match FileOverride::parse(&text.into()) {
            Ok(read) => Ok(read),
            Err(Failure::Usage { message, .. }) => Err(message),
            Err(other) => panic!("{other:?}"),
        }
    }

    #[test]
    fn all_keys() {
        let text = "a/b.ttf:width=0.75,style=oblique:12,weight=300,wght=310,opsz=-2,wght=320";
        let read = parse(text).unwrap();
        assert_eq!(read.file, Path::new("a/b.ttf"));
        assert_eq!(read.given.width, Some(0.75));
        let style = Style::Oblique(Angle::Degrees(12.0));
        assert_eq!(read.given.style, Some(style));
        assert_eq!(read.given.weight, Some(300.0));
        let opsz = Tag(*b"opsz");
        let pairs = [(Tag::WGHT, 310.0), (opsz, -2.0), (Tag::WGHT, 320.0)];
        assert_eq!(read.given.pairs, pairs);
    }

    #[test]
    fn names_with_colons_and_equals_signs() {
        for file in ["c:x.ttf", "a=b.ttf", "a:b=c:d.ttf", ":"] {
            let read = parse(&format!("{file}:style=oblique:3,weight=5")).unwrap();
            assert_eq!(read.file, Path::new(file));
            assert_eq!(read.given.weight, Some(5.0));
        }
        let odd = FileOverride::parse(&OsStr::from_bytes(b"\xff:weight=5").into()).unwrap();
        assert_eq!(odd.file.as_os_str().as_bytes(), b"\xff");
    }

    #[test]
    fn wrong_ones() {
        for (text, expected) in [
            ("", "it is not FILE:KEY=VALUE,.."),
            ("a.ttf", "it is not FILE:KEY=VALUE,.."),
            ("weight=300", "it is not FILE:KEY=VALUE,.."),
            (":weight=300", "the file's name is empty"),
            ("a.ttf:", "\"\" is not KEY=VALUE"),
            ("a.ttf:weight=300,", "\"\" is not KEY=VALUE"),
            ("a.ttf:weight", "\"weight\" is not KEY=VALUE"),
            ("a.ttf:weight=3,weight=4", "weight is given twice"),
            ("a.ttf:weight=bold", "weight: \"bold\" is not a number"),
            ("a.ttf:wght=inf", "wght: \"inf\" is not a finite number"),
            (
                "a.ttf:width=75",
                "width: \"75\" is not a width ratio from 0 to 16 (1 is normal, 0.75 is condensed)",
            ),
            (
                "a.ttf:wieght=1",
                "\"wieght\" is not width, style, weight or an axis of four characters",
            ),
        ] {
            let message = parse(text).unwrap_err();
            assert_eq!(message, format!("--override {text}: {expected}"));
        }
    }

    #[test]
    fn by_path_or_by_name() {
        let lone = Font::file(Path::new("fonts/a.ttf"));
        let second = Font {
            number: Some(1),
            ..lone.clone()
        };
        for name in ["fonts/a.ttf", "a.ttf"] {
            assert!(names(Path::new(name), &lone) && names(Path::new(name), &second));
        }
        for name in ["b/a.ttf", "fonts", "b/a.ttf#1"] {
            assert!(!names(Path::new(name), &lone) && !names(Path::new(name), &second));
        }
        for (name, own) in [("a.ttf#0", &lone), ("fonts/a.ttf#1", &second)] {
            assert!(names(Path::new(name), own), "{name}");
            assert_eq!(names(Path::new(name), &lone), own == &lone);
        }
    }
}
