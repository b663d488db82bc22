//! Fonts as they are named: a file, or one of a collection's fonts, FILE#N.

use std::{
    ffi::OsStr,
    os::unix::ffi::OsStrExt,
    path::{Path, PathBuf},
};

use stemhook::face_count;

use crate::words::shown;

/// A file, or a font of it.
#[derive(Clone, Debug, PartialEq, Eq, Hash)]
pub struct Font {
    pub file: PathBuf,
    /// The number of the font. None for a lone font, and for a file as a whole.
    pub number: Option<u16>,
}

impl Font {
    /// A file as a whole.
    pub fn file(file: &Path) -> Self {
        Self {
            file: file.to_owned(),
            number: None,
        }
    }

    /// Reads FILE#N.
    pub fn numbered(name: &Path) -> Option<Self> {
        let bytes = name.as_os_str().as_bytes();
        let mark = bytes.iter().rposition(|byte| *byte == b'#')?;
        let (file, digits) = (&bytes[..mark], &bytes[mark + 1..]);
        if file.is_empty() || !digits.iter().all(u8::is_ascii_digit) {
            return None;
        }
        Some(Self {
            file: OsStr::from_bytes(file).into(),
            number: Some(str::from_utf8(digits).ok()?.parse().ok()?),
        })
    }

    /// The fonts of a file with these bytes: the one that was named, or all that
    /// have a number. A collection without a font, or without all their offsets,
    /// stays whole: it is refused as one.
    pub fn each(&self, bytes: &[u8]) -> Vec<Self> {
        let with = |number| Self {
            file: self.file.clone(),
            number,
        };
        match (self.number, collected(bytes)) {
            (None, Some(fonts)) => {
                let numbers = (0..=u16::MAX).take(fonts as usize);
                numbers.map(|number| with(Some(number))).collect()
            }
            (Some(0), _) if !bytes.starts_with(b"ttcf") => vec![with(None)],
            _ => vec![self.clone()],
        }
    }

    /// How many fonts a file with these bytes has, where [`each`](Self::each)
    /// leaves some out, for which there is no number.
    pub fn over_numbered(&self, bytes: &[u8]) -> Option<u32> {
        let fonts = collected(bytes).filter(|_| self.number.is_none());
        fonts.filter(|fonts| *fonts > 1 << 16)
    }

    /// The number in a job.
    pub fn index(&self) -> u16 {
        self.number.unwrap_or(0)
    }

    /// As a message has it.
    pub fn shown(&self) -> String {
        self.marked(&self.file)
    }

    /// The same, without the folder.
    pub fn name(&self) -> String {
        self.marked(self.file.file_name().unwrap_or_default())
    }

    fn marked(&self, name: impl AsRef<OsStr>) -> String {
        match self.number {
            Some(number) => format!("{}#{number}", shown(name)),
            None => shown(name),
        }
    }
}

/// How many fonts a collection has whose offsets all lie in the file; none for
/// any other file.
fn collected(bytes: &[u8]) -> Option<u32> {
    let fonts = face_count(bytes);
    let offsets = 12 + 4 * u64::from(fonts) <= bytes.len() as u64;
    (bytes.starts_with(b"ttcf") && fonts > 0 && offsets).then_some(fonts)
}

#[cfg(test)]
mod tests {
    use super::*;

    #[test]
    fn names_with_numbers() {
        for (name, file, number) in [
            ("a.ttc#0", "a.ttc", 0),
            ("a#b#007", "a#b", 7),
            ("#1#65535", "#1", 65535),
        ] {
            let font = Font::numbered(Path::new(name)).unwrap();
            assert_eq!(font.file, Path::new(file));
            assert_eq!(font.number, Some(number));
        }
        for name in ["a.ttc", "a.ttc#", "#1", "a#+1", "a#-1", "a#65536", "a#1 "] {
            assert_eq!(Font::numbered(Path::new(name)), None, "{name}");
        }
    }

    #[test]
    fn the_fonts_of_a_file() {
        let header = |fonts: u32, offsets: usize| {
            let mut file = b"ttcf\0\x01\0\0".to_vec();
            file.extend(fonts.to_be_bytes());
            file.resize(file.len() + 4 * offsets, 0);
            file
        };
        let whole = Font::file(Path::new("a"));
        let numbers = |font: &Font, bytes: &[u8]| -> Vec<Option<u16>> {
            font.each(bytes).iter().map(|font| font.number).collect()
        };
        assert_eq!(numbers(&whole, &header(2, 2)), [Some(0), Some(1)]);
        for odd in [&header(2, 1)[..], &header(0, 1), b"ttcf", b"OTTO", b""] {
            assert_eq!(numbers(&whole, odd), [None]);
        }
        let font = |number| Font {
            number: Some(number),
            ..whole.clone()
        };
        for fonts in [65_536, 65_537, 70_000] {
            let file = header(fonts, fonts as usize);
            assert_eq!(numbers(&whole, &file).len(), 65_536);
            let over = Some(fonts).filter(|fonts| *fonts != 65_536);
            assert_eq!(whole.over_numbered(&file), over);
            assert_eq!(font(1).over_numbered(&file), None);
        }
        assert_eq!(numbers(&font(1), &header(2, 2)), [Some(1)]);
        assert_eq!(numbers(&font(0), &header(2, 2)), [Some(0)]);
        assert_eq!(numbers(&font(0), b"OTTO"), [None]);
        assert_eq!(numbers(&font(1), b"OTTO"), [Some(1)]);
    }
}
