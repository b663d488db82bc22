//! What the original says; nothing where it is not compiled, so that nothing
//! is taken for its word.

use jobs::counts::Asked;

use crate::job::Lists;

/// Whether the original is here.
pub const HERE: bool = cfg!(feature = "original");

/// What it was asked for, as a line; none where it is not here.
pub fn asked_text(asked: &Asked) -> String {
    if HERE { asked.text() } else { String::new() }
}

/// The bytes of a family and its line, with synthesis on and then off.
pub type Family = [(Vec<u8>, String); 2];

#[cfg(feature = "original")]
mod here {
    use jobs::{counts::Asked, families::Case, font_list::Entry, overrides};
    use reference::{describe, families, offers::Harness};

    use super::{Family, Lists};

    #[derive(Default)]
    pub struct Original(Harness);

    impl Original {
        /// The records of every request's offers under each reading, of a job
        /// that is accepted.
        pub fn lists(&self, job: &[u8]) -> Option<Result<[Lists; 2], String>> {
            let records = |reading| self.0.records(job, reading);
            let both = records(0).and_then(|old| Ok([old, records(1)?]));
            Some(both)
        }
    }

    /// Whether its word on the job's fonts fits the answer, but for a font
    /// that is refused with 31; and how many it was asked for.
    pub fn fonts_agree(job: &[u8], number: u32, position: usize) -> Result<Asked, String> {
        reference::offers::fonts_agree(job, number, position)
    }

    pub fn family(case: &Case) -> Option<Family> {
        let mut case = families::Case::new(case);
        Some([true, false].map(|synthesis| {
            case.synthesis = synthesis;
            families::answer(&case)
        }))
    }

    /// The line of a font under reading 0 or 1. It takes a damaged table for
    /// absent.
    pub fn font(font: &Entry) -> Option<String> {
        Some(describe::line(&font.file, font.reading, font.number))
    }

    /// The line of a face by value.
    pub fn face(case: &overrides::Case) -> Option<String> {
        reference::overrides::line(case)
    }
}

#[cfg(not(feature = "original"))]
mod here {
    use jobs::{counts::Asked, families::Case, font_list::Entry, overrides};

    use super::{Family, Lists};

    #[derive(Default)]
    pub struct Original(());

    impl Original {
        pub fn lists(&self, _job: &[u8]) -> Option<Result<[Lists; 2], String>> {
            None
        }
    }

    pub fn fonts_agree(_job: &[u8], _number: u32, _position: usize) -> Result<Asked, String> {
        Ok(Asked::default())
    }

    pub fn family(_case: &Case) -> Option<Family> {
        None
    }

    pub fn font(_font: &Entry) -> Option<String> {
        None
    }

    pub fn face(_case: &overrides::Case) -> Option<String> {
        None
    }
}

pub use here::{Original, face, family, font, fonts_agree};
