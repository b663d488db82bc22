//! Font files: those given to a builder, and those of a job's offers.

use std::fmt;

use crate::{ids::FaceId, offer::Settings};

/// A font file that is given to [`JobBuilder::face`](crate::JobBuilder::face).
///
/// The bytes alone are enough: `builder.face(&bytes)`. Of a collection, that is
/// its first font; [`number`](Self::number) says which.
///
/// ```
/// # mod fonts { include!(concat!(env!("CARGO_MANIFEST_DIR"), "/tests/common/fonts.rs")); }
/// # let bytes = fonts::weight(400);
/// use stemhook::{FontFile, JobBuilder};
///
/// let mut builder = JobBuilder::new();
/// let face = builder.face(FontFile::new(&bytes).named("Regular.ttf"))?;
/// # assert_eq!(face.number(), 0);
/// # Ok::<(), stemhook::BuildError>(())
/// ```
#[derive(Clone, Copy, PartialEq, Eq)]
pub struct FontFile<'a> {
    pub(crate) bytes: &'a [u8],
    pub(crate) number: u16,
    pub(crate) name: &'a str,
    pub(crate) held: bool,
    pub(crate) whole: bool,
}

impl<'a> FontFile<'a> {
    /// A font file by its bytes: held, without a name, and of a collection the
    /// font 0. The job gets just what the picker looks at.
    pub const fn new(bytes: &'a [u8]) -> Self {
        Self {
            bytes,
            number: 0,
            name: "",
            held: true,
            whole: false,
        }
    }

    /// The font of a collection by its number, below what
    /// [`face_count`](crate::face_count) gives. A lone font has the number 0.
    ///
    /// ```
    /// # mod fonts { include!(concat!(env!("CARGO_MANIFEST_DIR"), "/tests/common/fonts.rs")); }
    /// # let collection = fonts::collection(&[400, 700]);
    /// use stemhook::{FontFile, JobBuilder};
    ///
    /// let mut builder = JobBuilder::new();
    /// let bold = builder.face(FontFile::new(&collection).number(1))?;
    /// let error = builder.face(FontFile::new(&collection).number(2)).unwrap_err();
    /// assert_eq!(
    ///     error.to_string(),
    ///     "faces[1].number: refused 30: the font number is not below the collection's count: \
    ///      the file has 2 fonts (0 to 1), and the number is 2"
    /// );
    /// # assert_eq!(bold.number(), 0);
    /// # Ok::<(), stemhook::BuildError>(())
    /// ```
    pub const fn number(self, number: u16) -> Self {
        Self { number, ..self }
    }

    /// Gives it a name, a path say, which [`Job::font`](crate::Job::font) gives
    /// back for an offer.
    pub const fn named(self, name: &'a str) -> Self {
        Self { name, ..self }
    }

    /// A face that is not held: it takes part in the choice but is not offered.
    pub const fn not_held(self) -> Self {
        Self {
            held: false,
            ..self
        }
    }

    /// The job gets the whole file, so that charmap offsets count from its
    /// first byte in the job's bytes too; a collection goes in once for each of
    /// its faces, with the font number behind it. A job has at most
    /// [`JOB_BYTES`](crate::limits::JOB_BYTES).
    pub const fn whole(self) -> Self {
        Self {
            whole: true,
            ..self
        }
    }
}

impl<'a> From<&'a [u8]> for FontFile<'a> {
    fn from(bytes: &'a [u8]) -> Self {
        Self::new(bytes)
    }
}

impl<'a> From<&'a Vec<u8>> for FontFile<'a> {
    fn from(bytes: &'a Vec<u8>) -> Self {
        Self::new(bytes)
    }
}

impl<'a, const N: usize> From<&'a [u8; N]> for FontFile<'a> {
    fn from(bytes: &'a [u8; N]) -> Self {
        Self::new(bytes)
    }
}

impl fmt::Debug for FontFile<'_> {
    fn fmt(&self, f: &mut fmt::Formatter<'_>) -> fmt::Result {
        f.debug_struct("FontFile")
            .field("name", &self.name)
            .field("length", &self.bytes.len())
            .field("number", &self.number)
            .field("held", &self.held)
            .field("whole", &self.whole)
            .finish()
    }
}

/// The font of an offer: what [`Job::font`](crate::Job::font) gives.
#[derive(Clone, Copy, PartialEq)]
#[non_exhaustive]
pub struct Font<'a> {
    /// The face. Its number is that of the font among those added.
    pub face: FaceId,
    /// The number of the font in the caller's file: 0 for a lone font.
    pub number: u16,
    /// The font file as it stands in the job: what the picker looks at, as a
    /// lone font, or the [whole file](FontFile::whole) where that was asked for.
    pub file: &'a [u8],
    /// The name that the caller gave the file; empty where none was given.
    pub name: &'a str,
    /// The settings of its variation axes.
    pub settings: Settings,
}

impl fmt::Debug for Font<'_> {
    fn fmt(&self, f: &mut fmt::Formatter<'_>) -> fmt::Result {
        f.debug_struct("Font")
            .field("face", &self.face)
            .field("number", &self.number)
            .field("length", &self.file.len())
            .field("name", &self.name)
            .field("settings", &self.settings)
            .finish()
    }
}
