//! Why a job builder refuses an entry.

use std::{error::Error, fmt};

use crate::{
    font_fault::FontFault,
    ids::FaceId,
    limits::JOB_BYTES,
    refusal::{Refusal, Refused},
};

/// What is wrong with a field.
#[derive(Clone, Copy, Debug, PartialEq, Eq, Hash)]
#[non_exhaustive]
pub enum Problem {
    /// There are more entries than the limit.
    TooMany {
        /// The limit.
        limit: usize,
    },
    /// The number is infinite or no number.
    NotFinite,
    /// The number is no width ratio from 0 to 16.
    NotARatio,
    /// The job has no face of this number yet.
    NoSuchFace {
        /// The face given.
        face: FaceId,
        /// How many faces the job has.
        faces: usize,
    },
    /// With this entry the job would be over 16,777,216 bytes long.
    TooLong,
    /// The font file is over 4,294,967,295 bytes long: its offsets have 32 bits.
    FontTooLong,
    /// The picker refuses the font.
    Font {
        /// The refusal: 21, 22, 23, 30 or 31.
        refusal: Refusal,
        /// Why, as read from the file.
        fault: FontFault,
    },
    /// The check call refused the job. Nothing that a builder takes leads to it.
    Refused(Refused),
}

impl fmt::Display for Problem {
    fn fmt(&self, f: &mut fmt::Formatter<'_>) -> fmt::Result {
        match self {
            Self::TooMany { limit } => write!(f, "more than {limit}"),
            Self::NotFinite => f.write_str("not a finite number"),
            Self::NotARatio => f.write_str("not a width ratio from 0 to 16"),
            Self::NoSuchFace { face, faces } => {
                write!(f, "face {face} is not in the job, which has {faces}")
            }
            Self::TooLong => write!(f, "the job would be over {JOB_BYTES} bytes long"),
            Self::FontTooLong => write!(f, "the font file is over {} bytes long", u32::MAX),
            Self::Font { refusal, fault } => {
                write!(f, "refused {}: {refusal}: {fault}", refusal.number())
            }
            Self::Refused(refused) => refused.fmt(f),
        }
    }
}

/// The error of a [`JobBuilder`](crate::JobBuilder): a field, and what is
/// wrong with it. The field is named by its entry's number:
/// `overrides[3].pairs[1].value: not a finite number`. Where the picker refuses,
/// the refusal is its source, and its words stand in the text too.
#[derive(Clone, Debug, PartialEq, Eq)]
pub struct BuildError {
    field: String,
    face: Option<FaceId>,
    problem: Problem,
}

impl BuildError {
    pub(crate) fn new(field: impl Into<String>, problem: Problem) -> Self {
        Self {
            field: field.into(),
            face: None,
            problem,
        }
    }

    /// Of the font of a face, or of its number.
    pub(crate) fn of_font(face: FaceId, problem: Problem) -> Self {
        let part = match problem {
            Problem::Font {
                refusal: Refusal::NoSuchFont,
                ..
            } => "number",
            _ => "font",
        };
        Self {
            field: format!("faces[{face}].{part}"),
            face: Some(face),
            problem,
        }
    }

    /// The field's name.
    pub fn field(&self) -> &str {
        &self.field
    }

    /// The face whose font is at fault, if it is a font. The job does not have
    /// it; the next face that is taken gets its number.
    pub fn face(&self) -> Option<FaceId> {
        self.face
    }

    /// What is wrong with the field.
    pub fn problem(&self) -> Problem {
        self.problem
    }
}

impl fmt::Display for BuildError {
    fn fmt(&self, f: &mut fmt::Formatter<'_>) -> fmt::Result {
        write!(f, "{}: {}", self.field, self.problem)
    }
}

impl Error for BuildError {
    /// The picker's refusal, where it is one.
    fn source(&self) -> Option<&(dyn Error + 'static)> {
        match &self.problem {
            Problem::Font { refusal, .. } => Some(refusal),
            Problem::Refused(refused) => Some(refused),
            _ => None,
        }
    }
}
