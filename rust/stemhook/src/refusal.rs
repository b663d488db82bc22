//! Refusals: why a job or a call is not answered.

use std::{error::Error, fmt};

/// A refusal of the picker's table, without the place where it was met.
///
/// ```
/// use stemhook::Refusal;
///
/// assert_eq!(Refusal::BytesLeft.number(), 27);
/// assert_eq!(Refusal::from_number(27), Refusal::BytesLeft);
/// assert_eq!(Refusal::BytesLeft.to_string(), "bytes are left after the job's end");
/// ```
#[derive(Clone, Copy, Debug, PartialEq, Eq, Hash)]
#[non_exhaustive]
pub enum Refusal {
    /// 16: the output is not 40 bytes long.
    OutputLength,
    /// 17: the job is over 16,777,216 bytes long.
    JobLength,
    /// 18: a field runs past the job's end.
    PastEnd,
    /// 19: a count is over its limit.
    CountOverLimit,
    /// 20: a face's held byte is not 0 or 1.
    HeldByte,
    /// 21: a font has a bad start, or its directory runs past the file; of a
    /// collection also where its header, its offsets or the font's offset run
    /// past it.
    FontDirectory,
    /// 22: a font has no `cmap` record that qualifies.
    NoCharmap,
    /// 23: a font has over 16 axes.
    TooManyAxes,
    /// 24: a face number is not in the job.
    NoSuchFace,
    /// 25: a mask or a style kind is unknown, or a spare field is not zero. Of a
    /// call also: the reading is unknown, which comes after 16 and 17 and before
    /// any field of the job.
    UnknownOrSpare,
    /// 26: a number is not finite, or a width ratio is not from 0 to 16.
    NumberOutside,
    /// 27: bytes are left after the job's end.
    BytesLeft,
    /// 28: the request is not in the job.
    NoSuchRequest,
    /// 29: synthesis would give a fourth setting. No job leads to it: that is
    /// proved.
    FourthSetting,
    /// 30: the font number is not below the collection's count.
    NoSuchFont,
    /// 31: a table that the font's attributes need is damaged. It comes after
    /// 21 and before 22.
    ///
    /// A table is damaged where its first record reaches past the file or is
    /// shorter than what is read: 78 bytes of `OS/2`, 54 of `head`, 32 of `post`.
    /// `OS/2` is needed wherever it has a record, `head` where `OS/2` has none,
    /// and `post` where `OS/2` says that the font is oblique and not italic.
    DamagedTable,
    /// A number that is not in this version's table: the static library is of
    /// another version.
    Unknown(u32),
}

impl Refusal {
    /// The refusals of the table, in the order of their numbers.
    pub const TABLE: [Self; 16] = [
        Self::OutputLength,
        Self::JobLength,
        Self::PastEnd,
        Self::CountOverLimit,
        Self::HeldByte,
        Self::FontDirectory,
        Self::NoCharmap,
        Self::TooManyAxes,
        Self::NoSuchFace,
        Self::UnknownOrSpare,
        Self::NumberOutside,
        Self::BytesLeft,
        Self::NoSuchRequest,
        Self::FourthSetting,
        Self::NoSuchFont,
        Self::DamagedTable,
    ];

    /// The refusal's number in the table.
    pub const fn number(self) -> u32 {
        match self {
            Self::OutputLength => 16,
            Self::JobLength => 17,
            Self::PastEnd => 18,
            Self::CountOverLimit => 19,
            Self::HeldByte => 20,
            Self::FontDirectory => 21,
            Self::NoCharmap => 22,
            Self::TooManyAxes => 23,
            Self::NoSuchFace => 24,
            Self::UnknownOrSpare => 25,
            Self::NumberOutside => 26,
            Self::BytesLeft => 27,
            Self::NoSuchRequest => 28,
            Self::FourthSetting => 29,
            Self::NoSuchFont => 30,
            Self::DamagedTable => 31,
            Self::Unknown(number) => number,
        }
    }

    /// The refusal of a number.
    pub fn from_number(number: u32) -> Self {
        let listed = Self::TABLE
            .into_iter()
            .find(|refusal| refusal.number() == number);
        listed.unwrap_or(Self::Unknown(number))
    }

    /// What the refusal is given for.
    pub const fn meaning(self) -> &'static str {
        match self {
            Self::OutputLength => "the output is not 40 bytes long",
            Self::JobLength => "the job is over 16777216 bytes long",
            Self::PastEnd => "a field runs past the job's end",
            Self::CountOverLimit => "a count is over its limit",
            Self::HeldByte => "a held byte is not 0 or 1",
            Self::FontDirectory => "the font has a bad start, or its directory runs past the file",
            Self::NoCharmap => "the font has no qualifying cmap record",
            Self::TooManyAxes => "the font has over 16 axes",
            Self::NoSuchFace => "a face number is not in the job",
            Self::UnknownOrSpare => {
                "the reading, a mask or a style kind is unknown, or a spare field is not zero"
            }
            Self::NumberOutside => "a number is not finite, or a width ratio not from 0 to 16",
            Self::BytesLeft => "bytes are left after the job's end",
            Self::NoSuchRequest => "the request is not in the job",
            Self::FourthSetting => "synthesis would give a fourth setting",
            Self::NoSuchFont => "the font number is not below the collection's count",
            Self::DamagedTable => "a table that the font's attributes need is damaged",
            Self::Unknown(_) => "not in the table of this version",
        }
    }

    /// Whether the check call gives a field's position with it. The refusals
    /// of a call, a request or a synthesis have none.
    const fn has_position(self) -> bool {
        !matches!(
            self,
            Self::OutputLength | Self::JobLength | Self::NoSuchRequest | Self::FourthSetting
        )
    }
}

impl fmt::Display for Refusal {
    fn fmt(&self, f: &mut fmt::Formatter<'_>) -> fmt::Result {
        f.write_str(self.meaning())
    }
}

impl Error for Refusal {}

/// The error of a call: a refusal, and the position of the field it is for.
///
/// ```
/// use stemhook::{Refusal, check};
///
/// // Four empty sections, and a byte too many.
/// let refused = check(&[0; 9]).unwrap_err();
/// assert_eq!(refused.refusal(), Refusal::BytesLeft);
/// assert_eq!(refused.number(), 27);
/// assert_eq!(refused.position(), Some(8));
/// assert_eq!(
///     refused.to_string(),
///     "refused 27 at byte 8: bytes are left after the job's end"
/// );
/// ```
#[derive(Clone, Copy, Debug, PartialEq, Eq, Hash)]
pub struct Refused {
    refusal: Refusal,
    position: Option<u32>,
}

impl Refused {
    /// From what the check call answers, other than 0.
    pub(crate) fn from_check(answer: u64) -> Self {
        let refusal = Refusal::from_number((answer & 0xff) as u32);
        let position = u32::try_from(answer >> 8).ok();
        Self {
            refusal,
            position: position.filter(|_| refusal.has_position()),
        }
    }

    /// A refusal without a position.
    pub(crate) fn without_position(refusal: Refusal) -> Self {
        Self {
            refusal,
            position: None,
        }
    }

    /// The refusal.
    pub fn refusal(&self) -> Refusal {
        self.refusal
    }

    /// The refusal's number in the table.
    pub fn number(&self) -> u32 {
        self.refusal.number()
    }

    /// The position of the field in the job, counted in bytes from 0. None for
    /// 16, 17, 28 and 29, which are not for a field, and for 25 where it is for
    /// the reading.
    ///
    /// A font's position is that of its length field; that of
    /// [`Refusal::NoSuchFont`] is the font number, and that of
    /// [`Refusal::BytesLeft`] the first byte left.
    pub fn position(&self) -> Option<u32> {
        self.position
    }
}

impl fmt::Display for Refused {
    fn fmt(&self, f: &mut fmt::Formatter<'_>) -> fmt::Result {
        write!(f, "refused {}", self.number())?;
        if let Some(position) = self.position {
            write!(f, " at byte {position}")?;
        }
        write!(f, ": {}", self.refusal)
    }
}

impl Error for Refused {}
