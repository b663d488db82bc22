//! The two readings of a job.

use std::{error::Error, fmt};

/// Which way a font's slant numbers count.
///
/// A stem like `/` leans right, as italics do in Latin script; one like `\`
/// leans left. A font counts a lean to the right below zero, and a request
/// counts it above zero:
///
/// | | leans right `/` by 12 degrees | leans left `\` by 12 degrees |
/// |---|---|---|
/// | in the font: the `post` angle, the `slnt` axis | -12 | 12 |
/// | in a request, an override, the skew | 12 | -12 |
///
/// Take [`OpenType`](Self::OpenType) for new work: a request for oblique 12
/// then gets the face that leans right. [`AsStored`](Self::AsStored) is for what
/// has to come out as before, for a comparison with fontique, and for a job
/// whose overrides set the angles of its fonts while the program turns `slnt`
/// itself.
///
/// The reading is given with each call, or to a [`Job`](crate::Job) by
/// [`with_reading`](crate::Job::with_reading); the job's bytes do not hold it.
///
/// ```
/// use stemhook::Reading;
///
/// assert_eq!(Reading::default(), Reading::AsStored);
/// assert_eq!(Reading::OpenType.number(), 1);
/// assert_eq!(Reading::try_from(1), Ok(Reading::OpenType));
/// let unknown = Reading::try_from(2).unwrap_err();
/// assert_eq!(unknown.to_string(), "there is no reading 2: it is 0 or 1");
/// ```
#[derive(Clone, Copy, Debug, Default, PartialEq, Eq, Hash)]
pub enum Reading {
    /// 0: the `post` angle is read, and `slnt` is set, with the number as it
    /// stands. A face that leans right ranks as one that leans left.
    #[default]
    AsStored,
    /// 1: the `post` angle is read as its opposite, and `slnt` is set to the
    /// opposite of the requested degrees (-14 for an italic), so that right is
    /// right; a zero is a positive zero. The angles of requests and overrides,
    /// the numbers of axes and the skew stay.
    OpenType,
}

impl Reading {
    /// The reading's number, as the calls take it.
    pub const fn number(self) -> u32 {
        match self {
            Self::AsStored => 0,
            Self::OpenType => 1,
        }
    }
}

impl From<Reading> for u32 {
    fn from(reading: Reading) -> Self {
        reading.number()
    }
}

impl TryFrom<u32> for Reading {
    type Error = UnknownReading;

    fn try_from(number: u32) -> Result<Self, UnknownReading> {
        match number {
            0 => Ok(Self::AsStored),
            1 => Ok(Self::OpenType),
            _ => Err(UnknownReading(number)),
        }
    }
}

/// The error of a number that is no reading.
#[derive(Clone, Copy, Debug, PartialEq, Eq, Hash)]
pub struct UnknownReading(u32);

impl UnknownReading {
    /// The number.
    pub const fn number(self) -> u32 {
        self.0
    }
}

impl fmt::Display for UnknownReading {
    fn fmt(&self, f: &mut fmt::Formatter<'_>) -> fmt::Result {
        write!(f, "there is no reading {}: it is 0 or 1", self.0)
    }
}

impl Error for UnknownReading {}
