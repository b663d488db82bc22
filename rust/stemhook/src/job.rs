//! A job that has been checked.

use std::{borrow::Cow, fmt};

use crate::{
    calls::{check, offer},
    font_file::Font,
    ids::{FaceId, RequestId},
    layout::Layout,
    looked_at::Subtables,
    offer::Offer,
    offers::Offers,
    reading::Reading,
    refusal::{Refusal, Refused},
};

/// A job that the check call accepted, and the reading under which its offers
/// are asked for: [`Reading::AsStored`], unless [`with_reading`](Self::with_reading)
/// says another. It owns its bytes or borrows them.
///
/// Most jobs come from a [`JobBuilder`](crate::JobBuilder); this reads one
/// that is stored.
///
/// ```
/// use stemhook::{Job, Refusal, RequestId};
///
/// let job = Job::new(&[0; 8])?;
/// assert_eq!(job.requests().len(), 0);
/// let refused = job.offers(RequestId::new(0)).unwrap_err();
/// assert_eq!(refused.refusal(), Refusal::NoSuchRequest);
///
/// assert_eq!(Job::new(vec![0; 9]).unwrap_err().refusal(), Refusal::BytesLeft);
/// # Ok::<(), stemhook::Refused>(())
/// ```
#[derive(Clone, PartialEq, Eq)]
pub struct Job<'a> {
    bytes: Cow<'a, [u8]>,
    layout: Layout,
    reading: Reading,
    /// What the bytes do not say of each face. None for a job that is stored.
    notes: Vec<FaceNote>,
}

/// What a job's bytes do not say of a face.
#[derive(Clone, Debug, Default, PartialEq, Eq)]
pub(crate) struct FaceNote {
    /// The caller's name for the file.
    pub name: String,
    /// The font's number in the caller's file.
    pub number: u16,
    /// The way back to the caller's file, where the job has a small one.
    pub subtables: Option<Subtables>,
}

impl<'a> Job<'a> {
    /// Checks a job.
    pub fn new(bytes: impl Into<Cow<'a, [u8]>>) -> Result<Self, Refused> {
        Self::with_notes(bytes.into(), Vec::new())
    }

    pub(crate) fn with_notes(
        bytes: impl Into<Cow<'a, [u8]>>,
        notes: Vec<FaceNote>,
    ) -> Result<Self, Refused> {
        let bytes = bytes.into();
        check(&bytes)?;
        // An accepted job has its layout: no field runs past its end.
        let past_end = || Refused::without_position(Refusal::PastEnd);
        let layout = Layout::of(&bytes).ok_or_else(past_end)?;
        Ok(Self {
            bytes,
            layout,
            reading: Reading::default(),
            notes,
        })
    }

    /// The same job under a reading: [`offer`](Self::offer) and
    /// [`offers`](Self::offers) answer by it. The bytes stay as they are.
    ///
    /// ```
    /// # mod fonts { include!(concat!(env!("CARGO_MANIFEST_DIR"), "/tests/common/fonts.rs")); }
    /// # let bytes = fonts::variable(&[(*b"slnt", -10, 0, 0)]);
    /// use stemhook::{Attributes, JobBuilder, Reading, Request, Style, Tag};
    ///
    /// let mut builder = JobBuilder::new();
    /// let face = builder.face(&bytes)?; // upright, and its axis `slnt` leans right
    /// let family = builder.family(&[face])?;
    /// let request = builder.request(&Request {
    ///     attributes: Attributes { style: Style::Italic, ..Attributes::default() },
    ///     families: vec![family],
    ///     ..Request::default()
    /// })?;
    /// let job = builder.build()?;
    /// assert_eq!(job.reading(), Reading::AsStored);
    /// let offer = job.offer(request, 0)?.expect("there is one");
    /// assert_eq!(offer.settings.value(Tag::SLNT), Some(14.0));
    ///
    /// let job = job.with_reading(Reading::OpenType);
    /// let offer = job.offer(request, 0)?.expect("there is one");
    /// assert_eq!(offer.settings.value(Tag::SLNT), Some(-14.0));
    /// # Ok::<(), Box<dyn std::error::Error>>(())
    /// ```
    #[must_use]
    pub fn with_reading(self, reading: Reading) -> Self {
        Self { reading, ..self }
    }

    /// The reading under which the job is asked.
    pub const fn reading(&self) -> Reading {
        self.reading
    }

    /// The job's requests.
    pub fn requests(&self) -> impl ExactSizeIterator<Item = RequestId> + use<> {
        (0..self.layout.requests).map(|number| RequestId::new(number.into()))
    }

    /// The job's bytes, in which the reading has no part. Where they hold small
    /// font files, charmap offsets that are read by [`offer`](crate::offer())
    /// from them count in those.
    pub fn as_bytes(&self) -> &[u8] {
        &self.bytes
    }

    /// The job's bytes, owned.
    pub fn into_bytes(self) -> Vec<u8> {
        self.bytes.into_owned()
    }

    /// The offer of a number for a request, or none where it lies past the
    /// list. The one refusal is [`NoSuchRequest`](crate::Refusal::NoSuchRequest).
    pub fn offer(&self, request: RequestId, number: u32) -> Result<Option<Offer>, Refused> {
        let offer = offer(&self.bytes, self.reading, request.number(), number)?;
        Ok(offer.map(|offer| self.in_whole(offer)))
    }

    /// The offers for a request, in order. The one refusal is
    /// [`NoSuchRequest`](crate::Refusal::NoSuchRequest).
    pub fn offers(&self, request: RequestId) -> Result<Offers<'_>, Refused> {
        Offers::new(self, request)
    }

    /// The font of an offer of this job: which file it is, which font of it, what
    /// the caller called it, and what to set its axes to. None for an offer whose family or
    /// place the job does not have.
    ///
    /// ```
    /// # mod fonts { include!(concat!(env!("CARGO_MANIFEST_DIR"), "/tests/common/fonts.rs")); }
    /// # let bytes = fonts::variable(&[(*b"wght", 100, 400, 900)]);
    /// use stemhook::{Attributes, FontFile, JobBuilder, Request};
    ///
    /// let mut builder = JobBuilder::new();
    /// let face = builder.face(FontFile::new(&bytes).named("Inter.ttf"))?;
    /// let family = builder.family(&[face])?;
    /// let request = builder.request(&Request {
    ///     attributes: Attributes { weight: 650.0, ..Attributes::default() },
    ///     families: vec![family],
    ///     ..Request::default()
    /// })?;
    /// let job = builder.build()?;
    ///
    /// let offer = job.offer(request, 0)?.expect("there is one");
    /// let font = job.font(&offer).expect("it is of this job");
    /// assert_eq!((font.face, font.name), (face, "Inter.ttf"));
    /// assert_eq!(format!("{:?}", font.settings), "[wght=650]");
    /// # Ok::<(), Box<dyn std::error::Error>>(())
    /// ```
    pub fn font(&self, offer: &Offer) -> Option<Font<'_>> {
        let face = self.face(offer)?;
        let note = self.notes.get(face.index());
        let (file, number) = self.layout.font(&self.bytes, face)?;
        Some(Font {
            face,
            number: note.map_or(number, |note| note.number),
            file,
            name: note.map_or("", |note| &note.name),
            settings: offer.settings,
        })
    }

    fn face(&self, offer: &Offer) -> Option<FaceId> {
        self.layout.face(&self.bytes, offer.family, offer.place)
    }

    /// The offer with the charmap's offset in the caller's file.
    fn in_whole(&self, mut offer: Offer) -> Offer {
        let note = self
            .face(&offer)
            .and_then(|face| self.notes.get(face.index()));
        let subtables = note.and_then(|note| note.subtables.as_ref());
        if let Some(offset) = subtables.and_then(|found| found.in_whole(offer.charmap.offset)) {
            offer.charmap.offset = offset;
        }
        offer
    }
}

impl AsRef<[u8]> for Job<'_> {
    fn as_ref(&self) -> &[u8] {
        &self.bytes
    }
}

impl fmt::Debug for Job<'_> {
    fn fmt(&self, f: &mut fmt::Formatter<'_>) -> fmt::Result {
        f.debug_struct("Job")
            .field("length", &self.bytes.len())
            .field("requests", &self.layout.requests)
            .field("reading", &self.reading)
            .finish()
    }
}
