//! A builder of jobs: it writes the layout, and nothing outside it.

use std::fmt;

use crate::{
    attributes::{Attributes, Style},
    build_error::{BuildError, Problem},
    calls::check,
    entry::{Entry, within},
    font_fault::FontFault,
    font_file::FontFile,
    ids::{FaceId, FamilyId, RequestId},
    job::{FaceNote, Job},
    limits,
    looked_at::looked_at,
    refusal::Refusal,
    tables::{HEADER, is_collection},
    tag::Tag,
};

/// What is given in place of a face's own attributes and axis defaults.
#[derive(Clone, Debug, Default, PartialEq)]
pub struct Override {
    /// The width ratio, if it is replaced.
    pub width: Option<f32>,
    /// The style, if it is replaced.
    pub style: Option<Style>,
    /// The weight, if it is replaced.
    pub weight: Option<f32>,
    /// Defaults for axes, at most 255. Later ones win; a tag that the face
    /// does not have does nothing.
    pub pairs: Vec<(Tag, f32)>,
}

/// What is asked for, and of which families.
#[derive(Clone, Debug, PartialEq)]
pub struct Request {
    /// The list of offers is cut after this many; 0 gives none.
    pub most: u16,
    /// The attributes asked for.
    pub attributes: Attributes,
    /// Families, in turn; at most 255. One that the job does not have is passed
    /// over, one that is listed twice offers twice.
    pub families: Vec<FamilyId>,
    /// The families that come last; at most 255.
    pub fallbacks: Vec<FamilyId>,
}

impl Default for Request {
    /// Every offer for the default attributes, of no family.
    ///
    /// ```
    /// use stemhook::Request;
    ///
    /// let request = Request::default();
    /// assert_eq!(request.most, u16::MAX);
    /// assert_eq!(request.attributes.weight, 400.0);
    /// assert!(request.families.is_empty() && request.fallbacks.is_empty());
    /// ```
    fn default() -> Self {
        Self {
            most: u16::MAX,
            attributes: Attributes::default(),
            families: Vec::new(),
            fallbacks: Vec::new(),
        }
    }
}

/// Builds a job entry by entry.
///
/// Each entry is tested when it is added. An entry that would not keep the
/// layout is refused with an error that names the field, and the builder stays
/// as it was. Faces come before the overrides and families that name them.
///
/// ```
/// # mod fonts { include!(concat!(env!("CARGO_MANIFEST_DIR"), "/tests/common/fonts.rs")); }
/// # let (regular, bold) = (fonts::weight(400), fonts::weight(700));
/// use stemhook::{Attributes, JobBuilder, Request};
///
/// let mut builder = JobBuilder::new();
/// let regular = builder.face(&regular)?; // the bytes of a font file
/// let bold = builder.face(&bold)?;
/// let family = builder.family(&[regular, bold])?;
/// let request = builder.request(&Request {
///     attributes: Attributes { weight: 700.0, ..Attributes::default() },
///     families: vec![family],
///     ..Request::default()
/// })?;
/// let job = builder.build()?;
///
/// let offers: Vec<_> = job.offers(request)?.collect::<Result<_, _>>()?;
/// assert_eq!(offers.len(), 2);
/// assert_eq!((offers[0].place, offers[0].embolden), (1, false));
/// assert_eq!((offers[1].place, offers[1].embolden), (0, true));
/// # Ok::<(), Box<dyn std::error::Error>>(())
/// ```
///
/// What cannot stand in a job is refused by name:
///
/// ```
/// use stemhook::{FaceId, JobBuilder, Problem};
///
/// let mut builder = JobBuilder::new();
/// let face = FaceId::new(3);
/// let error = builder.family(&[face]).unwrap_err();
/// assert_eq!(error.field(), "families[0].faces[0]");
/// assert_eq!(error.problem(), Problem::NoSuchFace { face, faces: 0 });
/// assert_eq!(
///     error.to_string(),
///     "families[0].faces[0]: face 3 is not in the job, which has 0"
/// );
/// ```
#[derive(Clone, Default)]
pub struct JobBuilder {
    faces: Section,
    overrides: Section,
    families: Section,
    requests: Section,
    /// What the job's bytes do not say of each face.
    notes: Vec<FaceNote>,
}

/// The entries of a section as they stand in the job, without their count.
#[derive(Clone, Default)]
struct Section {
    count: u16,
    bytes: Vec<u8>,
}

impl Section {
    /// The number of the next entry, if there may be one.
    fn next(&self, name: &str, limit: usize) -> Result<u16, BuildError> {
        within(usize::from(self.count) + 1, limit, name)?;
        Ok(self.count)
    }

    fn push(&mut self, entry: &[u8]) {
        self.bytes.extend_from_slice(entry);
        self.count += 1;
    }
}

impl JobBuilder {
    /// A job without entries.
    pub fn new() -> Self {
        Self::default()
    }

    /// Adds a face: the bytes of a font file, or a [`FontFile`].
    ///
    /// The job gets a small font file with just what the picker looks at, unless
    /// the [whole file](FontFile::whole) is asked for. The offers are the same,
    /// and their charmap offsets are those of the file that is given here.
    ///
    /// A font that the picker refuses is refused at once:
    ///
    /// ```
    /// use stemhook::JobBuilder;
    ///
    /// let mut builder = JobBuilder::new();
    /// let error = builder.face(b"wOFF and the rest of the file").unwrap_err();
    /// assert_eq!(
    ///     error.to_string(),
    ///     "faces[0].font: refused 21: the font has a bad start, or its directory runs past \
    ///      the file: a WOFF file: unpack it to TrueType or OpenType"
    /// );
    /// ```
    pub fn face<'a>(&mut self, font: impl Into<FontFile<'a>>) -> Result<FaceId, BuildError> {
        let font = font.into();
        let face = FaceId::new(self.faces.next("faces", limits::FACES)?);
        let error = |problem| BuildError::of_font(face, problem);
        let small = looked_at(font.bytes, font.number);
        let small = small.ok_or_else(|| error(Problem::FontTooLong))?;
        if let Some(refusal) = refusal(&font, &small.bytes) {
            let fault = FontFault::of(font.bytes, font.number, refusal);
            return Err(error(Problem::Font { refusal, fault }));
        }
        let bytes = if font.whole { font.bytes } else { &small.bytes };
        // The held byte, the length, and the number behind a collection.
        let around = if is_collection(bytes) { 7 } else { 5 };
        if !self.has_room(around + bytes.len()) {
            return Err(error(Problem::TooLong));
        }
        self.faces.push(&face_entry(bytes, font.number, font.held));
        self.notes.push(FaceNote {
            name: font.name.to_owned(),
            number: font.number,
            subtables: (!font.whole).then_some(small.subtables),
        });
        Ok(face)
    }

    /// Adds an override of a face. Overrides apply in the order in which they
    /// are added.
    ///
    /// ```
    /// # mod fonts { include!(concat!(env!("CARGO_MANIFEST_DIR"), "/tests/common/fonts.rs")); }
    /// # let font = fonts::weight(400);
    /// use stemhook::{JobBuilder, Override, Tag};
    ///
    /// let mut builder = JobBuilder::new();
    /// let face = builder.face(&font)?;
    /// builder.override_face(face, &Override {
    ///     weight: Some(350.0),
    ///     pairs: vec![(Tag::WGHT, 350.0)],
    ///     ..Override::default()
    /// })?;
    ///
    /// let wrong = Override { width: Some(17.0), ..Override::default() };
    /// let error = builder.override_face(face, &wrong).unwrap_err();
    /// assert_eq!(error.to_string(), "overrides[1].width: not a width ratio from 0 to 16");
    /// # Ok::<(), stemhook::BuildError>(())
    /// ```
    pub fn override_face(&mut self, face: FaceId, given: &Override) -> Result<(), BuildError> {
        let number = self.overrides.next("overrides", limits::OVERRIDES)?;
        let name = format!("overrides[{number}]");
        self.known_face(face, || format!("{name}.face"))?;
        let mut entry = Entry::new(&name);
        entry.half(face.number());
        let mask = u8::from(given.width.is_some())
            | u8::from(given.style.is_some()) << 1
            | u8::from(given.weight.is_some()) << 2;
        entry.byte(mask);
        match given.width {
            Some(width) => entry.ratio(width)?,
            None => entry.zeros(4),
        }
        match given.style {
            Some(style) => entry.style(style)?,
            None => entry.zeros(5),
        }
        match given.weight {
            Some(weight) => entry.finite(weight, "weight")?,
            None => entry.zeros(4),
        }
        entry.count(given.pairs.len(), "pairs")?;
        for (at, (tag, value)) in given.pairs.iter().enumerate() {
            entry.bytes.extend(tag.0);
            entry.finite(*value, &format!("pairs[{at}].value"))?;
        }
        self.fits(&entry)?;
        self.overrides.push(&entry.bytes);
        Ok(())
    }

    /// Adds a family of faces. A face's place is where it stands here. There may
    /// be none.
    pub fn family(&mut self, faces: &[FaceId]) -> Result<FamilyId, BuildError> {
        let number = self.families.next("families", limits::FAMILIES)?;
        let name = format!("families[{number}]");
        within(faces.len(), limits::FAMILY_FACES, &format!("{name}.faces"))?;
        let mut entry = Entry::new(&name);
        entry.bytes.extend((faces.len() as u16).to_be_bytes());
        for (place, face) in faces.iter().enumerate() {
            self.known_face(*face, || format!("{name}.faces[{place}]"))?;
            entry.half(face.number());
        }
        self.fits(&entry)?;
        self.families.push(&entry.bytes);
        Ok(FamilyId::new(number))
    }

    /// Adds a request.
    pub fn request(&mut self, request: &Request) -> Result<RequestId, BuildError> {
        let number = self.requests.next("requests", limits::REQUESTS)?;
        let name = format!("requests[{number}]");
        let mut entry = Entry::new(&name);
        entry.half(request.most);
        entry.ratio(request.attributes.width)?;
        entry.style(request.attributes.style)?;
        entry.finite(request.attributes.weight, "weight")?;
        entry.list(&request.families, "families")?;
        entry.list(&request.fallbacks, "fallbacks")?;
        self.fits(&entry)?;
        self.requests.push(&entry.bytes);
        Ok(RequestId::new(number.into()))
    }

    /// The job, once the check call has accepted it. Each entry was tested when
    /// it was added: a refusal here would be a fault of this crate.
    pub fn build(&self) -> Result<Job<'static>, BuildError> {
        let mut bytes = Vec::with_capacity(self.length());
        for section in self.sections() {
            bytes.extend(section.count.to_be_bytes());
            bytes.extend_from_slice(&section.bytes);
        }
        Job::with_notes(bytes, self.notes.clone())
            .map_err(|refused| BuildError::new("job", Problem::Refused(refused)))
    }

    fn sections(&self) -> [&Section; 4] {
        [&self.faces, &self.overrides, &self.families, &self.requests]
    }

    /// The job's length in bytes.
    fn length(&self) -> usize {
        self.sections()
            .iter()
            .map(|section| 2 + section.bytes.len())
            .sum()
    }

    /// Whether an entry of so many bytes can be added.
    fn has_room(&self, bytes: usize) -> bool {
        bytes <= limits::JOB_BYTES - self.length()
    }

    fn fits(&self, entry: &Entry) -> Result<(), BuildError> {
        if self.has_room(entry.bytes.len()) {
            Ok(())
        } else {
            Err(BuildError::new(entry.name, Problem::TooLong))
        }
    }

    fn known_face(&self, face: FaceId, field: impl Fn() -> String) -> Result<(), BuildError> {
        if face.number() < self.faces.count {
            return Ok(());
        }
        let faces = usize::from(self.faces.count);
        Err(BuildError::new(
            field(),
            Problem::NoSuchFace { face, faces },
        ))
    }
}

impl fmt::Debug for JobBuilder {
    fn fmt(&self, f: &mut fmt::Formatter<'_>) -> fmt::Result {
        f.debug_struct("JobBuilder")
            .field("faces", &self.faces.count)
            .field("overrides", &self.overrides.count)
            .field("families", &self.families.count)
            .field("requests", &self.requests.count)
            .field("length", &self.length())
            .finish()
    }
}

/// A face's entry: the held byte, the length, the font file and, behind a
/// collection, the font number.
fn face_entry(font: &[u8], number: u16, held: bool) -> Vec<u8> {
    let mut entry = vec![u8::from(held)];
    // At most the bytes of a job.
    entry.extend((font.len() as u32).to_be_bytes());
    entry.extend_from_slice(font);
    if is_collection(font) {
        entry.extend(number.to_be_bytes());
    }
    entry
}

/// The refusal of a font: the check call's, of what is looked at. A job has no
/// number behind a lone font, which counts as a collection of one.
fn refusal(font: &FontFile, small: &[u8]) -> Option<Refusal> {
    if font.number > 0 && font.bytes.len() >= HEADER && !is_collection(font.bytes) {
        return Some(Refusal::NoSuchFont);
    }
    let checked = check(&job_of_face(small, font.number));
    checked.err().map(|refused| refused.refusal())
}

/// A job of one face and nothing else.
fn job_of_face(font: &[u8], number: u16) -> Vec<u8> {
    let mut job = vec![0, 1];
    job.extend(face_entry(font, number, true));
    job.extend([0; 6]);
    job
}
