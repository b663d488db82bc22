//! The layout of a job (docs/GUIDE.md, section 6), written down field by field.

use plain::job::{FACES, FAMILIES, OVERRIDES, PLACES, REQUESTS};

use crate::bytes::fonts_stated;

/// A job as its parts; what stands in them need not be accepted. Fonts are
/// its own, or borrowed from the job's bytes.
#[derive(Clone, PartialEq, Eq, Default, Debug)]
pub struct Job<F = Vec<u8>> {
    pub faces: Vec<Face<F>>,
    pub overrides: Vec<Override>,
    /// Face numbers, by place.
    pub families: Vec<Vec<u16>>,
    pub requests: Vec<Request>,
}

#[derive(Clone, PartialEq, Eq, Debug)]
pub struct Face<F = Vec<u8>> {
    pub held: bool,
    pub font: F,
    /// The font number, written behind a collection alone.
    pub number: u16,
}

/// Kind byte and the bits of the angle, zero unless the kind is 3.
#[derive(Copy, Clone, PartialEq, Eq, Default, Debug)]
pub struct Style {
    pub kind: u8,
    pub angle: u32,
}

impl Style {
    pub const NORMAL: Self = Self { kind: 0, angle: 0 };
    pub const ITALIC: Self = Self { kind: 1, angle: 0 };
    pub const UNSTATED: Self = Self { kind: 2, angle: 0 };

    /// Oblique with a stated angle.
    pub const fn stated(angle: f32) -> Self {
        Self {
            kind: 3,
            angle: angle.to_bits(),
        }
    }
}

/// Numbers are bits; none is an attribute that the mask leaves out.
#[derive(Clone, PartialEq, Eq, Default, Debug)]
pub struct Override {
    pub face: u16,
    pub ratio: Option<u32>,
    pub style: Option<Style>,
    pub weight: Option<u32>,
    pub pairs: Vec<([u8; 4], u32)>,
}

#[derive(Clone, PartialEq, Eq, Default, Debug)]
pub struct Request {
    pub most: u16,
    pub ratio: u32,
    pub style: Style,
    pub weight: u32,
    pub families: Vec<u16>,
    pub fallbacks: Vec<u16>,
}

/// What a field may hold.
#[derive(Copy, Clone, PartialEq, Eq, Debug)]
pub enum Kind {
    /// 16 bits, up to a limit.
    Count(u32),
    /// 8 bits without a limit.
    ByteCount,
    Held,
    /// The length of a font file. With the file it is one field.
    Length,
    /// The font file; its position is that of the length.
    File,
    /// The font number behind a collection.
    FontNumber,
    /// Below the number of faces.
    FaceNumber(u16),
    Mask,
    /// The kind of a style.
    StyleKind,
    /// The kind of a style that the mask leaves out.
    SpareKind,
    Ratio,
    /// An angle, a weight or a value: any finite number.
    Number,
    /// A number that the mask or the kind leaves out.
    Spare,
    /// Tag, most offers or family number: whatever it holds is accepted.
    Free,
}

#[derive(Copy, Clone, PartialEq, Eq, Debug)]
pub struct Field {
    pub kind: Kind,
    pub at: usize,
    pub size: usize,
}

/// A job's bytes and its fields from left to right.
#[derive(Clone, Default, Debug)]
pub struct Written {
    pub bytes: Vec<u8>,
    pub fields: Vec<Field>,
}

impl Written {
    fn put(&mut self, kind: Kind, bytes: &[u8]) {
        self.fields.push(Field {
            kind,
            at: self.bytes.len(),
            size: bytes.len(),
        });
        self.bytes.extend(bytes);
    }

    fn put16(&mut self, kind: Kind, value: usize) {
        self.put(kind, &(value as u16).to_be_bytes());
    }

    fn put32(&mut self, kind: Kind, value: u32) {
        self.put(kind, &value.to_be_bytes());
    }

    fn style(&mut self, style: Style) {
        self.put(Kind::StyleKind, &[style.kind]);
        let kind = if style.kind == 3 {
            Kind::Number
        } else {
            Kind::Spare
        };
        self.put32(kind, style.angle);
    }

    /// An override past its face.
    fn override_entry(&mut self, given: &Override) {
        let bit = |present: bool, bit: u8| if present { bit } else { 0 };
        let mask = bit(given.ratio.is_some(), 1)
            | bit(given.style.is_some(), 2)
            | bit(given.weight.is_some(), 4);
        self.put(Kind::Mask, &[mask]);
        self.masked(Kind::Ratio, given.ratio);
        match given.style {
            Some(style) => self.style(style),
            None => {
                self.put(Kind::SpareKind, &[0]);
                self.put32(Kind::Spare, 0);
            }
        }
        self.masked(Kind::Number, given.weight);
        self.put(Kind::ByteCount, &[given.pairs.len() as u8]);
        for (tag, value) in &given.pairs {
            self.put(Kind::Free, tag);
            self.put32(Kind::Number, *value);
        }
    }

    /// A number, or zero where the mask leaves it out.
    fn masked(&mut self, kind: Kind, value: Option<u32>) {
        match value {
            Some(value) => self.put32(kind, value),
            None => self.put32(Kind::Spare, 0),
        }
    }

    fn request(&mut self, request: &Request) {
        self.put16(Kind::Free, usize::from(request.most));
        self.put32(Kind::Ratio, request.ratio);
        self.style(request.style);
        self.put32(Kind::Number, request.weight);
        self.list(&request.families);
        self.list(&request.fallbacks);
    }

    fn list(&mut self, numbers: &[u16]) {
        self.put(Kind::ByteCount, &[numbers.len() as u8]);
        for number in numbers {
            self.put16(Kind::Free, usize::from(*number));
        }
    }
}

/// Writes a job down. Counts beyond the field are cut; none else is looked at.
pub fn write<F: AsRef<[u8]>>(job: &Job<F>) -> Written {
    let mut out = Written::default();
    let face_number = Kind::FaceNumber(job.faces.len() as u16);
    out.put16(Kind::Count(FACES), job.faces.len());
    for face in &job.faces {
        out.put(Kind::Held, &[u8::from(face.held)]);
        let font = face.font.as_ref();
        out.put32(Kind::Length, font.len() as u32);
        out.put(Kind::File, font);
        if fonts_stated(font).is_some() {
            out.put16(Kind::FontNumber, usize::from(face.number));
        }
    }
    out.put16(Kind::Count(OVERRIDES), job.overrides.len());
    for given in &job.overrides {
        out.put16(face_number, usize::from(given.face));
        out.override_entry(given);
    }
    out.put16(Kind::Count(FAMILIES), job.families.len());
    for places in &job.families {
        out.put16(Kind::Count(PLACES), places.len());
        for face in places {
            out.put16(face_number, usize::from(*face));
        }
    }
    out.put16(Kind::Count(REQUESTS), job.requests.len());
    for request in &job.requests {
        out.request(request);
    }
    out
}

/// The parts of a job that is accepted; none where a field lies past the end
/// or bytes are left. Nothing else is tested.
pub fn parts(bytes: &[u8]) -> Option<Job<&[u8]>> {
    let mut rest = Rest(bytes);
    let mut job = Job::default();
    for _ in 0..rest.u16()? {
        let held = rest.u8()? == 1;
        let length = rest.u32()? as usize;
        let font = rest.take(length)?;
        let number = match fonts_stated(font) {
            Some(_) => rest.u16()?,
            None => 0,
        };
        job.faces.push(Face { held, font, number });
    }
    for _ in 0..rest.u16()? {
        job.overrides.push(rest.override_entry()?);
    }
    for _ in 0..rest.u16()? {
        let count = rest.u16()?;
        job.families.push(rest.numbers(count)?);
    }
    for _ in 0..rest.u16()? {
        job.requests.push(rest.request()?);
    }
    rest.0.is_empty().then_some(job)
}

struct Rest<'a>(&'a [u8]);

impl<'a> Rest<'a> {
    fn take(&mut self, size: usize) -> Option<&'a [u8]> {
        let (taken, rest) = self.0.split_at_checked(size)?;
        self.0 = rest;
        Some(taken)
    }

    fn array<const N: usize>(&mut self) -> Option<[u8; N]> {
        self.take(N)?.try_into().ok()
    }

    fn u8(&mut self) -> Option<u8> {
        self.array().map(u8::from_be_bytes)
    }

    fn u16(&mut self) -> Option<u16> {
        self.array().map(u16::from_be_bytes)
    }

    fn u32(&mut self) -> Option<u32> {
        self.array().map(u32::from_be_bytes)
    }

    fn style(&mut self) -> Option<Style> {
        Some(Style {
            kind: self.u8()?,
            angle: self.u32()?,
        })
    }

    fn override_entry(&mut self) -> Option<Override> {
        let face = self.u16()?;
        let mask = self.u8()?;
        let (ratio, style, weight) = (self.u32()?, self.style()?, self.u32()?);
        let count = self.u8()?;
        let pair = |_| Some((self.array()?, self.u32()?));
        Some(Override {
            face,
            ratio: (mask & 1 != 0).then_some(ratio),
            style: (mask & 2 != 0).then_some(style),
            weight: (mask & 4 != 0).then_some(weight),
            pairs: (0..count).map(pair).collect::<Option<_>>()?,
        })
    }

    fn request(&mut self) -> Option<Request> {
        Some(Request {
            most: self.u16()?,
            ratio: self.u32()?,
            style: self.style()?,
            weight: self.u32()?,
            families: self.list()?,
            fallbacks: self.list()?,
        })
    }

    fn list(&mut self) -> Option<Vec<u16>> {
        let count = self.u8()?;
        self.numbers(u16::from(count))
    }

    fn numbers(&mut self, count: u16) -> Option<Vec<u16>> {
        (0..count).map(|_| self.u16()).collect()
    }
}
