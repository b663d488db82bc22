//! Section 6: the job and its refusals.

use crate::{
    font::{self, Angle, Attributes, Font, Override, Style, Tag},
    reading,
    single::Single,
};

/// Most bytes of a job.
pub const BYTES: usize = 16_777_216;
pub const FACES: u32 = 256;
pub const OVERRIDES: u32 = 256;
pub const FAMILIES: u32 = 64;
pub const PLACES: u32 = 64;
pub const REQUESTS: u32 = 256;

/// The table's number and the field's position.
#[derive(Copy, Clone, PartialEq, Eq, Debug)]
pub struct Refusal {
    pub number: u32,
    pub position: u32,
}

/// A face of the job after all overrides.
#[derive(Clone, Debug)]
pub struct Face {
    pub held: bool,
    pub font: Font,
}

#[derive(Clone, Debug)]
pub struct Request {
    pub most: u16,
    pub attributes: Attributes,
    pub families: Vec<u16>,
    pub fallbacks: Vec<u16>,
}

#[derive(Clone, Debug)]
pub struct Job {
    pub faces: Vec<Face>,
    /// Face numbers, by place.
    pub families: Vec<Vec<u16>>,
    pub requests: Vec<Request>,
}

/// The check call: number and position, 0 and 0 for an accepted job. No
/// refusal of a job depends on the reading, and this call takes none.
pub fn check(job: &[u8]) -> (u32, u32) {
    match read(job, 0) {
        Ok(_) => (0, 0),
        Err(refusal) => (refusal.number, refusal.position),
    }
}

/// Reads a job to its end, its fonts under the reading, or gives the refusal
/// that is met first: 17, then 25 for the reading, then those of the job.
pub fn read(job: &[u8], reading: u32) -> Result<Job, Refusal> {
    if job.len() > BYTES {
        return refuse(17, 0);
    }
    if !reading::is_known(reading) {
        return refuse(25, 0);
    }
    let mut reader = Reader {
        job,
        reading,
        at: 0,
    };
    let sections = reader.sections()?;
    if reader.at < job.len() {
        return refuse(27, reader.at);
    }
    Ok(sections)
}

fn refuse<T>(number: u32, position: usize) -> Result<T, Refusal> {
    Err(Refusal {
        number,
        position: position as u32,
    })
}

/// A field that has been read: its position and its bits.
#[derive(Copy, Clone)]
struct Field {
    position: usize,
    bits: u32,
}

impl Field {
    /// The field's bits, if the test passes; else the refusal at its position.
    fn unless(self, number: u32, refused: bool) -> Result<u32, Refusal> {
        if refused {
            refuse(number, self.position)
        } else {
            Ok(self.bits)
        }
    }

    /// A field that has to be zero.
    fn spare(self) -> Result<(), Refusal> {
        self.unless(25, self.bits != 0).map(|_| ())
    }

    fn finite(self) -> Result<Single, Refusal> {
        self.unless(26, !Single(self.bits).is_finite()).map(Single)
    }

    fn ratio(self) -> Result<Single, Refusal> {
        self.unless(26, !Single(self.bits).is_ratio()).map(Single)
    }
}

struct Reader<'a> {
    job: &'a [u8],
    reading: u32,
    /// Position of the next field.
    at: usize,
}

impl<'a> Reader<'a> {
    /// The four sections; an override is carried out when it is met.
    fn sections(&mut self) -> Result<Job, Refusal> {
        let mut faces = Vec::new();
        for _ in 0..self.count(FACES)? {
            faces.push(self.face()?);
        }
        for _ in 0..self.count(OVERRIDES)? {
            let number = self.face_number(faces.len())?;
            let given = self.override_entry()?;
            font::apply_override(&mut faces[usize::from(number)].font, &given);
        }
        let mut families = Vec::new();
        for _ in 0..self.count(FAMILIES)? {
            let mut places = Vec::new();
            for _ in 0..self.count(PLACES)? {
                places.push(self.face_number(faces.len())?);
            }
            families.push(places);
        }
        let mut requests = Vec::new();
        for _ in 0..self.count(REQUESTS)? {
            requests.push(self.request()?);
        }
        Ok(Job {
            faces,
            families,
            requests,
        })
    }

    /// The next field of `size` bytes, at most 4.
    fn field(&mut self, size: usize) -> Result<Field, Refusal> {
        let position = self.at;
        if position + size > self.job.len() {
            return refuse(18, position);
        }
        let mut bits = 0;
        for byte in &self.job[position..position + size] {
            bits = bits << 8 | u32::from(*byte);
        }
        self.at = position + size;
        Ok(Field { position, bits })
    }

    /// A 16-bit count with a limit.
    fn count(&mut self, limit: u32) -> Result<u32, Refusal> {
        let field = self.field(2)?;
        field.unless(19, field.bits > limit)
    }

    fn face_number(&mut self, faces: usize) -> Result<u16, Refusal> {
        let field = self.field(2)?;
        let number = field.unless(24, field.bits as usize >= faces)?;
        Ok(number as u16)
    }

    fn face(&mut self) -> Result<Face, Refusal> {
        let held = self.field(1)?;
        let held = held.unless(20, held.bits > 1)? == 1;
        // The font is one field, from its length on.
        let length = self.field(4)?;
        let end = self.at as u64 + u64::from(length.bits);
        if end > self.job.len() as u64 {
            return refuse(18, length.position);
        }
        let file = &self.job[self.at..end as usize];
        self.at = end as usize;
        // The font number stands behind a collection that has its header.
        let number = if font::is_collection(file) && file.len() >= font::HEADER {
            self.field(2)?
        } else {
            Field { bits: 0, ..length }
        };
        match font::read(file, self.reading, number.bits as u16) {
            Ok(font) => Ok(Face { held, font }),
            Err(30) => refuse(30, number.position),
            Err(refusal) => refuse(refusal, length.position),
        }
    }

    fn override_entry(&mut self) -> Result<Override, Refusal> {
        let mask = self.field(1)?;
        let mask = mask.unless(25, mask.bits > 7)?;
        let ratio = self.field(4)?;
        let ratio = if mask & 1 != 0 {
            Some(ratio.ratio()?)
        } else {
            ratio.spare()?;
            None
        };
        let style = if mask & 2 != 0 {
            Some(self.style()?)
        } else {
            self.field(1)?.spare()?;
            self.field(4)?.spare()?;
            None
        };
        let weight = self.field(4)?;
        let weight = if mask & 4 != 0 {
            Some(weight.finite()?)
        } else {
            weight.spare()?;
            None
        };
        let mut axes = Vec::new();
        for _ in 0..self.field(1)?.bits {
            let tag: Tag = self.field(4)?.bits.to_be_bytes();
            axes.push((tag, self.field(4)?.finite()?));
        }
        Ok(Override {
            ratio,
            style,
            weight,
            axes,
        })
    }

    fn style(&mut self) -> Result<Style, Refusal> {
        let kind = self.field(1)?;
        let kind = kind.unless(25, kind.bits > 3)?;
        let angle = self.field(4)?;
        if kind == 3 {
            return Ok(Style::Oblique(Angle::Degrees(angle.finite()?)));
        }
        angle.spare()?;
        Ok(match kind {
            0 => Style::Normal,
            1 => Style::Italic,
            _ => Style::Oblique(Angle::Unstated),
        })
    }

    fn request(&mut self) -> Result<Request, Refusal> {
        let most = self.field(2)?.bits as u16;
        let ratio = self.field(4)?.ratio()?;
        let style = self.style()?;
        let weight = self.field(4)?.finite()?;
        Ok(Request {
            most,
            attributes: Attributes {
                ratio,
                style,
                weight,
            },
            families: self.list()?,
            fallbacks: self.list()?,
        })
    }

    /// A byte count and that many family numbers; any number is accepted.
    fn list(&mut self) -> Result<Vec<u16>, Refusal> {
        let mut numbers = Vec::new();
        for _ in 0..self.field(1)?.bits {
            numbers.push(self.field(2)?.bits as u16);
        }
        Ok(numbers)
    }
}
