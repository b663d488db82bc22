//! The check and the offer call (docs/GUIDE.md, section 6), written over the
//! original's font reading, overrides, matching and synthesis as a Rust program would have
//! them: one pass over the job, the families of the request in turn up to the
//! offer that is asked for, and nothing kept from one call to the next.

use std::{path::Path, sync::Arc};

use plain::{
    job::{BYTES, FACES, FAMILIES, OVERRIDES, PLACES, REQUESTS},
    offers::OUTPUT,
    reading,
};
use read_fonts::{
    FontRef, TableProvider as _, TopLevelTable as _,
    tables::{
        cmap::Cmap,
        head::Head,
        os2::{Os2, SelectionFlags},
        post::Post,
    },
    types::Tag,
};

use crate::{
    Attributes, FontInfo, FontInfoOverride, FontStyle, FontWeight, FontWidth, Synthesis, describe,
    matching::{match_font, match_fonts},
    source::{SourceId, SourceInfo, SourceKind},
    turned,
};

/// The table's number and the field's position.
#[derive(Copy, Clone, PartialEq, Eq, Debug)]
pub struct Refusal {
    pub number: u32,
    pub position: usize,
}

/// The check call: none for an accepted job.
pub fn check(job: &[u8]) -> Result<(), Refusal> {
    read(job, 0, 0).map(|_| ())
}

/// The offer call: 0 with the 40 bytes written, or 1 or a refusal's number
/// with nothing written.
pub fn offer(job: &[u8], reading: u32, request: u32, number: u32, out: &mut [u8]) -> u32 {
    let Ok(out) = <&mut [u8; OUTPUT]>::try_from(out) else {
        return 16;
    };
    let job = match read(job, reading, request as usize) {
        Ok(job) => job,
        Err(refusal) => return refusal.number,
    };
    let Some(request) = &job.request else {
        return 28;
    };
    match find(&job, request, number as usize) {
        Some(record) => {
            *out = record;
            0
        }
        None => 1,
    }
}

struct Face<'a> {
    held: bool,
    file: &'a [u8],
    /// Of the font in the file.
    number: u16,
    info: FontInfo,
}

/// 16-bit numbers as they stand in the job.
type Numbers<'a> = &'a [[u8; 2]];

struct Request<'a> {
    most: usize,
    attributes: Attributes,
    families: Numbers<'a>,
    fallbacks: Numbers<'a>,
}

/// An accepted job under a reading, its overrides applied, and the request that
/// is asked for.
struct Job<'a> {
    reading: u32,
    faces: Vec<Face<'a>>,
    families: Vec<Numbers<'a>>,
    request: Option<Request<'a>>,
}

impl<'a> Job<'a> {
    fn face(&self, places: Numbers<'_>, place: usize) -> &Face<'a> {
        &self.faces[usize::from(u16::from_be_bytes(places[place]))]
    }
}

/// Reads the whole job; of its requests only the asked one is kept.
fn read(job: &[u8], reading: u32, asked: usize) -> Result<Job<'_>, Refusal> {
    if job.len() > BYTES {
        return refuse(17, 0);
    }
    if !reading::is_known(reading) {
        return refuse(25, 0);
    }
    let mut reader = Reader {
        job,
        reading,
        at: 0,
    };
    let mut faces = reader.faces()?;
    let mut pairs = Vec::new();
    for _ in 0..reader.count(OVERRIDES)? {
        reader.apply_override(&mut faces, &mut pairs)?;
    }
    let count = reader.count(FAMILIES)?;
    let mut families = Vec::with_capacity(usize::from(count));
    for _ in 0..count {
        families.push(reader.family(faces.len())?);
    }
    let mut request = None;
    for number in 0..usize::from(reader.count(REQUESTS)?) {
        let read = reader.request()?;
        if number == asked {
            request = Some(read);
        }
    }
    if reader.at < job.len() {
        return refuse(27, reader.at);
    }
    Ok(Job {
        reading,
        faces,
        families,
        request,
    })
}

fn refuse<T>(number: u32, position: usize) -> Result<T, Refusal> {
    Err(Refusal { number, position })
}

struct Reader<'a> {
    job: &'a [u8],
    reading: u32,
    /// Position of the next field.
    at: usize,
}

impl<'a> Reader<'a> {
    /// The next field and its position.
    fn field<const N: usize>(&mut self) -> Result<([u8; N], usize), Refusal> {
        let at = self.at;
        match self.job[at..].first_chunk() {
            Some(bytes) => {
                self.at = at + N;
                Ok((*bytes, at))
            }
            None => refuse(18, at),
        }
    }

    fn byte(&mut self) -> Result<(u8, usize), Refusal> {
        self.field::<1>().map(|([byte], at)| (byte, at))
    }

    fn number(&mut self) -> Result<(u16, usize), Refusal> {
        self.field()
            .map(|(bytes, at)| (u16::from_be_bytes(bytes), at))
    }

    fn single(&mut self) -> Result<(f32, usize), Refusal> {
        self.field()
            .map(|(bytes, at)| (f32::from_be_bytes(bytes), at))
    }

    fn count(&mut self, limit: u32) -> Result<u16, Refusal> {
        match self.number()? {
            (count, at) if u32::from(count) > limit => refuse(19, at),
            (count, _) => Ok(count),
        }
    }

    fn face_number(&mut self, faces: usize) -> Result<usize, Refusal> {
        match self.number()? {
            (face, at) if usize::from(face) >= faces => refuse(24, at),
            (face, _) => Ok(usize::from(face)),
        }
    }

    fn finite(&mut self) -> Result<f32, Refusal> {
        match self.single()? {
            (value, _) if value.is_finite() => Ok(value),
            (_, at) => refuse(26, at),
        }
    }

    fn width(&mut self) -> Result<FontWidth, Refusal> {
        match self.single()? {
            (ratio, _) if (0.0..=16.0).contains(&ratio) => Ok(FontWidth::from_ratio(ratio)),
            (_, at) => refuse(26, at),
        }
    }

    fn weight(&mut self) -> Result<FontWeight, Refusal> {
        self.finite().map(FontWeight::new)
    }

    fn style(&mut self) -> Result<FontStyle, Refusal> {
        let style = match self.byte()? {
            (0, _) => FontStyle::Normal,
            (1, _) => FontStyle::Italic,
            (2, _) => FontStyle::Oblique(None),
            (3, _) => return Ok(FontStyle::Oblique(Some(self.finite()?))),
            (_, at) => return refuse(25, at),
        };
        self.spare::<4>()?;
        Ok(style)
    }

    /// A field that has to be zero.
    fn spare<const N: usize>(&mut self) -> Result<(), Refusal> {
        match self.field::<N>()? {
            (bytes, _) if bytes == [0; N] => Ok(()),
            (_, at) => refuse(25, at),
        }
    }

    /// An attribute that is given, or else four bytes that have to be zero.
    fn given<T>(
        &mut self,
        given: bool,
        read: impl Fn(&mut Self) -> Result<T, Refusal>,
    ) -> Result<Option<T>, Refusal> {
        if given {
            return read(self).map(Some);
        }
        self.spare::<4>().map(|()| None)
    }

    fn faces(&mut self) -> Result<Vec<Face<'a>>, Refusal> {
        // The original wants a source for each font; this one is never loaded.
        let nowhere: Arc<Path> = Arc::from(Path::new(""));
        let source = SourceInfo::new(SourceId::new(), SourceKind::Path(nowhere));
        let count = self.count(FACES)?;
        let mut faces = Vec::with_capacity(usize::from(count));
        for _ in 0..count {
            faces.push(self.face(&source)?);
        }
        Ok(faces)
    }

    fn face(&mut self, source: &SourceInfo) -> Result<Face<'a>, Refusal> {
        let held = match self.byte()? {
            (held, _) if held <= 1 => held == 1,
            (_, at) => return refuse(20, at),
        };
        // The font is one field, from its length on.
        let (length, at) = self.field()?;
        let length = u32::from_be_bytes(length) as usize;
        let Some(file) = self.job[self.at..].get(..length) else {
            return refuse(18, at);
        };
        self.at += length;
        // Behind a collection that has its header stands the font number.
        let (number, number_at) = if file.starts_with(b"ttcf") && length >= 12 {
            self.number()?
        } else {
            (0, at)
        };
        let info = describe::open(file, number).and_then(|font| {
            if needs_damaged(&font) {
                return Err(31);
            }
            describe::info(&font, number, source.clone())
        });
        match info {
            Ok(mut info) => {
                turned::face(&mut info, self.reading);
                Ok(Face {
                    held,
                    file,
                    number,
                    info,
                })
            }
            Err(30) => refuse(30, number_at),
            Err(refusal) => refuse(refusal, at),
        }
    }

    /// Reads an override and applies it; the pairs are room to be used again.
    fn apply_override(
        &mut self,
        faces: &mut [Face<'_>],
        pairs: &mut Vec<(Tag, f32)>,
    ) -> Result<(), Refusal> {
        let face = self.face_number(faces.len())?;
        let mask = match self.byte()? {
            (mask, _) if mask <= 7 => mask,
            (_, at) => return refuse(25, at),
        };
        let width = self.given(mask & 1 != 0, Self::width)?;
        if mask & 2 == 0 {
            self.spare::<1>()?;
        }
        let style = self.given(mask & 2 != 0, Self::style)?;
        let weight = self.given(mask & 4 != 0, Self::weight)?;
        pairs.clear();
        for _ in 0..self.byte()?.0 {
            let (tag, _) = self.field()?;
            pairs.push((Tag::new(&tag), self.finite()?));
        }
        faces[face].info.apply_override(&FontInfoOverride {
            family_name: None,
            width,
            style,
            weight,
            axes: Some(pairs),
        });
        Ok(())
    }

    fn family(&mut self, faces: usize) -> Result<Numbers<'a>, Refusal> {
        let count = self.count(PLACES)?;
        let start = self.at;
        for _ in 0..count {
            self.face_number(faces)?;
        }
        Ok(self.job[start..self.at].as_chunks().0)
    }

    fn request(&mut self) -> Result<Request<'a>, Refusal> {
        Ok(Request {
            most: usize::from(self.number()?.0),
            attributes: Attributes {
                width: self.width()?,
                style: self.style()?,
                weight: self.weight()?,
            },
            families: self.list()?,
            fallbacks: self.list()?,
        })
    }

    /// A byte count and that many family numbers; any number is accepted.
    fn list(&mut self) -> Result<Numbers<'a>, Refusal> {
        let count = usize::from(self.byte()?.0);
        let (numbers, _) = self.job[self.at..].as_chunks();
        match numbers.get(..count) {
            Some(list) => {
                self.at += 2 * count;
                Ok(list)
            }
            // The first number that does not fit.
            None => refuse(18, self.at + 2 * numbers.len()),
        }
    }
}

/// Whether a table that the attributes need has a record and yet is not found.
/// The original takes it for absent.
fn needs_damaged(font: &FontRef<'_>) -> bool {
    let recorded = |tag: Tag| {
        let mut records = font.table_directory().table_records().iter();
        records.any(|record| record.tag() == tag)
    };
    let Ok(os2) = font.os2() else {
        return recorded(Os2::TAG) || (font.head().is_err() && recorded(Head::TAG));
    };
    let selection = os2.fs_selection();
    let oblique = selection.contains(SelectionFlags::OBLIQUE);
    let needs_post = oblique && !selection.contains(SelectionFlags::ITALIC);
    needs_post && font.post().is_err() && recorded(Post::TAG)
}

/// The record of the offer with the number, none past the list.
fn find(job: &Job<'_>, request: &Request<'_>, number: usize) -> Option<[u8; OUTPUT]> {
    if number >= request.most {
        return None;
    }
    let mut walk = Walk {
        left: number,
        fonts: Vec::new(),
        equal: Vec::new(),
    };
    for family in request.families.iter().chain(request.fallbacks) {
        let family = u16::from_be_bytes(*family);
        let Some(places) = job.families.get(usize::from(family)) else {
            continue;
        };
        if let Some(place) = walk.place(job, places, request.attributes) {
            let Attributes {
                width,
                style,
                weight,
            } = request.attributes;
            let synthesis = walk.fonts[place].synthesis(width, style, weight);
            let charmap = charmap(job.face(places, place)).expect("the font has been read");
            let mut out = record(family, place, charmap);
            put_synthesis(&mut out, &synthesis, job.reading);
            return Some(out);
        }
    }
    None
}

/// From family to family, up to the offer that is asked for.
struct Walk {
    /// Offers that stand before it.
    left: usize,
    /// Room for the fonts of a family and its equal list.
    fonts: Vec<FontInfo>,
    equal: Vec<usize>,
}

impl Walk {
    /// The place of the offer, none where it is not one of the family's.
    fn place(&mut self, job: &Job<'_>, places: Numbers<'_>, asked: Attributes) -> Option<usize> {
        if places.is_empty() {
            return None;
        }
        let face = |place: usize| job.face(places, place);
        let held = |place: &usize| face(*place).held;
        self.fonts.clear();
        self.fonts
            .extend((0..places.len()).map(|place| face(place).info.clone()));
        self.equal.clear();
        self.equal.extend(match_fonts(
            &self.fonts,
            asked.width,
            asked.style,
            asked.weight,
            true,
        ));
        for place in self.equal.iter().copied().filter(held) {
            if self.left == 0 {
                return Some(place);
            }
            self.left -= 1;
        }
        let default = default_place(&self.fonts);
        if held(&default) && !self.equal.contains(&default) {
            if self.left == 0 {
                return Some(default);
            }
            self.left -= 1;
        }
        None
    }
}

/// As in `FamilyInfo::new`.
fn default_place(fonts: &[FontInfo]) -> usize {
    let Attributes {
        width,
        style,
        weight,
    } = Attributes::default();
    match_font(fonts, width, style, weight, false).unwrap_or(0)
}

/// An offer without its synthesis.
fn record(family: u16, place: usize, charmap: Charmap) -> [u8; OUTPUT] {
    let mut out = [0; OUTPUT];
    out[0..2].copy_from_slice(&family.to_be_bytes());
    out[2..4].copy_from_slice(&(place as u16).to_be_bytes());
    let (offset, symbol, mac_roman) = charmap;
    out[32..36].copy_from_slice(&offset.to_be_bytes());
    out[36] = u8::from(symbol);
    out[37] = u8::from(mac_roman);
    out
}

fn put_synthesis(out: &mut [u8; OUTPUT], synthesis: &Synthesis, reading: u32) {
    out[4] = u8::from(synthesis.embolden());
    out[5] = synthesis.skew().unwrap_or(0.0) as i8 as u8;
    let settings = synthesis.variation_settings();
    out[6] = settings.len() as u8;
    let slots = out[8..32].as_chunks_mut::<8>().0;
    for (slot, setting) in slots.iter_mut().zip(settings) {
        slot[..4].copy_from_slice(&setting.0.to_be_bytes());
        slot[4..].copy_from_slice(&turned::value(*setting, reading).to_be_bytes());
    }
}

/// Offset and flags of the best subtable.
type Charmap = (u32, bool, bool);

/// The original's index keeps them to itself, so they are read as it read them.
fn charmap(face: &Face<'_>) -> Option<Charmap> {
    let font = FontRef::from_index(face.file, face.number.into()).ok()?;
    let records = font.table_directory().table_records();
    let table = records.iter().find(|record| record.tag() == Cmap::TAG)?;
    let (_, best, _) = font.cmap().ok()?.best_subtable()?;
    let offset = table.offset() + best.subtable_offset().to_u32();
    Some((offset, best.is_symbol(), best.is_mac_roman()))
}

#[cfg(test)]
mod tests {
    use super::*;
    use jobs::{list, readings::UNKNOWN};
    use plain::reading::READINGS;

    /// The offer call beside that of the plain reading, every request, up to one
    /// past its list.
    fn offers_agree(bytes: &[u8], reading: u32, label: &str) {
        let job = match plain::job::read(bytes, reading) {
            Ok(job) => job,
            Err(refusal) => {
                let answer = offer(bytes, reading, 0, 0, &mut [0; OUTPUT]);
                assert_eq!(answer, refusal.number, "{label}");
                return;
            }
        };
        for (request, asked) in job.requests.iter().enumerate() {
            let list = plain::offers(&job, reading, asked);
            for number in 0..=list.len() {
                let mut out = [0x5a; OUTPUT];
                let answer = offer(bytes, reading, request as u32, number as u32, &mut out);
                let expected = match list.get(number) {
                    Some(offer) => (0, offer.record()),
                    None => (1, [0x5a; OUTPUT]),
                };
                assert_eq!((answer, out), expected, "{label}");
            }
        }
        let past = job.requests.len() as u32;
        assert_eq!(offer(bytes, reading, past, 0, &mut [0; OUTPUT]), 28);
        assert_eq!(offer(bytes, reading, past, 0, &mut [0; OUTPUT - 1]), 16);
    }

    /// Both calls beside those of the plain reading, under both readings and
    /// under none.
    #[test]
    fn as_the_plain_reading() {
        let cases = list::made().into_iter().chain(list::random(21).take(3000));
        for (i, case) in cases.enumerate() {
            let bytes = &case.bytes[..];
            let checked = check(bytes)
                .err()
                .map_or((0, 0), |refusal| (refusal.number, refusal.position as u32));
            assert_eq!(checked, plain::check(bytes), "{}", case.label);
            for reading in READINGS {
                offers_agree(bytes, reading, &case.label);
            }
            let none = UNKNOWN[i % UNKNOWN.len()];
            assert_eq!(offer(bytes, none, 0, 0, &mut [0; OUTPUT]), 25);
            assert_eq!(offer(bytes, none, 0, 0, &mut [0; OUTPUT - 1]), 16);
        }
        let long = vec![0; BYTES + 1];
        assert_eq!(offer(&long, 2, 0, 0, &mut [0; OUTPUT]), 17);
    }
}
