//! The places of a job's entries.

use std::ops::Range;

use crate::{
    ids::{FaceId, FamilyId},
    tables::is_collection,
};

/// Where the fonts and families of a job stand, and how many requests it has.
#[derive(Clone, Debug, Default, PartialEq, Eq)]
pub struct Layout {
    /// Where each face's font file lies, and the font's number in it.
    fonts: Vec<(Range<usize>, u16)>,
    /// The position of each family's face numbers, and how many there are.
    families: Vec<(usize, u16)>,
    pub requests: u16,
}

impl Layout {
    /// The layout of a job that keeps it.
    pub fn of(job: &[u8]) -> Option<Self> {
        let mut reader = Reader { job, at: 0 };
        let mut fonts = Vec::new();
        for _ in 0..reader.half()? {
            reader.skip(1)?;
            let length = reader.word()?;
            let start = reader.at;
            let file = reader.skip(usize::try_from(length).ok()?)?;
            let place = start..reader.at;
            // The number stands behind a collection alone.
            let number = if is_collection(file) {
                reader.half()?
            } else {
                0
            };
            fonts.push((place, number));
        }
        for _ in 0..reader.half()? {
            // Face, mask, ratio, style, weight.
            reader.skip(2 + 1 + 4 + 5 + 4)?;
            let pairs = reader.byte()?;
            reader.skip(8 * usize::from(pairs))?;
        }
        let mut families = Vec::new();
        for _ in 0..reader.half()? {
            let faces = reader.half()?;
            families.push((reader.at, faces));
            reader.skip(2 * usize::from(faces))?;
        }
        let requests = reader.half()?;
        Some(Self {
            fonts,
            families,
            requests,
        })
    }

    /// The font file of a face, and the font's number in it.
    pub fn font<'a>(&self, job: &'a [u8], face: FaceId) -> Option<(&'a [u8], u16)> {
        let (place, number) = self.fonts.get(face.index())?;
        Some((job.get(place.clone())?, *number))
    }

    /// The face at a place of a family.
    pub fn face(&self, job: &[u8], family: FamilyId, place: u16) -> Option<FaceId> {
        let (at, faces) = *self.families.get(family.index())?;
        let at = at + 2 * usize::from(place);
        let face = Reader { job, at }.half()?;
        (place < faces).then_some(FaceId::new(face))
    }
}

struct Reader<'a> {
    job: &'a [u8],
    /// Position of the next field.
    at: usize,
}

impl<'a> Reader<'a> {
    /// The next bytes, or none where they run past the end.
    fn skip(&mut self, count: usize) -> Option<&'a [u8]> {
        let end = self.at.checked_add(count)?;
        let bytes = self.job.get(self.at..end)?;
        self.at = end;
        Some(bytes)
    }

    fn byte(&mut self) -> Option<u8> {
        self.skip(1)?.first().copied()
    }

    fn half(&mut self) -> Option<u16> {
        Some(u16::from_be_bytes(self.skip(2)?.try_into().ok()?))
    }

    fn word(&mut self) -> Option<u32> {
        Some(u32::from_be_bytes(self.skip(4)?.try_into().ok()?))
    }
}

#[cfg(test)]
mod tests {
    use super::*;

    #[test]
    fn cut_jobs_have_no_layout() {
        let job = [0; 8];
        for length in 0..8 {
            assert_eq!(Layout::of(&job[..length]), None);
        }
        assert_eq!(Layout::of(&job), Some(Layout::default()));
        assert_eq!(Layout::of(&[0xff; 64]), None);
    }

    #[test]
    fn faces_of_families() {
        // No face, no override; families of none and of the faces 7 and 3; a request.
        let job = [0, 0, 0, 0, 0, 2, 0, 0, 0, 2, 0, 7, 0, 3, 0, 1];
        let layout = Layout::of(&job).expect("it is whole");
        let face = |family, place| layout.face(&job, FamilyId::new(family), place);
        assert_eq!(layout.requests, 1);
        assert_eq!(face(1, 0), Some(FaceId::new(7)));
        assert_eq!(face(1, 1), Some(FaceId::new(3)));
        assert_eq!([face(1, 2), face(0, 0), face(2, 0)], [None; 3]);
    }

    #[test]
    fn fonts_of_faces() {
        // Faces with the files "ab", "ttcf", with the number 7 behind it, and "",
        // and nothing else.
        let job = *b"\0\x03\x01\0\0\0\x02ab\x01\0\0\0\x04ttcf\0\x07\0\0\0\0\0\0\0\0\0\0\0";
        let layout = Layout::of(&job).expect("it is whole");
        let font = |face| layout.font(&job, FaceId::new(face));
        let expected = [(&b"ab"[..], 0), (b"ttcf", 7), (b"", 0)];
        assert_eq!([0, 1, 2].map(font), expected.map(Some));
        assert_eq!(font(3), None);
        assert_eq!(Layout::of(&job[..19]), None);
    }
}
