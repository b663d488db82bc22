//! The original under reading 1. It takes the slant numbers of fonts as they
//! stand, so they are turned here, outside of it: a face's angle once it has
//! been read, before any override, and the value of `slnt` once it has been set.

use read_fonts::types::Tag;

use crate::{FontInfo, FontInfoOverride, FontStyle};

/// Zero less the number: of either zero that is the positive one.
fn opposite(number: f32) -> f32 {
    0.0 - number
}

/// A face that has just been read, under a reading. The original sets the style.
pub fn face(info: &mut FontInfo, reading: u32) {
    if reading == 1
        && let FontStyle::Oblique(Some(angle)) = info.style()
    {
        info.apply_override(&FontInfoOverride {
            style: Some(FontStyle::Oblique(Some(opposite(angle)))),
            ..FontInfoOverride::default()
        });
    }
}

/// The value of a setting of the original's, under a reading.
pub fn value((tag, value): (Tag, f32), reading: u32) -> f32 {
    if reading == 1 && tag == Tag::new(b"slnt") {
        opposite(value)
    } else {
        value
    }
}

#[cfg(test)]
mod tests {
    use super::*;

    #[test]
    fn opposites() {
        for (number, turned) in [
            (0.0f32, 0.0f32),
            (-0.0, 0.0),
            (12.5, -12.5),
            (-32768.0, 32768.0),
            (1e-45, -1e-45),
            (f32::MIN, f32::MAX),
        ] {
            assert_eq!(opposite(number).to_bits(), turned.to_bits());
            let setting = |tag: &[u8; 4], reading| value((Tag::new(tag), number), reading);
            assert_eq!(setting(b"slnt", 1).to_bits(), turned.to_bits());
            assert_eq!(setting(b"slnt", 0).to_bits(), number.to_bits());
            assert_eq!(setting(b"ital", 1).to_bits(), number.to_bits());
        }
    }
}
