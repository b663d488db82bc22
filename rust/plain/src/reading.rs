//! Section 6, the reading: whether the slant numbers of fonts are taken as they
//! stand, or turned to the sense in which requests count.

use crate::single::Single;

/// The readings that there are. Any other number is refused with 25.
pub const READINGS: [u32; 2] = [0, 1];

/// Whether there is such a reading.
pub fn is_known(reading: u32) -> bool {
    READINGS.contains(&reading)
}

/// A slant number on its way out of a font or into one: as it stands under
/// reading 0, its opposite under reading 1. There is no other reading.
pub fn slant(reading: u32, number: Single) -> Single {
    match reading {
        0 => number,
        1 => number.opposite(),
        _ => panic!("there is no reading {reading}"),
    }
}
