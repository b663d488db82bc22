//! fvar, at least 16 bytes.

use super::{u16_field, u32_field};
use crate::{
    FontData, ReadError, TopLevelTable,
    types::{Fixed, Tag},
};

#[derive(Copy, Clone, Debug)]
pub struct Fvar<'a>(FontData<'a>);

impl TopLevelTable for Fvar<'_> {
    const TAG: Tag = Tag::new(b"fvar");
}

impl<'a> Fvar<'a> {
    pub(crate) fn new(data: FontData<'a>) -> Self {
        Self(data)
    }

    /// The axis records, or none of them if the size is not 20 or one of them
    /// reaches past the table.
    pub fn axes(&self) -> Result<Vec<VariationAxisRecord<'a>>, ReadError> {
        let offset = u16_field(self.0, 4) as u64;
        let count = u16_field(self.0, 8) as u64;
        let size = u16_field(self.0, 10) as u64;
        if size != 20 {
            return Err(ReadError::Absent);
        }
        let records = self
            .0
            .part(offset, count * size)
            .ok_or(ReadError::Absent)?
            .as_bytes();
        Ok(records
            .chunks_exact(20)
            .map(|record| VariationAxisRecord(FontData::new(record)))
            .collect())
    }
}

/// 20 bytes of one axis.
#[derive(Copy, Clone, Debug)]
pub struct VariationAxisRecord<'a>(FontData<'a>);

impl VariationAxisRecord<'_> {
    pub fn axis_tag(&self) -> Tag {
        Tag::from_u32(u32_field(self.0, 0))
    }

    pub fn min_value(&self) -> Fixed {
        Fixed::from_bits(u32_field(self.0, 4) as i32)
    }

    pub fn default_value(&self) -> Fixed {
        Fixed::from_bits(u32_field(self.0, 8) as i32)
    }

    pub fn max_value(&self) -> Fixed {
        Fixed::from_bits(u32_field(self.0, 12) as i32)
    }
}
