//! post, at least 32 bytes.

use super::u32_field;
use crate::{
    FontData, TopLevelTable,
    types::{Fixed, Tag},
};

#[derive(Copy, Clone, Debug)]
pub struct Post<'a>(FontData<'a>);

impl TopLevelTable for Post<'_> {
    const TAG: Tag = Tag::new(b"post");
}

impl<'a> Post<'a> {
    pub(crate) fn new(data: FontData<'a>) -> Self {
        Self(data)
    }

    pub fn italic_angle(&self) -> Fixed {
        Fixed::from_bits(u32_field(self.0, 4) as i32)
    }
}
