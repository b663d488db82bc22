//! OS/2, at least 78 bytes.

use super::u16_field;
use crate::{FontData, TopLevelTable, types::Tag};

#[derive(Copy, Clone, Debug)]
pub struct Os2<'a>(FontData<'a>);

impl TopLevelTable for Os2<'_> {
    const TAG: Tag = Tag::new(b"OS/2");
}

impl<'a> Os2<'a> {
    pub(crate) fn new(data: FontData<'a>) -> Self {
        Self(data)
    }

    pub fn us_weight_class(&self) -> u16 {
        u16_field(self.0, 4)
    }

    pub fn us_width_class(&self) -> u16 {
        u16_field(self.0, 6)
    }

    pub fn fs_selection(&self) -> SelectionFlags {
        SelectionFlags(u16_field(self.0, 62))
    }
}

#[derive(Copy, Clone, PartialEq, Eq, Debug)]
pub struct SelectionFlags(u16);

impl SelectionFlags {
    pub const ITALIC: Self = Self(1 << 0);
    pub const OBLIQUE: Self = Self(1 << 9);

    pub fn contains(self, flags: Self) -> bool {
        self.0 & flags.0 == flags.0
    }
}
