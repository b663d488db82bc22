//! head, at least 54 bytes.

use super::u16_field;
use crate::{FontData, TopLevelTable, types::Tag};

#[derive(Copy, Clone, Debug)]
pub struct Head<'a>(FontData<'a>);

impl TopLevelTable for Head<'_> {
    const TAG: Tag = Tag::new(b"head");
}

impl<'a> Head<'a> {
    pub(crate) fn new(data: FontData<'a>) -> Self {
        Self(data)
    }

    pub fn mac_style(&self) -> MacStyle {
        MacStyle(u16_field(self.0, 44))
    }
}

#[derive(Copy, Clone, PartialEq, Eq, Debug)]
pub struct MacStyle(u16);

impl MacStyle {
    pub const BOLD: Self = Self(1 << 0);
    pub const ITALIC: Self = Self(1 << 1);

    pub fn contains(self, flags: Self) -> bool {
        self.0 & flags.0 == flags.0
    }
}
