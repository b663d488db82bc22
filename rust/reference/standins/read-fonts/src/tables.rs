//! The five tables that are read (docs/GUIDE.md, section 2).
//!
//! A table value is made only from bytes that are long enough, so that the
//! reads of fixed fields always succeed.

pub mod cmap;
pub mod fvar;
pub mod head;
pub mod os2;
pub mod post;

use crate::FontData;

fn u16_field(data: FontData<'_>, at: u64) -> u16 {
    data.u16_at(at).expect("table is long enough")
}

fn u32_field(data: FontData<'_>, at: u64) -> u32 {
    data.u32_at(at).expect("table is long enough")
}
