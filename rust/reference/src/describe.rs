//! What the original reads in one font.

use std::sync::Arc;

use plain::{
    font::{AXES, CharmapIndex},
    lines,
};
use read_fonts::{FontRef, ReadError};

use crate::{
    Blob, FontInfo, as_plain,
    source::{SourceId, SourceInfo, SourceKind},
    turned,
};

/// Reads the font of the number with the original, or gives the number for
/// why it is refused (docs/GUIDE.md, section 6). It takes a damaged table for
/// absent, so it knows no 31.
pub fn read(bytes: &[u8], number: u16) -> Result<FontInfo, u32> {
    let blob = Blob::new(Arc::new(bytes.to_vec()));
    let source = SourceInfo::new(SourceId::new(), SourceKind::Memory(blob));
    read_from(bytes, number, source)
}

/// The same, the font said to be of a source.
pub fn read_from(bytes: &[u8], number: u16, source: SourceInfo) -> Result<FontInfo, u32> {
    info(&open(bytes, number)?, number, source)
}

/// The font of the number, its directory read, or why it is refused: 21 or 30.
pub fn open(bytes: &[u8], number: u16) -> Result<FontRef<'_>, u32> {
    FontRef::from_index(bytes, number.into()).map_err(|error| match error {
        ReadError::InvalidCollectionIndex(_) => 30,
        _ => 21,
    })
}

/// What the original reads of a font that is open, or why it is refused: 22
/// or 23. The original has no limit of axes.
pub fn info(font: &FontRef<'_>, number: u16, source: SourceInfo) -> Result<FontInfo, u32> {
    let info = FontInfo::from_font_ref(font, source, number.into()).ok_or(22u32)?;
    if info.axes().len() > AXES {
        return Err(23);
    }
    Ok(info)
}

/// `refused N`, or `read ..` with the bits of every number, under reading 0 or
/// 1; no line end.
pub fn line(bytes: &[u8], reading: u32, number: u16) -> String {
    let font = read(bytes, number).map(|mut info| {
        turned::face(&mut info, reading);
        as_plain::font(&info)
    });
    lines::font(&font)
}

/// File offset, symbol and Mac Roman. The original's fields are private and
/// have no calls, so they are taken from its `Debug` text.
pub fn charmap(info: &FontInfo) -> CharmapIndex {
    let text = format!("{:?}", info.charmap_index());
    let field = |name: &str| {
        let (_, rest) = text.split_once(name).expect("a field of the index");
        let end = rest.find([',', ' ', '}']).expect("an end of the field");
        &rest[..end]
    };
    CharmapIndex {
        offset: field("subtable_offset: ").parse().expect("a number"),
        symbol: field("is_symbol: ").parse().expect("true or false"),
        mac_roman: field("is_mac_roman: ").parse().expect("true or false"),
    }
}
