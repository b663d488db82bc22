//! The original query over the stand-in collection.

use std::{path::Path, sync::Arc};

use super::*;
use jobs::{bytes, families::FacePlan, layout::Style};

use crate::{
    Attributes, FontInfo, FontStyle, FontWeight, FontWidth,
    families::make,
    family_name::FamilyNameMap,
    source::{SourceId, SourceInfo, SourceKind},
};

fn face(weight: f32) -> FontInfo {
    make(&FacePlan {
        ratio: 1.0,
        style: Style::default(),
        weight,
        axes: Vec::new(),
    })
}

fn offers(collection: &mut Collection, families: &[FamilyId], weight: f32) -> Vec<String> {
    let mut cache = SourceCache::default();
    let mut query = collection.query(&mut cache);
    query.set_families(families.iter().copied());
    query.set_fallbacks(Collection::fallback_key());
    query.set_attributes(Attributes::new(
        FontWidth::default(),
        FontStyle::default(),
        FontWeight::new(weight),
    ));
    let mut out = Vec::new();
    query.matches_with(|font| {
        let bold = if font.synthesis.embolden() { "b" } else { "-" };
        out.push(format!("{} {bold}", font.family.1));
        QueryStatus::Continue
    });
    out
}

#[test]
fn example_of_section_7() {
    let mut names = FamilyNameMap::default();
    let family = FamilyInfo::new(names.get_or_insert("a"), [face(400.0), face(700.0)]);
    let other = FamilyInfo::new(names.get_or_insert("b"), [face(900.0)]);
    let (id, other_id) = (family.id(), other.id());
    let mut collection = Collection::default();
    collection.add_family(family);
    collection.add_family(other);
    assert_eq!(offers(&mut collection, &[id], 700.0), ["1 -", "0 b"]);
    // The fallback comes last; an unknown family is skipped.
    collection.set_fallbacks([other_id]);
    let unknown = FamilyId::new();
    assert_eq!(
        offers(&mut collection, &[unknown, id], 700.0),
        ["1 -", "0 b", "0 -"]
    );
}

/// A face that is not held has a path at which there is no file.
#[test]
fn not_held() {
    let path: Arc<Path> = Path::new("no such file").into();
    let source = SourceInfo::new(SourceId::new(), SourceKind::Path(path));
    let file = bytes::font(bytes::START, &[(*b"cmap", bytes::plain_cmap())]);
    let font = read_fonts::FontRef::from_index(&file, 0).unwrap();
    let lacking = FontInfo::from_font_ref(&font, source, 0).unwrap();
    let mut names = FamilyNameMap::default();
    let family = FamilyInfo::new(names.get_or_insert("a"), [lacking, face(700.0)]);
    let id = family.id();
    let mut collection = Collection::default();
    collection.add_family(family);
    assert_eq!(offers(&mut collection, &[id], 700.0), ["1 -"]);
}
