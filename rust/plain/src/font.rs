//! Sections 2 and 3: what a font file says of its face, and overrides.

use std::fmt;

use crate::{
    reading::{self, slant},
    single::Single,
};

pub type Tag = [u8; 4];

#[derive(Copy, Clone, PartialEq, Eq, Debug)]
pub enum Angle {
    Unstated,
    Degrees(Single),
}

impl Angle {
    /// Unstated ranks as 14.
    pub fn degrees(self) -> Single {
        match self {
            Self::Unstated => Single::new(14.0),
            Self::Degrees(degrees) => degrees,
        }
    }
}

#[derive(Copy, Clone, PartialEq, Eq, Debug)]
pub enum Style {
    Normal,
    Italic,
    Oblique(Angle),
}

impl Style {
    /// The kind byte and the angle's bits, zero unless the kind is 3.
    pub fn fields(self) -> (u8, u32) {
        match self {
            Self::Normal => (0, 0),
            Self::Italic => (1, 0),
            Self::Oblique(Angle::Unstated) => (2, 0),
            Self::Oblique(Angle::Degrees(degrees)) => (3, degrees.0),
        }
    }
}

#[derive(Copy, Clone, PartialEq, Eq, Debug)]
pub struct Attributes {
    pub ratio: Single,
    pub style: Style,
    pub weight: Single,
}

impl Attributes {
    pub const DEFAULT: Self = Self {
        ratio: Single::new(1.0),
        style: Style::Normal,
        weight: Single::new(400.0),
    };
}

#[derive(Copy, Clone, PartialEq, Eq, Debug)]
pub struct Axis {
    pub tag: Tag,
    pub minimum: Single,
    pub default: Single,
    pub maximum: Single,
}

/// Where the best `cmap` subtable stands in the file, and its two flags.
#[derive(Copy, Clone, PartialEq, Eq, Debug)]
pub struct CharmapIndex {
    pub offset: u32,
    pub symbol: bool,
    pub mac_roman: bool,
}

/// Offset and flags, as the lines have them.
impl fmt::Display for CharmapIndex {
    fn fmt(&self, f: &mut fmt::Formatter<'_>) -> fmt::Result {
        let flags = [self.symbol, self.mac_roman].map(u8::from);
        write!(f, "{} {} {}", self.offset, flags[0], flags[1])
    }
}

#[derive(Clone, PartialEq, Eq, Debug)]
pub struct Font {
    pub attributes: Attributes,
    pub axes: Vec<Axis>,
    pub charmap: CharmapIndex,
}

impl Font {
    /// The first axis with the tag.
    pub fn axis(&self, tag: &Tag) -> Option<&Axis> {
        self.axes.iter().find(|axis| axis.tag == *tag)
    }

    pub fn has(&self, tag: &Tag) -> bool {
        self.axis(tag).is_some()
    }
}

/// Most axes of a face.
pub const AXES: usize = 16;

/// Whether the file starts as a collection.
pub fn is_collection(file: &[u8]) -> bool {
    file.starts_with(b"ttcf")
}

/// Bytes of a font's header, and of a collection's up to its offsets.
pub const HEADER: usize = 12;

/// How many fonts the file has: a collection says it, and has none where its
/// header is cut; another has one.
pub fn count(file: &[u8]) -> u32 {
    if !is_collection(file) {
        1
    } else if file.len() < HEADER {
        0
    } else {
        u32_at(file, 8)
    }
}

/// Reads the font of the number under a reading, or gives the number of its
/// refusal: 25, 21, 30, 31, 22 or 23.
pub fn read(file: &[u8], reading: u32, number: u16) -> Result<Font, u32> {
    if !reading::is_known(reading) {
        return Err(25);
    }
    let start = directory_start(file, number)?;
    let directory = directory(file, start).ok_or(21u32)?;
    let attributes = attributes(file, reading, &directory).ok_or(31u32)?;
    let charmap = charmap(file, &directory).ok_or(22u32)?;
    let axes = axes(file, &directory);
    if axes.len() > AXES {
        return Err(23);
    }
    Ok(Font {
        attributes,
        axes,
        charmap,
    })
}

fn u16_at(bytes: &[u8], at: usize) -> u16 {
    u16::from_be_bytes([bytes[at], bytes[at + 1]])
}

fn u32_at(bytes: &[u8], at: usize) -> u32 {
    u32::from_be_bytes([bytes[at], bytes[at + 1], bytes[at + 2], bytes[at + 3]])
}

fn fixed_at(bytes: &[u8], at: usize) -> Single {
    Single::from_fixed(u32_at(bytes, at) as i32)
}

fn tag_at(bytes: &[u8], at: usize) -> Tag {
    [bytes[at], bytes[at + 1], bytes[at + 2], bytes[at + 3]]
}

/// One record of the directory; its checksum is not read.
struct Record {
    tag: Tag,
    offset: u64,
    length: u64,
}

/// Where the directory of the numbered font begins, or its refusal: 21 or 30.
fn directory_start(file: &[u8], number: u16) -> Result<usize, u32> {
    if file.len() < HEADER {
        return Err(21);
    }
    let count = count(file);
    if u32::from(number) >= count {
        return Err(30);
    }
    if !is_collection(file) {
        return Ok(0);
    }
    // Every offset that the count states lies in the file.
    if HEADER as u64 + 4 * u64::from(count) > file.len() as u64 {
        return Err(21);
    }
    Ok(u32_at(file, HEADER + 4 * usize::from(number)) as usize)
}

/// The records of the directory at `start`, or none for a bad start or a
/// directory past the file.
fn directory(file: &[u8], start: usize) -> Option<Vec<Record>> {
    let font = file.get(start..)?;
    if font.len() < HEADER {
        return None;
    }
    let start = tag_at(font, 0);
    if start != [0x00, 0x01, 0x00, 0x00] && start != *b"OTTO" && start != *b"true" {
        return None;
    }
    let count = usize::from(u16_at(font, 4));
    if HEADER + 16 * count > font.len() {
        return None;
    }
    let mut records = Vec::new();
    for i in 0..count {
        let at = HEADER + 16 * i;
        records.push(Record {
            tag: tag_at(font, at),
            offset: u64::from(u32_at(font, at + 8)),
            length: u64::from(u32_at(font, at + 12)),
        });
    }
    Some(records)
}

/// What the directory has of a table.
enum Table<'a> {
    /// No record has the tag.
    Absent,
    /// The first record with the tag reaches past the file, or its table is
    /// shorter than needed.
    Damaged,
    /// The offset in the file, and the bytes.
    Found(u64, &'a [u8]),
}

/// The first record with the tag counts, whatever stands behind it.
fn table<'a>(file: &'a [u8], directory: &[Record], tag: &Tag, needed: u64) -> Table<'a> {
    let Some(record) = directory.iter().find(|record| record.tag == *tag) else {
        return Table::Absent;
    };
    let end = record.offset + record.length;
    if end > file.len() as u64 || record.length < needed {
        return Table::Damaged;
    }
    Table::Found(record.offset, &file[record.offset as usize..end as usize])
}

/// The width of a class.
fn ratio(width_class: u16) -> f32 {
    match width_class {
        0 | 1 => 0.5,
        2 => 0.625,
        3 => 0.75,
        4 => 0.875,
        5 => 1.0,
        6 => 1.125,
        7 => 1.25,
        8 => 1.5,
        _ => 2.0,
    }
}

/// The attributes, or none where a table that they need is damaged: OS/2, or
/// `head` where there is no OS/2, or `post` where OS/2 says oblique.
fn attributes(file: &[u8], reading: u32, directory: &[Record]) -> Option<Attributes> {
    match table(file, directory, b"OS/2", 78) {
        Table::Damaged => None,
        Table::Found(_, os2) => Some(Attributes {
            ratio: Single::new(ratio(u16_at(os2, 6))),
            style: style(u16_at(os2, 62), file, reading, directory)?,
            weight: Single::new(f32::from(u16_at(os2, 4))),
        }),
        Table::Absent => mac_attributes(file, directory),
    }
}

/// The style of an fsSelection, or none where it needs a `post` that is damaged.
fn style(selection: u16, file: &[u8], reading: u32, directory: &[Record]) -> Option<Style> {
    if selection & (1 << 0) != 0 {
        return Some(Style::Italic);
    }
    if selection & (1 << 9) == 0 {
        return Some(Style::Normal);
    }
    let angle = match table(file, directory, b"post", 32) {
        Table::Damaged => return None,
        // The number is made a single before the reading turns it.
        Table::Found(_, post) => Angle::Degrees(slant(reading, fixed_at(post, 4))),
        Table::Absent => Angle::Unstated,
    };
    Some(Style::Oblique(angle))
}

/// The attributes without OS/2, or none where `head` is damaged.
fn mac_attributes(file: &[u8], directory: &[Record]) -> Option<Attributes> {
    let head = match table(file, directory, b"head", 54) {
        Table::Damaged => return None,
        Table::Found(_, head) => head,
        Table::Absent => return Some(Attributes::DEFAULT),
    };
    let mac_style = u16_at(head, 44);
    let mut attributes = Attributes::DEFAULT;
    if mac_style & (1 << 0) != 0 {
        attributes.weight = Single::new(700.0);
    }
    if mac_style & (1 << 1) != 0 {
        attributes.style = Style::Italic;
    }
    Some(attributes)
}

fn axes(file: &[u8], directory: &[Record]) -> Vec<Axis> {
    // Without axes where it is absent or damaged.
    let Table::Found(_, fvar) = table(file, directory, b"fvar", 16) else {
        return Vec::new();
    };
    let offset = usize::from(u16_at(fvar, 4));
    let count = usize::from(u16_at(fvar, 8));
    let size = usize::from(u16_at(fvar, 10));
    if size != 20 || offset + 20 * count > fvar.len() {
        return Vec::new();
    }
    let mut axes = Vec::new();
    for i in 0..count {
        let at = offset + 20 * i;
        axes.push(Axis {
            tag: tag_at(fvar, at),
            minimum: fixed_at(fvar, at + 4),
            default: fixed_at(fvar, at + 8),
            maximum: fixed_at(fvar, at + 12),
        });
    }
    axes
}

/// The class of a platform and encoding, best first; none for other pairs.
fn class(platform: u16, encoding: u16) -> Option<u8> {
    match (platform, encoding) {
        (3, 10) | (0, 4) | (0, 6) => Some(1),
        (3, 1) | (0, 0) | (0, 1) | (0, 2) | (0, 3) => Some(2),
        (3, 0) => Some(3),
        (1, 0) => Some(4),
        _ => None,
    }
}

fn charmap(file: &[u8], directory: &[Record]) -> Option<CharmapIndex> {
    // No record qualifies where it is absent or damaged.
    let Table::Found(start, cmap) = table(file, directory, b"cmap", 4) else {
        return None;
    };
    let mut best: Option<(u8, u64)> = None;
    for i in 0..usize::from(u16_at(cmap, 2)) {
        let at = 4 + 8 * i;
        if at + 8 > cmap.len() {
            break;
        }
        let offset = u64::from(u32_at(cmap, at + 4));
        if offset + 2 > cmap.len() as u64 {
            continue;
        }
        if let Some(class) = class(u16_at(cmap, at), u16_at(cmap, at + 2))
            && best.is_none_or(|(earlier, _)| class < earlier)
        {
            best = Some((class, offset));
        }
    }
    let (class, offset) = best?;
    Some(CharmapIndex {
        offset: (start + offset) as u32,
        symbol: class == 3,
        mac_roman: class == 4,
    })
}

/// What an override gives; none is an attribute that it leaves.
#[derive(Clone, PartialEq, Eq, Debug)]
pub struct Override {
    pub ratio: Option<Single>,
    pub style: Option<Style>,
    pub weight: Option<Single>,
    pub axes: Vec<(Tag, Single)>,
}

impl Override {
    /// Whether every number of it is one of section 1.
    fn is_accepted(&self) -> bool {
        let style = self.style.unwrap_or(Style::Normal);
        self.ratio.is_none_or(Single::is_ratio)
            && style_is_finite(style)
            && self.weight.is_none_or(Single::is_finite)
            && self.axes.iter().all(|(_, value)| value.is_finite())
    }
}

fn style_is_finite(style: Style) -> bool {
    !matches!(style, Style::Oblique(Angle::Degrees(degrees)) if !degrees.is_finite())
}

impl Attributes {
    /// Whether every number of them is one of section 1.
    fn are_accepted(&self) -> bool {
        self.ratio.is_ratio() && style_is_finite(self.style) && self.weight.is_finite()
    }
}

/// A face by value as a call below the job takes it, or why it is refused: 19
/// for the count of axes, then 26 for a number of the face or of what is given.
fn by_value(font: &Font, given_is_accepted: bool) -> Result<Font, u32> {
    if font.axes.len() > AXES {
        return Err(19);
    }
    let finite = |axis: &Axis| {
        let numbers = [axis.minimum, axis.default, axis.maximum];
        numbers.into_iter().all(Single::is_finite)
    };
    if !given_is_accepted || !font.attributes.are_accepted() || !font.axes.iter().all(finite) {
        return Err(26);
    }
    Ok(font.clone())
}

/// `apply_override` on a face by value.
pub fn overridden(font: &Font, given: &Override) -> Result<Font, u32> {
    let mut font = by_value(font, given.is_accepted())?;
    apply_override(&mut font, given);
    Ok(font)
}

/// `maybe_override_attributes` on a face by value.
pub fn maybe_overridden(font: &Font, given: &Attributes) -> Result<Font, u32> {
    let mut font = by_value(font, given.are_accepted())?;
    maybe_override_attributes(&mut font, given);
    Ok(font)
}

pub fn apply_override(font: &mut Font, given: &Override) {
    let own = &mut font.attributes;
    own.ratio = given.ratio.unwrap_or(own.ratio);
    own.style = given.style.unwrap_or(own.style);
    own.weight = given.weight.unwrap_or(own.weight);
    for (tag, value) in &given.axes {
        if let Some(axis) = font.axes.iter_mut().find(|axis| axis.tag == *tag) {
            axis.default = *value;
        }
    }
}

/// Replaces only attributes that equal the defaults; no part of a job.
pub fn maybe_override_attributes(font: &mut Font, given: &Attributes) {
    let own = &mut font.attributes;
    if own.ratio == Attributes::DEFAULT.ratio {
        own.ratio = given.ratio;
    }
    if own.style == Attributes::DEFAULT.style {
        own.style = given.style;
    }
    if own.weight == Attributes::DEFAULT.weight {
        own.weight = given.weight;
    }
}
