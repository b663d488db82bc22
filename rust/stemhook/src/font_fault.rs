//! Why a font file is refused, in words: what the refusal's number leaves open.

use std::fmt;

use crate::{
    refusal::Refusal,
    tables::{
        CMAP, COLLECTION, Damage, Directory, FVAR, HEADER, Lookup, OS2, RECORD, STARTS,
        directory_at, face_count, half,
    },
    tag::Tag,
};

/// What is wrong with a font file that the picker refuses.
///
/// The refusal is the picker's; this is read from the file beside it, for
/// people.
///
/// ```
/// use stemhook::{FontFault, JobBuilder, Problem};
///
/// let mut builder = JobBuilder::new();
/// let error = builder.face(b"wOF2 and the rest of the file").unwrap_err();
/// let Problem::Font { refusal, fault } = error.problem() else { panic!() };
/// assert_eq!(refusal.number(), 21);
/// assert_eq!(fault, FontFault::Woff2);
/// ```
///
/// Of a file that was copied in part, the table that is cut is told by its name:
///
/// ```
/// # mod fonts { include!(concat!(env!("CARGO_MANIFEST_DIR"), "/tests/common/fonts.rs")); }
/// # let bold = fonts::weight(700);
/// use stemhook::{FontFault, JobBuilder, Problem, Refusal, Tag};
///
/// let mut builder = JobBuilder::new();
/// let error = builder.face(&bold[..100]).unwrap_err(); // of the 136 bytes of a font file
/// let Problem::Font { refusal, fault } = error.problem() else { panic!() };
/// assert_eq!(refusal, Refusal::DamagedTable);
/// let table = Tag(*b"OS/2");
/// assert_eq!(fault, FontFault::TablePastEnd { table, needed: 122, length: 100 });
/// assert_eq!(
///     error.to_string(),
///     "faces[0].font: refused 31: a table that the font's attributes need is damaged: \
///      its OS/2 table ends at byte 122, the file at 100: the file is cut or damaged"
/// );
/// ```
#[derive(Clone, Copy, Debug, PartialEq, Eq, Hash)]
#[non_exhaustive]
pub enum FontFault {
    /// The file has no bytes.
    Empty,
    /// The file has fewer than four bytes.
    Short,
    /// A WOFF file: a font that is packed for the web.
    Woff,
    /// A WOFF2 file: a font that is packed for the web.
    Woff2,
    /// A collection of fonts (`ttcf`) that ends before its header does.
    CollectionShort {
        /// How many bytes the file has.
        length: usize,
    },
    /// A collection that ends before the offsets of its fonts do.
    OffsetsPastEnd {
        /// How many fonts it states.
        fonts: u32,
        /// How many bytes the file has.
        length: usize,
    },
    /// The offset of the font leads past the end of the collection.
    FontPastEnd {
        /// The offset.
        offset: usize,
        /// How many bytes the file has.
        length: usize,
    },
    /// The offset of the font leads to a collection.
    NestedCollection,
    /// The file has no font of the number.
    NoSuchFont {
        /// The font number.
        number: u16,
        /// How many fonts the file has.
        fonts: u32,
    },
    /// A PostScript Type 1 font.
    Type1,
    /// A font that starts with `typ1`: Type 1 in an OpenType wrapper.
    WrappedType1,
    /// An Embedded OpenType file: a font that is packed for the web.
    EmbeddedOpenType,
    /// The file does not start as a font that can be read.
    Start([u8; 4]),
    /// The file ends before the table directory does.
    DirectoryPastEnd {
        /// Where the directory ends, from the start of the file.
        needed: usize,
        /// How many bytes the file has.
        length: usize,
    },
    /// A table that the font's attributes need reaches past the end of the file:
    /// the file was copied in part, or its directory is wrong.
    TablePastEnd {
        /// The table: `OS/2`, `head` or `post`.
        table: Tag,
        /// Where the table ends, from the start of the file.
        needed: usize,
        /// How many bytes the file has.
        length: usize,
    },
    /// A table that the font's attributes need has too few bytes. OpenType lets
    /// old fonts have an `OS/2` table of 68; the picker needs 78.
    TableShort {
        /// The table: `OS/2`, `head` or `post`.
        table: Tag,
        /// How many bytes the table has.
        length: usize,
        /// How many it needs to have.
        needed: usize,
    },
    /// There is no `cmap` table.
    NoCmap,
    /// The `cmap` table reaches past the end of the file.
    CmapPastEnd,
    /// The `cmap` table has fewer than four bytes.
    CmapShort,
    /// No record of `cmap` is for Unicode, symbols or Mac Roman and lies in the
    /// table with its subtable's start.
    CmapRecords {
        /// How many records the table states.
        records: u16,
    },
    /// The font has more axes than are taken.
    Axes {
        /// How many it has.
        axes: u16,
    },
    /// None of these.
    Other,
}

impl FontFault {
    /// What is wrong with a font that is refused so.
    pub(crate) fn of(file: &[u8], number: u16, refusal: Refusal) -> Self {
        let directory = || Directory::of(file, number);
        let fault = match refusal {
            Refusal::FontDirectory => Some(Self::of_start(file, number)),
            Refusal::DamagedTable => directory().and_then(|found| Self::of_need(&found, file)),
            Refusal::NoCharmap => directory().and_then(|found| Self::of_cmap(&found)),
            Refusal::TooManyAxes => directory().and_then(|found| Self::of_fvar(&found)),
            Refusal::NoSuchFont => Some(Self::NoSuchFont {
                number,
                fonts: face_count(file),
            }),
            _ => None,
        };
        fault.unwrap_or(Self::Other)
    }

    fn of_start(file: &[u8], number: u16) -> Self {
        let Some(start) = file.first_chunk::<4>() else {
            return if file.is_empty() {
                Self::Empty
            } else {
                Self::Short
            };
        };
        match start {
            b"wOFF" => Self::Woff,
            b"wOF2" => Self::Woff2,
            &COLLECTION => Self::of_collection(file, number),
            b"typ1" => Self::WrappedType1,
            b"%!PS" | b"%!Fo" | [0x80, 1, ..] => Self::Type1,
            start if STARTS.contains(start) => Self::of_directory(file, 0),
            // Its magic number stands behind sizes and flags.
            _ if file.get(34..36) == Some(b"LP") => Self::EmbeddedOpenType,
            start => Self::Start(*start),
        }
    }

    /// Of a collection's font that has no directory.
    fn of_collection(file: &[u8], number: u16) -> Self {
        let length = file.len();
        if length < HEADER {
            return Self::CollectionShort { length };
        }
        let Some(offset) = directory_at(file, number) else {
            let fonts = face_count(file);
            return Self::OffsetsPastEnd { fonts, length };
        };
        match file.get(offset..).and_then(<[u8]>::first_chunk) {
            None => Self::FontPastEnd { offset, length },
            Some(&COLLECTION) => Self::NestedCollection,
            Some(start) if STARTS.contains(start) => Self::of_directory(file, offset),
            Some(start) => Self::Start(*start),
        }
    }

    /// Of a directory that begins in the file and ends past it.
    fn of_directory(file: &[u8], at: usize) -> Self {
        let records = half(file, at + 4).unwrap_or(0);
        Self::DirectoryPastEnd {
            needed: at + HEADER + RECORD * usize::from(records),
            length: file.len(),
        }
    }

    /// Of a damaged table that is needed.
    fn of_need(directory: &Directory, file: &[u8]) -> Option<Self> {
        let (kind, damage) = directory.damaged_need()?;
        let table = Tag(kind.tag);
        Some(match damage {
            Damage::PastEnd(needed) => Self::TablePastEnd {
                table,
                needed,
                length: file.len(),
            },
            Damage::Short(length) => Self::TableShort {
                table,
                length,
                needed: kind.least,
            },
        })
    }

    fn of_cmap(directory: &Directory) -> Option<Self> {
        match directory.look_up(CMAP) {
            Lookup::Absent => Some(Self::NoCmap),
            Lookup::Damaged(Damage::PastEnd(_)) => Some(Self::CmapPastEnd),
            Lookup::Damaged(Damage::Short(_)) => Some(Self::CmapShort),
            Lookup::Found(cmap) => half(cmap.bytes, 2).map(|records| Self::CmapRecords { records }),
        }
    }

    fn of_fvar(directory: &Directory) -> Option<Self> {
        let axes = half(directory.look_up(FVAR).found()?.bytes, 8)?;
        Some(Self::Axes { axes })
    }
}

impl fmt::Display for FontFault {
    fn fmt(&self, f: &mut fmt::Formatter<'_>) -> fmt::Result {
        match self {
            Self::Empty => f.write_str("the file is empty"),
            Self::Short => f.write_str("the file has fewer than four bytes"),
            Self::Woff => f.write_str("a WOFF file: unpack it to TrueType or OpenType"),
            Self::Woff2 => f.write_str("a WOFF2 file: unpack it to TrueType or OpenType"),
            Self::CollectionShort { length } => header_past_end(f, *length),
            Self::OffsetsPastEnd { fonts, length } => offsets_past_end(f, *fonts, *length),
            Self::FontPastEnd { offset, length } => font_past_end(f, *offset, *length),
            Self::NestedCollection => {
                f.write_str("its offset leads to a collection (ttcf), not to a font")
            }
            Self::NoSuchFont { number, fonts } => no_such_font(f, *number, *fonts),
            Self::Type1 => f.write_str("a Type 1 font: convert it to OpenType"),
            Self::WrappedType1 => f.write_str("a Type 1 font in an OpenType file: convert it"),
            Self::EmbeddedOpenType => {
                f.write_str("an Embedded OpenType file: unpack it to TrueType or OpenType")
            }
            Self::Start(start) => write!(
                f,
                "it starts with \"{}\", as no TrueType or OpenType font does",
                start.escape_ascii()
            ),
            Self::DirectoryPastEnd { needed, length } => {
                past_end(f, "its table directory ends", *needed as u64, *length)
            }
            Self::TablePastEnd {
                table,
                needed,
                length,
            } => table_past_end(f, *table, *needed, *length),
            Self::TableShort {
                table,
                length,
                needed,
            } => table_short(f, *table, *length, *needed),
            Self::NoCmap => f.write_str("it has no cmap table"),
            Self::CmapPastEnd => f.write_str("its cmap table reaches past the end of the file"),
            Self::CmapShort => f.write_str("its cmap table has fewer than four bytes"),
            Self::CmapRecords { records } => write!(
                f,
                "none of the {records} records of its cmap table can be used: \
                 one for Unicode, symbols or Mac Roman has to lie in the table"
            ),
            Self::Axes { axes } => write!(f, "it has {axes} variation axes"),
            Self::Other => f.write_str("no reason was found in the file"),
        }
    }
}

fn past_end(f: &mut fmt::Formatter<'_>, what: &str, needed: u64, length: usize) -> fmt::Result {
    write!(f, "{what} at byte {needed}, the file at {length}")
}

fn header_past_end(f: &mut fmt::Formatter<'_>, length: usize) -> fmt::Result {
    let what = "the header of the collection (ttcf) ends";
    past_end(f, what, HEADER as u64, length)
}

fn offsets_past_end(f: &mut fmt::Formatter<'_>, fonts: u32, length: usize) -> fmt::Result {
    let what = format!("the offsets of the collection's {fonts} fonts end");
    past_end(f, &what, HEADER as u64 + 4 * u64::from(fonts), length)
}

fn font_past_end(f: &mut fmt::Formatter<'_>, offset: usize, length: usize) -> fmt::Result {
    write!(
        f,
        "it begins at byte {offset}, and the file ends at {length}"
    )
}

fn table_past_end(
    f: &mut fmt::Formatter<'_>,
    table: Tag,
    needed: usize,
    length: usize,
) -> fmt::Result {
    past_end(f, &format!("its {table} table ends"), needed as u64, length)?;
    f.write_str(": the file is cut or damaged")
}

/// Bytes of an OS/2 of version 0 in its oldest form.
const OLD_OS2: usize = 68;

fn table_short(
    f: &mut fmt::Formatter<'_>,
    table: Tag,
    length: usize,
    needed: usize,
) -> fmt::Result {
    let bytes = match length {
        0 => "no bytes".into(),
        1 => "1 byte".into(),
        _ => format!("{length} bytes"),
    };
    write!(f, "its {table} table has {bytes}, and {needed} are needed")?;
    if table.0 == OS2.tag && length == OLD_OS2 {
        f.write_str(": an old form that OpenType allows; export the font again")?;
    }
    Ok(())
}

fn no_such_font(f: &mut fmt::Formatter<'_>, number: u16, fonts: u32) -> fmt::Result {
    match fonts {
        0 => write!(f, "the collection has no font"),
        1 => write!(f, "the file has one font, and the number is {number}"),
        _ => write!(
            f,
            "the file has {fonts} fonts (0 to {}), and the number is {number}",
            fonts - 1
        ),
    }
}
