//! A font that is refused is told at once, with the reason in words, and the
//! builder stays as it was.

mod common;

use std::error::Error as _;

use common::fonts;
use stemhook::{FaceId, FontFault, FontFile, JobBuilder, Problem, Refusal, Tag};

/// A font with tables of the tests' own, or without them.
fn with(tables: &[([u8; 4], Vec<u8>)]) -> Vec<u8> {
    fonts::file(*b"OTTO", tables)
}

/// A font whose one record, of `cmap`, has another length.
fn with_cmap_length(length: u32) -> Vec<u8> {
    fonts::with_length(&with(&[(*b"cmap", fonts::cmap(3, 1))]), 0, length)
}

/// A font file, what is wrong with it, and some of the words.
type Case = (Vec<u8>, FontFault, &'static str);

/// Files that do not start as a font, or end too soon.
fn starts() -> Vec<Case> {
    let mut cut = b"OTTO\0\x03".to_vec();
    cut.resize(20, 0);
    let past = FontFault::DirectoryPastEnd {
        needed: 12 + 16 * 3,
        length: 20,
    };
    let mut packed = vec![b'.'; 40];
    packed[34..36].copy_from_slice(b"LP");
    let start = FontFault::Start(*b"<htm");
    vec![
        (vec![], FontFault::Empty, "is empty"),
        (b"OTT".to_vec(), FontFault::Short, "fewer than four"),
        (b"wOFF....".to_vec(), FontFault::Woff, "a WOFF file"),
        (b"wOF2....".to_vec(), FontFault::Woff2, "a WOFF2 file"),
        (b"%!PS-Adobe".to_vec(), FontFault::Type1, "Type 1"),
        (b"\x80\x01..".to_vec(), FontFault::Type1, "Type 1"),
        (b"typ1....".to_vec(), FontFault::WrappedType1, "Type 1"),
        (packed, FontFault::EmbeddedOpenType, "Embedded OpenType"),
        (b"<htm".to_vec(), start, "starts with \"<htm\""),
        (cut, past, "ends at byte 60, the file at 20"),
    ]
}

/// Fonts that lack a table or have a wrong one.
fn tables() -> Vec<Case> {
    let unmapped = with(&[(*b"OS/2", fonts::os2(400, 5, 0))]);
    let past = with_cmap_length(1000);
    let other = with(&[(*b"cmap", fonts::cmap(3, 2))]);
    let records = FontFault::CmapRecords { records: 1 };
    let axes = fonts::variable(&[(*b"wght", 1, 2, 3); 17]);
    vec![
        (unmapped, FontFault::NoCmap, "no cmap"),
        (past, FontFault::CmapPastEnd, "past the end"),
        (with_cmap_length(3), FontFault::CmapShort, "fewer than four"),
        (other, records, "none of the 1 records"),
        (axes, FontFault::Axes { axes: 17 }, "17 variation axes"),
    ]
}

/// The tables of an upright font, of an oblique one and of one without `OS/2`.
/// Of each, the first is needed for the attributes.
fn needing() -> [Vec<([u8; 4], Vec<u8>)>; 3] {
    let cmap = (*b"cmap", fonts::cmap(3, 1));
    let head = (*b"head", fonts::head(3));
    let post = (*b"post", fonts::post(0xfff4_0000));
    let os2 = |selection| (*b"OS/2", fonts::os2(700, 5, selection));
    [
        vec![os2(0), head.clone(), post.clone(), cmap.clone()],
        vec![post.clone(), os2(1 << 9), head.clone(), cmap.clone()],
        vec![head, post, cmap],
    ]
}

/// Fonts with a damaged table that their attributes need, told by its name.
fn damaged() -> Vec<Case> {
    let [upright, oblique, old] = needing().map(|tables| with(&tables));
    let table = |name: &[u8; 4]| Tag(*name);
    let past = |name, needed, length| FontFault::TablePastEnd {
        table: table(name),
        needed,
        length,
    };
    let short = |name, length, needed| FontFault::TableShort {
        table: table(name),
        length,
        needed,
    };
    // The first table begins behind the directory, at 12 + 16 * 4 or 12 + 16 * 3.
    let far = fonts::with_record(&upright, 0, u32::MAX, 78);
    let length = far.len();
    let case = |font: &[u8], least, name, words| {
        let font = fonts::with_length(font, 0, least as u32 - 1);
        (font, short(name, least - 1, least), words)
    };
    let of_length = |length| fonts::with_length(&upright, 0, length);
    vec![
        (
            upright[..153].to_vec(),
            past(b"OS/2", 154, 153),
            ": its OS/2 table ends at byte 154, the file at 153: the file is cut or damaged",
        ),
        (
            oblique[..107].to_vec(),
            past(b"OS/2", 186, 107),
            ": its OS/2 table ends at byte 186, the file at 107",
        ),
        (
            old[..61].to_vec(),
            past(b"head", 114, 61),
            ": its head table ends at byte 114, the file at 61",
        ),
        (
            far,
            past(b"OS/2", u32::MAX as usize + 78, length),
            "ends at byte 4294967373, the file at ",
        ),
        (
            fonts::with_record(&oblique, 0, length as u32 - 31, 32),
            past(b"post", length + 1, length),
            ": its post table ends at byte ",
        ),
        case(
            &upright,
            78,
            b"OS/2",
            ": its OS/2 table has 77 bytes, and 78 are needed",
        ),
        case(
            &oblique,
            32,
            b"post",
            ": its post table has 31 bytes, and 32 are needed",
        ),
        case(
            &old,
            54,
            b"head",
            ": its head table has 53 bytes, and 54 are needed",
        ),
        (
            of_length(68),
            short(b"OS/2", 68, 78),
            "export the font again",
        ),
        (of_length(1), short(b"OS/2", 1, 78), "has 1 byte, and 78"),
        (of_length(0), short(b"OS/2", 0, 78), "has no bytes, and 78"),
    ]
}

/// A damaged table comes before what is wrong with `cmap` and `fvar`, and before
/// another damaged one that is not looked at for it.
fn damaged_first() -> Vec<Case> {
    let os2 = (*b"OS/2", fonts::os2(700, 5, 0)[..76].to_vec());
    let head = (*b"head", vec![]);
    let axes = fonts::fvar(&[(*b"wght", 1, 2, 3); 17]);
    let short = FontFault::TableShort {
        table: Tag(os2.0),
        length: 76,
        needed: 78,
    };
    let cases = [
        vec![os2.clone()],
        vec![head, os2.clone()],
        vec![(*b"cmap", fonts::cmap(3, 2)), os2.clone()],
        vec![(*b"cmap", fonts::cmap(3, 1)), (*b"fvar", axes), os2.clone()],
        // A sound one behind it does not count.
        vec![os2, (*b"OS/2", fonts::os2(700, 5, 0))],
    ];
    let case = |tables: Vec<_>| (with(&tables), short, "its OS/2 table has 76 bytes");
    cases.map(case).to_vec()
}

/// A collection of two fonts with another 32-bit number at a position.
fn collection_with(at: usize, number: u32) -> Vec<u8> {
    let mut file = fonts::collection(&[400, 700]);
    file[at..at + 4].copy_from_slice(&number.to_be_bytes());
    file
}

/// Collections whose header or offsets are cut, or that have no font.
fn headers() -> Vec<Case> {
    let file = fonts::collection(&[400, 700]);
    let short = FontFault::CollectionShort { length: 8 };
    let none = FontFault::NoSuchFont {
        number: 0,
        fonts: 0,
    };
    let offsets = |fonts, length| FontFault::OffsetsPastEnd { fonts, length };
    let many = collection_with(8, u32::MAX);
    vec![
        (
            file[..8].to_vec(),
            short,
            "(ttcf) ends at byte 12, the file at 8",
        ),
        (collection_with(8, 0), none, "has no font"),
        (
            file[..19].to_vec(),
            offsets(2, 19),
            "end at byte 20, the file at 19",
        ),
        (
            many,
            offsets(u32::MAX, file.len()),
            "end at byte 17179869192, ",
        ),
    ]
}

/// Collections whose first font cannot be found.
fn offsets() -> Vec<Case> {
    let length = fonts::collection(&[400, 700]).len();
    let past = |offset| FontFault::FontPastEnd { offset, length };
    let cut = fonts::collection(&[400]);
    let cut = &cut[..cut.len() - 1];
    let directory = FontFault::DirectoryPastEnd {
        needed: cut.len() + 1,
        length: cut.len(),
    };
    let at = |offset| collection_with(12, offset);
    let start = FontFault::Start([0, 0, 0, 12]);
    vec![
        (at(9000), past(9000), "it begins at byte 9000, "),
        (
            at(length as u32 - 3),
            past(length - 3),
            "and the file ends at ",
        ),
        (
            at(0),
            FontFault::NestedCollection,
            "to a collection (ttcf), not to a font",
        ),
        (at(12), start, "starts with \"\\x00\\x00\\x00\\x0c\""),
        (cut.to_vec(), directory, "its table directory ends at byte"),
    ]
}

fn cases() -> Vec<Case> {
    [
        starts(),
        tables(),
        damaged(),
        damaged_first(),
        headers(),
        offsets(),
    ]
    .concat()
}

#[test]
fn each_fault_is_told_in_words() {
    for (font, fault, words) in cases() {
        let mut builder = JobBuilder::new();
        builder.face(&fonts::weight(400)).unwrap();
        let before = builder.build().unwrap();
        for given in [
            FontFile::new(&font),
            FontFile::new(&font).whole().named("x"),
        ] {
            let error = builder.face(given).unwrap_err();
            let Problem::Font {
                refusal,
                fault: told,
            } = error.problem()
            else {
                panic!("{error}");
            };
            assert_eq!(told, fault);
            assert_eq!(error.face(), Some(FaceId::new(1)));
            let part = match refusal {
                Refusal::NoSuchFont => "number",
                _ => "font",
            };
            assert_eq!(error.field(), format!("faces[1].{part}"));
            let text = error.to_string();
            let start = format!("faces[1].{part}: refused {}: ", refusal.number());
            assert!(text.starts_with(&start), "{text}");
            assert!(
                text.contains(refusal.meaning()) && text.contains(words),
                "{text}"
            );
            let source = error.source().and_then(|source| source.downcast_ref());
            assert_eq!(source, Some(&refusal));
            assert_eq!(builder.build().as_ref(), Ok(&before));
        }
        assert_eq!(builder.face(&fonts::weight(700)), Ok(FaceId::new(1)));
    }
}

#[test]
fn the_numbers_are_the_picker_s() {
    for (font, fault, _) in cases() {
        let error = JobBuilder::new().face(&font).unwrap_err();
        let expected = match fault {
            FontFault::Axes { .. } => Refusal::TooManyAxes,
            FontFault::NoCmap | FontFault::CmapPastEnd => Refusal::NoCharmap,
            FontFault::CmapShort | FontFault::CmapRecords { .. } => Refusal::NoCharmap,
            FontFault::NoSuchFont { .. } => Refusal::NoSuchFont,
            FontFault::TablePastEnd { .. } => Refusal::DamagedTable,
            FontFault::TableShort { .. } => Refusal::DamagedTable,
            _ => Refusal::FontDirectory,
        };
        let problem = Problem::Font {
            refusal: expected,
            fault,
        };
        assert_eq!(error.problem(), problem);
    }
}

/// What the attributes do not need may be damaged: the font is taken, or what
/// else is wrong with it is told.
#[test]
fn a_damaged_table_that_is_not_needed_is_not_told() {
    let [upright, oblique, old] = needing();
    let mut italic = oblique.clone();
    italic[1].1 = fonts::os2(700, 5, 1 | 1 << 9);
    for (tables, number) in [
        (&upright, 1),
        (&upright, 2),
        (&oblique, 2),
        (&italic, 0),
        (&italic, 2),
        (&old, 1),
    ] {
        let mut tables = tables.clone();
        tables[number].1.clear();
        assert_eq!(
            JobBuilder::new().face(&with(&tables)),
            Ok(FaceId::new(0)),
            "{tables:?}"
        );
        tables.pop();
        let error = JobBuilder::new().face(&with(&tables)).unwrap_err();
        let (refusal, fault) = (Refusal::NoCharmap, FontFault::NoCmap);
        assert_eq!(error.problem(), Problem::Font { refusal, fault });
    }
}

/// In a collection the end of a table counts from the start of the file, as the
/// table's offset does.
#[test]
fn a_damaged_table_of_a_collection() {
    let file = fonts::collected(&[fonts::weight(400), fonts::weight(700)]);
    // Its last 14 bytes are a `cmap`, and the 78 before them an `OS/2`.
    let needed = file.len() - 14;
    let cut = &file[..needed - 1];
    let mut builder = JobBuilder::new();
    assert_eq!(builder.face(cut), Ok(FaceId::new(0)));
    let error = builder.face(FontFile::new(cut).number(1)).unwrap_err();
    let fault = FontFault::TablePastEnd {
        table: Tag(*b"OS/2"),
        needed,
        length: cut.len(),
    };
    let refusal = Refusal::DamagedTable;
    assert_eq!(error.problem(), Problem::Font { refusal, fault });
    assert_eq!(error.field(), "faces[1].font");
}

/// A face that is not held takes part in the choice: its attributes have to be
/// known too.
#[test]
fn a_damaged_table_of_a_face_that_is_not_held() {
    let file = fonts::weight(700);
    let font = FontFile::new(&file[..100]).not_held();
    for font in [font, font.whole()] {
        let error = JobBuilder::new().face(font).unwrap_err();
        assert!(error.to_string().contains("refused 31"), "{error}");
    }
}

#[test]
fn a_number_that_the_file_does_not_have() {
    let collection = fonts::collection(&[400, 700]);
    let lone = fonts::weight(400);
    let bad = b"wOFF and the rest".to_vec();
    let one = "the file has one font, and the number is ";
    for (file, number, fonts, words) in [
        (
            &collection,
            2,
            2,
            "the file has 2 fonts (0 to 1), and the number is 2",
        ),
        (&lone, 1, 1, &*format!("{one}1")),
        (&lone, u16::MAX, 1, &format!("{one}65535")),
        // The number comes before the start.
        (&bad, 1, 1, &format!("{one}1")),
    ] {
        for font in [FontFile::new(file), FontFile::new(file).whole()] {
            let error = JobBuilder::new().face(font.number(number)).unwrap_err();
            let fault = FontFault::NoSuchFont { number, fonts };
            let refusal = Refusal::NoSuchFont;
            assert_eq!(error.problem(), Problem::Font { refusal, fault });
            let text = format!("faces[0].number: refused 30: {refusal}: {words}");
            assert_eq!(error.to_string(), text);
        }
    }
    // A file without 12 bytes is refused for that, whatever the number.
    for short in [&b""[..], b"OTTO", b"ttcf....", &lone[..11]] {
        let error = JobBuilder::new()
            .face(FontFile::new(short).number(9))
            .unwrap_err();
        assert!(error.to_string().contains("refused 21"), "{error}");
    }
}
