//! The whole way on real fonts: files of Debian's packages, job, offers.
//!
//! `tools/install-fonts` installs them. Where they are not there, each test
//! says that it is skipped; with STEMHOOK_SKIP_NOTHING set it fails.
//! STEMHOOK_FONTS names the folder of fonts, if it is not Debian's.

mod common;

use std::{
    env, fs,
    ops::Range,
    path::{Path, PathBuf},
};

use stemhook::{
    Angle, Attributes, BuildError, FaceId, FontFault, FontFile, Job, JobBuilder, Offer, Problem,
    Reading, Refusal, Request, RequestId, Style, Tag, face_count,
};

const DEJAVU: &str = "truetype/dejavu";
const CANTARELL: &str = "opentype/cantarell";
const INTER: &str = "truetype/inter-vf";

/// DejaVu Sans: nine faces of two widths, two styles and three weights.
const SANS: [&str; 9] = [
    "truetype/dejavu/DejaVuSans.ttf",
    "truetype/dejavu/DejaVuSans-Bold.ttf",
    "truetype/dejavu/DejaVuSans-Oblique.ttf",
    "truetype/dejavu/DejaVuSans-BoldOblique.ttf",
    "truetype/dejavu/DejaVuSans-ExtraLight.ttf",
    "truetype/dejavu/DejaVuSansCondensed.ttf",
    "truetype/dejavu/DejaVuSansCondensed-Bold.ttf",
    "truetype/dejavu/DejaVuSansCondensed-Oblique.ttf",
    "truetype/dejavu/DejaVuSansCondensed-BoldOblique.ttf",
];

/// Cantarell: five weights.
const LIGHT_TO_BOLD: [&str; 5] = [
    "opentype/cantarell/Cantarell-Thin.otf",
    "opentype/cantarell/Cantarell-Light.otf",
    "opentype/cantarell/Cantarell-Regular.otf",
    "opentype/cantarell/Cantarell-Bold.otf",
    "opentype/cantarell/Cantarell-ExtraBold.otf",
];

/// Inter: one face with the axes `wght` and `slnt`.
const SLANTING: [&str; 1] = ["truetype/inter-vf/Inter.var.ttf"];

/// Inter: an upright and an italic face, each with the axis `wght`.
const ROMAN_AND_ITALIC: [&str; 2] = [
    "truetype/inter-vf/Inter-roman.var.ttf",
    "truetype/inter-vf/Inter-italic.var.ttf",
];

/// Solothurn: two weights, each upright and oblique.
const UPRIGHT_AND_OBLIQUE: [&str; 4] = [
    "truetype/adf/Solothurn-Regular.otf",
    "truetype/adf/Solothurn-Oblique.otf",
    "truetype/adf/Solothurn-Bold.otf",
    "truetype/adf/Solothurn-BoldOblique.otf",
];

/// WenQuanYi Micro Hei: a collection of two fonts that share most tables.
const COLLECTION: [&str; 1] = ["truetype/wqy/wqy-microhei.ttc"];

/// The folder of fonts, if every file that is used here is in it; else the
/// test is skipped.
fn folder(test: &str) -> Option<PathBuf> {
    let folder = env::var_os("STEMHOOK_FONTS").unwrap_or_else(|| "/usr/share/fonts".into());
    let folder = PathBuf::from(folder);
    let used = [
        &SANS[..],
        &LIGHT_TO_BOLD,
        &SLANTING,
        &ROMAN_AND_ITALIC,
        &UPRIGHT_AND_OBLIQUE,
        &COLLECTION,
    ];
    let missing = used
        .concat()
        .into_iter()
        .find(|file| !folder.join(file).is_file());
    if let Some(file) = missing {
        let file = folder.join(file);
        let lack = format!("{} is not there: run tools/install-fonts", file.display());
        common::skip(test, &lack);
        return None;
    }
    Some(folder)
}

fn font(folder: &Path, file: &str) -> Vec<u8> {
    fs::read(folder.join(file)).unwrap_or_else(|error| panic!("{file}: {error}"))
}

/// A job of families of files, with one request: for the first families and,
/// as a fallback, the last, if there are more.
fn job(folder: &Path, families: &[&[&str]], attributes: Attributes) -> Job<'static> {
    let mut builder = JobBuilder::new();
    let mut numbers = Vec::new();
    for files in families {
        let faces: Vec<FaceId> = files
            .iter()
            .map(|file| builder.face(&font(folder, file)).unwrap())
            .collect();
        numbers.push(builder.family(&faces).unwrap());
    }
    let fallbacks = numbers.split_off(1);
    let request = Request {
        most: 8,
        attributes,
        families: numbers,
        fallbacks,
    };
    builder.request(&request).unwrap();
    builder.build().unwrap()
}

fn offers(folder: &Path, families: &[&[&str]], attributes: Attributes) -> Vec<Offer> {
    job(folder, families, attributes)
        .offers(RequestId::new(0))
        .unwrap()
        .collect::<Result<_, _>>()
        .unwrap()
}

/// The first offer of a family, and its file.
fn first<'a>(folder: &Path, files: &[&'a str], attributes: Attributes) -> (Offer, &'a str) {
    first_under(Reading::AsStored, folder, files, attributes)
}

/// The same under a reading.
fn first_under<'a>(
    reading: Reading,
    folder: &Path,
    files: &[&'a str],
    attributes: Attributes,
) -> (Offer, &'a str) {
    let job = job(folder, &[files], attributes).with_reading(reading);
    let offer = job.offer(RequestId::new(0), 0).unwrap();
    let offer = offer.expect("a family of faces offers some");
    (offer, files[usize::from(offer.place)])
}

fn attributes(width: f32, style: Style, weight: f32) -> Attributes {
    Attributes {
        width,
        style,
        weight,
    }
}

/// Whether the offer asks for nothing to be done to its face.
fn as_it_is(offer: &Offer) -> bool {
    !offer.embolden && offer.skew == 0 && offer.settings.is_empty()
}

/// Whether a font has a table, by its directory.
fn has_table(font: &[u8], tag: &[u8; 4]) -> bool {
    let count = usize::from(u16::from_be_bytes([font[4], font[5]]));
    font[12..].chunks(16).take(count).any(|r| &r[..4] == tag)
}

#[test]
fn static_and_variable_fonts_are_such() {
    let Some(folder) = folder("static_and_variable_fonts_are_such") else {
        return;
    };
    for file in SANS.iter().chain(&LIGHT_TO_BOLD) {
        assert!(!has_table(&font(&folder, file), b"fvar"), "{file}");
    }
    for file in SLANTING.iter().chain(&ROMAN_AND_ITALIC) {
        assert!(has_table(&font(&folder, file), b"fvar"), "{file}");
    }
}

#[test]
fn a_static_family_offers_the_face_asked_for() {
    let Some(folder) = folder("a_static_family_offers_the_face_asked_for") else {
        return;
    };
    let (normal, italic) = (Style::Normal, Style::Italic);
    for (asked, expected) in [
        (attributes(1.0, normal, 400.0), "DejaVuSans.ttf"),
        (attributes(1.0, normal, 700.0), "DejaVuSans-Bold.ttf"),
        (attributes(1.0, normal, 200.0), "DejaVuSans-ExtraLight.ttf"),
        (attributes(1.0, italic, 400.0), "DejaVuSans-Oblique.ttf"),
        (attributes(1.0, italic, 700.0), "DejaVuSans-BoldOblique.ttf"),
        (attributes(0.875, normal, 400.0), "DejaVuSansCondensed.ttf"),
        (
            attributes(0.875, italic, 700.0),
            "DejaVuSansCondensed-BoldOblique.ttf",
        ),
    ] {
        let (offer, file) = first(&folder, &SANS, asked);
        assert_eq!(file, format!("{DEJAVU}/{expected}"), "{asked:?}");
        assert!(as_it_is(&offer), "{asked:?}");
    }
}

#[test]
fn the_default_comes_after_the_choice() {
    let Some(folder) = folder("the_default_comes_after_the_choice") else {
        return;
    };
    let bold = attributes(1.0, Style::Normal, 700.0);
    let offers = offers(&folder, &[&SANS], bold);
    assert_eq!(offers.len(), 2);
    assert_eq!((offers[0].place, offers[0].embolden), (1, false));
    assert_eq!((offers[1].place, offers[1].embolden), (0, true));
}

#[test]
fn weights_in_between_go_to_the_nearest_on_their_side() {
    let Some(folder) = folder("weights_in_between_go_to_the_nearest_on_their_side") else {
        return;
    };
    for (weight, expected) in [
        (50.0, "Thin"),
        (250.0, "Thin"),
        (350.0, "Light"),
        (450.0, "Regular"),
        (501.0, "Bold"),
        (750.0, "ExtraBold"),
        (1000.0, "ExtraBold"),
    ] {
        let asked = attributes(1.0, Style::Normal, weight);
        let (offer, file) = first(&folder, &LIGHT_TO_BOLD, asked);
        assert_eq!(file, format!("{CANTARELL}/Cantarell-{expected}.otf"));
        assert!(as_it_is(&offer));
    }
}

#[test]
fn a_variable_family_is_set_to_the_weight_asked_for() {
    let Some(folder) = folder("a_variable_family_is_set_to_the_weight_asked_for") else {
        return;
    };
    let asked = attributes(1.0, Style::Normal, 650.0);
    let (offer, _) = first(&folder, &SLANTING, asked);
    assert_eq!(offer.settings.len(), 1);
    assert_eq!(offer.settings[0].tag, Tag::WGHT);
    assert_eq!(offer.settings[0].value.to_bits(), 650.0_f32.to_bits());
    assert!(!offer.embolden && offer.skew == 0);

    // Its own weight needs no setting.
    let (offer, _) = first(&folder, &SLANTING, Attributes::default());
    assert!(as_it_is(&offer));
}

#[test]
fn a_slant_axis_stands_in_for_italic_and_oblique() {
    let Some(folder) = folder("a_slant_axis_stands_in_for_italic_and_oblique") else {
        return;
    };
    let slant = |style: Style, reading: Reading| {
        let asked = attributes(1.0, style, 800.0);
        let (offer, _) = first_under(reading, &folder, &SLANTING, asked);
        assert_eq!(offer.skew, 0);
        assert_eq!(offer.settings.value(Tag::WGHT), Some(800.0));
        offer.settings.value(Tag::SLNT)
    };
    for (style, degrees) in [
        (Style::Italic, 14.0),
        (Style::Oblique(Angle::Unstated), 14.0),
        (oblique(9.5), 9.5),
        (oblique(12.0), 12.0),
        (oblique(-9.0), -9.0),
    ] {
        assert_eq!(slant(style, Reading::AsStored), Some(degrees));
        assert_eq!(slant(style, Reading::OpenType), Some(-degrees));
    }
    for reading in common::READINGS {
        assert_eq!(slant(Style::Normal, reading), None);
    }
}

/// Inter's axis runs from -10 to 0, and leans right: a value that leans right
/// lies in it under the second reading, and past its end under the first.
#[test]
fn a_slant_axis_is_set_to_a_value_that_leans_right() {
    let Some(folder) = folder("a_slant_axis_is_set_to_a_value_that_leans_right") else {
        return;
    };
    let read = plain::font::read(&font(&folder, SLANTING[0]), 0, 0).unwrap();
    let axis = read.axis(b"slnt").unwrap();
    let ends = [axis.minimum, axis.default, axis.maximum].map(|end| end.value());
    assert_eq!(ends, [-10.0, 0.0, 0.0]);
    for (reading, inside) in [(Reading::AsStored, false), (Reading::OpenType, true)] {
        let asked = attributes(1.0, oblique(9.5), 400.0);
        let (offer, _) = first_under(reading, &folder, &SLANTING, asked);
        let value = offer.settings.value(Tag::SLNT).unwrap();
        assert_eq!((ends[0]..=ends[2]).contains(&value), inside, "{reading:?}");
    }
}

fn oblique(degrees: f32) -> Style {
    Style::Oblique(Angle::Degrees(degrees))
}

/// The fsSelection of a font, and the angle in its `post` table as a 16.16
/// number.
fn slope(file: &[u8]) -> (u16, i32) {
    let selection = table(file, 0, b"OS/2").start + 62;
    let angle = word(file, table(file, 0, b"post").start + 4);
    let selection = u16::from_be_bytes([file[selection], file[selection + 1]]);
    (selection, angle as u32 as i32)
}

#[test]
fn obliques_are_such_and_lean_right() {
    let Some(folder) = folder("obliques_are_such_and_lean_right") else {
        return;
    };
    for file in UPRIGHT_AND_OBLIQUE {
        let (selection, angle) = slope(&font(&folder, file));
        let is_oblique = file.contains("Oblique");
        assert_eq!(selection & (1 << 9) != 0, is_oblique, "{file}");
        assert_eq!(selection & 1, 0, "{file}");
        let expected = if is_oblique { -10 << 16 } else { 0 };
        assert_eq!(angle, expected, "{file}");
    }
}

/// Of a family with obliques, a request for a lean to the right gets one under
/// the second reading. Under the first they count as leaning left, and an
/// upright face is skewed.
#[test]
fn an_oblique_is_chosen_for_its_lean() {
    let Some(folder) = folder("an_oblique_is_chosen_for_its_lean") else {
        return;
    };
    let (bold, leaning) = (UPRIGHT_AND_OBLIQUE[2], UPRIGHT_AND_OBLIQUE[3]);
    for (degrees, reading, expected) in [
        (12.0, Reading::OpenType, (leaning, 0)),
        (12.0, Reading::AsStored, (bold, 12)),
        (-12.0, Reading::OpenType, (bold, -12)),
        (-12.0, Reading::AsStored, (leaning, 0)),
    ] {
        let asked = attributes(1.0, oblique(degrees), 700.0);
        let (offer, file) = first_under(reading, &folder, &UPRIGHT_AND_OBLIQUE, asked);
        assert_eq!((file, offer.skew), expected, "{degrees}, {reading:?}");
        assert!(!offer.embolden && offer.settings.is_empty());
    }
}

/// A font with the opposite angle in its `post` table.
fn turned(file: &[u8]) -> Vec<u8> {
    let (_, angle) = slope(file);
    let mut file = file.to_vec();
    let at = table(&file, 0, b"post").start + 4;
    file[at..at + 4].copy_from_slice(&(-angle).to_be_bytes());
    file
}

/// The name of the font that is offered first, as it is, for an oblique.
fn offered(fonts: [FontFile<'_>; 2], degrees: f32, reading: Reading) -> String {
    let mut builder = JobBuilder::new();
    let faces = fonts.map(|font| builder.face(font).unwrap());
    let request = Request {
        attributes: attributes(1.0, oblique(degrees), 400.0),
        families: vec![builder.family(&faces).unwrap()],
        ..Request::default()
    };
    let request = builder.request(&request).unwrap();
    let job = builder.build().unwrap().with_reading(reading);
    let offer = job.offer(request, 0).unwrap().unwrap();
    assert!(as_it_is(&offer));
    job.font(&offer).unwrap().name.to_owned()
}

/// A face that leans right beside a copy of it whose angle says that it leans
/// left.
#[test]
fn an_oblique_beside_one_that_leans_the_other_way() {
    let Some(folder) = folder("an_oblique_beside_one_that_leans_the_other_way") else {
        return;
    };
    let right = font(&folder, UPRIGHT_AND_OBLIQUE[1]);
    let left = turned(&right);
    let right = FontFile::new(&right).named("right");
    let left = FontFile::new(&left).named("left");
    for (degrees, reading, expected) in [
        (12.0, Reading::OpenType, "right"),
        (12.0, Reading::AsStored, "left"),
        (-12.0, Reading::OpenType, "left"),
        (-12.0, Reading::AsStored, "right"),
    ] {
        for fonts in [[right, left], [left, right]] {
            let name = offered(fonts, degrees, reading);
            assert_eq!(name, expected, "{degrees}, {reading:?}");
        }
    }
}

#[test]
fn an_italic_face_is_chosen_and_varied_in_weight() {
    let Some(folder) = folder("an_italic_face_is_chosen_and_varied_in_weight") else {
        return;
    };
    let asked = attributes(1.0, Style::Italic, 550.0);
    let (offer, file) = first(&folder, &ROMAN_AND_ITALIC, asked);
    assert_eq!(file, format!("{INTER}/Inter-italic.var.ttf"));
    assert_eq!(offer.settings.value(Tag::WGHT), Some(550.0));
    assert_eq!((offer.settings.len(), offer.skew), (1, 0));
}

#[test]
fn fallbacks_come_last() {
    let Some(folder) = folder("fallbacks_come_last") else {
        return;
    };
    let asked = attributes(1.0, Style::Normal, 700.0);
    let families: [&[&str]; 3] = [&LIGHT_TO_BOLD, &SLANTING, &SANS];
    let offers = offers(&folder, &families, asked);
    let places: Vec<(u16, u16)> = offers
        .iter()
        .map(|o| (o.family.number(), o.place))
        .collect();
    assert_eq!(places, [(0, 3), (0, 2), (1, 0), (2, 1), (2, 0)]);
}

#[test]
fn every_file_of_the_packages_is_read_and_offered() {
    let Some(folder) = folder("every_file_of_the_packages_is_read_and_offered") else {
        return;
    };
    let mut count = 0;
    for place in [DEJAVU, CANTARELL, INTER] {
        for entry in fs::read_dir(folder.join(place)).unwrap() {
            let path = entry.unwrap().path();
            if !path.extension().is_some_and(|e| e == "ttf" || e == "otf") {
                continue;
            }
            let file = path.to_str().unwrap();
            let offers = offers(&folder, &[&[file]], Attributes::default());
            assert_eq!(offers.len(), 1, "{file}");
            // The subtable that is pointed at has a format of OpenType that maps
            // characters one by one.
            let font = font(&folder, file);
            let at = offers[0].charmap.offset as usize;
            let format = u16::from_be_bytes([font[at], font[at + 1]]);
            assert!([4, 12].contains(&format), "{file}: format {format}");
            count += 1;
        }
    }
    assert!(count >= 17, "only {count} files");
}

fn word(file: &[u8], at: usize) -> usize {
    u32::from_be_bytes(file[at..at + 4].try_into().unwrap()) as usize
}

/// The tables of a directory, each with where it lies in the file.
fn tables(file: &[u8], directory: usize) -> Vec<([u8; 4], Range<usize>)> {
    let count = u16::from_be_bytes([file[directory + 4], file[directory + 5]]);
    let table = |record: usize| {
        let at = directory + 12 + 16 * record;
        let start = word(file, at + 8);
        let tag = file[at..at + 4].try_into().unwrap();
        (tag, start..start + word(file, at + 12))
    };
    (0..count.into()).map(table).collect()
}

/// A font of a collection as a file of its own, and how much farther its `cmap`
/// lies in the collection.
fn taken_out(file: &[u8], number: u16) -> (Vec<u8>, i64) {
    let cmap = |tables: &[([u8; 4], Range<usize>)]| {
        let found = tables.iter().find(|(tag, _)| tag == b"cmap");
        found.unwrap().1.start as i64
    };
    let own = tables(file, word(file, 12 + 4 * usize::from(number)));
    let copies = own.iter().cloned();
    let copies: Vec<_> = copies.map(|(tag, at)| (tag, file[at].to_vec())).collect();
    let alone = common::fonts::file([0, 1, 0, 0], &copies);
    let farther = cmap(&own) - cmap(&tables(&alone, 0));
    (alone, farther)
}

/// The offers of fonts for several requests.
fn offers_of(fonts: &[FontFile<'_>]) -> Vec<Offer> {
    let mut builder = JobBuilder::new();
    let faces: Vec<FaceId> = fonts
        .iter()
        .map(|font| builder.face(*font).unwrap())
        .collect();
    let families = vec![builder.family(&faces).unwrap()];
    for (width, style, weight) in [
        (1.0, Style::Normal, 400.0),
        (0.75, Style::Italic, 700.0),
        (1.0, Style::Oblique(Angle::Degrees(-9.0)), 250.0),
    ] {
        let request = Request {
            attributes: attributes(width, style, weight),
            families: families.clone(),
            ..Request::default()
        };
        builder.request(&request).unwrap();
    }
    let job = builder.build().unwrap();
    let offers = job.requests().flat_map(|id| job.offers(id).unwrap());
    offers.collect::<Result<_, _>>().unwrap()
}

#[test]
fn fonts_of_a_collection_are_offered_as_they_are_alone() {
    let Some(folder) = folder("fonts_of_a_collection_are_offered_as_they_are_alone") else {
        return;
    };
    let file = font(&folder, COLLECTION[0]);
    assert_eq!(face_count(&file), 2);
    let collected = [0, 1].map(|number| FontFile::new(&file).number(number));
    let offers = offers_of(&collected);
    assert!(offers.iter().any(|o| o.place == 0) && offers.iter().any(|o| o.place == 1));
    assert_eq!(offers, offers_of(&collected.map(FontFile::whole)));

    let alone = [0, 1].map(|number| taken_out(&file, number));
    let mut moved = offers_of(&alone.each_ref().map(|(font, _)| FontFile::new(font)));
    for offer in &mut moved {
        let (_, farther) = alone[usize::from(offer.place)];
        offer.charmap.offset = (i64::from(offer.charmap.offset) + farther) as u32;
    }
    assert_eq!(offers, moved);
}

/// Where a font of a file has a table.
fn table(file: &[u8], directory: usize, tag: &[u8; 4]) -> Range<usize> {
    let found = tables(file, directory).into_iter();
    let mut found = found.filter(|(other, _)| other == tag);
    found.next().expect("the font has it").1
}

/// Adds a font of what was copied of a file.
fn added(file: &[u8], length: usize, number: u16) -> Result<FaceId, BuildError> {
    JobBuilder::new().face(FontFile::new(&file[..length]).number(number))
}

/// Whether what was copied of a file is refused for its `OS/2`, in these words.
fn refused_by_os2(file: &[u8], length: usize, number: u16, needed: usize) {
    let error = added(file, length, number).unwrap_err();
    let table = Tag(*b"OS/2");
    let fault = FontFault::TablePastEnd {
        table,
        needed,
        length,
    };
    let refusal = Refusal::DamagedTable;
    assert_eq!(error.problem(), Problem::Font { refusal, fault });
    let words = format!(
        "faces[0].font: refused 31: a table that the font's attributes need is damaged: \
         its OS/2 table ends at byte {needed}, the file at {length}: the file is cut or damaged"
    );
    assert_eq!(error.to_string(), words);
}

/// A file that was copied in part: where its `OS/2` is cut it is refused for
/// that, and not taken for another face.
#[test]
fn a_file_that_was_copied_in_part() {
    let Some(folder) = folder("a_file_that_was_copied_in_part") else {
        return;
    };
    let files = [&SANS[..], &LIGHT_TO_BOLD, &SLANTING, &ROMAN_AND_ITALIC];
    for name in files.concat() {
        let file = font(&folder, name);
        assert!(added(&file, file.len(), 0).is_ok(), "{name}");
        let os2 = table(&file, 0, b"OS/2");
        for length in [os2.start, os2.start + os2.len() / 2, os2.end - 1] {
            refused_by_os2(&file, length, 0, os2.end);
        }
        // With the whole of it, it depends on `cmap`; no other table is needed.
        let cmap = table(&file, 0, b"cmap");
        let refusal = |length| match added(&file, length, 0).map_err(|error| error.problem()) {
            Ok(_) => None,
            Err(Problem::Font { refusal, .. }) => Some(refusal),
            Err(problem) => panic!("{name}: {problem}"),
        };
        assert!(os2.end < cmap.end, "{name}");
        assert_eq!(refusal(os2.end), Some(Refusal::NoCharmap), "{name}");
        assert_eq!(refusal(cmap.end), None, "{name}");
    }
}

/// In this collection `OS/2` lies behind the `cmap` and the `head` of the first
/// font: with half of the file, or all up to the middle of `OS/2`, all else is
/// there that was read in its stead.
#[test]
fn a_collection_that_was_copied_in_part() {
    let Some(folder) = folder("a_collection_that_was_copied_in_part") else {
        return;
    };
    let file = font(&folder, COLLECTION[0]);
    let directories = [0, 1].map(|number| word(&file, 12 + 4 * number));
    let [os2, of_second] = directories.map(|at| table(&file, at, b"OS/2"));
    assert_eq!(os2, of_second);
    for tag in [b"cmap", b"head"] {
        assert!(table(&file, directories[0], tag).end < os2.start);
    }
    for length in [file.len() / 2, os2.start + os2.len() / 2] {
        for number in [0, 1] {
            refused_by_os2(&file, length, number, os2.end);
        }
    }
    // The second font has its `cmap` behind `OS/2`.
    assert!(added(&file, os2.end, 0).is_ok());
    let error = added(&file, os2.end, 1).unwrap_err().problem();
    let (refusal, fault) = (Refusal::NoCharmap, FontFault::CmapPastEnd);
    assert_eq!(error, Problem::Font { refusal, fault });
}
