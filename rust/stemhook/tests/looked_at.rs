//! A face by just what the picker looks at has the offers of the whole file,
//! whatever the file holds.

mod common;

use std::{env, fs, path::Path};

use common::fonts;
use jobs::{
    bytes::{self, Table},
    fonts::{random_file, random_font},
    random::Random,
};
use stemhook::{
    Angle, Attributes, BuildError, FontFault, FontFile, Job, JobBuilder, Offer, Problem, Request,
    Style, check, face_count, limits,
};

/// Widths, styles and weights that part most fonts.
fn requests(r: &mut Random) -> Vec<Attributes> {
    let styles = [
        Style::Normal,
        Style::Italic,
        Style::Oblique(Angle::Unstated),
        Style::Oblique(Angle::Degrees(9.5)),
        Style::Oblique(Angle::Degrees(-14.0)),
    ];
    let any = |r: &mut Random| Attributes {
        width: r.pick(&[0.5, 0.75, 1.0, 1.25, 2.0]),
        style: r.pick(&styles),
        weight: r.pick(&[100.0, 300.0, 400.0, 450.0, 700.0, 901.0]),
    };
    (0..6).map(|_| any(r)).collect()
}

/// A job of a font alone and beside another, with requests.
fn job(font: FontFile<'_>, requests: &[Attributes]) -> Result<Job<'static>, BuildError> {
    let mut builder = JobBuilder::new();
    let other = builder.face(&fonts::weight(500))?;
    let face = builder.face(font)?;
    let families = vec![
        builder.family(&[face])?,
        builder.family(&[face, other])?,
        builder.family(&[other, face])?,
    ];
    for attributes in requests {
        builder.request(&Request {
            attributes: *attributes,
            families: families.clone(),
            ..Request::default()
        })?;
    }
    builder.build()
}

/// Every offer of a job.
fn offers(job: &Job<'_>) -> Vec<Offer> {
    let offers = |request| job.offers(request).expect("it is in the job");
    let all = job.requests().flat_map(offers);
    all.collect::<Result<_, _>>().expect("the job is accepted")
}

/// The second font file of a job, as it stands there.
fn second_font(job: &[u8]) -> &[u8] {
    let word = |at: usize| u32::from_be_bytes(job[at..at + 4].try_into().unwrap()) as usize;
    let second = 2 + 5 + word(3);
    &job[second + 5..][..word(second + 1)]
}

/// What the picker says of a job of the whole file. It has no number behind a
/// lone font.
fn refusal_of_whole(file: &[u8], number: u16) -> u32 {
    let mut job = vec![0, 1, 1];
    job.extend((file.len() as u32).to_be_bytes());
    job.extend_from_slice(file);
    if file.starts_with(b"ttcf") {
        job.extend(number.to_be_bytes());
    }
    job.extend([0; 6]);
    check(&job).map_or_else(|refused| refused.number(), |()| 0)
}

/// What was compared.
#[derive(Debug, Default)]
struct Counts {
    read: u64,
    /// By refusal: 21, 22, 23, 30 and 31.
    refused: [u64; 5],
    /// Fonts of collections that were read.
    collected: u64,
    offers: u64,
    /// The longest small file.
    longest: usize,
}

/// A refusal of a font is the plain reading's and that of the whole file.
fn compare_refusal(font: (&[u8], u16), error: &BuildError, name: &str, counts: &mut Counts) {
    let (file, number) = font;
    let Problem::Font { refusal, fault } = error.problem() else {
        panic!("{name}: {error}");
    };
    let refused = refusal.number();
    for reading in common::READINGS {
        let read = plain::font::read(file, reading.number(), number);
        assert_eq!(read, Err(refused), "{name}");
    }
    assert_ne!(fault, FontFault::Other, "{name}");
    let in_job = number == 0 || file.starts_with(b"ttcf");
    if in_job && file.len() + 15 <= limits::JOB_BYTES {
        assert_eq!(refusal_of_whole(file, number), refused, "{name}");
    }
    let known = [21, 22, 23, 30, 31];
    let at = known.iter().position(|known| *known == refused);
    counts.refused[at.expect(name)] += 1;
}

/// The refusal, or the offers under both readings, of a font beside those of
/// the whole file.
fn compare(file: &[u8], number: u16, name: &str, r: &mut Random, counts: &mut Counts) {
    let requests = requests(r);
    let font = FontFile::new(file).number(number);
    let mut small = match job(font, &requests) {
        Ok(small) => small,
        Err(error) => return compare_refusal((file, number), &error, name, counts),
    };
    let mut whole = job(font.whole(), &requests).ok();
    match &whole {
        Some(whole) => assert_eq!(second_font(whole.as_bytes()), file, "{name}"),
        None => assert!(file.len() + 1000 > limits::JOB_BYTES, "{name}"),
    }
    for reading in common::READINGS {
        small = small.with_reading(reading);
        whole = whole.map(|whole| whole.with_reading(reading));
        let offset = compare_reading((file, number), &small, name);
        let offers_of_small = offers(&small);
        for offer in offers_of_small.iter().filter(|o| o.family.number() == 0) {
            assert_eq!(offer.charmap.offset, offset, "{name}");
        }
        if let Some(whole) = &whole {
            assert_eq!(offers_of_small, offers(whole), "{name}, {reading:?}");
        }
        counts.offers += offers_of_small.len() as u64;
    }
    counts.read += 1;
    counts.collected += u64::from(file.starts_with(b"ttcf"));
    let length = second_font(small.as_bytes()).len();
    counts.longest = counts.longest.max(length);
}

/// What is read of a font in a job is what is read of the whole file; the offset
/// of the subtable there.
fn compare_reading((file, number): (&[u8], u16), small: &Job<'_>, name: &str) -> u32 {
    let reading = small.reading().number();
    let read = plain::font::read(second_font(small.as_bytes()), reading, 0);
    let mut read = read.expect("the picker took it");
    let whole = plain::font::read(file, reading, number).expect("the picker took it");
    read.charmap.offset = whole.charmap.offset;
    assert_eq!(read, whole, "{name}");
    whole.charmap.offset
}

#[test]
fn generated_and_damaged_fonts() {
    let mut r = Random::new(11);
    let mut counts = Counts::default();
    for at in 0..40_000 {
        let (file, number) = random_file(&mut r);
        compare(&file, number, &format!("font {at}"), &mut r, &mut counts);
    }
    assert!(
        counts.read > 10_000 && counts.offers > 100_000,
        "{counts:?}"
    );
    assert!(counts.collected > 2000, "{counts:?}");
    assert!(counts.refused.iter().all(|count| *count > 50), "{counts:?}");
}

/// Tables of fonts, with those that the attributes need.
fn needing() -> Vec<(Vec<Table>, Vec<[u8; 4]>)> {
    let (os2, head, post) = (*b"OS/2", *b"head", *b"post");
    let sloping = |selection| (os2, fonts::os2(700, 5, selection));
    let others = [
        (head, fonts::head(3)),
        (post, fonts::post(0xfff4_0000)),
        (*b"fvar", fonts::fvar(&[(*b"wght", 100, 400, 900)])),
        (*b"cmap", fonts::cmap(3, 1)),
    ];
    let beside = |selection| [&others[..], &[sloping(selection)]].concat();
    let cmap = others[3].clone();
    vec![
        (beside(0), vec![os2]),
        (beside(1), vec![os2]),
        (beside(1 << 9), vec![os2, post]),
        (beside(1 | 1 << 9), vec![os2]),
        (vec![sloping(1 << 9), cmap.clone()], vec![os2]),
        (others.to_vec(), vec![head]),
        (others[1..].to_vec(), vec![]),
        (vec![cmap], vec![]),
    ]
}

/// The least length of each table that is read.
const LEAST: [([u8; 4], u32); 5] = [
    (*b"OS/2", 78),
    (*b"head", 54),
    (*b"post", 32),
    (*b"fvar", 16),
    (*b"cmap", 4),
];

/// A font with its record of a number damaged, in each way.
fn damages(font: &[u8], number: usize, least: u32) -> Vec<Vec<u8>> {
    let (offset, length) = (bytes::offset(font, number), bytes::length(font, number));
    let end = font.len() as u32;
    let records = [
        // Past the end by a byte; by so much that 32 bits would not hold it.
        (end - length + 1, length),
        (u32::MAX, length),
        (u32::MAX - length + 1, length),
        (offset, u32::MAX),
        // Too short, also at the end of the file; both at once.
        (offset, 0),
        (end, 0),
        (offset, least - 1),
        (end - (least - 1), least - 1),
        (end, 1),
    ];
    let damaged = |(offset, length)| fonts::with_record(font, number, offset, length);
    records.map(damaged).to_vec()
}

/// What the picker says of a font alone and in a collection, beside the small
/// file; and, where the font is taken, what the small file has of a table.
fn compare_damaged(font: Vec<u8>, tag: &[u8; 4], expected: u32, r: &mut Random) {
    let mut counts = Counts::default();
    let name = format!("{} in {font:?}", tag.escape_ascii());
    assert_eq!(refusal_of_whole(&font, 0), expected, "{name}");
    compare(&font, 0, &name, r, &mut counts);
    if expected == 0 {
        let small = job(FontFile::new(&font), &[]).expect(&name);
        let small = second_font(small.as_bytes());
        let mut records = small[12..].chunks(16).take(small[5].into());
        let record = records.find(|record| record.starts_with(tag));
        // A damaged one has a record and no bytes, but for those that count as
        // absent.
        let kept = tag != b"fvar";
        assert_eq!(
            record.map(|record| &record[12..]),
            kept.then_some(&[0; 4][..])
        );
    }
    let collection = fonts::collected(&[fonts::weight(400), font]);
    assert_eq!(refusal_of_whole(&collection, 1), expected, "{name}");
    compare(&collection, 1, &name, r, &mut counts);
    let refused = if expected == 0 { 0 } else { 2 };
    let sums = (counts.read, counts.refused.iter().sum::<u64>());
    assert_eq!(sums, (2 - refused, refused), "{name}");
}

#[test]
fn each_damage_of_each_table() {
    let mut r = Random::new(17);
    for (tables, needed) in needing() {
        for (tag, least) in LEAST {
            let Some(number) = tables.iter().position(|(other, _)| *other == tag) else {
                continue;
            };
            let expected = match &tag {
                b"cmap" => 22,
                _ if needed.contains(&tag) => 31,
                _ => 0,
            };
            let font = fonts::file(*b"OTTO", &tables);
            // A sound table behind the damaged one does not count.
            let again = [&tables[..], &tables[number..=number]].concat();
            for font in [font, fonts::file(*b"OTTO", &again)] {
                for damaged in damages(&font, number, least) {
                    compare_damaged(damaged, &tag, expected, &mut r);
                }
            }
        }
    }
}

/// A table that ends where the file does is found, at its least length too; and
/// a damaged one behind a sound one does not count.
#[test]
fn sound_tables_beside_damage() {
    let mut r = Random::new(18);
    let mut counts = Counts::default();
    for (mut tables, _) in needing() {
        for _ in 0..tables.len() {
            tables.rotate_left(1);
            let (tag, _) = tables[tables.len() - 1];
            let repeated = [&tables[..], &[(tag, vec![])]].concat();
            for tables in [&tables, &repeated] {
                let font = fonts::file(*b"true", tables);
                let name = format!("{tables:?}");
                compare(&font, 0, &name, &mut r, &mut counts);
            }
        }
    }
    assert!(counts.read > 50, "{counts:?}");
    assert_eq!(counts.refused, [0; 5]);
}

/// Beside the same font as a file of its own, a font of a collection has other
/// charmap offsets and no other difference.
#[test]
fn a_collected_font_beside_a_lone_one() {
    let mut r = Random::new(16);
    let mut compared = 0;
    for at in 0..4000 {
        let lone = random_font(&mut r);
        let requests = requests(&mut r);
        let Ok(alone) = job(FontFile::new(&lone), &requests) else {
            continue;
        };
        let length = lone.len();
        let file = fonts::collected(&[fonts::weight(400), lone]);
        let start = file.len() - length;
        let collected = job(FontFile::new(&file).number(1), &requests);
        let collected = collected.expect("the same tables");
        for (one, mut other) in offers(&alone).into_iter().zip(offers(&collected)) {
            if collected.font(&other).unwrap().number == 1 {
                other.charmap.offset -= start as u32;
            }
            assert_eq!(one, other, "font {at}");
            compared += 1;
        }
    }
    assert!(compared > 10_000, "only {compared}");
}

#[test]
fn stored_fonts() {
    let list = common::read("crates/font_cases/stdin");
    let mut r = Random::new(12);
    let mut counts = Counts::default();
    for (at, (file, number)) in common::numbered_fonts(&list).into_iter().enumerate() {
        compare(file, number, &format!("font {at}"), &mut r, &mut counts);
    }
    assert!(counts.read > 100 && counts.collected > 10, "{counts:?}");
    assert!(counts.refused.iter().all(|count| *count > 1), "{counts:?}");
}

/// The font files below a folder.
fn files(folder: &Path, found: &mut Vec<std::path::PathBuf>) {
    let Ok(entries) = fs::read_dir(folder) else {
        return;
    };
    for entry in entries.flatten() {
        let path = entry.path();
        if entry.file_type().is_ok_and(|kind| kind.is_dir()) {
            files(&path, found);
        } else {
            found.push(path);
        }
    }
}

#[test]
fn real_fonts() {
    let folder = env::var_os("STEMHOOK_FONTS").unwrap_or_else(|| "/usr/share/fonts".into());
    let mut found = Vec::new();
    files(Path::new(&folder), &mut found);
    if found.is_empty() {
        common::skip("real_fonts", "no fonts are there: run tools/install-fonts");
        return;
    }
    let mut r = Random::new(13);
    let mut counts = Counts::default();
    for path in found {
        let Ok(file) = fs::read(&path) else { continue };
        let name = path.display().to_string();
        for number in 0..u16::try_from(face_count(&file)).expect(&name) {
            compare(&file, number, &name, &mut r, &mut counts);
        }
    }
    println!("{counts:?}");
    assert!(counts.read > 0, "{counts:?}");
}

#[test]
fn a_file_over_the_limit_of_a_job() {
    let mut file = fonts::variable(&[(*b"wght", 100, 400, 900)]);
    file.resize(limits::JOB_BYTES + 1000, 0);
    let mut r = Random::new(14);
    let mut counts = Counts::default();
    compare(&file, 0, "a long file", &mut r, &mut counts);
    assert_eq!(counts.read, 1);
}
