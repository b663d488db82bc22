//! The job builder: what it refuses, by name, and that what it writes is read
//! as it was meant.

mod common;

use common::{Random, fonts};
use stemhook::{
    Angle, Attributes, BuildError, FaceId, FamilyId, FontFile, JobBuilder, Offer, Override,
    Problem, Request, RequestId, Style, Tag, check, limits,
};

/// The first face of a job.
const FIRST: FaceId = FaceId::new(0);

/// A builder with one face of weight 400.
fn one_face() -> JobBuilder {
    let mut builder = JobBuilder::new();
    assert_eq!(builder.face(&fonts::weight(400)), Ok(FIRST));
    builder
}

fn request(attributes: Attributes) -> Request {
    Request {
        most: 8,
        attributes,
        families: vec![FamilyId::new(0)],
        fallbacks: vec![],
    }
}

fn weight(weight: f32) -> Attributes {
    Attributes {
        weight,
        ..Attributes::default()
    }
}

fn style(style: Style) -> Attributes {
    Attributes {
        style,
        ..Attributes::default()
    }
}

fn width(width: f32) -> Attributes {
    Attributes {
        width,
        ..Attributes::default()
    }
}

/// The error has this text; the builder is as it was.
fn refused<T: std::fmt::Debug>(
    builder: &mut JobBuilder,
    add: impl FnOnce(&mut JobBuilder) -> Result<T, BuildError>,
    text: &str,
) -> Problem {
    let before = builder.build().expect("the job is accepted before");
    let error = add(builder).expect_err("the entry is to be refused");
    assert_eq!(error.to_string(), text);
    assert!(text.starts_with(error.field()));
    assert_eq!(builder.build().as_ref(), Ok(&before));
    error.problem()
}

/// Numbers that are not finite.
const NOT_FINITE: [f32; 3] = [f32::NAN, f32::INFINITY, f32::NEG_INFINITY];

/// Numbers that are no ratio.
fn no_ratios() -> Vec<f32> {
    let mut numbers = NOT_FINITE.to_vec();
    numbers.extend([16.0_f32.next_up(), 0.0_f32.next_down(), -1.0, f32::MAX]);
    numbers
}

#[test]
fn no_entries_make_eight_zero_bytes() {
    let job = JobBuilder::new().build().unwrap();
    assert_eq!(job.as_bytes(), [0; 8]);
    assert_eq!(job.requests().len(), 0);
}

#[test]
fn faces_up_to_256() {
    let mut builder = JobBuilder::new();
    let font = fonts::weight(400);
    for number in 0..256 {
        assert_eq!(builder.face(&font), Ok(FaceId::new(number)));
    }
    let problem = refused(&mut builder, |b| b.face(&font), "faces: more than 256");
    assert_eq!(
        problem,
        Problem::TooMany {
            limit: limits::FACES
        }
    );
}

#[test]
fn a_job_up_to_its_most_bytes() {
    let mut font = fonts::weight(400);
    // Four counts, a held byte and a length stand beside the font.
    font.resize(limits::JOB_BYTES - 8 - 5 + 1, 0);
    let mut builder = JobBuilder::new();
    let text = "faces[0].font: the job would be over 16777216 bytes long";
    let whole = |b: &mut JobBuilder, font: &[u8]| b.face(FontFile::new(font).whole());
    let problem = refused(&mut builder, |b| whole(b, &font), text);
    assert_eq!(problem, Problem::TooLong);
    let error = whole(&mut builder, &font).unwrap_err();
    assert_eq!(error.face(), Some(FIRST));

    font.pop();
    assert_eq!(whole(&mut builder, &font), Ok(FIRST));
    assert_eq!(builder.build().unwrap().as_bytes().len(), limits::JOB_BYTES);
    let full = "the job would be over 16777216 bytes long";
    refused(
        &mut builder,
        |b| b.face(&fonts::weight(400)),
        &format!("faces[1].font: {full}"),
    );
    let given = Override::default();
    refused(
        &mut builder,
        |b| b.override_face(FIRST, &given),
        &format!("overrides[0]: {full}"),
    );
    refused(
        &mut builder,
        |b| b.family(&[FIRST]),
        &format!("families[0]: {full}"),
    );
    let request = request(Attributes::default());
    refused(
        &mut builder,
        |b| b.request(&request),
        &format!("requests[0]: {full}"),
    );
}

#[test]
fn a_whole_collection_has_its_number_behind_it() {
    let file = fonts::collection(&[400, 700]);
    let mut builder = JobBuilder::new();
    builder
        .face(FontFile::new(&file).whole().number(1))
        .unwrap();
    let mut expected = vec![0, 1, 1];
    expected.extend((file.len() as u32).to_be_bytes());
    expected.extend(&file);
    expected.extend([0, 1, 0, 0, 0, 0, 0, 0]);
    assert_eq!(builder.build().unwrap().as_bytes(), expected);
    // What is looked at of it is a lone font, which has none.
    let mut small = JobBuilder::new();
    small.face(FontFile::new(&file).number(1)).unwrap();
    let length = small.build().unwrap().as_bytes().len();
    assert_eq!(length, 8 + 5 + 12 + 2 * 16 + 78 + 12);
}

#[test]
fn a_collection_up_to_the_most_bytes_of_a_job() {
    let mut file = fonts::collection(&[400, 700]);
    // Four counts, a held byte, a length and a number stand beside the file.
    file.resize(limits::JOB_BYTES - 8 - 7 + 1, 0);
    let mut builder = JobBuilder::new();
    let text = "faces[0].font: the job would be over 16777216 bytes long";
    let whole = |b: &mut JobBuilder, file: &[u8]| b.face(FontFile::new(file).whole());
    refused(&mut builder, |b| whole(b, &file), text);
    file.pop();
    assert_eq!(whole(&mut builder, &file), Ok(FIRST));
    assert_eq!(builder.build().unwrap().as_bytes().len(), limits::JOB_BYTES);
}

#[test]
fn overrides_up_to_256() {
    let mut builder = one_face();
    let given = Override::default();
    for _ in 0..256 {
        assert_eq!(builder.override_face(FIRST, &given), Ok(()));
    }
    let text = "overrides: more than 256";
    refused(&mut builder, |b| b.override_face(FIRST, &given), text);
}

#[test]
fn an_override_of_an_unknown_face() {
    let mut builder = one_face();
    let text = "overrides[0].face: face 1 is not in the job, which has 1";
    let problem = refused(
        &mut builder,
        |b| b.override_face(FaceId::new(1), &Override::default()),
        text,
    );
    let face = FaceId::new(1);
    assert_eq!(problem, Problem::NoSuchFace { face, faces: 1 });
}

#[test]
fn numbers_of_an_override() {
    let mut builder = one_face();
    builder.override_face(FIRST, &Override::default()).unwrap();
    let mut add = |given: Override, text: &str| {
        refused(&mut builder, |b| b.override_face(FIRST, &given), text)
    };
    for number in no_ratios() {
        let given = Override {
            width: Some(number),
            ..Override::default()
        };
        let problem = add(given, "overrides[1].width: not a width ratio from 0 to 16");
        assert_eq!(problem, Problem::NotARatio);
    }
    for number in NOT_FINITE {
        let given = Override {
            style: Some(Style::Oblique(Angle::Degrees(number))),
            ..Override::default()
        };
        add(given, "overrides[1].style.angle: not a finite number");
        let given = Override {
            weight: Some(number),
            ..Override::default()
        };
        let problem = add(given, "overrides[1].weight: not a finite number");
        assert_eq!(problem, Problem::NotFinite);
        let given = Override {
            pairs: vec![(Tag::WGHT, 1.0), (Tag::WDTH, number)],
            ..Override::default()
        };
        add(given, "overrides[1].pairs[1].value: not a finite number");
    }
}

#[test]
fn pairs_up_to_255() {
    let mut builder = one_face();
    let mut given = Override {
        pairs: vec![(Tag::WGHT, 500.0); 255],
        ..Override::default()
    };
    assert_eq!(builder.override_face(FIRST, &given), Ok(()));
    given.pairs.push((Tag::WGHT, 500.0));
    let text = "overrides[1].pairs: more than 255";
    refused(&mut builder, |b| b.override_face(FIRST, &given), text);
}

#[test]
fn families_up_to_64_of_up_to_64_faces() {
    let mut builder = one_face();
    let text = "families[0].faces: more than 64";
    refused(&mut builder, |b| b.family(&[FIRST; 65]), text);
    let text = "families[0].faces[2]: face 7 is not in the job, which has 1";
    refused(
        &mut builder,
        |b| b.family(&[FIRST, FIRST, FaceId::new(7)]),
        text,
    );
    assert_eq!(builder.family(&[]), Ok(FamilyId::new(0)));
    for number in 1..64 {
        assert_eq!(builder.family(&[FIRST; 64]), Ok(FamilyId::new(number)));
    }
    refused(&mut builder, |b| b.family(&[]), "families: more than 64");
}

#[test]
fn requests_up_to_256() {
    let mut builder = one_face();
    let request = request(Attributes::default());
    for number in 0..256 {
        assert_eq!(builder.request(&request), Ok(RequestId::new(number)));
    }
    let text = "requests: more than 256";
    refused(&mut builder, |b| b.request(&request), text);
    assert_eq!(builder.build().unwrap().requests().len(), 256);
}

#[test]
fn numbers_of_a_request() {
    let mut builder = one_face();
    let mut add = |attributes: Attributes, text: &str| {
        refused(&mut builder, |b| b.request(&request(attributes)), text)
    };
    for number in no_ratios() {
        add(
            width(number),
            "requests[0].width: not a width ratio from 0 to 16",
        );
    }
    for number in NOT_FINITE {
        let oblique = Style::Oblique(Angle::Degrees(number));
        add(
            style(oblique),
            "requests[0].style.angle: not a finite number",
        );
        add(weight(number), "requests[0].weight: not a finite number");
    }
}

#[test]
fn lists_of_up_to_255_numbers_known_or_not() {
    let mut builder = one_face();
    let mut wanted = request(Attributes::default());
    wanted.families = vec![FamilyId::new(65535); 255];
    wanted.fallbacks = vec![FamilyId::new(63); 255];
    assert_eq!(builder.request(&wanted), Ok(RequestId::new(0)));
    wanted.families.push(FamilyId::new(0));
    let text = "requests[1].families: more than 255";
    refused(&mut builder, |b| b.request(&wanted), text);
    wanted.families.clear();
    wanted.fallbacks.push(FamilyId::new(0));
    let text = "requests[1].fallbacks: more than 255";
    refused(&mut builder, |b| b.request(&wanted), text);
}

/// The offers of a job with one request.
fn offers(builder: &JobBuilder) -> Vec<Offer> {
    let job = builder.build().unwrap();
    assert_eq!(job.requests().len(), 1);
    let offers = job.offers(RequestId::new(0)).unwrap();
    offers.collect::<Result<_, _>>().unwrap()
}

/// The one offer of a face on which an override was laid.
fn overridden(font: &[u8], given: &Override, attributes: Attributes) -> Offer {
    let mut builder = JobBuilder::new();
    let face = builder.face(font).unwrap();
    builder.override_face(face, given).unwrap();
    builder.family(&[face]).unwrap();
    builder.request(&request(attributes)).unwrap();
    let offers = offers(&builder);
    assert_eq!(offers.len(), 1);
    offers[0]
}

#[test]
fn styles_are_read_as_they_were_meant() {
    let none = Override::default();
    let of = |asked: Style| overridden(&fonts::weight(400), &none, style(asked)).skew;
    assert_eq!(of(Style::Normal), 0);
    assert_eq!(of(Style::Italic), 14);
    assert_eq!(of(Style::Oblique(Angle::Unstated)), 14);
    assert_eq!(of(Style::Oblique(Angle::Degrees(12.5))), 12);
    assert_eq!(of(Style::Oblique(Angle::Degrees(-20.0))), -20);
}

#[test]
fn every_style_finds_the_face_that_has_it() {
    let styles = [
        Style::Normal,
        Style::Italic,
        Style::Oblique(Angle::Unstated),
        Style::Oblique(Angle::Degrees(14.0)),
        Style::Oblique(Angle::Degrees(-14.0)),
    ];
    let mut builder = JobBuilder::new();
    let mut faces = Vec::new();
    for own in styles {
        let given = Override {
            style: Some(own),
            ..Override::default()
        };
        let face = builder.face(&fonts::weight(400)).unwrap();
        builder.override_face(face, &given).unwrap();
        builder.request(&request(style(own))).unwrap();
        faces.push(face);
    }
    builder.family(&faces).unwrap();
    let job = builder.build().unwrap();
    for asked in job.requests() {
        let first = job.offer(asked, 0).unwrap().unwrap();
        assert_eq!((u32::from(first.place), first.skew), (asked.number(), 0));
    }
}

#[test]
fn numbers_at_their_bounds_are_taken() {
    let mut builder = one_face();
    for number in [0.0, -0.0, f32::MIN_POSITIVE, 1.0, 16.0] {
        let given = Override {
            width: Some(number),
            ..Override::default()
        };
        builder.override_face(FIRST, &given).unwrap();
        builder.request(&request(width(number))).unwrap();
    }
    for number in [0.0, -0.0, f32::MIN, f32::MAX] {
        let oblique = Style::Oblique(Angle::Degrees(number));
        let given = Override {
            style: Some(oblique),
            weight: Some(number),
            pairs: vec![(Tag::WGHT, number)],
            ..Override::default()
        };
        builder.override_face(FIRST, &given).unwrap();
        builder.request(&request(style(oblique))).unwrap();
        builder.request(&request(weight(number))).unwrap();
    }
    assert_eq!(builder.build().unwrap().requests().len(), 13);
}

#[test]
fn overrides_are_read_as_they_were_meant() {
    let fixed = fonts::weight(400);
    let given = Override {
        weight: Some(500.0),
        ..Override::default()
    };
    assert!(overridden(&fixed, &Override::default(), weight(700.0)).embolden);
    assert!(!overridden(&fixed, &given, weight(700.0)).embolden);

    let given = Override {
        style: Some(Style::Oblique(Angle::Degrees(-3.0))),
        ..Override::default()
    };
    assert_eq!(overridden(&fixed, &given, style(Style::Italic)).skew, 0);

    let axes = [(*b"wdth", 50, 100, 200), (*b"wght", 100, 400, 900)];
    let variable = fonts::variable(&axes);
    let plain = overridden(&variable, &Override::default(), width(0.75));
    assert_eq!(plain.settings.value(Tag::WDTH), Some(75.0));
    assert_eq!(plain.settings.value(Tag::WGHT), None);
    let given = Override {
        width: Some(0.75),
        pairs: vec![(Tag::WGHT, 650.0), (Tag(*b"none"), 1.0)],
        ..Override::default()
    };
    let changed = overridden(&variable, &given, width(0.75));
    assert_eq!(changed.settings.value(Tag::WDTH), None);
    assert_eq!(changed.settings.value(Tag::WGHT), Some(400.0));
    assert_eq!(changed.settings.len(), 1);
}

#[test]
fn three_settings_come_in_order() {
    let axes = [
        (*b"slnt", -20, 0, 20),
        (*b"wght", 100, 400, 900),
        (*b"wdth", 50, 100, 200),
    ];
    let attributes = Attributes {
        width: 1.25,
        style: Style::Oblique(Angle::Degrees(9.5)),
        weight: 650.5,
    };
    let offer = overridden(&fonts::variable(&axes), &Override::default(), attributes);
    let settings: Vec<(Tag, f32)> = offer.settings.iter().map(|s| (s.tag, s.value)).collect();
    let expected = [(Tag::WDTH, 125.0), (Tag::WGHT, 650.5), (Tag::SLNT, 9.5)];
    assert_eq!(settings, expected);
}

#[test]
fn families_fallbacks_held_and_most() {
    let mut builder = JobBuilder::new();
    let (regular, bold, light) = (fonts::weight(400), fonts::weight(700), fonts::weight(300));
    let regular = builder.face(&regular).unwrap();
    let bold = builder.face(FontFile::new(&bold).not_held()).unwrap();
    let light = builder.face(&light).unwrap();
    let first = builder.family(&[regular, bold]).unwrap();
    let second = builder.family(&[light]).unwrap();
    let wanted = Request {
        most: 8,
        attributes: weight(700.0),
        families: vec![second, FamilyId::new(9), second],
        fallbacks: vec![first],
    };
    builder.request(&wanted).unwrap();
    let places = |offers: &[Offer]| -> Vec<(u16, u16)> {
        let places = offers.iter().map(|o| (o.family.number(), o.place));
        places.collect()
    };
    // Family 0 chooses place 1, which is not held, and offers its default.
    assert_eq!(places(&offers(&builder)), [(1, 0), (1, 0), (0, 0)]);
    builder
        .request(&Request {
            most: 2,
            ..wanted.clone()
        })
        .unwrap();
    builder.request(&Request { most: 0, ..wanted }).unwrap();
    let job = builder.build().unwrap();
    let [_, cut, none] = [0, 1, 2].map(|number| job.offers(RequestId::new(number)).unwrap());
    let cut: Vec<Offer> = cut.map(Result::unwrap).collect();
    assert_eq!(places(&cut), [(1, 0), (1, 0)]);
    assert_eq!(none.count(), 0);
}

#[test]
fn charmap_flags_are_read() {
    let flags = |platform, encoding| {
        let font = fonts::file(*b"true", &[(*b"cmap", fonts::cmap(platform, encoding))]);
        let charmap = overridden(&font, &Override::default(), Attributes::default()).charmap;
        assert_eq!(charmap.offset, 12 + 16 + 12);
        (charmap.symbol, charmap.mac_roman)
    };
    assert_eq!(flags(3, 1), (false, false));
    assert_eq!(flags(3, 0), (true, false));
    assert_eq!(flags(1, 0), (false, true));
}

/// Numbers at and past every bound.
const NUMBERS: [f32; 12] = [
    0.0,
    -0.0,
    1.0,
    0.875,
    14.0,
    16.0,
    17.0,
    -14.0,
    400.0,
    f32::MAX,
    f32::NAN,
    f32::INFINITY,
];

fn any_style(random: &mut Random) -> Style {
    match random.below(4) {
        0 => Style::Normal,
        1 => Style::Italic,
        2 => Style::Oblique(Angle::Unstated),
        _ => Style::Oblique(Angle::Degrees(random.of(&NUMBERS))),
    }
}

fn any_list(random: &mut Random) -> Vec<FamilyId> {
    let length = random.of(&[0, 1, 2, 5, 255, 256, 300]);
    let number = |_| FamilyId::new(random.below(70) as u16);
    (0..length).map(number).collect()
}

fn any_override(random: &mut Random) -> Override {
    let pairs = random.of(&[0, 0, 1, 3, 255, 256]);
    // Few bad values, so that long lists are kept now and then.
    let bad = random.chance(4);
    Override {
        width: random.chance(2).then(|| random.of(&NUMBERS)),
        style: random.chance(2).then(|| any_style(random)),
        weight: random.chance(2).then(|| random.of(&NUMBERS)),
        pairs: (0..pairs)
            .map(|at| {
                let value = if bad { random.of(&NUMBERS) } else { at as f32 };
                (random.of(&[Tag::WGHT, Tag::SLNT, Tag([0xff; 4])]), value)
            })
            .collect(),
    }
}

fn any_request(random: &mut Random) -> Request {
    Request {
        most: random.next() as u16,
        attributes: Attributes {
            width: random.of(&NUMBERS),
            style: any_style(random),
            weight: random.of(&NUMBERS),
        },
        families: any_list(random),
        fallbacks: any_list(random),
    }
}

fn any_faces(random: &mut Random) -> Vec<FaceId> {
    let length = random.of(&[0, 1, 3, 64, 65]);
    let most = random.of(&[1, 30, 300]);
    let face = |_| FaceId::new(random.below(most) as u16);
    (0..length).map(face).collect()
}

/// Adds any entry, and counts the requests that are added.
fn add_any(
    builder: &mut JobBuilder,
    random: &mut Random,
    requests: &mut usize,
) -> Result<(), BuildError> {
    match random.below(4) {
        0 => {
            let axes = [(*b"wght", 100, 400, 900), (*b"slnt", -10, 0, 0)];
            let fonts = [400, 700].map(fonts::weight);
            let more = [fonts::variable(&axes), fonts::collection(&[400, 700])];
            let fonts = [&fonts[..], &more].concat();
            let font = FontFile::new(&fonts[random.below(4)]).number(random.of(&[0, 0, 1, 2]));
            builder.face(if random.chance(2) { font.whole() } else { font })?;
        }
        1 => {
            let given = any_override(random);
            builder.override_face(FaceId::new(random.below(40) as u16), &given)?;
        }
        2 => {
            builder.family(&any_faces(random))?;
        }
        _ => {
            let number = builder.request(&any_request(random))?;
            assert_eq!(number.index(), *requests);
            *requests += 1;
        }
    }
    Ok(())
}

#[test]
fn whatever_is_added_the_job_is_accepted() {
    let mut random = Random(2026);
    let (mut added, mut refused) = (0, 0);
    for _ in 0..300 {
        let mut builder = JobBuilder::new();
        let mut requests = 0;
        for _ in 0..random.of(&[3, 20, 120, 700]) {
            match add_any(&mut builder, &mut random, &mut requests) {
                Ok(()) => added += 1,
                Err(error) => {
                    assert!(error.to_string().contains(": "));
                    refused += 1;
                }
            }
        }
        let job = builder.build().expect("the job keeps the layout");
        assert_eq!(check(job.as_bytes()), Ok(()));
        assert_eq!(job.requests().len(), requests);
    }
    let counts = format!("{added} added, {refused} refused");
    assert!(added > 5000 && refused > 5000, "{counts}");
}
