//! The two readings: which way the slant numbers of fonts count.

mod common;

use std::collections::HashSet;

use common::{READINGS, fonts};
use stemhook::{
    Angle, Attributes, Job, JobBuilder, Offer, Override, Reading, Request, RequestId, Style, Tag,
    UnknownReading,
};

/// A job of one family, with a request for a style.
fn job(files: &[Vec<u8>], style: Style) -> Job<'static> {
    let mut builder = JobBuilder::new();
    let faces: Vec<_> = files
        .iter()
        .map(|file| builder.face(file).unwrap())
        .collect();
    let families = vec![builder.family(&faces).unwrap()];
    builder.request(&request(style, families)).unwrap();
    builder.build().unwrap()
}

fn request(style: Style, families: Vec<stemhook::FamilyId>) -> Request {
    Request {
        attributes: Attributes {
            style,
            ..Attributes::default()
        },
        families,
        ..Request::default()
    }
}

fn first(job: &Job<'_>) -> Offer {
    let offer = job.offer(RequestId::new(0), 0).unwrap();
    offer.expect("a family of held faces offers some")
}

/// The place that is offered first of some files, under each reading.
fn places(files: &[Vec<u8>], style: Style) -> [u16; 2] {
    let job = job(files, style);
    READINGS.map(|reading| first(&job.clone().with_reading(reading)).place)
}

fn oblique(degrees: f32) -> Style {
    Style::Oblique(Angle::Degrees(degrees))
}

/// Of two faces, the one that leans right as fonts count it is taken for a
/// request that leans right under the second reading, and the other one under
/// the first.
#[test]
fn which_of_two_faces_leans_as_requested() {
    let files = [fonts::oblique(-12), fonts::oblique(12)];
    let turned = [fonts::oblique(12), fonts::oblique(-12)];
    for degrees in [0.5, 9.0, 12.0, 13.5, 14.0, 20.0, 200.0] {
        assert_eq!(places(&files, oblique(degrees)), [1, 0], "{degrees}");
        assert_eq!(places(&files, oblique(-degrees)), [0, 1], "{degrees}");
        assert_eq!(places(&turned, oblique(degrees)), [0, 1], "{degrees}");
        assert_eq!(places(&turned, oblique(-degrees)), [1, 0], "{degrees}");
    }
    // These three prefer a lean to the right.
    for style in [
        Style::Normal,
        Style::Italic,
        Style::Oblique(Angle::Unstated),
    ] {
        assert_eq!(places(&files, style), [1, 0], "{style:?}");
        assert_eq!(places(&turned, style), [0, 1], "{style:?}");
    }
}

/// The 16.16 number is made a single before it is turned: the least of them has
/// no opposite of its kind.
#[test]
fn the_least_angle_has_an_opposite() {
    let files = [fonts::oblique(i16::MIN), fonts::oblique(12)];
    assert_eq!(places(&files, oblique(32_768.0)), [1, 0]);
    assert_eq!(places(&files, oblique(-32_768.0)), [0, 1]);
}

/// A face without a stated angle, and one of 0 degrees, are read alike.
#[test]
fn what_has_no_angle_is_not_turned() {
    let tables = [
        (*b"OS/2", fonts::os2(400, 5, 1 << 9)),
        (*b"cmap", fonts::cmap(3, 1)),
    ];
    let unstated = fonts::file(*b"true", &tables);
    let files = [fonts::oblique(0), unstated];
    for (style, place) in [
        (oblique(0.0), 0),
        (oblique(-0.0), 0),
        (Style::Oblique(Angle::Unstated), 1),
        (oblique(14.0), 1),
        (oblique(3.0), 1),
        (Style::Normal, 0),
        (Style::Italic, 1),
    ] {
        assert_eq!(places(&files, style), [place, place], "{style:?}");
    }
}

/// The settings of a variable face for a style, by the bits of their values,
/// and the skew; under a reading.
fn set(tags: &[[u8; 4]], style: Style, reading: Reading) -> (Vec<(Tag, u32)>, i8) {
    let axes: Vec<_> = tags.iter().map(|tag| (*tag, -10, 0, 10)).collect();
    let offer = first(&job(&[fonts::variable(&axes)], style).with_reading(reading));
    let settings = offer.settings.iter();
    let bits = settings.map(|setting| (setting.tag, setting.value.to_bits()));
    (bits.collect(), offer.skew)
}

#[test]
fn slnt_is_set_to_the_opposite() {
    for (style, value) in [
        (Style::Italic, 14.0),
        (Style::Oblique(Angle::Unstated), 14.0),
        (oblique(14.0), 14.0),
        (oblique(9.5), 9.5),
        (oblique(-12.25), -12.25),
        (oblique(0.0), 0.0),
        (oblique(-0.0), -0.0),
        (oblique(f32::MAX), f32::MAX),
        (oblique(f32::from_bits(1)), f32::from_bits(1)),
    ] {
        // No zero is negative.
        let opposite = if value == 0.0 { 0.0 } else { -value };
        for (reading, value) in READINGS.into_iter().zip([value, opposite]) {
            let expected = (vec![(Tag::SLNT, value.to_bits())], 0);
            assert_eq!(set(&[*b"slnt"], style, reading), expected, "{style:?}");
        }
    }
    for reading in READINGS {
        assert_eq!(set(&[*b"slnt"], Style::Normal, reading), (vec![], 0));
    }
}

/// Neither `ital` nor the skew depends on the reading, nor which of them is
/// set: the test is whether the request leans right.
#[test]
fn nothing_but_slnt_is_turned() {
    let one = 1.0_f32.to_bits();
    for reading in READINGS {
        for (tags, style, expected) in [
            (&[*b"ital"][..], Style::Italic, (vec![(Tag::ITAL, one)], 0)),
            (&[*b"ital"], oblique(12.0), (vec![(Tag::ITAL, one)], 0)),
            (&[*b"ital"], oblique(-12.0), (vec![], -12)),
            (&[*b"ital"], oblique(0.0), (vec![], 0)),
            (&[*b"opsz"], Style::Italic, (vec![], 14)),
            (&[*b"opsz"], oblique(12.9), (vec![], 12)),
            (&[*b"opsz"], oblique(-12.9), (vec![], -12)),
            (
                &[*b"ital", *b"slnt"],
                Style::Italic,
                (vec![(Tag::ITAL, one)], 0),
            ),
        ] {
            assert_eq!(set(tags, style, reading), expected, "{tags:?} {style:?}");
        }
    }
    let both = [*b"slnt", *b"ital"];
    let slant = |reading| set(&both, oblique(12.0), reading).0[0];
    let expected = [12.0_f32, -12.0].map(|value| (Tag::SLNT, value.to_bits()));
    assert_eq!(READINGS.map(slant), expected);
}

/// The angle of an override is taken as given, whatever the file says.
#[test]
fn an_angle_of_an_override_is_not_turned() {
    let files = [fonts::oblique(-12), fonts::oblique(12)];
    for (given, expected) in [(12.0, 0), (-12.0, 1)] {
        let mut builder = JobBuilder::new();
        let faces = files.each_ref().map(|file| builder.face(file).unwrap());
        for (face, degrees) in faces.into_iter().zip([given, -given]) {
            let style = Some(oblique(degrees));
            let given = Override {
                style,
                ..Override::default()
            };
            builder.override_face(face, &given).unwrap();
        }
        let families = vec![builder.family(&faces).unwrap()];
        builder.request(&request(oblique(12.0), families)).unwrap();
        for reading in READINGS {
            let job = builder.build().unwrap().with_reading(reading);
            assert_eq!(first(&job).place, expected, "{reading:?}");
        }
    }
}

/// A job is asked under its reading, which is a part of it and not of its bytes.
#[test]
fn a_job_has_a_reading() {
    let files = [fonts::oblique(-12), fonts::oblique(12)];
    let stored = job(&files, oblique(12.0));
    assert_eq!(stored.reading(), Reading::AsStored);
    let opentype = stored.clone().with_reading(Reading::OpenType);
    assert_eq!(opentype.reading(), Reading::OpenType);
    assert_eq!(stored.as_bytes(), opentype.as_bytes());
    assert_ne!(stored, opentype);
    assert_eq!(stored, opentype.clone().with_reading(Reading::AsStored));
    for (job, places) in [(&stored, [1]), (&opentype, [0])] {
        let offers = job.offers(RequestId::new(0)).unwrap();
        let offered: Vec<_> = offers.map(|offer| offer.unwrap().place).collect();
        // The default is the same face: a normal text leans right rather than left.
        assert_eq!(offered, places);
    }
    let length = stored.as_bytes().len();
    let text = format!("Job {{ length: {length}, requests: 1, reading: OpenType }}");
    assert_eq!(format!("{opentype:?}"), text);
    // One that is stored has to be told anew.
    let again = Job::new(opentype.into_bytes()).unwrap();
    assert_eq!(again.reading(), Reading::AsStored);
}

#[test]
fn readings_and_their_numbers() {
    assert_eq!(READINGS.map(Reading::number), [0, 1]);
    assert_eq!(READINGS.map(u32::from), [0, 1]);
    for reading in READINGS {
        assert_eq!(Reading::try_from(reading.number()), Ok(reading));
    }
    for number in [2, 256, u32::MAX] {
        let unknown: UnknownReading = Reading::try_from(number).unwrap_err();
        assert_eq!(unknown.number(), number);
        let text = format!("there is no reading {number}: it is 0 or 1");
        assert_eq!(unknown.to_string(), text);
    }
    let all: HashSet<Reading> = READINGS.into_iter().chain([Reading::default()]).collect();
    assert_eq!(all.len(), 2);
}
