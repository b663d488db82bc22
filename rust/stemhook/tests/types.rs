//! Tags, numbers of entries, and what is printed of them.

mod common;

use std::error::Error as _;

use common::fonts;
use stemhook::{
    Attributes, FaceId, FontFile, Job, JobBuilder, Offer, ParseTagError, Request, RequestId, Tag,
    face_count,
};

#[test]
fn tags_are_parsed_and_printed() {
    for text in ["wght", "slnt", "GRAD", "a b ", "~~~~", "'\"\\'"] {
        let tag: Tag = text.parse().unwrap();
        assert_eq!(tag.to_string(), text);
        assert_eq!(format!("{tag:?}"), text);
    }
    for text in ["", "wgh", "wghtt", "wgh\n", "wgh\u{7f}", "wé", "日本"] {
        assert_eq!(text.parse::<Tag>(), Err(ParseTagError), "{text:?}");
    }
    assert_eq!(Tag([0, b'a', 0xff, b'"']).to_string(), "\\x00a\\xff\"");
}

#[test]
fn numbers_of_entries() {
    let face = FaceId::new(7);
    assert_eq!((face.number(), face.index()), (7, 7));
    assert_eq!(face.to_string(), "7");
    assert_eq!(format!("{face:?}"), "FaceId(7)");
    assert!(RequestId::new(1) < RequestId::new(u32::MAX));
}

#[test]
fn a_builder_prints_counts_and_not_its_bytes() {
    let mut builder = JobBuilder::new();
    let mut font = fonts::weight(400);
    font.resize(1_000_000, 0);
    let face = builder.face(FontFile::new(&font).whole()).unwrap();
    builder.family(&[face, face]).unwrap();
    let text = "JobBuilder { faces: 1, overrides: 0, families: 1, requests: 0, length: 1000019 }";
    assert_eq!(format!("{builder:?}"), text);
    let file = FontFile::new(&font).named("A.ttf");
    let text = "FontFile { name: \"A.ttf\", length: 1000000, number: 0, held: true, whole: false }";
    assert_eq!(format!("{file:?}"), text);
}

#[test]
fn an_error_of_the_builder_has_no_source_but_a_refusal() {
    let error = JobBuilder::new().family(&[FaceId::new(0)]).unwrap_err();
    assert!(error.source().is_none());
}

#[test]
fn the_way_back_from_an_offer_to_its_font() {
    let mut builder = JobBuilder::new();
    let (light, bold) = (fonts::weight(300), fonts::weight(700));
    let light = builder.face(FontFile::new(&light).named("Light")).unwrap();
    let bold = builder.face(FontFile::new(&bold).named("Bold")).unwrap();
    let none = builder.family(&[]).unwrap();
    let family = builder.family(&[bold, light]).unwrap();
    let request = Request {
        attributes: Attributes {
            weight: 300.0,
            ..Attributes::default()
        },
        families: vec![none, family],
        ..Request::default()
    };
    let request = builder.request(&request).unwrap();
    let job = builder.build().unwrap();
    let offers: Vec<Offer> = job.offers(request).unwrap().map(Result::unwrap).collect();
    let fonts: Vec<_> = offers
        .iter()
        .map(|offer| job.font(offer).unwrap())
        .collect();
    let named: Vec<_> = fonts.iter().map(|font| (font.face, font.name)).collect();
    // The default is the same face.
    assert_eq!(named, [(light, "Light")]);

    // The file is small, and whole where that was asked for.
    assert!(fonts[0].file.starts_with(&[0, 1, 0, 0]));
    let text = "Font { face: FaceId(0), number: 0, length: ";
    assert!(format!("{:?}", fonts[0]).starts_with(text));

    // Of another job's offer the family or the place may not be there.
    let mut other = offers[0];
    other.place = 2;
    assert_eq!(job.font(&other), None);
    other.family = none;
    other.place = 0;
    assert_eq!(job.font(&other), None);
}

#[test]
fn a_stored_job_has_faces_without_names() {
    let mut builder = JobBuilder::new();
    let font = fonts::weight(300);
    let face = builder.face(FontFile::new(&font).named("Light")).unwrap();
    let family = builder.family(&[face]).unwrap();
    let request = Request {
        families: vec![family],
        ..Request::default()
    };
    let request = builder.request(&request).unwrap();
    let stored = stemhook::Job::new(builder.build().unwrap().into_bytes()).unwrap();
    let offer = stored.offer(request, 0).unwrap().unwrap();
    let font = stored.font(&offer).unwrap();
    assert_eq!((font.face, font.name), (face, ""));
}

#[test]
fn a_whole_file_is_given_back() {
    let mut file = fonts::weight(300);
    file.extend([7; 1000]);
    let mut builder = JobBuilder::new();
    let faces = [
        builder.face(FontFile::new(&file).whole()).unwrap(),
        builder.face(&file).unwrap(),
    ];
    let family = builder.family(&faces).unwrap();
    let families = vec![family];
    let request = builder.request(&Request {
        families,
        ..Request::default()
    });
    let (job, request) = (builder.build().unwrap(), request.unwrap());
    let font = |number| {
        let offer = job.offer(request, number).unwrap().unwrap();
        job.font(&offer).unwrap()
    };
    assert_eq!(font(0).file, file);
    assert!(font(1).file.len() < 200);
}

#[test]
fn the_fonts_of_a_file_are_counted() {
    let file = fonts::collection(&[400, 700, 900]);
    assert_eq!(face_count(&file), 3);
    for length in 4..12 {
        assert_eq!(face_count(&file[..length]), 0, "{length}");
    }
    assert_eq!(face_count(&file[..12]), 3);
    for lone in [&b""[..], b"ttc", b"OTTO", &fonts::weight(400)] {
        assert_eq!(face_count(lone), 1);
    }
    assert_eq!(face_count(b"ttcf\0\x01\0\0\xff\xff\xff\xff"), u32::MAX);
}

/// A job of the fonts 1 and 0 of a collection, the second whole or not, and
/// its request.
fn job_of_collection(file: &[u8], whole: bool) -> (Job<'static>, RequestId) {
    let mut builder = JobBuilder::new();
    let font = FontFile::new(file);
    let first = if whole { font.whole() } else { font };
    let faces = [
        builder.face(font.number(1).named("B")).unwrap(),
        builder.face(first.named("A")).unwrap(),
    ];
    let families = vec![builder.family(&faces).unwrap()];
    let request = builder.request(&Request {
        attributes: Attributes {
            weight: 700.0,
            ..Attributes::default()
        },
        families,
        ..Request::default()
    });
    (builder.build().unwrap(), request.unwrap())
}

#[test]
fn the_way_back_to_a_font_of_a_collection() {
    let file = fonts::collection(&[400, 700]);
    for whole in [false, true] {
        let (job, request) = job_of_collection(&file, whole);
        let offers: Vec<Offer> = job.offers(request).unwrap().map(Result::unwrap).collect();
        let fonts = offers.iter().map(|offer| job.font(offer).unwrap());
        let named: Vec<_> = fonts.map(|font| (font.name, font.number)).collect();
        assert_eq!(named, [("B", 1), ("A", 0)]);
        assert_eq!(job.font(&offers[1]).unwrap().file == file, whole);
        // The subtable that both share, in the collection.
        for offer in offers {
            assert_eq!(offer.charmap.offset as usize, fonts::SHARED);
        }
    }
}

#[test]
fn a_stored_job_has_the_numbers_of_whole_collections() {
    let file = fonts::collection(&[400, 700]);
    let mut builder = JobBuilder::new();
    let font = FontFile::new(&file).whole().number(1);
    let faces = [
        builder.face(font).unwrap(),
        builder.face(&fonts::weight(700)).unwrap(),
    ];
    let families = vec![builder.family(&faces).unwrap()];
    let request = builder.request(&Request {
        families,
        ..Request::default()
    });
    let stored = Job::new(builder.build().unwrap().into_bytes()).unwrap();
    let offers: Vec<Offer> = stored
        .offers(request.unwrap())
        .unwrap()
        .map(Result::unwrap)
        .collect();
    let fonts = offers.iter().map(|offer| stored.font(offer).unwrap());
    let numbers: Vec<_> = fonts.map(|font| (font.face, font.number)).collect();
    assert_eq!(numbers, [(faces[0], 1), (faces[1], 0)]);
    assert_eq!(stored.font(&offers[0]).unwrap().file, file);
}
