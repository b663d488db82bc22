//! The example job of the repository, built by the builder.

mod common;

use stemhook::{Attributes, FaceId, FontFile, Job, JobBuilder, Request, RequestId};

/// The fonts of the example, as they stand in the job.
fn fonts(job: &[u8]) -> Vec<&[u8]> {
    let mut fonts = Vec::new();
    let mut at = 2;
    for _ in 0..u16::from_be_bytes([job[0], job[1]]) {
        let length = u32::from_be_bytes(job[at + 1..at + 5].try_into().unwrap());
        at += 5;
        fonts.push(&job[at..at + length as usize]);
        at += length as usize;
    }
    fonts
}

#[test]
fn the_builder_writes_the_example_byte_for_byte() {
    let stored = common::read("crates/offers/stdin");
    let fonts = fonts(&stored);
    let mut builder = JobBuilder::new();
    let faces: Vec<FaceId> = fonts
        .iter()
        .map(|font| builder.face(FontFile::new(font).whole()).unwrap())
        .collect();
    assert_eq!(faces, [FaceId::new(0), FaceId::new(1)]);
    let family = builder.family(&faces).unwrap();
    let request = Request {
        most: 8,
        attributes: Attributes {
            weight: 700.0,
            ..Attributes::default()
        },
        families: vec![family],
        fallbacks: vec![],
    };
    assert_eq!(builder.request(&request), Ok(RequestId::new(0)));
    let job = builder.build().unwrap();
    assert_eq!(job.as_bytes(), stored);
    assert_eq!(job.requests().len(), 1);
    assert_eq!(job.into_bytes(), stored);
}

#[test]
fn the_example_is_answered_as_the_program_prints_it() {
    let printed = String::from_utf8(common::read("crates/offers/stdout")).unwrap();
    let stored = common::read("crates/offers/stdin");
    // Nothing in it is slanted.
    for reading in common::READINGS {
        assert_eq!(common::text(&stored, reading), printed);
    }
}

#[test]
fn the_charmap_index_points_into_the_font() {
    let stored = common::read("crates/offers/stdin");
    let job = Job::new(stored.as_slice()).unwrap();
    for offer in job.offers(RequestId::new(0)).unwrap() {
        let offer = offer.unwrap();
        let font = fonts(&stored)[usize::from(offer.place)];
        // The one cmap record names the subtable by its offset in the table,
        // and the table starts where the directory's second record says.
        let word = |at: usize| u32::from_be_bytes(font[at..at + 4].try_into().unwrap());
        assert_eq!(&font[28..32], b"cmap");
        let table = word(36);
        let subtable = word(table as usize + 8);
        assert_eq!(offer.charmap.offset, table + subtable);
        assert!(!offer.charmap.symbol && !offer.charmap.mac_roman);
    }
}
