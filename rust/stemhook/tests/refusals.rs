//! Each refusal of the table, through the calls over any bytes.

mod common;

use common::fonts;
use stemhook::{Reading, Refusal, check, offer, offer_bytes};

/// A job with one face of a font, and what comes after it.
fn with_font(font: &[u8], after: &[u8]) -> Vec<u8> {
    let mut job = vec![0, 1, 1];
    job.extend((font.len() as u32).to_be_bytes());
    job.extend(font);
    job.extend(after);
    job
}

/// A request for the default attributes and family 0, at most 8 offers.
const REQUEST: [u8; 19] = [
    0, 8, 0x3f, 0x80, 0, 0, 0, 0, 0, 0, 0, 0x43, 0xc8, 0, 0, 1, 0, 0, 0,
];

/// A job with one face, one family and one request.
fn accepted() -> Vec<u8> {
    let mut after = vec![0, 0, 0, 1, 0, 1, 0, 0, 0, 1];
    after.extend(REQUEST);
    with_font(&fonts::weight(400), &after)
}

/// Both calls refuse the job so.
fn refused(job: &[u8], refusal: Refusal, position: Option<usize>) {
    let of_check = check(job).expect_err("the job is to be refused");
    assert_eq!(of_check.refusal(), refusal);
    assert_eq!(of_check.position(), position.map(|at| at as u32));
    let mut out = [0x5a; 40];
    for reading in common::READINGS {
        assert_eq!(offer(job, reading, u32::MAX, u32::MAX), Err(of_check));
        let answer = offer_bytes(job, reading.number(), 0, 0, &mut out);
        assert_eq!(answer, Err(of_check));
    }
    assert_eq!(out, [0x5a; 40]);
}

#[test]
fn an_accepted_job() {
    let job = accepted();
    assert_eq!(check(&job), Ok(()));
    let first = offer(&job, Reading::AsStored, 0, 0).unwrap().unwrap();
    assert_eq!((first.family.number(), first.place), (0, 0));
    assert!(first.settings.is_empty() && !first.embolden && first.skew == 0);
    assert_eq!(offer(&job, Reading::OpenType, 0, 0), Ok(Some(first)));
    assert_eq!(offer(&job, Reading::OpenType, 0, 1), Ok(None));
    assert_eq!(check(&[0; 8]), Ok(()));
}

#[test]
fn output_of_any_other_length_is_16() {
    let job = accepted();
    for length in (0..100).chain([4096]) {
        let mut out = vec![0x5a; length];
        let answer = offer_bytes(&job, 0, 0, 0, &mut out);
        if length == 40 {
            assert_eq!(answer, Ok(true));
            assert_ne!(out, vec![0x5a; 40]);
            continue;
        }
        let error = answer.unwrap_err();
        assert_eq!(error.refusal(), Refusal::OutputLength);
        assert_eq!(error.position(), None);
        assert_eq!(out, vec![0x5a; length]);
    }
    // Before the reading, and before anything of the job.
    for reading in [0, 1, 2, u32::MAX] {
        let error = offer_bytes(&[], reading, 0, 0, &mut [0; 41]).unwrap_err();
        assert_eq!(error.refusal(), Refusal::OutputLength);
    }
}

#[test]
fn a_job_over_its_most_bytes_is_17() {
    let job = vec![0; 16_777_217];
    refused(&job, Refusal::JobLength, None);
    // Before the reading.
    let error = offer_bytes(&job, 2, 0, 0, &mut [0; 40]).unwrap_err();
    assert_eq!(error.refusal(), Refusal::JobLength);
    // One byte less is read.
    refused(&job[1..], Refusal::BytesLeft, Some(8));
}

#[test]
fn a_cut_job_is_18() {
    let job = accepted();
    for length in 0..job.len() {
        let error = check(&job[..length]).unwrap_err();
        assert_eq!(error.refusal(), Refusal::PastEnd, "cut to {length}");
        assert!(error.position().unwrap() as usize <= length);
    }
    refused(&[], Refusal::PastEnd, Some(0));
    refused(
        &with_font(&fonts::weight(400), &[0]),
        Refusal::PastEnd,
        Some(7 + 136),
    );
}

#[test]
fn counts_over_their_limits_are_19() {
    refused(&[1, 1], Refusal::CountOverLimit, Some(0));
    refused(&[0, 0, 1, 1], Refusal::CountOverLimit, Some(2));
    refused(&[0, 0, 0, 0, 0, 65], Refusal::CountOverLimit, Some(4));
    refused(&[0, 0, 0, 0, 0, 1, 0, 65], Refusal::CountOverLimit, Some(6));
    refused(&[0, 0, 0, 0, 0, 0, 1, 1], Refusal::CountOverLimit, Some(6));
}

#[test]
fn a_held_byte_of_2_is_20() {
    let mut job = accepted();
    job[2] = 2;
    refused(&job, Refusal::HeldByte, Some(2));
}

#[test]
fn fonts_are_refused_at_their_length_field() {
    let after = [0; 6];
    let bad_start = fonts::file(*b"wOFF", &[(*b"cmap", fonts::cmap(3, 1))]);
    refused(
        &with_font(&bad_start, &after),
        Refusal::FontDirectory,
        Some(3),
    );
    refused(
        &with_font(&bad_start[..3], &after),
        Refusal::FontDirectory,
        Some(3),
    );
    let unmapped = fonts::file(*b"OTTO", &[(*b"OS/2", fonts::os2(400, 5, 0))]);
    refused(&with_font(&unmapped, &after), Refusal::NoCharmap, Some(3));
    let axis = (*b"wght", 100, 400, 900);
    assert_eq!(
        check(&with_font(&fonts::variable(&[axis; 16]), &after)),
        Ok(())
    );
    let axes = fonts::variable(&[axis; 17]);
    refused(&with_font(&axes, &after), Refusal::TooManyAxes, Some(3));
}

/// A job with one face of a collection, a font number, and nothing else.
fn with_collection(file: &[u8], number: u16) -> Vec<u8> {
    let mut after = number.to_be_bytes().to_vec();
    after.extend([0; 6]);
    with_font(file, &after)
}

/// A collection of two fonts with another 32-bit number at a position.
fn changed(at: usize, number: u32) -> Vec<u8> {
    let mut file = fonts::collection(&[400, 700]);
    file[at..at + 4].copy_from_slice(&number.to_be_bytes());
    file
}

#[test]
fn a_font_number_past_the_count_is_30() {
    let file = fonts::collection(&[400, 700]);
    assert_eq!(check(&with_collection(&file, 0)), Ok(()));
    assert_eq!(check(&with_collection(&file, 1)), Ok(()));
    for number in [2, 3, 0x100, u16::MAX] {
        let job = with_collection(&file, number);
        refused(&job, Refusal::NoSuchFont, Some(7 + file.len()));
    }
    // Before anything else of the fonts is looked at, and for each number where
    // there is none.
    let header = &file[..12];
    refused(&with_collection(header, 2), Refusal::NoSuchFont, Some(19));
    let none = changed(8, 0);
    let number = 7 + none.len();
    refused(
        &with_collection(&none, 0),
        Refusal::NoSuchFont,
        Some(number),
    );
}

#[test]
fn collections_are_refused_at_their_length_field() {
    let file = fonts::collection(&[400, 700]);
    for length in 4..12 {
        // No number is looked for.
        let job = with_font(&file[..length], &[]);
        refused(&job, Refusal::FontDirectory, Some(3));
    }
    for length in 12..20 {
        let job = with_collection(&file[..length], 0);
        refused(&job, Refusal::FontDirectory, Some(3));
    }
    let past = file.len() as u32;
    // More fonts than offsets, one that leads past the file, to its last byte, to
    // the collection itself, and to no font.
    for damaged in [
        changed(8, u32::MAX),
        changed(8, 1 << 30),
        changed(12, past),
        changed(12, past - 11),
        changed(12, u32::MAX),
        changed(12, 0),
        changed(12, 20),
    ] {
        let job = with_collection(&damaged, 0);
        refused(&job, Refusal::FontDirectory, Some(3));
    }
    // The other font is not looked at.
    assert_eq!(check(&with_collection(&changed(12, past), 1)), Ok(()));
}

#[test]
fn a_cut_font_number_is_18() {
    let file = fonts::collection(&[400, 700]);
    for after in [&[][..], &[0]] {
        let job = with_font(&file, after);
        refused(&job, Refusal::PastEnd, Some(7 + file.len()));
    }
    // Its lack comes before what the number is needed for.
    refused(&with_font(&file[..12], &[]), Refusal::PastEnd, Some(19));
}

#[test]
fn a_font_of_a_collection_can_lack_a_charmap_or_have_17_axes() {
    let axes = fonts::fvar(&[(*b"wght", 100, 400, 900); 17]);
    for (tables, refusal) in [
        (vec![(*b"OS/2", fonts::os2(400, 5, 0))], Refusal::NoCharmap),
        (
            vec![(*b"cmap", fonts::cmap(3, 1)), (*b"fvar", axes)],
            Refusal::TooManyAxes,
        ),
    ] {
        let font = fonts::file([0, 1, 0, 0], &tables);
        let file = fonts::collected(&[fonts::weight(400), font]);
        assert_eq!(check(&with_collection(&file, 0)), Ok(()));
        refused(&with_collection(&file, 1), refusal, Some(3));
    }
}

/// A font of weight 700 without the last bytes of its `OS/2`, and what else it
/// has: its last table is cut.
fn damaged(others: &[([u8; 4], Vec<u8>)]) -> Vec<u8> {
    let os2 = (*b"OS/2", fonts::os2(700, 5, 0));
    let mut font = fonts::file([0, 1, 0, 0], &[others, &[os2]].concat());
    font.pop();
    font
}

#[test]
fn a_damaged_table_is_31_at_the_length_field() {
    let cmap = (*b"cmap", fonts::cmap(3, 1));
    let font = damaged(std::slice::from_ref(&cmap));
    let job = with_font(&font, &[0; 6]);
    refused(&job, Refusal::DamagedTable, Some(3));
    // One byte more, and it is whole.
    let whole = [&font[..], &[0]].concat();
    assert_eq!(check(&with_font(&whole, &[0; 6])), Ok(()));
    // Of the second face, that of the second.
    let mut job = with_font(&whole, &[1]);
    job[1] = 2;
    let second = job.len();
    job.extend((font.len() as u32).to_be_bytes());
    job.extend(&font);
    job.extend([0; 6]);
    refused(&job, Refusal::DamagedTable, Some(second));
    // With a collection's number behind the file.
    let file = fonts::collected(&[fonts::weight(400), font]);
    assert_eq!(check(&with_collection(&file, 0)), Ok(()));
    refused(&with_collection(&file, 1), Refusal::DamagedTable, Some(3));
}

#[test]
fn a_damaged_table_comes_after_21_and_before_22() {
    let cmap = (*b"cmap", fonts::cmap(3, 1));
    let axes = (*b"fvar", fonts::fvar(&[(*b"wght", 100, 400, 900); 17]));
    for others in [vec![], vec![cmap, axes]] {
        let mut font = damaged(&others);
        let job = with_font(&font, &[0; 6]);
        refused(&job, Refusal::DamagedTable, Some(3));
        // A count of records that the file has no room for.
        font[4] = 0xff;
        let job = with_font(&font, &[0; 6]);
        refused(&job, Refusal::FontDirectory, Some(3));
    }
    // Before the job's own lack of bytes behind the font, and after one of the
    // font itself.
    let font = damaged(&[]);
    refused(&with_font(&font, &[]), Refusal::DamagedTable, Some(3));
    let job = with_font(&font, &[]);
    refused(&job[..job.len() - 1], Refusal::PastEnd, Some(3));
}

#[test]
fn nothing_rescues_a_damaged_table() {
    let font = damaged(&[(*b"cmap", fonts::cmap(3, 1))]);
    // An override of width, style and weight; no family, no request.
    let mut after = vec![0, 1, 0, 0, 7];
    after.extend(1.0_f32.to_be_bytes());
    after.extend([0; 5]);
    after.extend(700.0_f32.to_be_bytes());
    after.extend([0; 5]);
    let whole = [&font[..], &[0]].concat();
    for held in [1, 0] {
        let with = |font: &[u8]| {
            let mut job = with_font(font, &after);
            job[2] = held;
            job
        };
        assert_eq!(check(&with(&whole)), Ok(()));
        refused(&with(&font), Refusal::DamagedTable, Some(3));
    }
}

/// Each of `head` and `post`, damaged, beside an `OS/2` that needs it or not.
#[test]
fn what_is_not_needed_may_be_damaged() {
    let os2 = |selection| Some(fonts::os2(700, 5, selection));
    let (head, post) = (*b"head", *b"post");
    for (os2, tag, expected) in [
        (os2(0), head, 0),
        (None, head, 31),
        (os2(0), post, 0),
        (os2(1), post, 0),
        (os2(1 | 1 << 9), post, 0),
        (os2(1 << 9), post, 31),
        (None, post, 0),
    ] {
        let mut tables = vec![(tag, vec![0; 20]), (*b"cmap", fonts::cmap(3, 1))];
        tables.extend(os2.map(|table| (*b"OS/2", table)));
        let job = with_font(&fonts::file(*b"true", &tables), &[0; 6]);
        let number = check(&job).map_or_else(|refused| refused.number(), |()| 0);
        assert_eq!(number, expected, "{tables:?}");
    }
}

/// A damaged `fvar` gives no axes, and a damaged `cmap` is 22.
#[test]
fn a_damaged_fvar_or_cmap_is_not_31() {
    let font = fonts::variable(&[(*b"wght", 100, 400, 900); 17]);
    refused(&with_font(&font, &[0; 6]), Refusal::TooManyAxes, Some(3));
    for length in [0, 15, 0xffff] {
        let font = fonts::with_length(&font, 2, length);
        assert_eq!(check(&with_font(&font, &[0; 6])), Ok(()));
    }
    for length in [0, 3, 0xffff] {
        let font = fonts::with_length(&font, 1, length);
        let job = with_font(&font, &[0; 6]);
        refused(&job, Refusal::NoCharmap, Some(3));
    }
}

#[test]
fn unknown_face_numbers_are_24() {
    // A family of face 0, without faces.
    refused(
        &[0, 0, 0, 0, 0, 1, 0, 1, 0, 0],
        Refusal::NoSuchFace,
        Some(8),
    );
    // An override of it.
    refused(&[0, 0, 0, 1, 0, 0], Refusal::NoSuchFace, Some(4));
}

#[test]
fn unknown_masks_and_spare_fields_are_25() {
    let font = fonts::weight(400);
    let at = 7 + font.len() + 2;
    // Face 0, mask, ratio, style, weight, no pairs; no family, no request.
    let job = |entry: [u8; 17]| {
        let mut after = vec![0, 1];
        after.extend(entry);
        after.extend([0; 4]);
        with_font(&font, &after)
    };
    assert_eq!(check(&job([0; 17])), Ok(()));
    let changed = |field: usize, byte: u8| {
        let mut entry = [0; 17];
        entry[field] = byte;
        job(entry)
    };
    refused(&changed(2, 8), Refusal::UnknownOrSpare, Some(at + 2));
    refused(&changed(6, 1), Refusal::UnknownOrSpare, Some(at + 3));
    refused(&changed(7, 1), Refusal::UnknownOrSpare, Some(at + 7));
    refused(&changed(8, 0x80), Refusal::UnknownOrSpare, Some(at + 8));
    refused(&changed(15, 1), Refusal::UnknownOrSpare, Some(at + 12));
    // A style kind of a request.
    let mut job = accepted();
    let kind = job.len() - REQUEST.len() + 6;
    job[kind] = 4;
    refused(&job, Refusal::UnknownOrSpare, Some(kind));
}

/// Numbers that are no reading; some would be one if they were cut.
const NO_READINGS: [u32; 10] = [
    2,
    3,
    255,
    256,
    257,
    0x1_0000,
    0x1_0001,
    0x8000_0000,
    0x8000_0001,
    u32::MAX,
];

#[test]
fn an_unknown_reading_is_25_before_anything_of_the_job() {
    let job = accepted();
    let mut of_kind = job.clone();
    let kind = job.len() - REQUEST.len() + 6;
    of_kind[kind] = 4;
    refused(&of_kind, Refusal::UnknownOrSpare, Some(kind));
    let most = vec![0; 16_777_216];
    for job in [&job[..], &of_kind, &job[..100], &[], &[0; 9], &most] {
        for reading in NO_READINGS {
            let mut out = [0x5a; 40];
            let error = offer_bytes(job, reading, 0, 0, &mut out).unwrap_err();
            // It is not the job's own.
            assert_eq!(error.refusal(), Refusal::UnknownOrSpare);
            assert_eq!(error.position(), None);
            assert_eq!(out, [0x5a; 40]);
            let past = offer_bytes(job, reading, u32::MAX, u32::MAX, &mut out);
            assert_eq!(past, Err(error));
        }
    }
}

#[test]
fn numbers_outside_are_26() {
    let job = accepted();
    let request = job.len() - REQUEST.len();
    let with = |at: usize, number: f32| {
        let mut job = job.clone();
        job[at..at + 4].copy_from_slice(&number.to_be_bytes());
        job
    };
    let (ratio, weight) = (request + 2, request + 11);
    for accepted in [0.0, -0.0, 16.0] {
        assert_eq!(check(&with(ratio, accepted)), Ok(()));
    }
    for number in [
        f32::NAN,
        f32::INFINITY,
        -1.0,
        16.0_f32.next_up(),
        0.0_f32.next_down(),
    ] {
        refused(&with(ratio, number), Refusal::NumberOutside, Some(ratio));
    }
    for accepted in [-1e30, f32::MAX, 0.0] {
        assert_eq!(check(&with(weight, accepted)), Ok(()));
    }
    for number in [f32::NAN, f32::INFINITY, f32::NEG_INFINITY] {
        refused(&with(weight, number), Refusal::NumberOutside, Some(weight));
    }
}

#[test]
fn bytes_left_are_27() {
    refused(&[0; 9], Refusal::BytesLeft, Some(8));
    let mut job = accepted();
    let end = job.len();
    job.push(0);
    refused(&job, Refusal::BytesLeft, Some(end));
}

#[test]
fn an_unknown_request_is_28() {
    let job = accepted();
    for request in [1, 2, 256, 65_536, u32::MAX] {
        for number in [0, 1, u32::MAX] {
            let error = offer(&job, Reading::OpenType, request, number).unwrap_err();
            assert_eq!(error.refusal(), Refusal::NoSuchRequest);
            assert_eq!(error.position(), None);
        }
    }
}

#[test]
fn numbers_and_refusals_go_together() {
    let numbers: Vec<u32> = Refusal::TABLE
        .iter()
        .map(|refusal| refusal.number())
        .collect();
    assert_eq!(numbers, (16..=31).collect::<Vec<u32>>());
    for refusal in Refusal::TABLE {
        assert_eq!(Refusal::from_number(refusal.number()), refusal);
        assert!(!refusal.meaning().is_empty());
    }
    for number in [0, 1, 15, 32, 255, u32::MAX] {
        assert_eq!(Refusal::from_number(number), Refusal::Unknown(number));
        assert_eq!(Refusal::Unknown(number).number(), number);
    }
}
