//! Section 7 of docs/GUIDE.md, its example and its pairs; a refusal for each row.

use crate::{
    Single, check,
    font::{
        self, Angle, Attributes, Axis, CharmapIndex, Font, Override, Style,
        maybe_override_attributes,
    },
    job, matching, offer,
    synthesis::synthesis,
    text,
};

use Style::{Italic, Normal};

mod damaged;
mod named;
mod readings;

const UNSTATED: Style = Style::Oblique(Angle::Unstated);

const fn oblique(degrees: f32) -> Style {
    Style::Oblique(Angle::Degrees(Single::new(degrees)))
}

fn attributes(ratio: f32, style: Style, weight: f32) -> Attributes {
    Attributes {
        ratio: Single::new(ratio),
        style,
        weight: Single::new(weight),
    }
}

fn face(ratio: f32, style: Style, weight: f32) -> Font {
    Font {
        attributes: attributes(ratio, style, weight),
        axes: Vec::new(),
        charmap: CharmapIndex {
            offset: 0,
            symbol: false,
            mac_roman: false,
        },
    }
}

fn with_axis(mut face: Font, tag: &[u8; 4], default: f32) -> Font {
    face.axes.push(Axis {
        tag: *tag,
        minimum: Single::ZERO,
        default: Single::new(default),
        maximum: Single::new(1000.0),
    });
    face
}

fn choice(faces: &[Font], request: Attributes, synthesis: bool) -> Option<usize> {
    let faces: Vec<&Font> = faces.iter().collect();
    matching::choice(&faces, &request, synthesis)
}

fn weights(list: &[f32]) -> Vec<Font> {
    list.iter().map(|w| face(1.0, Normal, *w)).collect()
}

fn styles(list: &[Style]) -> Vec<Font> {
    list.iter().map(|s| face(1.0, *s, 400.0)).collect()
}

fn asked_style(style: Style) -> Attributes {
    attributes(1.0, style, 400.0)
}

fn asked_weight(weight: f32) -> Attributes {
    attributes(1.0, Normal, weight)
}

/// Section 7, 1 to 7 and 9: the same with synthesis on and off.
#[test]
fn choices_to_try() {
    let widths = || vec![face(0.75, Normal, 400.0), face(1.25, Normal, 400.0)];
    let fourteen = || styles(&[UNSTATED, oblique(14.0)]);
    let left = || styles(&[oblique(-10.0), oblique(-20.0)]);
    for (faces, request, place) in [
        (weights(&[300.0, 600.0]), asked_weight(450.0), 0),
        (weights(&[400.0, 500.0]), asked_weight(450.0), 1),
        (weights(&[350.0, 350.0]), asked_weight(400.0), 1),
        (weights(&[600.0, 600.0]), asked_weight(550.0), 0),
        (widths(), attributes(1.0, Normal, 400.0), 0),
        (widths(), attributes(1.125, Normal, 400.0), 1),
        (fourteen(), asked_style(Italic), 0),
        (fourteen(), asked_style(oblique(20.0)), 1),
        (left(), asked_style(oblique(-14.0)), 1),
        (left(), asked_style(oblique(-13.5)), 0),
        (styles(&[Normal, oblique(0.0)]), asked_style(Italic), 0),
    ] {
        for on in [true, false] {
            assert_eq!(choice(&faces, request, on), Some(place), "{request:?}");
        }
    }
}

/// Section 7, 8 and 13; a family of one face and one of none.
#[test]
fn families_without_a_choice() {
    let fourteen = asked_style(oblique(14.0));
    let one_slanted = |style: Style| {
        let own = face(1.0, style, 400.0);
        [own.clone(), with_axis(own, b"slnt", 0.0)]
    };
    assert_eq!(choice(&one_slanted(Normal), fourteen, true), None);
    assert_eq!(choice(&one_slanted(Normal), fourteen, false), Some(0));
    assert_eq!(choice(&one_slanted(oblique(0.0)), fourteen, true), None);
    assert_eq!(choice(&weights(&[900.0]), fourteen, true), Some(0));
    assert_eq!(choice(&[], asked_weight(400.0), true), None);
}

/// Section 7, 10 to 12.
#[test]
fn numbers_to_try() {
    let own = face(1.0, Normal, 400.0);
    assert!(!synthesis(&own, 0, &asked_weight(600.0)).embolden);
    assert!(synthesis(&own, 0, &asked_weight(601.0)).embolden);
    for (angle, skew) in [(0.9, 0), (-14.9, -14), (200.0, 127), (-200.0, -128)] {
        assert_eq!(synthesis(&own, 0, &asked_style(oblique(angle))).skew, skew);
    }
    assert_eq!(Single::from_fixed(16777217).value(), 256.0);
    assert_eq!(Single::from_fixed(16777219).value(), 16777220.0 / 65536.0);
}

/// 0.875 and 0.87109375 share 87 but not a list; both zeros are equal.
#[test]
fn equal_lists() {
    let faces = [
        face(0.875, Normal, 400.0),
        face(0.87109375, Normal, 400.0),
        face(0.875, Normal, 400.0),
    ];
    let faces: Vec<&Font> = faces.iter().collect();
    let request = attributes(0.875, Normal, 400.0);
    assert_eq!(matching::equal_list(&faces, &request, true), [0, 2]);
    let zeros = [
        face(0.0, oblique(0.0), 0.0),
        face(1.0, Normal, 400.0),
        face(-0.0, oblique(-0.0), -0.0),
    ];
    let zeros: Vec<&Font> = zeros.iter().collect();
    let request = attributes(-0.0, oblique(0.0), 0.0);
    assert_eq!(matching::equal_list(&zeros, &request, true), [0, 2]);
    assert_eq!(matching::default(&zeros), 1);
}

#[test]
fn settings_in_their_order() {
    let mut own = face(1.0, Normal, 400.0);
    for (tag, default) in [(b"slnt", 0.0), (b"wght", 300.0), (b"wdth", 100.0)] {
        own = with_axis(own, tag, default);
    }
    let all = synthesis(&own, 0, &attributes(0.875, oblique(-0.0), 400.0));
    let bits: Vec<([u8; 4], u32)> = all.settings.iter().map(|(t, v)| (*t, v.0)).collect();
    assert_eq!(
        bits,
        [
            (*b"wdth", 87.5f32.to_bits()),
            (*b"wght", 400f32.to_bits()),
            (*b"slnt", 0x8000_0000),
        ]
    );
    assert!(
        synthesis(&own, 0, &attributes(1.0, Normal, 300.0))
            .settings
            .is_empty()
    );
    let ital = with_axis(face(1.0, Normal, 400.0), b"ital", 0.0);
    let left = synthesis(&ital, 0, &attributes(1.0, oblique(-5.5), 400.0));
    assert_eq!((left.skew, left.settings.len()), (-5, 0));
}

#[test]
fn maybe_override() {
    let mut own = face(1.0, Italic, 400.0);
    maybe_override_attributes(&mut own, &attributes(0.5, Normal, 700.0));
    assert_eq!(own.attributes, attributes(0.5, Italic, 700.0));
}

#[test]
fn override_of_axes() {
    let mut own = with_axis(face(1.0, Normal, 400.0), b"wght", 1.0);
    own = with_axis(own, b"wght", 2.0);
    let given = Override {
        ratio: None,
        style: None,
        weight: None,
        axes: vec![
            (*b"wght", Single::new(5.0)),
            (*b"GRAD", Single::new(6.0)),
            (*b"wght", Single::new(9999.0)),
        ],
    };
    font::apply_override(&mut own, &given);
    assert_eq!(own.axes[0].default, Single::new(9999.0));
    assert_eq!(own.axes[1].default, Single::new(2.0));
}

// Jobs, byte by byte.

/// A font of a `cmap` with one record (3,1), an OS/2 of the weight, and axes.
fn font_file(weight: u16, axes: usize) -> Vec<u8> {
    let mut os2 = vec![0; 78];
    os2[4..6].copy_from_slice(&weight.to_be_bytes());
    os2[7] = 5;
    let mut cmap = vec![0, 0, 0, 1, 0, 3, 0, 1, 0, 0, 0, 12];
    cmap.extend([0, 4]);
    let mut fvar = vec![0; 16];
    fvar[5] = 16;
    fvar[9] = axes as u8;
    fvar[11] = 20;
    fvar.extend(vec![0; 20 * axes]);
    let tables: [(&[u8; 4], &[u8]); 3] = [(b"cmap", &cmap), (b"OS/2", &os2), (b"fvar", &fvar)];
    let mut out = vec![0, 1, 0, 0, 0, 3, 0, 0, 0, 0, 0, 0];
    let mut offset = 12 + 16 * 3;
    for (tag, bytes) in tables {
        out.extend(tag);
        out.extend([0; 4]);
        out.extend((offset as u32).to_be_bytes());
        out.extend((bytes.len() as u32).to_be_bytes());
        offset += bytes.len();
    }
    for (_, bytes) in tables {
        out.extend(bytes);
    }
    out
}

fn faces(fonts: &[Vec<u8>]) -> Vec<u8> {
    let mut out = (fonts.len() as u16).to_be_bytes().to_vec();
    for font in fonts {
        out.push(1);
        out.extend((font.len() as u32).to_be_bytes());
        out.extend(font);
    }
    out
}

/// A request for families 0, width 1, normal.
fn request(most: u16, ratio: u32, weight: f32) -> Vec<u8> {
    let mut out = most.to_be_bytes().to_vec();
    out.extend(ratio.to_be_bytes());
    out.extend([0; 5]);
    out.extend(weight.to_bits().to_be_bytes());
    out.extend([1, 0, 0, 0]);
    out
}

/// Two faces, no overrides, one family of them, one request.
fn example(ratio: u32, axes: usize) -> Vec<u8> {
    let mut job = faces(&[font_file(400, axes), font_file(700, 0)]);
    job.extend([0, 0]);
    job.extend([0, 1, 0, 2, 0, 0, 0, 1]);
    job.extend([0, 1]);
    job.extend(request(8, ratio, 700.0));
    job
}

const ONE: u32 = 0x3f80_0000;

#[test]
fn example_of_section_7() {
    assert_eq!(
        text(&example(ONE, 0), 0),
        "requests 1\n0 0 1 - 0\n0 0 0 b 0\n"
    );
}

#[test]
fn eight_zero_bytes_and_nine() {
    assert_eq!(check(&[0; 8]), (0, 0));
    assert_eq!(check(&[0; 9]), (27, 8));
    assert_eq!(text(&[0; 8], 0), "requests 0\n");
    assert_eq!(text(&[0; 9], 0), "refused 27 8\n");
    for (length, position) in [(0, 0), (1, 0), (2, 2), (3, 2), (4, 4), (7, 6)] {
        assert_eq!(check(&vec![0; length]), (18, position));
    }
}

#[test]
fn output_of_39_and_40() {
    let job = example(ONE, 0);
    let mut out = [0xaa; 41];
    for length in [0, 39, 41] {
        assert_eq!(offer(&job, 0, 0, 0, &mut out[..length]), 16);
    }
    assert_eq!(out, [0xaa; 41]);
    assert_eq!(offer(&job, 0, 0, 0, &mut out[..40]), 0);
    let mut expected = [0; 40];
    expected[3] = 1;
    expected[35] = 60 + 12;
    assert_eq!(out[..40], expected);
    assert_eq!(offer(&job, 0, 0, 1, &mut out[..40]), 0);
    expected[3] = 0;
    expected[4] = 1;
    assert_eq!(out[..40], expected);
    assert_eq!(offer(&job, 0, 0, 2, &mut out[..40]), 1);
    assert_eq!(offer(&job, 0, 0, u32::MAX, &mut out[..40]), 1);
    assert_eq!(offer(&job, 0, 1, 0, &mut out[..40]), 28);
    assert_eq!(offer(&job, 0, u32::MAX, 0, &mut out[..40]), 28);
    assert_eq!(offer(&job[..9], 0, 1, 0, &mut out[..40]), 18);
    assert_eq!(offer(&job[..9], 0, 1, 0, &mut out[..39]), 16);
    assert_eq!(out[..40], expected);
}

#[test]
fn axes_16_and_17() {
    assert_eq!(check(&example(ONE, 16)), (0, 0));
    assert_eq!(check(&example(ONE, 17)), (23, 3));
}

#[test]
fn places_64_and_65() {
    for (places, expected) in [(64u16, (0, 0)), (65, (19, 4))] {
        let mut job = faces(&[font_file(400, 0)]);
        let start = job.len() as u32;
        job.extend([0, 0, 0, 1]);
        job.extend(places.to_be_bytes());
        job.extend(vec![0; 2 * usize::from(places)]);
        job.extend([0, 1]);
        job.extend(request(100, ONE, 400.0));
        let expected = match expected {
            (0, 0) => (0, 0),
            (number, beyond) => (number, start + beyond),
        };
        assert_eq!(check(&job), expected);
        if places == 64 {
            assert_eq!(text(&job, 0).lines().count(), 1 + 64);
        }
    }
}

#[test]
fn ratio_16_and_the_next() {
    let good = example(0x4180_0000, 0);
    assert_eq!(check(&good), (0, 0));
    let position = good.len() as u32 - 17;
    assert_eq!(check(&example(0x4180_0001, 0)), (26, position));
    // Minus zero is a ratio, the single below it is none.
    assert_eq!(check(&example(0x8000_0000, 0)), (0, 0));
    assert_eq!(check(&example(0x8000_0001, 0)), (26, position));
    assert_eq!(check(&example(0x7fc0_0000, 0)), (26, position));
}

#[test]
fn job_over_the_limit() {
    let mut job = vec![0; job::BYTES];
    assert_eq!(check(&job), (27, 8));
    job.push(0);
    assert_eq!(check(&job), (17, 0));
    let mut out = [0; 40];
    assert_eq!(offer(&job, 0, 0, 0, &mut out), 17);
    assert_eq!(offer(&job, 0, 0, 0, &mut out[..39]), 16);
}

/// A job of one face and an override: face, mask, ratio, kind, angle, weight, pairs.
fn overridden(
    mask: u8,
    ratio: u32,
    kind: u8,
    angle: u32,
    weight: u32,
    face: u16,
) -> (Vec<u8>, u32) {
    let mut job = faces(&[font_file(400, 0)]);
    let start = job.len() as u32 + 2;
    job.extend([0, 1]);
    job.extend(face.to_be_bytes());
    job.push(mask);
    job.extend(ratio.to_be_bytes());
    job.push(kind);
    job.extend(angle.to_be_bytes());
    job.extend(weight.to_be_bytes());
    job.extend([1, b'w', b'g', b'h', b't', 0, 0, 0, 0]);
    job.extend([0; 4]);
    (job, start)
}

#[test]
fn fields_of_an_override() {
    const MINUS_ZERO: u32 = 0x8000_0000;
    const NAN: u32 = 0x7fc0_0000;
    const INFINITE: u32 = 0xff80_0000;
    for (mask, ratio, kind, angle, weight, face, number, beyond) in [
        (0, 0, 0, 0, 0, 0, 0, 0),
        (7, ONE, 3, ONE, ONE, 0, 0, 0),
        (7, MINUS_ZERO, 3, MINUS_ZERO, MINUS_ZERO, 0, 0, 0),
        (7, 0, 2, 0, 0, 0, 0, 0),
        (7, 0, 2, 0, 0, 1, 24, 0),
        (8, 0, 0, 0, 0, 0, 25, 2),
        (8, 0, 0, 0, 0, 1, 24, 0),
        (6, 1, 0, 0, 0, 0, 25, 3),
        (6, MINUS_ZERO, 0, 0, 0, 0, 25, 3),
        (6, NAN, 0, 0, 0, 0, 25, 3),
        (7, NAN, 9, 0, 0, 0, 26, 3),
        (5, 0, 1, 0, 0, 0, 25, 7),
        (5, 0, 3, 0, 0, 0, 25, 7),
        (7, 0, 4, 0, 0, 0, 25, 7),
        (7, 0, 2, MINUS_ZERO, 0, 0, 25, 8),
        (7, 0, 0, NAN, 0, 0, 25, 8),
        (7, 0, 3, NAN, 0, 0, 26, 8),
        (5, 0, 0, 1, 0, 0, 25, 8),
        (3, 0, 3, 0, INFINITE, 0, 25, 12),
        (7, 0, 3, 0, INFINITE, 0, 26, 12),
    ] {
        let (job, start) = overridden(mask, ratio, kind, angle, weight, face);
        let expected = if number == 0 {
            (0, 0)
        } else {
            (number, start + beyond)
        };
        assert_eq!(check(&job), expected, "{mask} {ratio} {kind} {angle}");
    }
    let (mut job, start) = overridden(0, 0, 0, 0, 0, 0);
    let value = start as usize + 21;
    job[value..value + 4].copy_from_slice(&INFINITE.to_be_bytes());
    assert_eq!(check(&job), (26, start + 21));
}

#[test]
fn fields_of_a_face() {
    let job = example(ONE, 0);
    let mut held = job.clone();
    held[2] = 2;
    assert_eq!(check(&held), (20, 2));
    // The font is one field from its length on: cut anywhere, 18 there.
    let file = font_file(400, 0).len();
    for length in [3, 6, 7, 8, 7 + file - 1] {
        assert_eq!(check(&job[..length]), (18, 3));
    }
    assert_eq!(check(&job[..7 + file]), (18, 7 + file as u32));
    let mut start = job.clone();
    start[7] = 9;
    assert_eq!(check(&start), (21, 3));
    let mut cmap = job.clone();
    cmap[7 + 12] = b'k';
    assert_eq!(check(&cmap), (22, 3));
    let mut long = job;
    long[3] = 0xff;
    assert_eq!(check(&long), (18, 3));
}

/// A collection: its header, the offsets, then the parts that they name.
fn collection(version: u8, offsets: &[u32], parts: &[&[u8]]) -> Vec<u8> {
    let mut out = b"ttcf".to_vec();
    out.extend([0, version, 0, 0]);
    out.extend((offsets.len() as u32).to_be_bytes());
    for offset in offsets {
        out.extend(offset.to_be_bytes());
    }
    out.extend(parts.concat());
    out
}

/// A directory of the given records: tag, offset, length.
fn directory(records: &[(&[u8; 4], u32, u32)]) -> Vec<u8> {
    let mut out = vec![0, 1, 0, 0, 0, records.len() as u8, 0, 0, 0, 0, 0, 0];
    for (tag, offset, length) in records {
        out.extend(*tag);
        out.extend([0; 4]);
        out.extend(offset.to_be_bytes());
        out.extend(length.to_be_bytes());
    }
    out
}

/// Where the tables of `pair` and the directory of its second font stand.
const CMAP: u32 = 64;
const OS2: u32 = CMAP + 14;
const SECOND: u32 = OS2 + 78;

/// Two fonts over one `cmap`: the first of the default attributes, the second
/// of weight 700 with its directory after the tables.
fn pair(version: u8) -> Vec<u8> {
    let cmap = [0, 0, 0, 1, 0, 3, 0, 1, 0, 0, 0, 12, 0, 4];
    let mut os2 = [0; 78];
    os2[4..8].copy_from_slice(&[2, 188, 0, 5]);
    let first = directory(&[(b"cmap", CMAP, 14)]);
    let gap = vec![0xee; CMAP as usize - 20 - first.len()];
    let second = directory(&[(b"cmap", CMAP, 14), (b"OS/2", OS2, 78)]);
    let parts: [&[u8]; 5] = [&first, &gap, &cmap, &os2, &second];
    collection(version, &[20, SECOND], &parts)
}

/// Both header versions; offsets count from the file's first byte.
#[test]
fn fonts_of_a_collection() {
    for version in [1, 2] {
        let file = pair(version);
        assert_eq!(font::count(&file), 2);
        for (number, weight) in [(0, 400.0), (1, 700.0)] {
            let read = font::read(&file, 0, number).unwrap();
            assert_eq!(read.attributes, asked_weight(weight));
            assert_eq!(read.charmap.offset, CMAP + 12);
        }
        assert_eq!(font::read(&file, 0, 2), Err(30));
        assert_eq!(font::read(&file, 0, u16::MAX), Err(30));
    }
}

/// What is 21 comes before and after 30; a lone file has one font.
#[test]
fn font_numbers() {
    let lone = font_file(400, 0);
    assert_eq!(font::count(&lone), 1);
    assert!(font::read(&lone, 0, 0).is_ok());
    assert_eq!(font::read(&lone, 0, 1), Err(30));
    for (file, at_0, at_1) in [
        (&b"ttcf\0\x01\0\0\0\0\0"[..], 21, 21),
        (b"ttcf\0\x01\0\0\0\0\0\0", 30, 30),
        (b"ttcf\0\x01\0\0\0\0\0\x01", 21, 30),
        (b"ttcf\0\x01\0\0\x40\0\0\0", 21, 21),
        (b"ttcf\0\x01\0\0\x80\0\0\x01\0\0\0\0", 21, 21),
        (b"ttcg\0\x01\0\0\0\0\0\x02", 21, 30),
        (b"ttc", 21, 21),
        (&lone[..11], 21, 21),
        (&lone[..12], 21, 30),
    ] {
        let answers = [0, 1].map(|number| font::read(file, 0, number));
        assert_eq!(answers, [Err(at_0), Err(at_1)], "{file:?}");
    }
    assert_eq!(font::count(b"ttcf\0\x01\0\0\0\0\0"), 0);
    assert_eq!(font::count(b"ttcf\0\x01\0\0\x80\0\0\x01"), 0x8000_0001);
}

/// Every offset lies in the file, whichever font is asked for.
#[test]
fn offsets_of_a_collection() {
    let file = pair(1);
    // The second offset at and around the last place for a header.
    let room = file.len() as u32 - 12;
    for (offset, answer) in [
        (SECOND, None),
        (20, None),
        (room, Some(21)),
        (room + 1, Some(21)),
        (file.len() as u32, Some(21)),
        (u32::MAX, Some(21)),
        // `ttcf` is no start of a font.
        (0, Some(21)),
    ] {
        let mut file = file.clone();
        file[16..20].copy_from_slice(&offset.to_be_bytes());
        assert_eq!(font::read(&file, 0, 1).err(), answer, "{offset}");
        assert!(font::read(&file, 0, 0).is_ok());
    }
    // A directory that ends with the file, and one that does not.
    assert_eq!(font::read(&file[..file.len() - 1], 0, 1), Err(21));
    assert!(font::read(&file[..file.len() - 1], 0, 0).is_ok());
    // As many offsets as there are bytes for, and one more.
    let most = (file.len() as u32 - 12) / 4;
    for (count, accepted) in [(most, true), (most + 1, false)] {
        let mut file = file.clone();
        file[8..12].copy_from_slice(&count.to_be_bytes());
        assert_eq!(font::read(&file, 0, 0).is_ok(), accepted, "{count}");
    }
}

/// A job of one face, with bytes behind the file.
fn job_of_file(file: &[u8], behind: &[u8]) -> Vec<u8> {
    let mut job = faces(&[file.to_vec()]);
    job.extend(behind);
    job.extend([0; 6]);
    job
}

/// Refusals of a face from a collection: at the length, which is 3, or at the number.
#[test]
fn fields_of_a_collection() {
    let file = pair(1);
    let number = 7 + file.len();
    let at = number as u32;
    assert_eq!(check(&job_of_file(&file, &[0, 0])), (0, 0));
    assert_eq!(check(&job_of_file(&file, &[0, 1])), (0, 0));
    assert_eq!(check(&job_of_file(&file, &[0, 2])), (30, at));
    assert_eq!(check(&job_of_file(&file, &[1, 0])), (30, at));
    // No number: the next two bytes are it, and the job is short of two.
    assert_eq!(check(&job_of_file(&file, &[])), (18, at + 6));
    let job = job_of_file(&file, &[0, 2]);
    assert_eq!(check(&job[..number - 1]), (18, 3));
    assert_eq!(check(&job[..number]), (18, at));
    assert_eq!(check(&job[..number + 1]), (18, at));
    assert_eq!(check(&job[..number + 2]), (30, at));
    let mut held = job.clone();
    held[2] = 2;
    assert_eq!(check(&held), (20, 2));
    // Behind a lone font there is no number.
    let lone = font_file(400, 0);
    assert_eq!(check(&job_of_file(&lone, &[])), (0, 0));
    assert_eq!(check(&job_of_file(&lone, &[0, 0])).0, 27);
}

/// 21 to 23 are at the length, though they are met behind the number.
#[test]
fn font_refusals_of_a_collection() {
    // Without its header a collection has no number.
    assert_eq!(check(&job_of_file(b"ttcf", &[])), (21, 3));
    assert_eq!(check(&faces(&[b"ttcf\0\x01\0\0\0\0\0".to_vec()])), (21, 3));
    let header = b"ttcf\0\x01\0\0\0\0\0\x01";
    assert_eq!(check(&faces(&[header.to_vec()])), (18, 19));
    assert_eq!(check(&job_of_file(header, &[0, 1])), (30, 19));
    assert_eq!(check(&job_of_file(header, &[0, 0])), (21, 3));
    // One font, of too many axes, without a `cmap` besides, and of 16 axes.
    for (axes, tag, number) in [(17, b"cmap", 23), (17, b"kmap", 22), (16, b"cmap", 0)] {
        let mut font = font_file(400, axes);
        font[12..16].copy_from_slice(tag);
        for record in 0..3 {
            let offset = 12 + 16 * record + 8 + 2;
            let moved = u16::from_be_bytes([font[offset], font[offset + 1]]) + 16;
            font[offset..offset + 2].copy_from_slice(&moved.to_be_bytes());
        }
        let file = collection(1, &[16], &[&font]);
        let position = if number == 0 { 0 } else { 3 };
        assert_eq!(check(&job_of_file(&file, &[0, 0])), (number, position));
    }
}

/// The offers are those of the font alone, but for the `cmap` offset.
#[test]
fn offers_of_a_collection() {
    let record = |file: &[u8], behind: &[u8]| {
        let mut job = faces(&[file.to_vec()]);
        job.extend(behind);
        job.extend([0, 0, 0, 1, 0, 1, 0, 0, 0, 1]);
        job.extend(request(8, ONE, 700.0));
        let mut out = [0; 40];
        assert_eq!(offer(&job, 0, 0, 0, &mut out), 0);
        out
    };
    let lone = record(&font_file(700, 0), &[]);
    let mut expected = record(&pair(2), &[0, 1]);
    assert_eq!(expected[32..36], (CMAP + 12).to_be_bytes());
    expected[35] = lone[35];
    assert_eq!(expected, lone);
    assert_eq!(record(&pair(2), &[0, 0])[4], 1);
}

/// What is known of the jobs with collections and with damaged tables is the
/// very answer.
#[test]
fn fonts_of_the_list() {
    known_of_the_list("collection, ");
    known_of_the_list("damaged ");
}

fn known_of_the_list(label: &str) {
    let cases = jobs::list::made().into_iter();
    let mut cases = cases.filter(|case| case.label.starts_with(label));
    let known = |case: jobs::list::Case| {
        let (number, position) = check(&case.bytes);
        assert!(
            case.expected.tells(number, position as usize),
            "{}: {number} {position}, not {:?}",
            case.label,
            case.expected
        );
    };
    known(cases.next().expect("a job with the label"));
    cases.for_each(known);
}

/// A job of three families whose request names the last twice, an unknown
/// one, the empty one, and the first as a fallback; and where its most stands.
fn job_of_turns() -> (Vec<u8>, usize) {
    let mut job = faces(&[font_file(400, 0), font_file(700, 0), font_file(700, 0)]);
    job.extend([0, 0]);
    job.extend([0, 3]);
    job.extend([0, 3, 0, 0, 0, 1, 0, 2]);
    job.extend([0, 0]);
    job.extend([0, 1, 0, 2]);
    job.extend([0, 1]);
    let most = job.len() + 1;
    job.extend(&request(8, ONE, 700.0)[..15]);
    job.extend([4, 0, 2, 0, 9, 0, 1, 0, 2]);
    job.extend([1, 0, 0]);
    (job, most)
}

/// An unheld face is not offered; fallbacks come last; unknown numbers are
/// skipped; a family listed twice offers twice; the list is cut.
#[test]
fn turns_of_offers() {
    let (mut job, at) = job_of_turns();
    let lines =
        |job: &[u8]| -> Vec<String> { text(job, 0).lines().skip(1).map(String::from).collect() };
    assert_eq!(
        lines(&job),
        [
            "0 2 0 - 0",
            "0 2 0 - 0",
            "0 0 1 - 0",
            "0 0 2 - 0",
            "0 0 0 b 0"
        ]
    );
    for most in 0..5 {
        job[at] = most;
        assert_eq!(lines(&job).len(), usize::from(most));
    }
    job[at] = 8;
    // The second face is not held.
    let second = 2 + 5 + font_file(400, 0).len();
    job[second] = 0;
    assert_eq!(
        lines(&job),
        ["0 2 0 - 0", "0 2 0 - 0", "0 0 2 - 0", "0 0 0 b 0"]
    );
    // Nor is the default.
    job[2] = 0;
    assert_eq!(lines(&job), ["0 2 0 - 0", "0 2 0 - 0", "0 0 2 - 0"]);
}

const STYLES: [Style; 10] = [
    Normal,
    Italic,
    UNSTATED,
    oblique(14.0),
    oblique(0.0),
    oblique(-0.0),
    oblique(5.0),
    oblique(20.0),
    oblique(-5.0),
    oblique(-20.0),
];

fn random_face(draw: &mut impl FnMut(usize) -> usize) -> Font {
    let ratio = [0.5, 1.0, 1.0, 1.005, 1.5][draw(5)];
    let weight = [300.0, 400.0, 450.0, 500.0, 700.0][draw(5)];
    let own = face(ratio, STYLES[draw(10)], weight);
    if draw(6) == 0 {
        with_axis(own, b"slnt", 0.0)
    } else {
        own
    }
}

/// In a family of two or more the choice stands before every other face.
#[test]
fn choice_stands_before() {
    let mut random = jobs::random::Random::new(1);
    let mut draw = |bound: usize| random.below(bound);
    for _ in 0..20_000 {
        let count = 2 + draw(5);
        let family: Vec<Font> = (0..count).map(|_| random_face(&mut draw)).collect();
        let family: Vec<&Font> = family.iter().collect();
        let request = attributes(
            [0.5, 1.0, 1.25][draw(3)],
            STYLES[draw(10)],
            [350.0, 400.0, 450.0, 600.0][draw(4)],
        );
        for on in [true, false] {
            let ranks = matching::ranks(&family, &request, on);
            let before = |a: usize, b: usize| matching::stands_before(&ranks[a], &ranks[b]);
            let chosen = matching::choice(&family, &request, on);
            assert!(on || chosen.is_some());
            for a in 0..family.len() {
                assert!(chosen.is_none_or(|chosen| chosen == a || before(chosen, a)));
                assert!((0..family.len()).all(|b| !before(a, b) || !before(b, a)));
            }
        }
    }
}

/// On a face by value 19 comes before 26, whichever number it is that is out.
#[test]
fn faces_by_value() {
    let own = with_axis(face(1.0, Normal, 400.0), b"wght", 400.0);
    let given = |weight: f32| attributes(1.0, Normal, weight);
    assert!(font::maybe_overridden(&own, &given(700.0)).is_ok());
    assert_eq!(font::maybe_overridden(&own, &given(f32::NAN)), Err(26));
    let nothing = Override {
        ratio: None,
        style: None,
        weight: None,
        axes: Vec::new(),
    };
    assert!(font::overridden(&own, &nothing).is_ok());
    let tilted = Override {
        style: Some(oblique(f32::INFINITY)),
        ..nothing.clone()
    };
    assert_eq!(font::overridden(&own, &tilted), Err(26));
    let bad = with_axis(own, b"slnt", f32::NAN);
    assert_eq!(font::overridden(&bad, &nothing), Err(26));
    let many = (0..16).fold(bad, |face, _| with_axis(face, b"opsz", 0.0));
    assert_eq!(font::overridden(&many, &nothing), Err(19));
}
