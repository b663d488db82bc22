//! The two readings, and numbers that are none.

use jobs::{
    bytes::{FixedAxis, START, Table, font as font_of, fvar, head, os2, plain_cmap, post},
    font_list,
    layout::{Face, Job, Override, Request, Style as Planned, write},
    readings::UNKNOWN,
};

use super::{
    Italic, Normal, Single, UNSTATED, attributes, check, face, font, job, oblique, offer,
    synthesis, text, with_axis,
};
use crate::{
    font::{Angle, Font, Style},
    reading::READINGS,
};

const OBLIQUE: u16 = 1 << 9;
const ITALIC: u16 = 1 << 0;

/// A 16.16 number of whole degrees.
fn degrees(number: i16) -> u32 {
    (number as u32) << 16
}

/// A font with the tables, and a `cmap`.
fn file(tables: &[Table]) -> Vec<u8> {
    font_of(START, &[tables, &[(*b"cmap", plain_cmap())]].concat())
}

fn leaning(angle: u32) -> Vec<u8> {
    file(&[(*b"OS/2", os2(400, 5, OBLIQUE)), (*b"post", post(angle))])
}

/// The kind of a font's style and the bits of its angle, under each reading.
fn styles(file: &[u8]) -> [(u8, u32); 2] {
    READINGS.map(|reading| {
        let read = font::read(file, reading, 0).expect("a font that is accepted");
        read.attributes.style.fields()
    })
}

#[test]
fn opposites() {
    for (number, opposite) in [
        (12.0f32, -12.0f32),
        (-12.0, 12.0),
        (0.0, 0.0),
        (-0.0, 0.0),
        (1e-45, -1e-45),
        (f32::MIN, f32::MAX),
    ] {
        let turned = Single::new(number).opposite();
        assert_eq!(turned.0, opposite.to_bits(), "{number}");
    }
}

/// The number is made a single first: 80000000 is -32768, and 7fffffff is
/// rounded to 32768 before it is turned.
#[test]
fn angles_of_post() {
    let step = 1.0 / 65536.0;
    for (fixed, old, new) in [
        (degrees(-12), -12.0f32, 12.0f32),
        (degrees(12), 12.0, -12.0),
        (0, 0.0, 0.0),
        (1, step, -step),
        (0xffff_ffff, -step, step),
        (0x8000_0000, -32768.0, 32768.0),
        (0x8000_0001, -32768.0, 32768.0),
        (0x7fff_ffff, 32768.0, -32768.0),
        (0x0100_0001, 256.0, -256.0),
        (0x0100_0003, 16777220.0 / 65536.0, -16777220.0 / 65536.0),
        (0xfeff_fffd, -16777220.0 / 65536.0, 16777220.0 / 65536.0),
    ] {
        let expected = [(3, old.to_bits()), (3, new.to_bits())];
        assert_eq!(styles(&leaning(fixed)), expected, "{fixed:08x}");
    }
}

/// An italic, an upright face and an oblique without `post` state no angle.
#[test]
fn fonts_without_an_angle() {
    let right = (*b"post", post(degrees(-12)));
    let of = |selection| (*b"OS/2", os2(700, 3, selection));
    for (tables, kind) in [
        (vec![of(ITALIC), right.clone()], 1),
        (vec![of(ITALIC | OBLIQUE), right.clone()], 1),
        (vec![of(0), right.clone()], 0),
        (vec![of(OBLIQUE)], 2),
        (vec![(*b"head", head(2)), right.clone()], 1),
        (vec![right], 0),
    ] {
        assert_eq!(styles(&file(&tables)), [(kind, 0); 2], "{kind}");
    }
}

/// The numbers of an axis stay.
#[test]
fn axes_stay() {
    let axis = FixedAxis {
        tag: *b"slnt",
        min: degrees(-15),
        default: degrees(-5),
        max: degrees(3),
    };
    let sloping = [
        (*b"OS/2", os2(400, 5, OBLIQUE)),
        (*b"post", post(degrees(-12))),
        (*b"fvar", fvar(&[axis])),
    ];
    for reading in READINGS {
        let read = font::read(&file(&sloping), reading, 0).unwrap();
        let axis = read.axes[0];
        let numbers = [axis.minimum, axis.default, axis.maximum].map(Single::value);
        assert_eq!(numbers, [-15.0, -5.0, 3.0]);
    }
}

/// Of every font of the list: the same refusal under both readings, the same of
/// all else, and of a stated angle the opposite; 25 under any other.
#[test]
fn fonts_of_the_list() {
    let (mut turned, mut refused) = (0, 0);
    for (label, entry) in font_list::list(3).fonts {
        let read = |reading| font::read(&entry.file, reading, entry.number);
        match (read(0), read(1)) {
            (Ok(old), Ok(new)) => {
                let angle = |font: &Font| match font.attributes.style {
                    Style::Oblique(Angle::Degrees(degrees)) => Some(degrees),
                    _ => None,
                };
                let opposite = angle(&old).map(|angle| angle.opposite().0);
                assert_eq!(angle(&new).map(|angle| angle.0), opposite, "{label}");
                turned += u32::from(opposite.is_some());
                let mut same = new;
                if opposite.is_some() {
                    same.attributes.style = old.attributes.style;
                }
                assert_eq!(same, old, "{label}");
            }
            (old, new) => {
                assert_eq!(old, new, "{label}");
                refused += 1;
            }
        }
        for reading in UNKNOWN {
            assert_eq!(read(reading), Err(25), "{label}");
        }
    }
    assert!(turned > 200 && refused > 500, "{turned} {refused}");
}

/// Settings and skew of an upright face for a style, under each reading.
fn made(tags: &[&[u8; 4]], asked: Style) -> [(Vec<(String, u32)>, i8); 2] {
    let own = tags.iter().fold(face(1.0, Normal, 400.0), |own, tag| {
        with_axis(own, tag, 0.0)
    });
    READINGS.map(|reading| {
        let made = synthesis(&own, reading, &attributes(0.875, asked, 700.0));
        let settings = made.settings.iter();
        let bits = |(tag, value): &([u8; 4], Single)| (tag.escape_ascii().to_string(), value.0);
        (settings.map(bits).collect(), made.skew)
    })
}

/// The value of `slnt` under each reading.
#[test]
fn values_of_slnt() {
    for (asked, old, new) in [
        (Italic, 14.0f32, -14.0f32),
        (UNSTATED, 14.0, -14.0),
        (oblique(12.0), 12.0, -12.0),
        (oblique(-12.0), -12.0, 12.0),
        (oblique(0.0), 0.0, 0.0),
        (oblique(-0.0), -0.0, 0.0),
        (oblique(1e-45), 1e-45, -1e-45),
        (oblique(f32::MIN), f32::MIN, f32::MAX),
    ] {
        let value = |value: f32| (vec![("slnt".to_string(), value.to_bits())], 0);
        let expected = [value(old), value(new)];
        assert_eq!(made(&[b"slnt"], asked), expected, "{asked:?}");
        // Beside `ital` it is the one that is set for an oblique.
        if asked != Italic {
            let both = made(&[b"ital", b"slnt"], asked);
            assert_eq!(both, expected, "{asked:?}");
        }
    }
}

/// Which setting is made, `ital`, the skew and the other axes do not depend on
/// the reading; `ital` goes by the sign that is asked for.
#[test]
fn settings_that_stay() {
    let ital = (vec![("ital".to_string(), 1f32.to_bits())], 0);
    let skew = |degrees| (vec![], degrees);
    for (tags, asked, expected) in [
        (&[b"ital"][..], Italic, ital.clone()),
        (&[b"ital", b"slnt"], Italic, ital.clone()),
        (&[b"ital"], oblique(12.0), ital.clone()),
        (&[b"ital"], oblique(1e-45), ital),
        (&[b"ital"], oblique(-12.0), skew(-12)),
        (&[b"ital"], oblique(-0.0), skew(0)),
        (&[], Italic, skew(14)),
        (&[], UNSTATED, skew(14)),
        (&[], oblique(12.9), skew(12)),
        (&[], oblique(-12.9), skew(-12)),
        (&[], oblique(-200.0), skew(-128)),
        (&[b"slnt"], Normal, skew(0)),
    ] {
        let both = [expected.clone(), expected];
        assert_eq!(made(tags, asked), both, "{tags:?} {asked:?}");
    }
    let [old, new] = made(&[b"slnt", b"wght", b"wdth"], oblique(12.0));
    assert_eq!(old.0[..2], new.0[..2]);
    assert_eq!(old.0[2], ("slnt".into(), 12f32.to_bits()));
    assert_eq!(new.0[2], ("slnt".into(), (-12f32).to_bits()));
}

/// A face that slopes already is not set, whatever is asked for.
#[test]
fn sloping_faces_stay() {
    for own in [Italic, UNSTATED, oblique(12.0), oblique(0.0)] {
        let own = with_axis(face(1.0, own, 400.0), b"slnt", 0.0);
        for asked in [Normal, Italic, UNSTATED, oblique(-12.0)] {
            for reading in READINGS {
                let made = synthesis(&own, reading, &attributes(1.0, asked, 400.0));
                assert!(made.settings.is_empty() && made.skew == 0);
            }
        }
    }
}

/// The calls that take a job or a font refuse such a number before: here it is a
/// fault of the caller's.
#[test]
#[should_panic(expected = "there is no reading 2")]
fn synthesis_under_no_reading() {
    let own = with_axis(face(1.0, Normal, 400.0), b"slnt", 0.0);
    synthesis(&own, 2, &attributes(1.0, Italic, 400.0));
}

/// A job of held faces with overrides, one family, and a request for each style.
fn job_of(fonts: &[Vec<u8>], overrides: Vec<Override>, asked: &[Planned]) -> Vec<u8> {
    let face = |font: &Vec<u8>| Face {
        held: true,
        font: font.clone(),
        number: 0,
    };
    let request = |style: &Planned| Request {
        most: 8,
        ratio: 1f32.to_bits(),
        style: *style,
        weight: 400f32.to_bits(),
        families: vec![0],
        fallbacks: vec![],
    };
    let job = Job {
        faces: fonts.iter().map(face).collect(),
        overrides,
        families: vec![(0..fonts.len() as u16).collect()],
        requests: asked.iter().map(request).collect(),
    };
    write(&job).bytes
}

/// The places that are offered for each request, under each reading.
fn places(job: &[u8], requests: usize) -> [Vec<Vec<usize>>; 2] {
    READINGS.map(|reading| {
        let mut lists = vec![Vec::new(); requests];
        for line in text(job, reading).lines().skip(1) {
            let mut words = line.split(' ').map(|word| word.parse::<usize>());
            let mut next = || words.next().and_then(Result::ok).expect("a number");
            let (request, _, place) = (next(), next(), next());
            lists[request].push(place);
        }
        lists
    })
}

/// The first face leans right and the second left, by what their files say; the
/// default follows the choice.
#[test]
fn right_and_left() {
    let asked = [
        Planned::stated(12.0),
        Planned::stated(-12.0),
        Planned::stated(0.0),
        Planned::stated(-0.0),
        Planned::UNSTATED,
        Planned::ITALIC,
        Planned::NORMAL,
    ];
    let fonts = [leaning(degrees(-12)), leaning(degrees(12))];
    let job = job_of(&fonts, vec![], &asked);
    // What is on the right is preferred by all but the second request.
    let right = vec![0];
    let left = vec![1];
    let old = [&left, &vec![0, 1], &left, &left, &left, &left, &left].map(Vec::clone);
    let new = [&right, &vec![1, 0], &right, &right, &right, &right, &right].map(Vec::clone);
    assert_eq!(places(&job, 7), [old.to_vec(), new.to_vec()]);
}

/// With a slant axis at the width a face on the other side is not chosen: the
/// reading says whether there is a choice, and the default is offered in both.
#[test]
fn one_side_with_an_axis() {
    let axis = FixedAxis {
        tag: *b"slnt",
        min: degrees(-15),
        default: 0,
        max: 0,
    };
    let upright = file(&[(*b"fvar", fvar(&[axis]))]);
    let asked = [Planned::stated(10.0), Planned::stated(-10.0)];
    let job = job_of(&[upright, leaning(degrees(-12))], vec![], &asked);
    let old = vec![vec![0], vec![1, 0]];
    let new = vec![vec![1, 0], vec![0]];
    assert_eq!(places(&job, 2), [old, new]);
    // The default is set to what is asked for.
    let last = READINGS.map(|reading| text(&job, reading).lines().last().map(String::from));
    let lines = ["1 0 0 - 0 slnt=c1200000", "1 0 0 - 0 slnt=41200000"];
    assert_eq!(last, lines.map(|line| Some(line.to_string())));
}

/// An override's angle is as it is given under both readings; one of the weight
/// alone leaves the angle as it was read.
#[test]
fn overridden_angles() {
    let style = |face: u16, angle: f32| Override {
        face,
        style: Some(Planned::stated(angle)),
        ..Override::default()
    };
    let weight = Override {
        face: 2,
        weight: Some(400f32.to_bits()),
        ..Override::default()
    };
    let fonts = [degrees(-12), degrees(12), degrees(-12)].map(leaning);
    let overrides = vec![style(0, 12.0), style(1, -12.0), weight];
    let asked = [Planned::stated(12.0), Planned::stated(-12.0)];
    let job = job_of(&fonts, overrides, &asked);
    // By what it was given the first leans right and the second left.
    let old = vec![vec![0], vec![1, 2, 0]];
    let new = vec![vec![0, 2], vec![1, 0]];
    assert_eq!(places(&job, 2), [old, new]);
}

/// 16, then 17, then 25, then all that the job is refused for, then 28.
#[test]
fn turn_of_the_reading() {
    let sound = job_of(&[leaning(degrees(-12))], vec![], &[Planned::ITALIC]);
    let mut spare = sound.clone();
    // The angle of an italic request.
    let angle = spare.len() - 12;
    spare[angle] = 1;
    assert_eq!(check(&spare), (25, angle as u32));
    let long = vec![0; job::BYTES + 1];
    for reading in UNKNOWN {
        let answer = |job: &[u8], request, length: usize| {
            let mut out = [0xaa; 40];
            let answer = offer(job, reading, request, 0, &mut out[..length]);
            assert_eq!(out, [0xaa; 40]);
            answer
        };
        for job in [&sound[..], &spare, &sound[..9], &[], &[0; 8], &[0; 9]] {
            assert_eq!(answer(job, 0, 40), 25);
            assert_eq!(answer(job, u32::MAX, 40), 25);
            assert_eq!(answer(job, 0, 39), 16);
            assert_eq!(text(job, reading), "refused 25 0\n");
        }
        assert_eq!(answer(&long, 0, 40), 17);
        assert_eq!(answer(&long, 0, 39), 16);
        assert_eq!(text(&long, reading), "refused 17 0\n");
    }
    for reading in READINGS {
        let mut out = [0; 40];
        assert_eq!(offer(&sound, reading, 0, 0, &mut out), 0);
        assert_eq!(offer(&sound, reading, 1, 0, &mut out), 28);
        assert_eq!(offer(&sound[..9], reading, 0, 0, &mut out), 18);
        assert_eq!(text(&spare, reading), format!("refused 25 {angle}\n"));
    }
}

/// A job is refused alike under both readings.
#[test]
fn refusals_of_jobs() {
    for case in jobs::list::made() {
        let refused = READINGS.map(|reading| job::read(&case.bytes, reading).err());
        assert_eq!(refused[0], refused[1], "{}", case.label);
    }
}
