//! The C header: that it says what this crate says. That C programs built with
//! it answer as they should is for the repository's script `tools/test-c`.

use stemhook::{Offer, Reading, Refusal, Tag, limits};

const HEADER: &str = include_str!("../include/stemhook.h");

/// The names that the header defines with a number.
fn defined() -> Vec<(&'static str, u32)> {
    let mut defined = Vec::new();
    for line in HEADER.lines() {
        let Some(rest) = line.strip_prefix("#define STEMHOOK_") else {
            continue;
        };
        let (rest, _) = rest.split_once("/*").unwrap_or((rest, ""));
        let Some((name, number)) = rest.split_once(' ') else {
            continue;
        };
        if let Ok(number) = number.trim().parse() {
            defined.push((name, number));
        }
    }
    defined
}

/// The refusals that the header's `stemhook_meaning` tells apart, with what it
/// returns; the name of the last is empty.
fn meanings() -> Vec<(&'static str, &'static str)> {
    let (_, body) = HEADER.split_once("*stemhook_meaning(").unwrap();
    let (body, _) = body.split_once("\n}\n").unwrap();
    let mut name = "";
    let mut meanings = Vec::new();
    for line in body.lines().map(str::trim) {
        if let Some(case) = line.strip_prefix("case STEMHOOK_REFUSED_") {
            name = case.trim_end_matches(':');
        } else if line == "default:" {
            name = "";
        } else if let Some(text) = line.strip_prefix("return \"") {
            meanings.push((name, text.trim_end_matches("\";")));
        }
    }
    meanings
}

/// `NoSuchFace` as `NO_SUCH_FACE`.
fn upper(name: &str) -> String {
    let mut upper = String::new();
    for (at, letter) in name.char_indices() {
        if at > 0 && letter.is_ascii_uppercase() {
            upper.push('_');
        }
        upper.push(letter.to_ascii_uppercase());
    }
    upper
}

#[test]
fn the_header_has_the_refusals_of_this_crate() {
    let listed: Vec<(String, u32)> = defined()
        .into_iter()
        .filter_map(|(name, number)| Some((name.strip_prefix("REFUSED_")?.to_owned(), number)))
        .collect();
    let expected: Vec<(String, u32)> = Refusal::TABLE
        .into_iter()
        .map(|refusal| (upper(&format!("{refusal:?}")), refusal.number()))
        .collect();
    assert_eq!(listed, expected);
}

#[test]
fn the_header_has_the_meanings_of_this_crate() {
    let mut expected: Vec<(String, &str)> = Refusal::TABLE
        .into_iter()
        .map(|refusal| (upper(&format!("{refusal:?}")), refusal.meaning()))
        .collect();
    expected.push((String::new(), Refusal::from_number(32).meaning()));
    let listed: Vec<(String, &str)> = meanings()
        .into_iter()
        .map(|(name, meaning)| (name.to_owned(), meaning))
        .collect();
    assert_eq!(listed, expected);
}

#[test]
fn the_header_has_the_readings_of_this_crate() {
    let listed: Vec<(String, Option<Reading>)> = defined()
        .into_iter()
        .filter_map(|(name, number)| Some((name.strip_prefix("READING_")?, number)))
        .map(|(name, number)| (name.replace('_', ""), Reading::try_from(number).ok()))
        .collect();
    let expected = [Reading::AsStored, Reading::OpenType]
        .map(|reading| (format!("{reading:?}").to_ascii_uppercase(), Some(reading)));
    assert_eq!(listed, expected);
}

#[test]
fn the_header_has_the_limits_of_this_crate() {
    let defined = defined();
    for (name, limit) in [
        ("JOB_BYTES", limits::JOB_BYTES),
        ("FACES", limits::FACES),
        ("OVERRIDES", limits::OVERRIDES),
        ("FAMILIES", limits::FAMILIES),
        ("FAMILY_FACES", limits::FAMILY_FACES),
        ("REQUESTS", limits::REQUESTS),
        ("OFFER_BYTES", limits::OFFER_BYTES),
    ] {
        let found = defined.iter().find(|(defined, _)| *defined == name);
        assert_eq!(
            found.map(|(_, number)| *number as usize),
            Some(limit),
            "{name}"
        );
    }
}

#[test]
fn the_header_has_the_places_of_an_offers_fields() {
    let defined = defined();
    let at = |name: &str| {
        let found = defined.iter().find(|(defined, _)| *defined == name);
        found.map(|(_, number)| *number as usize).expect(name)
    };
    let with = |name: &str, last: usize| {
        let mut bytes = [0; limits::OFFER_BYTES];
        bytes[at(name) + last] = 1;
        Offer::from_bytes(&bytes)
    };
    let none = Offer::from_bytes(&[0; limits::OFFER_BYTES]);
    assert_ne!(with("AT_FAMILY", 1).family, none.family);
    assert_ne!(with("AT_PLACE", 1).place, none.place);
    assert!(with("AT_EMBOLDEN", 0).embolden);
    assert_eq!(with("AT_SKEW", 0).skew, 1);
    assert_eq!(with("AT_SETTING_COUNT", 0).settings.len(), 1);
    assert_eq!(with("AT_CHARMAP_OFFSET", 3).charmap.offset, 1);
    assert!(with("AT_SYMBOL", 0).charmap.symbol);
    assert!(with("AT_MAC_ROMAN", 0).charmap.mac_roman);
    let mut bytes = [0; limits::OFFER_BYTES];
    bytes[at("AT_SETTING_COUNT")] = 1;
    bytes[at("AT_SETTINGS")..][..4].copy_from_slice(b"wght");
    let settings = Offer::from_bytes(&bytes).settings;
    assert_eq!(settings.value(Tag::WGHT), Some(0.0));
}
