//! The command `pick`: its lines and its JSON.

use crate::{
    common::fonts,
    json::Value,
    run::{Folder, stemhook, variable},
};

/// The charmap of the fonts made here: after 2 or 3 tables, OS/2 and one record.
const TWO_TABLES: usize = 12 + 2 * 16 + 78 + 12;
const THREE_TABLES: usize = TWO_TABLES + 16;

#[test]
fn offers_with_all_that_is_to_be_done() {
    let folder = Folder::with_two("pick-lines");
    let (a, b) = (folder.file("a.ttf"), folder.file("b.ttf"));
    folder.font("v/v.otf", &variable());
    let v = folder.file("v/v.otf");

    let said = stemhook(["pick", folder.text(), "--weight", "700"]).well();
    let expected = format!(
        "request 0: width 1, normal, weight 700\n\
         \x20 {b}: as it is; charmap at {TWO_TABLES}\n\
         \x20 {a}: embolden; charmap at {TWO_TABLES}\n"
    );
    assert_eq!(said, expected);

    let words = ["pick", "--fallback", &a, "--family", &v];
    let asked = ["--weight=650.5", "--width=0.75", "--style=italic"];
    let said = stemhook([&words[..], &asked].concat()).well();
    let expected = format!(
        "request 0: width 0.75, italic, weight 650.5\n\
         \x20 {v}: wdth=75, wght=650.5, skew 14; charmap at {THREE_TABLES}\n\
         \x20 {a}: embolden, skew 14; charmap at {TWO_TABLES}\n"
    );
    assert_eq!(said, expected);

    let said = stemhook(["pick", "--style", "oblique:-7.9", &a]).well();
    let expected = format!(
        "request 0: width 1, oblique -7.9, weight 400\n\
         \x20 {a}: skew -7; charmap at {TWO_TABLES}\n"
    );
    assert_eq!(said, expected);

    let said = stemhook(["pick", "--style=oblique", "--most", "0", &a]).well();
    let expected = "request 0: width 1, oblique, weight 400, most 0\n  no face is offered\n";
    assert_eq!(said, expected);
}

/// Faces that lean by 12 degrees, right and left, and one with a slant axis.
fn leaning(folder: &Folder) -> [String; 3] {
    folder.font("l.ttf", &fonts::oblique(12));
    folder.font("r.ttf", &fonts::oblique(-12));
    folder.font("v.otf", &fonts::variable(&[(*b"slnt", -10, 0, 0)]));
    ["l.ttf", "r.ttf", "v.otf"].map(|name| folder.file(name))
}

/// The faces that are offered, and what is to be done to them.
fn offered(words: &[&str]) -> Vec<String> {
    let said = stemhook([&["pick"], words].concat()).well();
    let lines = said.lines().skip(1);
    lines
        .map(|line| line.trim_start().split(';').next().unwrap().to_owned())
        .collect()
}

#[test]
fn the_reading_says_which_way_a_face_leans() {
    let folder = Folder::new("pick-readings");
    let [left, right, slanting] = leaning(&folder);
    let asked = ["--style=oblique:12", &left, &right, "--fallback", &slanting];
    for (reading, face, value) in [
        (&[][..], &left, "12"),
        (&["--reading=stored"], &left, "12"),
        (&["--reading=opentype", "--reading=stored"], &left, "12"),
        (&["--reading", "opentype"], &right, "-12"),
    ] {
        let expected = [
            format!("{face}: as it is"),
            format!("{slanting}: slnt={value}"),
        ];
        let said = offered(&[reading, &asked].concat());
        assert_eq!(said, expected, "{reading:?}");
    }
    // The angle of an override is taken as given.
    let given = [
        "--override=l.ttf:style=oblique:12",
        "--override=r.ttf:style=italic",
    ];
    for reading in ["--reading=stored", "--reading=opentype"] {
        let said = offered(&[&[reading, "--most=1"], &given[..], &asked].concat());
        assert_eq!(said, [format!("{left}: as it is")], "{reading}");
    }
}

#[test]
fn json_of_the_other_reading() {
    let folder = Folder::new("pick-json-reading");
    let [_, _, slanting] = leaning(&folder);
    let words = ["pick", "--json", "--reading=opentype", "--style=italic"];
    let said = stemhook([&words[..], &[slanting.as_str()]].concat()).well();
    let value = Value::read(&said);
    assert_eq!(value["reading"].text(), "opentype");
    let setting = &value["requests"][0]["offers"][0]["settings"][0];
    assert_eq!(
        (setting["tag"].text(), setting["value"].number()),
        ("slnt", -14.0)
    );
}

#[test]
fn symbol_and_mac_roman_charmaps() {
    let folder = Folder::new("pick-charmaps");
    for (name, platform, words) in [("s.ttf", 3, "symbol"), ("m.ttf", 1, "Mac Roman")] {
        let tables = [(*b"cmap", fonts::cmap(platform, 0))];
        let path = folder.font(name, &fonts::file([0, 1, 0, 0], &tables));
        let said = stemhook(["pick".as_ref(), path.as_os_str()]).well();
        assert!(
            said.ends_with(&format!("charmap at 40 ({words})\n")),
            "{said}"
        );
    }
}

#[test]
fn overrides_by_path_and_by_name() {
    let folder = Folder::with_two("pick-overrides");
    folder.font("v/v.otf", &variable());
    let (a, v) = (folder.file("a.ttf"), folder.file("v/v.otf"));
    for given in [
        "a.ttf:weight=700,style=italic",
        &format!("{a}:weight=700,style=italic"),
    ] {
        let words = ["pick", folder.text(), "--weight=700", "--style=italic"];
        let said = stemhook([&words[..], &["--override", given, "--most=1"]].concat()).well();
        assert!(said.contains(&format!("\n  {a}: as it is;")), "{said}");
    }
    // Later ones win; an axis's default that is asked for needs no setting.
    let words = ["pick", &v, "--weight=650", "--override=v.otf:wght=100"];
    let said = stemhook([&words[..], &["--override=v.otf:wght=650"]].concat()).well();
    assert!(said.contains(&format!("\n  {v}: as it is;")), "{said}");

    let words = ["pick", folder.text(), "--override", "c.ttf:weight=1"];
    let message = stemhook(words).failure();
    let expected = "stemhook: --override c.ttf: no such file is among the fonts\n";
    assert_eq!(message, expected);
}

#[test]
fn faces_that_are_not_held() {
    let folder = Folder::with_two("pick-not-held");
    let (a, b) = (folder.file("a.ttf"), folder.file("b.ttf"));
    let words = ["pick", folder.text(), "--weight=700", "--not-held"];
    let said = stemhook([&words[..], &["b.ttf"]].concat()).well();
    assert!(said.contains(&a) && !said.contains(&b), "{said}");
    let said = stemhook([&words[..], &[a.as_str()]].concat()).well();
    assert!(said.contains(&b) && !said.contains(&a), "{said}");
    let said = stemhook([&words[..], &["a.ttf", "--not-held=b.ttf"]].concat()).well();
    assert!(said.ends_with("\n  no face is offered\n"), "{said}");
    let message = stemhook([&words[..], &["c.ttf"]].concat()).failure();
    let expected = "stemhook: --not-held c.ttf: no such file is among the fonts\n";
    assert_eq!(message, expected);
}

#[test]
fn whole_files_give_the_same() {
    let folder = Folder::with_two("pick-whole");
    folder.font("v/v.otf", &variable());
    let words = ["pick", "-r", "--json", "--weight=650", folder.text()];
    let whole = stemhook([&words[..], &["--whole"]].concat()).well();
    assert_eq!(stemhook(words).well(), whole);
}

/// The JSON of a family of two, and of a fallback with a file that is skipped.
fn json_of_two_families(folder: &Folder) -> Value {
    folder.font("v/v.otf", &variable());
    folder.font("v/w.woff", b"wOFF and more");
    let v = folder.file("v");
    let words = [
        "pick",
        folder.text(),
        "--fallback",
        &v,
        "--json",
        "--most=3",
    ];
    let asked = ["--weight=650.5", "--style=oblique:9.5", "--width=0.75"];
    let said = stemhook([&words[..], &asked].concat());
    Value::read(&said.well_with_notes().0)
}

#[test]
fn json_of_families_requests_and_skipped_files() {
    let folder = Folder::with_two("pick-json");
    let value = json_of_two_families(&folder);
    assert_eq!(value.keys(), ["reading", "families", "requests", "skipped"]);
    assert_eq!(value["reading"].text(), "stored");

    let families = value["families"].list();
    assert_eq!(families.len(), 2);
    assert_eq!(families[0]["folder"].text(), folder.text());
    assert_eq!(families[0]["files"][1].text(), folder.file("b.ttf"));
    assert_eq!(families[0]["numbers"][1], Value::Null);
    assert_eq!(families[1]["fallback"], Value::Bool(true));
    assert_eq!(families[1]["files"].list().len(), 1);

    let request = &value["requests"][0];
    assert_eq!(request.keys(), ["attributes", "most", "offers"]);
    let attributes = &request["attributes"];
    assert_eq!(attributes.keys(), ["width", "style", "angle", "weight"]);
    assert_eq!(attributes["style"].text(), "oblique");
    assert_eq!(attributes["angle"].number(), 9.5);
    assert_eq!(attributes["width"].number(), 0.75);
    assert_eq!(request["most"].number(), 3.0);

    let skipped = &value["skipped"][0];
    assert_eq!(skipped["file"].text(), folder.file("v/w.woff"));
    assert_eq!(skipped["refusal"].number(), 21.0);
    assert!(skipped["reason"].text().starts_with("a WOFF file"));
}

#[test]
fn json_of_offers() {
    let folder = Folder::with_two("pick-json-offers");
    let value = json_of_two_families(&folder);
    let offers = &value["requests"][0]["offers"];
    let offer = &offers[2];
    let keys = [
        "file", "number", "family", "place", "settings", "embolden", "skew", "charmap",
    ];
    assert_eq!(offer.keys(), keys);
    assert_eq!(offer["file"].text(), folder.file("v/v.otf"));
    assert_eq!(
        (offer["family"].number(), offer["place"].number()),
        (1.0, 0.0)
    );
    assert_eq!(offer["settings"][0]["tag"].text(), "wdth");
    assert_eq!(offer["settings"][0]["value"].number(), 75.0);
    assert_eq!(offer["settings"][1]["value"].number(), 650.5);
    assert_eq!(offer["embolden"], Value::Bool(false));
    assert_eq!(offers[1]["embolden"], Value::Bool(true));
    assert_eq!(offer["skew"].number(), 9.0);
    assert_eq!(offer["charmap"].keys(), ["offset", "symbol", "macRoman"]);
    assert_eq!(offer["charmap"]["offset"].number(), THREE_TABLES as f64);
}
