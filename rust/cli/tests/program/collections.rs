//! Collections: all their fonts, or one by FILE#N.

use std::fs;

use stemhook::{Job, RequestId};

use crate::{
    common::fonts::{self, SHARED},
    json::Value,
    run::{Folder, stemhook},
};

/// A folder with `two.ttc`, of the weights 400 and 700, and a lone font of 900.
fn folder(test: &str) -> Folder {
    let folder = Folder::new(test);
    folder.font("two.ttc", &fonts::collection(&[400, 700]));
    folder.font("x.ttf", &fonts::weight(900));
    folder
}

/// A collection of two fonts with another 32-bit number at a position.
fn changed(at: usize, number: u32) -> Vec<u8> {
    let mut file = fonts::collection(&[400, 700]);
    file[at..at + 4].copy_from_slice(&number.to_be_bytes());
    file
}

#[test]
fn all_fonts_are_faces_in_their_order() {
    let folder = folder("collections-all");
    let two = folder.file("two.ttc");
    let said = stemhook(["pick", "--weight=700", folder.text()]).well();
    let expected = format!(
        "request 0: width 1, normal, weight 700\n\
         \x20 {two}#1: as it is; charmap at {SHARED}\n\
         \x20 {two}#0: embolden; charmap at {SHARED}\n"
    );
    assert_eq!(said, expected);
    // It is known by its bytes, not by its name.
    let odd = folder.font("odd", &fonts::collection(&[400, 700]));
    let odd = odd.to_str().unwrap();
    let said = stemhook(["pick", "--weight=700", odd]).well();
    assert!(said.contains(&format!("{odd}#1: as it is;")), "{said}");
}

#[test]
fn one_font_by_its_number() {
    let folder = folder("collections-one");
    let [second, lone] = ["two.ttc#1", "x.ttf#0"].map(|name| folder.file(name));
    let said = stemhook(["pick", "--weight=900", &second, &lone]).well();
    let lines: Vec<&str> = said.lines().skip(1).collect();
    let x = folder.file("x.ttf");
    assert!(lines[0].starts_with(&format!("  {x}: as it is;")), "{said}");
    assert!(lines[1].starts_with(&format!("  {second}: ")), "{said}");
    assert_eq!(lines.len(), 2, "{said}");
}

#[test]
fn a_file_of_that_very_name_comes_first() {
    let folder = folder("collections-name");
    let name = folder.font("two.ttc#1", &fonts::weight(300));
    let name = name.to_str().unwrap();
    let said = stemhook(["list", name]).well();
    assert!(said.starts_with(&format!("{name}: width 1, normal, weight 300;")));
    let said = stemhook(["list", &format!("{name}#0")]).well();
    assert!(said.starts_with(&format!("{name}: ")), "{said}");
    let two = folder.file("two.ttc");
    let said = stemhook(["list", &two, name, "--override=two.ttc#1:weight=1"]).well();
    let parts: Vec<&str> = said.split("  after overrides: ").collect();
    let [_, after] = parts[..] else {
        panic!("{said}");
    };
    assert!(
        after.ends_with(" weight 1; charmap at 134\n3 faces, 0 unusable\n"),
        "{said}"
    );
    for name in ["none.ttc#1", "two.ttc#", "two.ttc#65536", "two.ttc#x"] {
        let name = folder.file(name);
        let message = stemhook(["pick", &name]).failure();
        let expected = format!("stemhook: {name}: No such file or directory\n");
        assert_eq!(message, expected);
    }
    let folder_font = format!("{}#0", folder.text());
    let message = stemhook(["pick", &folder_font]).failure();
    assert!(
        message.ends_with(": No such file or directory\n"),
        "{message}"
    );
}

#[test]
fn a_list_of_them() {
    let folder = folder("collections-list");
    let said = stemhook(["list", folder.text(), "--override=two.ttc#1:weight=650"]).well();
    let expected = format!(
        "{}:\n\
         \x20 two.ttc#0: width 1, normal, weight 400; charmap at {SHARED}\n\
         \x20 two.ttc#1: width 1, normal, weight 700; charmap at {SHARED}\n\
         \x20   after overrides: width 1, normal, weight 650; charmap at {SHARED}\n\
         \x20 x.ttf: width 1, normal, weight 900; charmap at 134\n\
         3 faces, 0 unusable\n",
        folder.text()
    );
    assert_eq!(said, expected);
    let value = Value::read(&stemhook(["list", "--json", folder.text()]).well());
    let numbers: Vec<_> = value["faces"].list().iter().map(|f| &f["number"]).collect();
    assert_eq!(
        numbers,
        [&Value::Number(0.0), &Value::Number(1.0), &Value::Null]
    );
}

#[test]
fn numbers_in_json() {
    let folder = folder("collections-json");
    folder.font("y.ttc", &changed(12, 0));
    let words = ["pick", "-q", "--json", "--weight=700", folder.text()];
    let value = Value::read(&stemhook(words).well());
    let family = &value["families"][0];
    let files = ["two.ttc", "two.ttc", "x.ttf", "y.ttc"].map(|name| folder.file(name));
    let listed: Vec<&str> = family["files"].list().iter().map(Value::text).collect();
    assert_eq!(listed, files);
    let (first, second) = (Value::Number(0.0), Value::Number(1.0));
    let expected = [&first, &second, &Value::Null, &second];
    assert_eq!(
        family["numbers"].list().iter().collect::<Vec<_>>(),
        expected
    );
    let offer = &value["requests"][0]["offers"][0];
    assert_eq!(offer["file"].text(), files[0]);
    assert_eq!(offer["number"], second);
    let skipped = &value["skipped"][0];
    assert_eq!(skipped.keys(), ["file", "number", "refusal", "reason"]);
    assert_eq!(skipped["file"].text(), files[3]);
    assert_eq!(
        (&skipped["number"], skipped["refusal"].number()),
        (&first, 21.0)
    );
}

#[test]
fn fonts_that_cannot_be_used_are_skipped_by_number() {
    let folder = folder("collections-skipped");
    let no_charmap = fonts::file([0, 1, 0, 0], &[(*b"OS/2", fonts::os2(400, 5, 0))]);
    folder.font(
        "a.ttc",
        &fonts::collected(&[no_charmap, fonts::weight(500)]),
    );
    folder.font("b.ttc", &changed(16, 9000));
    // What is wrong with the collection itself is told once.
    folder.font("c.ttc", &changed(8, 0));
    folder.font("d.ttc", &changed(8, u32::MAX));
    folder.font("e.ttc", b"ttcf....");
    let (out, notes) = stemhook(["pick", folder.text(), "--most=1"]).well_with_notes();
    assert!(out.contains("b.ttc#0: as it is"), "{out}");
    for (name, reason) in [
        ("a.ttc#0", "it has no cmap table"),
        ("b.ttc#1", "it begins at byte 9000, and the file ends at "),
        ("c.ttc", "the collection has no font"),
        (
            "d.ttc",
            "the offsets of the collection's 4294967295 fonts end at byte ",
        ),
        (
            "e.ttc",
            "the header of the collection (ttcf) ends at byte 12, ",
        ),
    ] {
        let line = format!("stemhook: skipped {}: {reason}", folder.file(name));
        assert!(notes.contains(&line), "{line} in {notes}");
    }
    assert_eq!(notes.lines().count(), 5, "{notes}");
}

#[test]
fn a_number_that_is_not_there() {
    let folder = folder("collections-number");
    for (name, reason) in [
        (
            "two.ttc#2",
            "the file has 2 fonts (0 to 1), and the number is 2",
        ),
        ("x.ttf#1", "the file has one font, and the number is 1"),
    ] {
        let name = folder.file(name);
        for command in ["pick", "list"] {
            let said = stemhook([command, "-q", &name]);
            assert_eq!(said.code, Some(1), "{said:?}");
            let expected = format!("stemhook: no font can be used: {name}: {reason}\n");
            assert_eq!(said.err, expected);
        }
        let value = Value::read(&stemhook(["list", "--json", &name]).out);
        assert_eq!(value["skipped"][0]["refusal"].number(), 30.0);
    }
}

#[test]
fn overrides_and_not_held_of_all_or_one() {
    let folder = folder("collections-options");
    let two = folder.file("two.ttc");
    let pick = |words: &[&str]| stemhook([&["pick", &two, "--weight=700"], words].concat());
    let said = pick(&["--not-held=two.ttc#1"]).well();
    assert!(
        said.contains("#0: embolden") && !said.contains("#1"),
        "{said}"
    );
    let said = pick(&["--not-held", &two]).well();
    assert!(said.ends_with("\n  no face is offered\n"), "{said}");
    let said = pick(&["--override=two.ttc#0:weight=700", "--most=1"]).well();
    assert!(said.contains("#0: as it is"), "{said}");
    let said = pick(&["--override=two.ttc:weight=300"]).well();
    assert_eq!(said.matches(": embolden;").count(), 2, "{said}");
    for option in ["--override=two.ttc#2:weight=1", "--not-held=two.ttc#2"] {
        let message = pick(&[option]).failure();
        let end = " two.ttc#2: no such file is among the fonts\n";
        assert!(message.ends_with(end), "{message}");
    }
}

#[test]
fn a_job_has_each_font_once() {
    let folder = folder("collections-job");
    let job = folder.file("out.job");
    let names = ["two.ttc#1", "two.ttc", "x.ttf#0", "x.ttf"];
    let [second, two, lone, x] = names.map(|name| folder.file(name));
    let words = [
        "job",
        &second,
        &lone,
        "--family",
        &two,
        "--fallback",
        &two,
        &x,
        "-o",
        &job,
    ];
    let (_, notes) = stemhook(words).well_with_notes();
    let expected = "faces 3, families 3, requests 1\n";
    assert!(notes.ends_with(expected), "{notes}");
    let (_, notes) = stemhook([&words[..], &["--whole"]].concat()).well_with_notes();
    assert!(notes.ends_with(expected), "{notes}");
    let bytes = fs::read(&job).unwrap();
    let file = fonts::collection(&[400, 700]);
    // The number 1 stands behind the file, then the next face.
    let after = 7 + file.len();
    assert_eq!(bytes[7..after], file);
    assert_eq!(bytes[after..after + 3], [0, 1, 1]);
    let read = Job::new(&bytes).unwrap();
    let offer = read.offer(RequestId::new(0), 0).unwrap().unwrap();
    assert_eq!(read.font(&offer).unwrap().number, 1);
    assert_eq!(offer.charmap.offset as usize, SHARED);
}

#[test]
fn whole_files_give_the_same() {
    let folder = folder("collections-whole");
    let words = ["pick", "--json", "--weight=650", folder.text()];
    let whole = stemhook([&words[..], &["--whole"]].concat()).well();
    assert_eq!(stemhook(words).well(), whole);
}

/// What is said of a family that is too large for a collection in it.
fn over_full(family: &str, file: &str, fonts: usize) -> String {
    format!(
        "stemhook: {family}: a family has at most 64 faces, and {file} has {fonts} fonts: \
         name fewer files, or single fonts as FILE#N\n"
    )
}

#[test]
fn a_family_of_more_than_64_fonts() {
    let folder = Folder::new("collections-limit");
    // The limit of a job, 256, is not met first.
    for fonts in [65, 300] {
        let many = folder.font("many.ttc", &fonts::collection(&vec![400; fonts]));
        let many = many.to_str().unwrap();
        let message = stemhook(["pick", many]).failure();
        assert_eq!(message, over_full(many, "many.ttc", fonts));
        let last = format!("{many}#{}", fonts - 1);
        let said = stemhook(["pick", &last]).well();
        assert!(said.contains(&format!("{last}: as it is;")), "{said}");
        let list = stemhook(["list", many]).well();
        let end = format!("\n{fonts} faces, 0 unusable\n");
        assert!(list.ends_with(&end), "{list}");
    }
}

#[test]
fn a_collection_that_does_not_fit_beside_others() {
    for (name, file) in [("first", "a.ttc"), ("last", "z.ttc")] {
        let folder = Folder::new(&format!("collections-beside-{name}"));
        for lone in ["b.ttf", "c.ttf", "d.ttf"] {
            folder.font(lone, &fonts::weight(400));
        }
        folder.font(file, &fonts::collection(&[400; 61]));
        assert_eq!(stemhook(["pick", folder.text()]).code, Some(0));
        folder.font(file, &fonts::collection(&[400; 62]));
        let message = stemhook(["pick", folder.text()]).failure();
        assert_eq!(message, over_full(folder.text(), file, 62));
    }
}

/// A collection whose offsets are all 0: none of its fonts can be used.
fn unusable(fonts: u32) -> Vec<u8> {
    let mut file = b"ttcf\0\x01\0\0".to_vec();
    file.extend(fonts.to_be_bytes());
    file.resize(12 + 4 * fonts as usize, 0);
    file
}

#[test]
fn many_fonts_that_cannot_be_used() {
    let folder = folder("collections-many");
    let name = folder.file("x.ttc");
    for (fonts, more) in [
        (8, None),
        (9, Some("and 1 more font of this file cannot be used")),
        (20, Some("and 12 more fonts of this file cannot be used")),
    ] {
        folder.font("x.ttc", &unusable(fonts));
        let (_, notes) = stemhook(["pick", folder.text()]).well_with_notes();
        let skipped: Vec<&str> = notes.lines().collect();
        assert!(skipped[7].starts_with(&format!("stemhook: skipped {name}#7: ")));
        let told = more.map(|more| format!("stemhook: skipped {name}: {more}"));
        assert_eq!(skipped.get(8).copied(), told.as_deref());
        assert_eq!(skipped.len(), 8 + usize::from(more.is_some()), "{notes}");
        let list = stemhook(["list", folder.text()]).well();
        let lines: Vec<&str> = list.lines().skip(3).collect();
        assert!(lines[7].starts_with("  x.ttc#7: unusable: "), "{list}");
        let told = more.map(|more| format!("  x.ttc: {more}"));
        assert_eq!(
            lines.get(8).copied().filter(|_| more.is_some()),
            told.as_deref()
        );
        let end = format!("\n3 faces, {fonts} unusable\n");
        assert!(list.ends_with(&end), "{list}");
        let value = Value::read(&stemhook(["list", "--json", folder.text()]).well());
        assert_eq!(value["skipped"].list().len(), fonts as usize);
    }
}

#[test]
fn fonts_without_a_number() {
    let folder = folder("collections-numbers");
    let name = folder.file("x.ttc");
    for fonts in [65_536, 65_537] {
        folder.font("x.ttc", &unusable(fonts));
        let (_, notes) = stemhook(["pick", folder.text()]).well_with_notes();
        assert_eq!(notes.lines().count(), 9, "{notes}");
        let reason = "it has 65537 fonts: those past number 65535 cannot be numbered";
        let said = notes.starts_with(&format!("stemhook: skipped {name}: {reason}\n"));
        assert_eq!(said, fonts == 65_537, "{notes}");
        let list = stemhook(["list", folder.text()]).well();
        let line = format!("  x.ttc: unusable: {reason}\n");
        assert_eq!(list.contains(&line), fonts == 65_537, "{list}");
    }
}
