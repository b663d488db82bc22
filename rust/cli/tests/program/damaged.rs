//! Fonts with a damaged table, such as of a file that was copied in part: one
//! that the attributes need is told by its name, and the face is not used.

use crate::{
    common::fonts,
    json::Value,
    run::{Folder, stemhook},
};

/// What is said of `half.ttf`.
const HALF: &str = "its OS/2 table ends at byte 206, the file at 205: the file is cut or damaged";

/// A regular face, and a bold one that has all but the last byte, which is of
/// `OS/2`. Its `head` does not say that it is bold.
fn folder(test: &str) -> Folder {
    let folder = Folder::new(test);
    folder.font("a.ttf", &fonts::weight(400));
    let tables = [
        (*b"cmap", fonts::cmap(3, 1)),
        (*b"head", fonts::head(0)),
        (*b"OS/2", fonts::os2(700, 5, 0)),
    ];
    let mut half = fonts::file([0, 1, 0, 0], &tables);
    folder.font("whole/b.ttf", &half);
    half.pop();
    folder.font("half.ttf", &half);
    folder
}

#[test]
fn a_bold_face_does_not_come_out_regular() {
    let folder = folder("damaged-bold");
    let [a, half, b] = ["a.ttf", "half.ttf", "whole/b.ttf"].map(|name| folder.file(name));
    let said = stemhook(["pick", "--weight=700", &a, &b]).well();
    assert!(said.contains(&format!("{b}: as it is;")), "{said}");
    for more in [&[][..], &["--whole"]] {
        let words = [&["pick", "--weight=700", &half, &a], more].concat();
        let (said, notes) = stemhook(words).well_with_notes();
        assert_eq!(notes, format!("stemhook: skipped {half}: {HALF}\n"));
        let expected = format!(
            "request 0: width 1, normal, weight 700\n\
             \x20 {a}: embolden; charmap at 134\n"
        );
        assert_eq!(said, expected);
    }
}

#[test]
fn neither_an_override_nor_not_held_rescues_it() {
    let folder = folder("damaged-override");
    let half = folder.file("half.ttf");
    for option in [
        "--override=half.ttf:width=1,style=normal,weight=700",
        "--not-held=half.ttf",
    ] {
        let (said, notes) = stemhook(["pick", folder.text(), option]).well_with_notes();
        assert!(!said.contains("half.ttf"), "{said}");
        assert!(notes.contains(&format!("skipped {half}: {HALF}\n")));
    }
}

#[test]
fn alone_it_is_a_failure() {
    let folder = folder("damaged-alone");
    let half = folder.file("half.ttf");
    let page = folder.file("page.html");
    for words in [
        vec!["pick", "-q", &half],
        vec!["list", "-q", &half],
        vec!["job", "-q", &half, "-o", &page],
        vec!["specimen", "-q", &half, "-o", &page],
    ] {
        let said = stemhook(words);
        assert_eq!(said.code, Some(1), "{said:?}");
        let expected = format!("stemhook: no font can be used: {half}: {HALF}\n");
        assert_eq!(said.err, expected);
    }
    assert!(!folder.names().contains(&"page.html".into()));
}

#[test]
fn a_list_says_which_table_it_is() {
    let folder = folder("damaged-list");
    let said = stemhook(["list", folder.text()]).well();
    let expected = format!(
        "{}:\n\
         \x20 a.ttf: width 1, normal, weight 400; charmap at 134\n\
         \x20 half.ttf: unusable: {HALF}\n\
         1 face, 1 unusable\n",
        folder.text()
    );
    assert_eq!(said, expected);
    let value = Value::read(&stemhook(["list", "--json", folder.text()]).well());
    let skipped = &value["skipped"][0];
    assert_eq!(skipped["file"].text(), folder.file("half.ttf"));
    assert_eq!(skipped["refusal"].number(), 31.0);
    assert_eq!(skipped["reason"].text(), HALF);
}

/// A font with a table of zeros, of some bytes, beside `cmap`; and `OS/2` with an
/// fsSelection.
fn with_table(tag: [u8; 4], length: usize, selection: Option<u16>) -> Vec<u8> {
    let mut tables = vec![(tag, vec![0; length]), (*b"cmap", fonts::cmap(3, 1))];
    tables.extend(selection.map(|bits| (*b"OS/2", fonts::os2(500, 3, bits))));
    fonts::file(*b"OTTO", &tables)
}

#[test]
fn each_table_by_its_name_where_it_is_needed() {
    let folder = Folder::new("damaged-tables");
    for (name, font, read) in [
        (
            "1.otf",
            with_table(*b"OS/2", 68, None),
            "unusable: its OS/2 table has 68 bytes, and 78 are needed: \
             an old form that OpenType allows; export the font again",
        ),
        (
            "2.otf",
            with_table(*b"head", 0, None),
            "unusable: its head table has no bytes, and 54 are needed",
        ),
        (
            "3.otf",
            with_table(*b"post", 31, Some(1 << 9)),
            "unusable: its post table has 31 bytes, and 32 are needed",
        ),
        // What is not needed changes nothing.
        (
            "4.otf",
            with_table(*b"head", 0, Some(0)),
            "width 0.75, normal, weight 500;",
        ),
        (
            "5.otf",
            with_table(*b"post", 0, Some(1)),
            "width 0.75, italic, weight 500;",
        ),
        (
            "6.otf",
            with_table(*b"post", 31, None),
            "width 1, normal, weight 400;",
        ),
        (
            "7.otf",
            with_table(*b"fvar", 15, Some(0)),
            "width 0.75, normal, weight 500; charmap",
        ),
    ] {
        folder.font(name, &font);
        let said = stemhook(["list", folder.text()]);
        let line = format!("\n  {name}: {read}");
        assert!(said.out.contains(&line), "{line} in {said:?}");
    }
}

#[test]
fn fonts_of_a_collection_by_number() {
    let folder = Folder::new("damaged-collection");
    let file = fonts::collected(&[fonts::weight(400), fonts::weight(700)]);
    // The last table is a `cmap` of 14 bytes, and `OS/2` stands before it.
    let end = file.len() - 14;
    let half = folder.font("half.ttc", &file[..end - 1]);
    let half = half.to_str().unwrap();
    let (said, notes) = stemhook(["pick", "--weight=700", half]).well_with_notes();
    assert!(said.contains(&format!("{half}#0: embolden;")), "{said}");
    let expected = format!(
        "stemhook: skipped {half}#1: its OS/2 table ends at byte {end}, the file at {}: \
         the file is cut or damaged\n",
        end - 1
    );
    assert_eq!(notes, expected);
}
