//! The page that `specimen` writes.

use std::fs;

use crate::{
    common::fonts,
    run::{Folder, stemhook, variable},
};

/// The page of some words, and what was said of it.
fn page(folder: &Folder, words: &[&str]) -> (String, String) {
    let page = folder.file("page.html");
    let (out, notes) = stemhook([&["specimen", "-o", &page], words].concat()).well_with_notes();
    assert_eq!(out, "");
    (fs::read_to_string(page).unwrap(), notes)
}

/// The text between two others, each time.
pub fn between<'a>(page: &'a str, start: &str, end: &str) -> Vec<&'a str> {
    let pieces = page.split(start).skip(1);
    pieces
        .map(|piece| piece.split(end).next().unwrap())
        .collect()
}

/// The bytes of base64, held to its rules.
pub fn decoded(text: &str) -> Vec<u8> {
    let value = |digit: u8| match digit {
        b'A'..=b'Z' => u32::from(digit - b'A'),
        b'a'..=b'z' => u32::from(digit - b'a') + 26,
        b'0'..=b'9' => u32::from(digit - b'0') + 52,
        b'+' => 62,
        b'/' => 63,
        b'=' => 0,
        other => panic!("a digit {other}"),
    };
    assert!(text.len().is_multiple_of(4));
    let digits = text.as_bytes().chunks(4);
    let mut bytes: Vec<u8> = digits
        .flat_map(|four| {
            let bits = four.iter().fold(0, |bits, digit| bits << 6 | value(*digit));
            [(bits >> 16) as u8, (bits >> 8) as u8, bits as u8]
        })
        .collect();
    bytes.truncate(bytes.len() - text.matches('=').count());
    bytes
}

#[test]
fn a_row_for_each_offer_and_a_font_for_each_face() {
    let folder = Folder::with_two("page-rows");
    folder.font("v/v.otf", &variable());
    folder.font("c.ttf", &fonts::weight(900));
    let requests = folder.font("list.txt", b"weight=700\nweight=400\nmost=0\n");
    let v = folder.file("v");
    let words = [
        folder.text(),
        "--fallback",
        &v,
        "--requests",
        requests.to_str().unwrap(),
    ];
    let (page, notes) = page(&folder, &words);
    assert!(notes.ends_with("page.html: 3 requests, 5 offers, 3 fonts\n"));

    assert_eq!(
        between(&page, "<section class=\"request\">", "</section>").len(),
        3
    );
    let rows = between(&page, "<li class=\"offer\">", "</li>");
    assert_eq!(rows.len(), 5);
    let names: Vec<_> = rows.iter().map(|row| between(row, "\">", "</b>")).collect();
    let files = ["b.ttf", "a.ttf", "v.otf", "a.ttf", "v.otf"];
    for (name, file) in names.iter().zip(files) {
        assert!(name.iter().any(|text| text.ends_with(file)), "{name:?}");
    }
    assert_eq!(page.matches("No face is offered.").count(), 1);

    let embedded: Vec<_> = between(&page, ";base64,", ")")
        .into_iter()
        .map(decoded)
        .collect();
    let fonts = [fonts::weight(400), fonts::weight(700), variable()];
    assert_eq!(embedded.len(), 1 + fonts.len());
    assert_eq!(embedded[1..], fonts);
    let kinds = between(&page, "url(data:", ";");
    assert_eq!(kinds, ["font/ttf", "font/ttf", "font/ttf", "font/otf"]);
}

/// A font of a collection is on the page as a file of its own.
#[test]
fn fonts_of_collections_are_taken_out() {
    let folder = Folder::new("page-collection");
    let two = fonts::collection(&[400, 700]);
    let other = fonts::collected(&[fonts::weight(300), variable()]);
    let a = folder.font("a.ttc", &two);
    folder.font("b.ttc", &other);
    let (a, b) = (a.to_str().unwrap(), folder.file("b.ttc#1"));
    let (page, notes) = page(&folder, &[a, "--fallback", &b, "--weight=700"]);
    let expected = "page.html: 1 request, 3 offers, 3 fonts\n";
    assert!(notes.ends_with(expected), "{notes}");
    for number in [0, 1] {
        let row = format!("<b title=\"{a}#{number}\">a.ttc#{number}</b>");
        assert!(page.contains(&row), "{row}");
    }
    let embedded = between(&page, ";base64,", ")");
    let embedded: Vec<_> = embedded.into_iter().skip(1).map(decoded).collect();
    let files = [(&two, 0), (&two, 1), (&other, 1)];
    assert_eq!(embedded.len(), files.len());
    for (font, (file, number)) in embedded.iter().zip(files) {
        let mut read = plain::font::read(font, 0, 0).unwrap();
        let own = plain::font::read(file, 0, number).unwrap();
        let subtable = |file: &[u8], at: u32| file[at as usize..][..2].to_vec();
        assert_eq!(
            subtable(font, read.charmap.offset),
            subtable(file, own.charmap.offset)
        );
        read.charmap.offset = own.charmap.offset;
        assert_eq!(read, own);
    }
    let kinds = between(&page, "url(data:", ";");
    assert_eq!(kinds, ["font/ttf", "font/ttf", "font/ttf", "font/otf"]);
}

/// The page of a variable face, and of a static one as a fallback, under a
/// reading where one is given.
fn page_of_two(folder: &Folder, reading: &[&str]) -> String {
    let axes = [
        (*b"wght", 100, 400, 900),
        (*b"slnt", -10, 0, 0),
        (*b"opsz", 8, 12, 72),
    ];
    folder.font("v/v.otf", &fonts::variable(&axes));
    let (v, a) = (folder.file("v"), folder.file("a.ttf"));
    let words = [
        &v,
        "--fallback",
        &a,
        "--weight=650.5",
        "--style=italic",
        "--text=two words",
    ];
    page(folder, &[&words[..], reading].concat()).0
}

#[test]
fn axes_are_set_and_marked() {
    let page = page_of_two(&Folder::with_two("page-axes"), &[]);
    let rows = between(&page, "<li class=\"offer\">", "</li>");
    assert_eq!(rows.len(), 2);
    // Every axis is set, those of the offer and the others to their defaults.
    let style = "font-family:face-0,boxes;\
                 font-variation-settings:'wght' 650.5,'slnt' 14,'opsz' 12";
    assert_eq!(between(rows[0], "style=\"", "\""), [style]);
    assert!(rows[0].contains(">two words</p>"));
    assert_eq!(
        between(rows[0], "class=\"done\">", "<"),
        ["wght=650.5", "slnt=14"]
    );
    let mark = "outside the axis: slnt 14, range -10 to 0";
    assert_eq!(between(rows[0], "class=\"mark\">", "<"), [mark]);
}

/// Under the other reading `slnt` leans right, the skew stays, and the page says
/// which reading it is; the usual one it does not say.
#[test]
fn the_reading_is_on_the_page() {
    let folder = Folder::with_two("page-turned");
    let usual = page_of_two(&folder, &[]);
    assert_eq!(page_of_two(&folder, &["--reading=stored"]), usual);
    assert!(!usual.contains("reading"));
    let page = page_of_two(&folder, &["--reading=opentype"]);
    let told = "<p>1 request, 2 offers, 2 fonts; reading opentype</p>";
    assert!(page.contains(told));
    let turned = usual
        .replace("<p>1 request, 2 offers, 2 fonts</p>", told)
        .replace("'slnt' 14", "'slnt' -14")
        .replace("slnt=14", "slnt=-14")
        .replace("slnt 14", "slnt -14");
    assert_eq!(page, turned);
    assert_ne!(page, usual);
}

#[test]
fn a_face_is_emboldened_and_skewed() {
    let page = page_of_two(&Folder::with_two("page-skew"), &[]);
    let rows = between(&page, "<li class=\"offer\">", "</li>");
    let style = "font-family:face-1,boxes;--skew:-14deg";
    assert_eq!(between(rows[1], "style=\"", "\""), [style]);
    assert!(rows[1].contains("<p class=\"sample embolden skew\""));
    assert!(rows[1].contains("><span>two</span> <span>words</span></p>"));
    assert_eq!(
        between(rows[1], "class=\"done\">", "<"),
        ["embolden", "skew 14"]
    );
    assert_eq!(
        between(rows[1], "class=\"charmap\">", "<"),
        ["charmap at 134"]
    );
    assert!(!rows[1].contains("class=\"mark\""));
    assert!(page.contains("<dt>weight</dt><dd>650.5</dd>"));
    assert!(page.contains("<dt>style</dt><dd>italic</dd>"));
}

#[test]
fn an_axis_whose_tag_is_odd() {
    let folder = Folder::new("page-tags");
    let tags = [*b"a'\\\"", *b"<&>;", [0, 1, 2, 0xff], *b"wght", *b"wght"];
    let axes = tags.map(|tag| (tag, 0, 1, 2));
    folder.font("v.otf", &fonts::variable(&axes));
    let (page, _) = page(&folder, &[folder.text(), "--weight=3"]);
    let style = "font-family:face-0,boxes;font-variation-settings:\
                 'a\\&#39;\\\\&quot;' 1,'&lt;&amp;&gt;;' 1,'wght' 3";
    assert_eq!(between(&page, "style=\"", "\""), [style]);
    let mark = "outside the axis: wght 3, range 0 to 2";
    assert_eq!(between(&page, "class=\"mark\">", "<"), [mark]);
}

#[test]
fn nothing_given_is_markup() {
    let folder = Folder::new("page-markup");
    let name = "<script>alert(1)<\u{7}&\"'style>.ttf";
    folder.font(name, &fonts::weight(400));
    let text = "</p><script>\"&'\u{0}";
    let text = text.replace('\u{0}', "\u{1}");
    let (page, _) = page(&folder, &[folder.text(), "--text", &text]);
    assert!(!page.contains("<script"), "a script");
    assert!(!page.contains("http"), "something outside the page");
    assert!(page.contains("&lt;/p&gt;&lt;script&gt;&quot;&amp;&#39;\u{fffd}</p>"));
    let shown = "&lt;script&gt;alert(1)&lt;\\u{7}&amp;&quot;&#39;style&gt;.ttf</b>";
    assert!(page.contains(shown));
    let controls = page
        .chars()
        .filter(|c| c.is_control() && *c != '\n')
        .count();
    assert_eq!(controls, 0);
    // Each element that is opened is closed.
    for element in [
        "section", "div", "ol", "li", "p", "b", "span", "dl", "dt", "dd", "style",
    ] {
        let opened = page.matches(&format!("<{element}>")).count()
            + page.matches(&format!("<{element} ")).count();
        let closed = page.matches(&format!("</{element}>")).count();
        assert_eq!(opened, closed, "{element}");
    }
}

#[test]
fn a_text_is_set_where_none_is_given() {
    let folder = Folder::with_two("page-text");
    let (page, notes) = page(&folder, &[folder.text()]);
    assert!(page.contains(">Sphinx of black quartz, judge my vow</p>"));
    assert!(
        notes.ends_with("page.html: 1 request, 1 offer, 1 font\n"),
        "{notes}"
    );
}
