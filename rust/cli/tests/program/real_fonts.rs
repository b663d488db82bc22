//! Real fonts: files of Debian's packages, which `tools/install-fonts` installs.
//! STEMHOOK_FONTS names the folder of fonts, if it is not Debian's.

use std::{collections::HashMap, env, fs};

use crate::{
    common,
    json::Value,
    page::{between, decoded},
    run::{Folder, stemhook},
};

const DEJAVU: &str = "truetype/dejavu";
const CANTARELL: &str = "opentype/cantarell";
const INTER: &str = "truetype/inter-vf";
/// Solothurn lies here, perhaps with other fonts.
const ADF: &str = "truetype/adf";
/// A collection of two fonts lies here.
const WQY: &str = "truetype/wqy";

/// The three folders, if they are there; else the test is skipped.
fn folders(test: &str) -> Option<[String; 3]> {
    these(test, [DEJAVU, CANTARELL, INTER])
}

/// Folders of fonts, if they are there; else the test is skipped.
fn these<const N: usize>(test: &str, names: [&str; N]) -> Option<[String; N]> {
    let fonts = env::var("STEMHOOK_FONTS").unwrap_or_else(|_| "/usr/share/fonts".into());
    let folders = names.map(|name| format!("{fonts}/{name}"));
    if let Some(missing) = folders.iter().find(|folder| fs::metadata(folder).is_err()) {
        let lack = format!("{missing} is not there: run tools/install-fonts");
        common::skip(test, &lack);
        return None;
    }
    Some(folders)
}

#[test]
fn the_files_that_are_offered() {
    let Some([dejavu, cantarell, inter]) = folders("the_files_that_are_offered") else {
        return;
    };
    let inter = format!("{inter}/Inter.var.ttf");
    let sans = ["DejaVuSans.ttf", "DejaVuSans-Bold.ttf"].map(|name| format!("{dejavu}/{name}"));
    let words = [
        "pick",
        &inter,
        "--fallback",
        &sans[0],
        &sans[1],
        "--fallback",
        &cantarell,
    ];
    let asked = ["--weight", "650", "--style", "oblique:12"];
    let said = stemhook([&words[..], &asked].concat()).well();
    let lines: Vec<&str> = said
        .lines()
        .map(|line| line.split(';').next().unwrap())
        .collect();
    let expected = [
        "request 0: width 1, oblique 12, weight 650".to_owned(),
        format!("  {inter}: wght=650, slnt=12"),
        format!("  {}: skew 12", sans[1]),
        format!("  {}: embolden, skew 12", sans[0]),
        format!("  {cantarell}/Cantarell-Bold.otf: skew 12"),
        format!("  {cantarell}/Cantarell-Regular.otf: embolden, skew 12"),
    ];
    assert_eq!(lines, expected);
}

/// Inter's slant axis leans right under the other reading; a skew does under
/// both.
#[test]
fn a_slant_axis_leans_right() {
    let Some([dejavu, _, inter]) = folders("a_slant_axis_leans_right") else {
        return;
    };
    let inter = format!("{inter}/Inter.var.ttf");
    let sans = format!("{dejavu}/DejaVuSans.ttf");
    for (reading, value) in [("stored", 12), ("opentype", -12)] {
        let words = ["pick", &inter, "--fallback", &sans, "--style=oblique:12"];
        let said = stemhook([&words[..], &["--reading", reading]].concat()).well();
        let lines = said.lines().map(|line| line.split(';').next().unwrap());
        let expected = [
            "request 0: width 1, oblique 12, weight 400".to_owned(),
            format!("  {inter}: slnt={value}"),
            format!("  {sans}: skew 12"),
        ];
        assert_eq!(lines.collect::<Vec<_>>(), expected, "{reading}");
    }
}

/// A static oblique is offered for the lean that it has under the other
/// reading; under the usual one it counts as leaning left, and the upright face
/// is skewed.
#[test]
fn an_oblique_leans_right() {
    let Some([adf]) = these("an_oblique_leans_right", [ADF]) else {
        return;
    };
    let [bold, oblique] = ["Bold", "BoldOblique"].map(|end| format!("{adf}/Solothurn-{end}.otf"));
    for (reading, face, done, angle) in [
        ("stored", &bold, "skew 12", -10),
        ("opentype", &oblique, "as it is", 10),
    ] {
        let words = ["pick", "--weight=700", "--style=oblique:12", "--most=1"];
        let files = ["--reading", reading, &bold, &oblique];
        let said = stemhook([&words[..], &files].concat()).well();
        assert!(said.contains(&format!("\n  {face}: {done};")), "{said}");
        let said = stemhook(["list", "--reading", reading, &oblique]).well();
        let start = format!("{oblique}: width 1, oblique {angle}, weight 700;");
        assert!(said.starts_with(&start), "{said}");
    }
}

/// What `list` says of a charmap is what the picker offers, file by file.
#[test]
fn the_plain_reading_and_the_picker_agree() {
    let Some(folders) = folders("the_plain_reading_and_the_picker_agree") else {
        return;
    };
    let folders = folders.each_ref().map(String::as_str);
    let list = stemhook([&["list", "--json"], &folders[..]].concat()).well();
    let list = Value::read(&list);
    let faces = list["faces"].list();
    assert!(faces.len() >= 33 && list["skipped"].list().is_empty());
    let listed: HashMap<&str, &Value> = faces
        .iter()
        .map(|face| (face["file"].text(), &face["read"]))
        .collect();
    let mut compared = 0;
    for (file, read) in listed {
        let picked = stemhook(["pick", "--json", file]).well();
        let picked = Value::read(&picked);
        let offers = picked["requests"][0]["offers"].list();
        assert_eq!(offers.len(), 1, "{file}");
        assert_eq!(offers[0]["charmap"], read["charmap"], "{file}");
        compared += 1;
    }
    assert_eq!(compared, faces.len());
}

#[test]
fn a_page_of_them() {
    let Some([dejavu, cantarell, inter]) = folders("a_page_of_them") else {
        return;
    };
    let folder = Folder::new("real-page");
    let page = folder.file("page.html");
    let words = [
        "specimen",
        "-q",
        &inter,
        &cantarell,
        "--fallback",
        &dejavu,
        "-o",
        &page,
    ];
    stemhook([&words[..], &["--style=italic", "--weight=900"]].concat()).well();
    let html = fs::read_to_string(&page).unwrap();
    let said = stemhook([&["pick"], &words[2..6], &["--style=italic", "--weight=900"]].concat());
    let said = said.well();
    assert_eq!(
        html.matches("<li class=\"offer\">").count(),
        said.lines().count() - 1
    );
    assert!(html.ends_with("</html>\n"));
}

/// Both fonts of a collection are offered, and from a page's own files the same.
#[test]
fn a_collection_and_its_fonts_taken_out() {
    let Some([wqy]) = these("a_collection_and_its_fonts_taken_out", [WQY]) else {
        return;
    };
    let file = format!("{wqy}/wqy-microhei.ttc");
    let said = stemhook(["pick", &wqy, "--weight=650", "--style=italic"]).well();
    let (lines, whole) = (said.lines().skip(1), ["--whole", "--style=italic"]);
    let lines: Vec<&str> = lines.map(|line| line.split(';').next().unwrap()).collect();
    let expected = [0, 1].map(|number| format!("  {file}#{number}: embolden, skew 14"));
    assert_eq!(lines, expected);
    let words = ["pick", &file, "--weight=650"];
    assert_eq!(stemhook([&words[..], &whole].concat()).well(), said);

    let folder = Folder::new("real-collection");
    let page = folder.file("page.html");
    for number in [0, 1] {
        let font = format!("{file}#{number}");
        stemhook(["specimen", "-q", &font, "-o", &page]).well();
        let html = fs::read_to_string(&page).unwrap();
        let fonts = between(&html, ";base64,", ")");
        let alone = folder.font("alone.ttf", &decoded(fonts[1]));
        let [listed, alone] = [font.as_str(), alone.to_str().unwrap()].map(|font| {
            let said = stemhook(["list", font]).well();
            let (_, read) = said.split_once(": ").unwrap();
            read.split("charmap").next().unwrap().to_owned()
        });
        assert_eq!(listed, alone);
    }
}

/// Half of a collection's file is no collection of regular faces: its fonts
/// share an OS/2 table, which lies in the other half.
#[test]
fn a_collection_that_was_copied_in_part() {
    let Some([wqy]) = these("a_collection_that_was_copied_in_part", [WQY]) else {
        return;
    };
    let file = fs::read(format!("{wqy}/wqy-microhei.ttc")).unwrap();
    let folder = Folder::new("real-half");
    let half = folder.font("half.ttc", &file[..file.len() / 2]);
    let half = half.to_str().unwrap();
    let said = stemhook(["list", half]);
    assert_eq!(said.code, Some(1), "{said:?}");
    let lines: Vec<&str> = said.out.lines().collect();
    let length = file.len() / 2;
    for (number, line) in lines[..2].iter().enumerate() {
        let start = format!("{half}#{number}: unusable: its OS/2 table ends at byte ");
        let end = format!(", the file at {length}: the file is cut or damaged");
        assert!(line.starts_with(&start) && line.ends_with(&end), "{line}");
    }
    assert_eq!(lines[2..], ["0 faces, 2 unusable"]);
}
