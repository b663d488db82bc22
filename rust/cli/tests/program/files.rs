//! Files and folders: what is taken, in which order, and what is skipped.

use std::{
    ffi::{OsStr, OsString},
    fs::{self, File},
    os::unix::{ffi::OsStrExt, fs::symlink},
    process::Command,
};

use crate::{
    common::fonts,
    json::Value,
    run::{Folder, stemhook},
};

/// The files of each family, by `pick --json`.
fn families(words: &[&str]) -> Vec<Vec<String>> {
    let said = stemhook([&["pick", "--json"], words].concat());
    let value = Value::read(&said.well_with_notes().0);
    let files = |family: &Value| {
        let files = family["files"].list().iter();
        files.map(|file| file.text().to_owned()).collect()
    };
    value["families"].list().iter().map(files).collect()
}

#[test]
fn a_folder_is_a_family_by_name() {
    let folder = Folder::new("files-folder");
    let font = fonts::weight(400);
    for name in [
        "b.TTF",
        "a.otf",
        "c.Otf",
        "sub/d.ttf",
        "e.ttf.bak",
        "README",
        "ttf",
    ] {
        folder.font(name, &font);
    }
    let taken = ["a.otf", "b.TTF", "c.Otf"].map(|name| folder.file(name));
    assert_eq!(families(&[folder.text()]), [taken.to_vec()]);
    let (_, notes) = stemhook(["pick", folder.text()]).well_with_notes();
    let expected = "stemhook: 3 files without a font's ending passed over\n";
    assert_eq!(notes, expected);
    assert_eq!(
        stemhook(["pick", "-q", folder.text()]).well_with_notes().1,
        ""
    );
    // A file that is named is taken, whatever its ending.
    let named = folder.file("README");
    assert_eq!(families(&[&named]), [[named.clone()]]);
}

#[test]
fn rows_of_files_and_folders() {
    let folder = Folder::with_two("files-rows");
    folder.font("sub/d.ttf", &fonts::weight(400));
    let [a, b, sub, d] = ["a.ttf", "b.ttf", "sub", "sub/d.ttf"].map(|name| folder.file(name));
    let found = families(&[
        &a,
        &b,
        &sub,
        &b,
        "--family",
        &a,
        "--weight=7",
        &b,
        "--fallback",
        &sub,
    ]);
    let expected = [
        vec![a.clone(), b.clone()],
        vec![d.clone()],
        vec![b.clone()],
        vec![a.clone(), b.clone()],
        vec![d.clone()],
    ];
    assert_eq!(found, expected);
    let found = families(&["-r", folder.text()]);
    assert_eq!(found, [vec![a, b], vec![d]]);
}

#[test]
fn folders_below_by_name_and_each_once() {
    let folder = Folder::new("files-below");
    for name in ["y/b/1.ttf", "y/a/2.ttf", "x/3.ttf", "z/none.txt", "4.ttf"] {
        folder.font(name, &fonts::weight(400));
    }
    symlink("..", folder.path().join("x/up")).unwrap();
    symlink(folder.path().join("y/b"), folder.path().join("w")).unwrap();
    // By its own name, w comes before the folder that it links to.
    let expected = ["4.ttf", "w/1.ttf", "x/3.ttf", "y/a/2.ttf"];
    let expected = expected.map(|name| vec![folder.file(name)]);
    assert_eq!(families(&["-r", folder.text()]), expected);
    // A folder that is named twice is taken twice.
    let x = folder.file("x");
    assert_eq!(families(&["--recursive", &x, &x, "--most=1"]).len(), 2 * 4);
}

/// Two fonts, and twelve files that cannot be used.
fn mixed(test: &str) -> Folder {
    let folder = Folder::with_two(test);
    for (name, bytes) in [
        ("1.woff", &b"wOFF...."[..]),
        ("2.woff2", b"wOF2...."),
        ("3.ttc", b"ttcf...."),
        ("4.pfb", b"\x80\x01......"),
        ("5.ttf", b""),
        ("6.ttf", b"<!DOCTYPE html>"),
        ("7.ttf", b"\0\x01\0\0\0\x09......"),
    ] {
        folder.font(name, bytes);
    }
    let no_charmap = fonts::file([0, 1, 0, 0], &[(*b"OS/2", fonts::os2(400, 5, 0))]);
    folder.font("8.ttf", &no_charmap);
    let axes: Vec<_> = (0..17)
        .map(|n| ([b'a' + n, b'x', b'x', b'x'], 0, 0, 1))
        .collect();
    folder.font("9.ttf", &fonts::variable(&axes));
    // Copied in part: its OS/2 is cut.
    folder.font("half.ttf", &fonts::weight(700)[..100]);
    symlink("nowhere", folder.path().join("dead.ttf")).unwrap();
    let pipe = folder.path().join("pipe.ttf");
    assert!(Command::new("mkfifo").arg(pipe).status().unwrap().success());
    // A folder is no file, whatever its ending.
    fs::create_dir(folder.path().join("folder.ttf")).unwrap();
    folder
}

#[test]
fn what_cannot_be_used_is_skipped_with_its_reason() {
    let folder = mixed("files-skipped");
    let (out, notes) = stemhook(["pick", folder.text(), "--most=1"]).well_with_notes();
    assert!(out.contains("a.ttf: as it is"), "{out}");
    assert_eq!(notes.lines().count(), 12, "{notes}");
    for (name, reason) in [
        ("1.woff", "a WOFF file"),
        ("2.woff2", "a WOFF2 file"),
        ("3.ttc", "the header of the collection (ttcf) ends"),
        ("4.pfb", "a Type 1 font"),
        ("5.ttf", "the file is empty\n"),
        ("6.ttf", "it starts with \"<!DO\", as no"),
        (
            "7.ttf",
            "its table directory ends at byte 156, the file at 12\n",
        ),
        ("8.ttf", "it has no cmap table\n"),
        ("9.ttf", "it has 17 variation axes\n"),
        (
            "half.ttf",
            "its OS/2 table ends at byte 122, the file at 100: the file is cut or damaged\n",
        ),
        ("dead.ttf", "No such file or directory\n"),
        ("pipe.ttf", "it is not a regular file\n"),
    ] {
        let line = format!("stemhook: skipped {}: {reason}", folder.file(name));
        assert!(notes.contains(&line), "{line} in {notes}");
    }
}

#[test]
fn skipped_files_in_json() {
    let folder = mixed("files-skipped-json");
    let value = Value::read(&stemhook(["pick", "--json", "-q", folder.text()]).well());
    let skipped = value["skipped"].list().iter();
    let refusals: Vec<_> = skipped.map(|skipped| &skipped["refusal"]).collect();
    let count = |wanted: Value| refusals.iter().filter(|found| ***found == wanted).count();
    assert_eq!(count(Value::Number(21.0)), 7);
    assert_eq!(count(Value::Number(22.0)), 1);
    assert_eq!(count(Value::Number(23.0)), 1);
    assert_eq!(count(Value::Number(31.0)), 1);
    assert_eq!(count(Value::Null), 2);
    assert_eq!(refusals.len(), 12);
}

/// Runs a command on a path, quietly; it has to fail, and leave no file.
fn failed(command: &str, folder: &Folder, path: &str) -> String {
    let page = folder.file("page.html");
    let mut words = vec![command, "-q", path];
    if ["job", "specimen"].contains(&command) {
        words.extend(["-o", &page]);
    }
    let said = stemhook(words);
    assert_eq!(said.code, Some(1), "{said:?}");
    assert!(fs::metadata(page).is_err());
    said.err
}

#[test]
fn nothing_that_can_be_used_is_a_failure() {
    let folder = Folder::new("files-nothing");
    folder.font("bad/x.ttf", b"bad!");
    folder.font("bad/y.ttf", b"bad!");
    folder.font("none/README", b"");
    let [file, bad, none] = ["bad/x.ttf", "bad", "none"].map(|name| folder.file(name));
    let no_font = "it starts with \"bad!\", as no TrueType or OpenType font does";
    let empty = "there is no font file in the folder (--recursive looks into its folders)";
    for command in ["pick", "job", "specimen", "list"] {
        for (path, reason) in [
            (&file, format!("{file}: {no_font}")),
            (&bad, format!("{file}: {no_font} (and 1 more)")),
            (&none, format!("{none}: {empty}")),
            (
                &"/dev/zero".to_owned(),
                "/dev/zero: it is not a regular file".into(),
            ),
        ] {
            let expected = format!("stemhook: no font can be used: {reason}\n");
            assert_eq!(failed(command, &folder, path), expected);
        }
    }
}

#[test]
fn a_path_that_is_not_there_is_a_failure() {
    let folder = Folder::with_two("files-not-there");
    for (name, reason) in [
        ("missing", "No such file or directory"),
        ("a.ttf/x", "Not a directory"),
    ] {
        let path = folder.file(name);
        for command in ["pick", "job", "specimen", "list"] {
            let message = failed(command, &folder, &path);
            assert_eq!(message, format!("stemhook: {path}: {reason}\n"));
        }
    }
}

#[test]
fn a_missing_file_among_others_is_a_failure() {
    let folder = Folder::with_two("files-missing");
    let missing = folder.file("missing.ttf");
    let message = stemhook(["pick", folder.text(), &missing]).failure();
    let expected = format!("stemhook: {missing}: No such file or directory\n");
    assert_eq!(message, expected);
}

#[test]
fn a_file_that_is_too_long() {
    let folder = Folder::with_two("files-long");
    let long = folder.path().join("long.ttf");
    // It takes no room on the disk.
    File::create(&long).unwrap().set_len((1 << 30) + 1).unwrap();
    let (_, notes) = stemhook(["pick", folder.text()]).well_with_notes();
    let file = long.display();
    let expected = format!("stemhook: skipped {file}: it is over 1073741824 bytes long\n");
    assert_eq!(notes, expected);
    fs::remove_file(&long).unwrap();
}

/// File names with all that a name can have.
const ODD: [&[u8]; 6] = [
    b"a \"quoted\" & <b>.ttf",
    b"b new\nline.ttf",
    b"c \xff\xfe.ttf",
    b"d \\back\x1b[31m.ttf",
    b"e \xe2\x80\xa8 '.ttf",
    b"f :weight=1,.ttf",
];

fn odd_names(test: &str) -> Folder {
    let folder = Folder::new(test);
    for name in ODD {
        folder.font(OsStr::from_bytes(name), &fonts::weight(400));
    }
    folder
}

#[test]
fn names_of_any_bytes_take_one_line() {
    let folder = odd_names("files-names");
    let said = stemhook(["pick", folder.text()]).well();
    assert_eq!(said.lines().count(), 1 + ODD.len(), "{said}");
    for part in ["b new\\nline.ttf", "c \u{fffd}\u{fffd}.ttf", "\\u{1b}[31m"] {
        assert!(said.contains(part), "{said}");
    }
    let list = stemhook(["list", folder.text()]).well();
    assert_eq!(list.lines().count(), ODD.len() + 2, "{list}");
    let page = folder.file("page.html");
    stemhook(["specimen", "-q", folder.text(), "-o", &page]).well();
    let page = fs::read_to_string(page).unwrap();
    assert_eq!(page.matches("<li class=\"offer\">").count(), ODD.len());
    assert!(page.contains(">c \u{fffd}\u{fffd}.ttf</b>"));
}

#[test]
fn names_of_any_bytes_in_json() {
    let folder = odd_names("files-names-json");
    let value = Value::read(&stemhook(["pick", "--json", folder.text()]).well());
    let offers = value["requests"][0]["offers"].list();
    assert_eq!(offers.len(), ODD.len());
    for (offer, name) in offers.iter().zip(ODD) {
        let expected = folder.path().join(OsStr::from_bytes(name));
        assert_eq!(offer["file"].text(), expected.to_string_lossy());
    }
    let value = Value::read(&stemhook(["list", "--json", folder.text()]).well());
    assert_eq!(value["faces"].list().len(), ODD.len());
}

#[test]
fn names_of_any_bytes_in_overrides() {
    let folder = odd_names("files-names-overrides");
    for name in ODD {
        let mut given = OsString::from("--override=");
        given.push(OsStr::from_bytes(name));
        given.push(":weight=900");
        let words: [OsString; 3] = ["pick".into(), folder.path().into(), given];
        let asked = ["--weight=900", "--most=1"].map(OsString::from);
        let said = stemhook([&words[..], &asked].concat()).well();
        assert_eq!(said.matches(": as it is;").count(), 1, "{said}");
    }
}
