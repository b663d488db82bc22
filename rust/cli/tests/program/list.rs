//! The command `list`.

use crate::{
    common::fonts,
    json::Value,
    run::{Folder, stemhook, variable},
};

fn oblique() -> Vec<u8> {
    let mut post = vec![0; 32];
    // The angle, in 16.16.
    post[4..8].copy_from_slice(&(-0x98000_i32).to_be_bytes());
    let tables = [
        (*b"OS/2", fonts::os2(300, 3, 1 << 9)),
        (*b"cmap", fonts::cmap(3, 0)),
        (*b"post", post),
    ];
    fonts::file(*b"true", &tables)
}

#[test]
fn what_was_read_and_what_it_becomes() {
    let folder = Folder::new("list-lines");
    folder.font("a.ttf", &oblique());
    folder.font("b.otf", &variable());
    folder.font("c.woff", b"wOFF....");
    folder.font("notes.txt", b"");
    let words = [
        "list",
        folder.text(),
        "--override=b.otf:style=italic,wght=350",
    ];
    let said = stemhook(words).well();
    let expected = format!(
        "{}:\n\
         \x20 a.ttf: width 0.75, oblique -9.5, weight 300; charmap at 150 (symbol)\n\
         \x20 b.otf: width 1, normal, weight 400; wght 100 to 900 (default 400), \
         wdth 50 to 200 (default 100); charmap at 150\n\
         \x20   after overrides: width 1, italic, weight 400; wght 100 to 900 (default 350), \
         wdth 50 to 200 (default 100); charmap at 150\n\
         \x20 c.woff: unusable: a WOFF file: unpack it to TrueType or OpenType\n\
         2 faces, 1 unusable, 1 file without a font's ending passed over\n",
        folder.text()
    );
    assert_eq!(said, expected);
    // Files that are named go by their paths.
    let a = folder.file("a.ttf");
    let said = stemhook(["list", &a]).well();
    assert!(said.starts_with(&format!("{a}: width 0.75")), "{said}");
    assert!(said.ends_with("\n1 face, 0 unusable\n"), "{said}");
}

/// What is read of the angle is turned under the other reading, and nothing
/// else: not an axis, and not what an override says.
#[test]
fn the_angle_under_each_reading() {
    let folder = Folder::new("list-readings");
    folder.font("a.ttf", &oblique());
    folder.font("b.ttf", &fonts::oblique(0));
    folder.font("c.otf", &fonts::variable(&[(*b"slnt", -10, 0, 0)]));
    let words = ["list", folder.text(), "--override=a.ttf:style=oblique:-3"];
    let stored = stemhook(words).well();
    let said = |word| stemhook([&words[..], &["--reading", word]].concat()).well();
    assert_eq!(said("stored"), stored);
    assert!(stored.contains("a.ttf: width 0.75, oblique -9.5,"));
    assert!(stored.contains("after overrides: width 0.75, oblique -3,"));
    assert!(stored.contains("b.ttf: width 1, oblique 0,"));
    assert!(stored.contains("slnt -10 to 0 (default 0)"));
    assert_eq!(said("opentype"), stored.replace("-9.5", "9.5"));

    let words = [&words[..], &["--json", "--reading=opentype"]].concat();
    let value = Value::read(&stemhook(words).well());
    assert_eq!(value["reading"].text(), "opentype");
    let face = &value["faces"][0];
    let angles = ["read", "overridden"].map(|key| face[key]["angle"].number());
    assert_eq!(angles, [9.5, -3.0]);
}

/// The JSON of a folder, with an override.
fn json(folder: &Folder) -> Value {
    folder.font("a.ttf", &oblique());
    folder.font("b.otf", &variable());
    folder.font("c.woff", b"wOFF....");
    folder.font("notes.txt", b"");
    let given = "--override=b.otf:width=0.5,wght=350";
    Value::read(&stemhook(["list", "--json", folder.text(), given]).well())
}

#[test]
fn json_of_the_same() {
    let folder = Folder::new("list-json");
    let value = json(&folder);
    let keys = ["reading", "faces", "skipped", "passedOver"];
    assert_eq!(value.keys(), keys);
    assert_eq!(value["reading"].text(), "stored");
    let faces = value["faces"].list();
    assert_eq!(faces.len(), 2);
    assert_eq!(faces[0].keys(), ["file", "number", "read", "overridden"]);
    assert_eq!(faces[0]["number"], Value::Null);
    assert_eq!(faces[0]["file"].text(), folder.file("a.ttf"));
    let read = &faces[0]["read"];
    let keys = ["width", "style", "angle", "weight", "axes", "charmap"];
    assert_eq!(read.keys(), keys);
    assert_eq!(
        (read["width"].number(), read["angle"].number()),
        (0.75, -9.5)
    );
    assert_eq!(read["charmap"]["symbol"], Value::Bool(true));
    assert_eq!(faces[0]["overridden"], Value::Null);
    assert_eq!(value["skipped"][0]["refusal"].number(), 21.0);
    assert_eq!(value["passedOver"].number(), 1.0);
}

#[test]
fn json_of_an_override() {
    let value = json(&Folder::new("list-json-override"));
    let face = &value["faces"][1];
    let (read, after) = (&face["read"], &face["overridden"]);
    assert_eq!(
        (read["width"].number(), after["width"].number()),
        (1.0, 0.5)
    );
    assert_eq!(read["angle"], Value::Null);
    let axis = &after["axes"][0];
    assert_eq!(axis.keys(), ["tag", "minimum", "default", "maximum"]);
    assert_eq!(
        (axis["tag"].text(), axis["default"].number()),
        ("wght", 350.0)
    );
    assert_eq!(read["axes"][0]["default"].number(), 400.0);
}

#[test]
fn nothing_usable_is_still_listed() {
    let folder = Folder::new("list-nothing");
    folder.font("c.woff", b"wOFF....");
    let said = stemhook(["list", "--json", folder.text()]);
    assert_eq!(said.code, Some(1));
    let value = Value::read(&said.out);
    assert_eq!(value["faces"].list().len(), 0);
    assert_eq!(value["skipped"].list().len(), 1);
    let said = stemhook(["list", folder.text()]);
    assert_eq!(said.code, Some(1));
    assert!(said.out.ends_with("\n0 faces, 1 unusable\n"), "{said:?}");
    assert!(
        said.err.starts_with("stemhook: no font can be used: "),
        "{said:?}"
    );
}

#[test]
fn thousands_of_files() {
    let folder = Folder::new("list-thousands");
    for number in 0..3000 {
        let name = format!("{}/{number}.ttf", number % 7);
        folder.font(name, &fonts::weight(number));
    }
    let said = stemhook(["list", "-r", folder.text()]).well();
    assert_eq!(said.lines().count(), 3000 + 7 + 1);
    assert!(said.ends_with("\n3000 faces, 0 unusable\n"));
    assert!(said.contains("\n  2999.ttf: width 1, normal, weight 2999; charmap at"));
}
