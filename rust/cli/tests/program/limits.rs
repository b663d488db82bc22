//! The limits of a job, told by name.

use crate::{
    common::fonts,
    run::{Folder, stemhook},
};

/// A folder of folders, with so many fonts in each.
fn folders(test: &str, folders: usize, fonts: usize) -> Folder {
    let folder = Folder::new(test);
    for family in 0..folders {
        for face in 0..fonts {
            let name = format!("f{family:02}/{face:03}.ttf");
            folder.font(name, &fonts::weight(400));
        }
    }
    folder
}

#[test]
fn faces_of_a_family() {
    let folder = folders("limit-family", 1, 64);
    let family = folder.file("f00");
    let full = stemhook(["pick", "-r", folder.text()]).well();
    assert_eq!(full.lines().count(), 65);
    // A file that cannot be used does not count.
    folder.font("f00/zz.ttf", b"no font");
    assert_eq!(stemhook(["pick", "-q", &family]).well(), full);
    folder.font("f00/zzz.ttf", &fonts::weight(400));
    let message = stemhook(["pick", "-q", &family]).failure();
    let expected = format!("stemhook: {family}: a family has at most 64 faces: name fewer files\n");
    assert_eq!(message, expected);
    let mut named = vec!["pick".to_owned()];
    named.extend((0..64).map(|face| folder.file(&format!("f00/{face:03}.ttf"))));
    assert_eq!(stemhook(&named).code, Some(0));
    let last = folder.file("f00/zzz.ttf");
    named.push(last.clone());
    let message = stemhook(&named).failure();
    assert_eq!(
        message,
        format!("stemhook: {last}: a family has at most 64 faces: name fewer files\n")
    );
}

#[test]
fn faces_of_a_job() {
    let folder = folders("limit-faces", 4, 64);
    assert_eq!(stemhook(["pick", "-r", folder.text()]).code, Some(0));
    let last = folder.font("g/last.ttf", &fonts::weight(400));
    let message = stemhook(["pick", "-r", folder.text()]).failure();
    let last = last.display();
    assert_eq!(
        message,
        format!("stemhook: {last}: a job has at most 256 faces\n")
    );
    // To read them one by one takes no job.
    let list = stemhook(["list", "-r", folder.text()]).well();
    assert!(list.ends_with("\n257 faces, 0 unusable\n"));
}

#[test]
fn families_of_a_job() {
    let folder = folders("limit-families", 64, 1);
    assert_eq!(stemhook(["pick", "-r", folder.text()]).code, Some(0));
    folder.font("g/last.ttf", &fonts::weight(400));
    let message = stemhook(["pick", "-r", folder.text()]).failure();
    let last = folder.file("g");
    assert_eq!(
        message,
        format!("stemhook: {last}: a job has at most 64 families\n")
    );
}

#[test]
fn overrides_of_a_job() {
    let folder = Folder::with_two("limit-overrides");
    let mut words = vec!["pick".to_owned(), folder.text().to_owned()];
    words.extend((0..256).map(|_| "--override=a.ttf:weight=300".to_owned()));
    assert_eq!(stemhook(&words).code, Some(0));
    words.push("--override=a.ttf:weight=300".into());
    let message = stemhook(&words).failure();
    let file = folder.file("a.ttf");
    assert_eq!(
        message,
        format!("stemhook: {file}: a job has at most 256 overrides\n")
    );

    let pairs = vec!["wght=300"; 256].join(",");
    let given = format!("--override=a.ttf:{pairs}");
    let message = stemhook(["pick", folder.text(), &given]).failure();
    assert!(
        message.starts_with(&format!("stemhook: {file}: ")),
        "{message}"
    );
    assert!(message.contains("255"), "{message}");
}

#[test]
fn requests_of_a_job() {
    let folder = Folder::with_two("limit-requests");
    let lines = "weight=700\n".repeat(256);
    let file = folder.font("requests", lines.as_bytes());
    let file = file.to_str().unwrap();
    let words = ["pick", "-q", folder.text(), "--requests", file];
    assert_eq!(stemhook(words).well().lines().count(), 3 * 256);
    folder.font("requests", (lines + "weight=1").as_bytes());
    let message = stemhook(words).failure();
    assert_eq!(
        message,
        format!("stemhook: {file}:257: more than 256 requests\n")
    );
}

#[test]
fn bytes_of_a_job() {
    let folder = Folder::new("limit-bytes");
    for name in ["a.ttf", "b.ttf", "c.ttf"] {
        let mut font = fonts::weight(400);
        font.resize(8_000_000, 0);
        folder.font(name, &font);
    }
    assert_eq!(stemhook(["pick", folder.text()]).code, Some(0));
    let message = stemhook(["pick", "--whole", folder.text()]).failure();
    let file = folder.file("c.ttf");
    let expected = format!("stemhook: {file}: the job would be over 16777216 bytes long\n");
    assert_eq!(message, expected);
}
