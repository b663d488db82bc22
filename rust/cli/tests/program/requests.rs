//! Files of requests.

use crate::run::{Folder, stemhook, stemhook_reading};

#[test]
fn a_request_for_each_line() {
    let folder = Folder::with_two("requests-lines");
    let text = "# weights\nweight=700 most=1\n\nstyle=oblique:9 # slanted\n";
    let file = folder.font("list.txt", text.as_bytes());
    let words = ["pick", "-q", folder.text(), "--width=0.75", "--requests"];
    let said = stemhook([&words[..], &[file.to_str().unwrap()]].concat()).well();
    let requests: Vec<&str> = said.lines().filter(|l| l.starts_with("request")).collect();
    let expected = [
        "request 0: width 0.75, normal, weight 700, most 1",
        "request 1: width 0.75, oblique 9, weight 400",
    ];
    assert_eq!(requests, expected);
    assert_eq!(said.lines().count(), 4, "{said}");
    let read = stemhook_reading([&words[..], &["-"]].concat(), text.as_bytes());
    assert_eq!(read.well(), said);
}

#[test]
fn a_wrong_line_is_named() {
    let folder = Folder::with_two("requests-wrong");
    let words = ["pick", folder.text(), "--requests"];
    for (text, expected) in [
        (
            &b"weight=700\nweigth=1\n"[..],
            ":2: \"weigth\" is not width, style, weight or most",
        ),
        (b"700", ":1: \"700\" is not KEY=VALUE"),
        (
            b"\n\nwidth=20",
            ":3: width: \"20\" is not a width ratio from 0 to 16",
        ),
        (b"weight=1 weight=2", ":1: weight stands twice"),
        (b"weight=\xff", ":1: the line is not UTF-8"),
        (b"# nothing", ": there is no request in it"),
        (b"", ": there is no request in it"),
    ] {
        let file = folder.font("list.txt", text);
        let file = file.to_str().unwrap();
        let message = stemhook([&words[..], &[file]].concat()).failure();
        let start = format!("stemhook: {file}{expected}");
        assert!(message.starts_with(&start), "{message}");
    }
    let message = stemhook_reading([&words[..], &["-"]].concat(), b"x").failure();
    assert_eq!(
        message,
        "stemhook: standard input:1: \"x\" is not KEY=VALUE\n"
    );
}

#[test]
fn a_file_that_cannot_be_read_is_named() {
    let folder = Folder::with_two("requests-unread");
    let missing = folder.file("missing");
    for (file, expected) in [
        (missing.as_str(), "No such file or directory"),
        (folder.text(), "Is a directory"),
        ("/dev/zero", "over 1048576 bytes of requests"),
    ] {
        let message = stemhook(["pick", folder.text(), "--requests", file]).failure();
        assert_eq!(message, format!("stemhook: {file}: {expected}\n"));
    }
}
