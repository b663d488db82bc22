//! What is written: whole, or not at all.

use std::{
    fs::{self, File},
    io::{BufRead, BufReader, Read},
    os::unix::fs::{FileTypeExt, PermissionsExt, symlink},
    process::{Command, Stdio},
};

use crate::{
    common::fonts,
    run::{Folder, Said, program, stemhook},
};

#[test]
fn a_place_that_cannot_be_written() {
    let folder = Folder::with_two("output-place");
    let below = folder.file("none/page.html");
    let slash = folder.file("none/");
    let file = folder.file("a.ttf/page.html");
    for (target, expected) in [
        (below.as_str(), "No such file or directory"),
        (&slash, "there is no such folder"),
        (folder.text(), "it is a folder"),
        (&file, "Not a directory"),
        ("/", "it is a folder"),
        ("/proc/page.html", ""),
        ("/dev/full", "No space left on device"),
    ] {
        for command in ["job", "specimen"] {
            let message = stemhook([command, "-q", folder.text(), "-o", target]).failure();
            let start = format!("stemhook: {target}: {expected}");
            assert!(message.starts_with(&start), "{message}");
            assert_eq!(message.lines().count(), 1, "{message}");
        }
    }
    assert_eq!(folder.names(), ["a.ttf", "b.ttf"]);
    let device = fs::metadata("/dev/full").unwrap().file_type();
    assert!(device.is_char_device());
}

/// The page breaks off in the middle: at a limit of the file's length.
#[test]
fn a_page_is_never_left_half() {
    let folder = Folder::new("output-half");
    let mut font = fonts::weight(400);
    font.resize(300_000, 7);
    folder.font("fonts/a.ttf", &font);
    fs::create_dir(folder.path().join("out")).unwrap();
    let page = folder.file("out/page.html");
    let out = || fs::read_dir(folder.path().join("out")).unwrap().count();
    let run = |blocks: &str| {
        let script = "trap '' XFSZ; ulimit -f \"$0\"; exec \"$@\"";
        let mut shell = Command::new("sh");
        shell.args([
            "-c",
            script,
            blocks,
            env!("CARGO_BIN_EXE_stemhook"),
            "specimen",
        ]);
        let said = shell
            .args(["-q", "-o", &page, &folder.file("fonts")])
            .output();
        Said::of(said.unwrap())
    };
    let message = run("100").failure();
    assert_eq!(message, format!("stemhook: {page}: File too large\n"));
    assert_eq!(out(), 0);

    run("10000").well();
    let written = fs::read(&page).unwrap();
    assert!(written.ends_with(b"</html>\n"));
    run("100").failure();
    assert_eq!((fs::read(&page).unwrap() == written, out()), (true, 1));
}

/// A font that is another one when it is read again for the page.
#[test]
fn a_font_that_changes_breaks_the_page_off() {
    let folder = Folder::with_two("output-changed");
    folder.font("bad.ttf", b"no font");
    fs::create_dir(folder.path().join("out")).unwrap();
    let pipe = folder.path().join("out/page");
    let made = Command::new("mkfifo").arg(&pipe).status().unwrap();
    assert!(made.success());
    // The program waits for a reader of the pipe.
    let mut child = program()
        .args(["specimen", folder.text(), "-o"])
        .arg(&pipe)
        .stderr(Stdio::piped())
        .spawn()
        .unwrap();
    let mut notes = BufReader::new(child.stderr.take().unwrap());
    let mut line = String::new();
    // It tells of the files once it has read them all.
    notes.read_line(&mut line).unwrap();
    assert!(line.contains("skipped"), "{line}");
    let font = folder.font("a.ttf", &fonts::weight(401));
    let page = fs::read_to_string(&pipe).unwrap();
    assert!(!page.contains("</html>"));
    line.clear();
    notes.read_line(&mut line).unwrap();
    let font = font.display();
    let expected = format!("stemhook: {font}: it has changed since it was read\n");
    assert_eq!((child.wait().unwrap().code(), line), (Some(1), expected));
}

#[test]
fn a_file_that_is_there_is_replaced() {
    let folder = Folder::with_two("output-replaced");
    let page = folder.font("page.html", b"old");
    fs::set_permissions(&page, fs::Permissions::from_mode(0o640)).unwrap();
    let link = folder.path().join("link.html");
    symlink("page.html", &link).unwrap();
    let words = ["specimen", "-q", folder.text(), "-o"];
    let link = link.to_str().unwrap();
    stemhook([&words[..], &[link]].concat()).well();
    assert!(fs::symlink_metadata(link).unwrap().is_symlink());
    let text = fs::read_to_string(&page).unwrap();
    assert!(text.starts_with("<!DOCTYPE html>") && text.ends_with("</html>\n"));
    let mode = fs::metadata(&page).unwrap().permissions().mode();
    assert_eq!(mode & 0o777, 0o640);
    assert_eq!(folder.names(), ["a.ttf", "b.ttf", "link.html", "page.html"]);
}

#[test]
fn no_font_is_written_over() {
    let folder = Folder::with_two("output-font");
    symlink("a.ttf", folder.path().join("link")).unwrap();
    folder.font("bad.ttf", b"no font");
    for name in ["a.ttf", "link", "bad.ttf"] {
        let target = folder.file(name);
        let message = stemhook(["job", "-q", folder.text(), "-o", &target]).failure();
        assert_eq!(
            message,
            format!("stemhook: {target}: it is one of the fonts\n")
        );
    }
    assert_eq!(fs::read(folder.file("a.ttf")).unwrap(), fonts::weight(400));
}

#[test]
fn the_requests_are_not_written_over() {
    let folder = Folder::with_two("output-requests");
    folder.font("requests", b"weight=700\n");
    let requests = folder.file("requests");
    let words = ["job", "-q", folder.text(), "--requests", &requests, "-o"];
    let message = stemhook([&words[..], &[&requests]].concat()).failure();
    let expected = format!("stemhook: {requests}: it is the file of requests\n");
    assert_eq!(message, expected);
    assert_eq!(fs::read(&requests).unwrap(), b"weight=700\n");
}

#[test]
fn a_relative_name() {
    let folder = Folder::with_two("output-relative");
    let mut program = program();
    program.current_dir(folder.path());
    let said = program.args(["job", "-q", "a.ttf", "-o", "x.job"]).output();
    Said::of(said.unwrap()).well();
    assert_eq!(folder.names(), ["a.ttf", "b.ttf", "x.job"]);
}

#[test]
fn standard_output_that_cannot_be_written() {
    let folder = Folder::with_two("output-full");
    for words in [
        &["--help"][..],
        &["pick", folder.text()],
        &["list", folder.text()],
        &["list", "--json", folder.text()],
        &["job", "-o-", folder.text()],
        &["specimen", "-o", "-", folder.text()],
    ] {
        let full = File::options().write(true).open("/dev/full").unwrap();
        let said = Said::of(program().args(words).stdout(full).output().unwrap());
        let expected = "stemhook: standard output: No space left on device\n";
        assert_eq!(
            (said.code, said.err.as_str()),
            (Some(1), expected),
            "{words:?}"
        );

        // A reader that has gone away is no failure.
        let mut child = program()
            .args(words)
            .stdout(Stdio::piped())
            .stderr(Stdio::piped())
            .spawn()
            .unwrap();
        drop(child.stdout.take());
        let mut err = String::new();
        child
            .stderr
            .take()
            .unwrap()
            .read_to_string(&mut err)
            .unwrap();
        let code = child.wait().unwrap().code();
        assert_eq!((code, err.contains("anicked")), (Some(0), false), "{err}");
    }
}

#[test]
fn closed_streams() {
    let folder = Folder::with_two("output-closed");
    for (closed, code) in [("2>&-", 2), ("2>/dev/full", 2), ("<&- >&- 2>&-", 2)] {
        let script = format!("exec \"$0\" pick {closed}");
        let mut shell = Command::new("sh");
        shell.args(["-c", &script, env!("CARGO_BIN_EXE_stemhook")]);
        assert_eq!(shell.status().unwrap().code(), Some(code));
    }
    let script = "exec \"$0\" specimen -o- \"$1\" 2>&- | head -c 10";
    let mut shell = Command::new("sh");
    shell.args(["-c", script, env!("CARGO_BIN_EXE_stemhook"), folder.text()]);
    assert_eq!(Said::of(shell.output().unwrap()).well(), "<!DOCTYPE ");
}
