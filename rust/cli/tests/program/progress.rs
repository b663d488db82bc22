//! Progress, on a terminal and elsewhere.

use std::{fs::File, process::Command};

use crate::{
    common,
    run::{Folder, Said, stemhook},
};

/// Files that take a while to read: long ones, without room on the disk.
fn slow(test: &str) -> Folder {
    let folder = Folder::with_two(test);
    for number in 0..12 {
        let path = folder.path().join(format!("slow{number:02}\n.ttf"));
        File::create(path).unwrap().set_len(1 << 26).unwrap();
    }
    folder
}

#[test]
fn a_terminal_shows_how_far_it_is() {
    if Command::new("script").arg("--version").output().is_err() {
        let lack = "the program script is not there";
        return common::skip("a_terminal_shows_how_far_it_is", lack);
    }
    let folder = slow("progress-terminal");
    for (command, output, expected) in [
        ("pick", "", true),
        ("pick -q", "", false),
        ("list", ">/dev/null", true),
        ("list", "", false),
    ] {
        let program = env!("CARGO_BIN_EXE_stemhook");
        let line = format!("'{program}' {command} '{}' {output}", folder.text());
        let run = Command::new("script")
            .args(["-qec", &line, "/dev/null"])
            .output();
        let said = Said::of(run.unwrap());
        assert_eq!(said.code, Some(0), "{said:?}");
        let shown = said.out.contains(" of 14: slow") && said.out.contains("\\n.ttf");
        assert_eq!(
            shown && said.out.contains("\r\x1b[Kreading "),
            expected,
            "{said:?}"
        );
        // The line is cleared at the end.
        let last = said.out.rsplit("\r\x1b[K").next().unwrap();
        assert!(!last.contains("reading "), "{said:?}");
    }
}

#[test]
fn elsewhere_nothing_is_shown() {
    let folder = slow("progress-none");
    let (_, notes) = stemhook(["pick", folder.text()]).well_with_notes();
    assert!(
        !notes.contains("reading") && !notes.contains('\r'),
        "{notes}"
    );
    assert_eq!(notes.lines().count(), 12);
}
