//! Words on the command line.

use std::{
    ffi::{OsStr, OsString},
    os::unix::ffi::OsStrExt,
};

use crate::{
    common::fonts,
    run::{Folder, Said, program, stemhook},
};

const COMMANDS: [&str; 4] = ["pick", "list", "job", "specimen"];

#[test]
fn help_and_version() {
    for words in [&["--help"][..], &["-h"], &["help"]] {
        let help = stemhook(words).well();
        assert!(help.contains("usage: stemhook COMMAND"), "{help}");
        assert!(COMMANDS.iter().all(|command| help.contains(command)));
    }
    for command in COMMANDS {
        let help = stemhook([command, "--help"]).well();
        assert!(help.starts_with(&format!("usage: stemhook {command} ")));
        assert_eq!(stemhook([command, "-h"]).well(), help);
        assert_eq!(stemhook(["help", command]).well(), help);
        // Also behind other words, which are then not looked at.
        assert_eq!(
            stemhook([command, "x", "-q", "--help", "--no"]).well(),
            help
        );
        assert!(help.lines().all(|line| line.len() <= 82), "{help}");
    }
    let version = format!("stemhook {}\n", env!("CARGO_PKG_VERSION"));
    assert_eq!(stemhook(["--version"]).well(), version);
    assert_eq!(stemhook(["-V"]).well(), version);
}

/// Every option that a help names is taken, and none besides.
#[test]
fn help_names_the_options_that_are_taken() {
    let all = [
        "--family",
        "--fallback",
        "--width",
        "--style",
        "--weight",
        "--most",
        "--reading",
        "--requests",
        "--override",
        "--not-held",
        "--whole",
        "--recursive",
        "--json",
        "--quiet",
        "--output",
        "--text",
    ];
    for command in COMMANDS {
        let help = stemhook([command, "--help"]).well();
        for option in all {
            let named = help.lines().any(|line| {
                let mut words = line.split_whitespace();
                line.starts_with("  -") && words.any(|word| word == option)
            });
            let message = stemhook([command, option]).usage();
            let unknown = message.contains(&format!("unknown option {option}"));
            assert_eq!(named, !unknown, "{command} {option}: {message}");
        }
    }
}

/// Words, and the message that they get.
const WRONG: &[(&[&str], &str)] = &[
    (&["pick"], "pick: no font file or folder is given"),
    (&["list"], "list: no font file or folder is given"),
    (&["pick", "--"], "pick: no font file or folder is given"),
    (&["pick", ""], "pick: a file or folder has an empty name"),
    (
        &["pick", "--family"],
        "pick: --family needs a file or folder",
    ),
    (
        &["pick", "x", "--fallback"],
        "pick: --fallback needs a file",
    ),
    (
        &["pick", "--family="],
        "pick: a file or folder has an empty name",
    ),
    (&["pick", "--weight"], "pick: --weight needs a value"),
    (
        &["pick", "--weight", "bold", "x"],
        "pick: --weight: \"bold\" is not a number",
    ),
    (
        &["pick", "--weight=", "x"],
        "pick: --weight: \"\" is not a number",
    ),
    (
        &["pick", "--weight=nan", "x"],
        "pick: --weight: \"nan\" is not a finite number",
    ),
    (
        &["pick", "--weight", "1e40", "x"],
        "pick: --weight: \"1e40\" is not a finite number",
    ),
    (
        &["pick", "--width", "17", "x"],
        "pick: --width: \"17\" is not a width ratio from 0",
    ),
    (
        &["job", "--style=slanted", "x"],
        "job: --style: \"slanted\" is not a style: normal",
    ),
    (
        &["pick", "--style", "oblique:", "x"],
        "pick: --style: \"\" is not a number",
    ),
    (
        &["pick", "--most", "65536", "x"],
        "pick: --most: \"65536\" is not a whole number",
    ),
    (
        &["pick", "--most", "-1", "x"],
        "pick: --most: \"-1\" is not a whole number from 0",
    ),
    (
        &["pick", "--reading", "new", "x"],
        "pick: --reading: \"new\" is not a reading: stored or opentype",
    ),
    (
        &["list", "--reading=1", "x"],
        "list: --reading: \"1\" is not a reading: stored or opentype",
    ),
    (
        &["specimen", "--reading="],
        "specimen: --reading: \"\" is not a reading: stored or opentype",
    ),
    (&["pick", "--reading"], "pick: --reading needs a value"),
    // A job's bytes hold none.
    (
        &["job", "--reading=opentype", "-oy", "x"],
        "job: unknown option --reading",
    ),
    (&["pick", "--bold", "x"], "pick: unknown option --bold"),
    (&["pick", "-x"], "pick: unknown option -x"),
    (&["pick", "--json=yes", "x"], "pick: --json takes no value"),
    (
        &["list", "--weight", "7", "x"],
        "list: unknown option --weight",
    ),
    (
        &["list", "--override", "x", "x"],
        "list: --override x: it is not FILE:KEY=VALUE,..",
    ),
    (&["pick", "-o", "y", "x"], "pick: unknown option -o"),
    (
        &["job", "x"],
        "job: the file to write is not given: -o FILE",
    ),
    (
        &["specimen", "x"],
        "specimen: the file to write is not given: -o FILE",
    ),
    (&["job", "-o"], "job: -o needs a value"),
    (
        &["job", "-o", "", "x"],
        "job: --output: the file's name is empty",
    ),
    (
        &["specimen", "-oy", "--text", " ", "x"],
        "specimen: --text: there is nothing to set",
    ),
];

#[test]
fn wrong_words() {
    for (words, expected) in WRONG {
        let message = stemhook(*words).usage();
        let expected = format!("stemhook {expected}");
        assert!(message.starts_with(&expected), "{words:?}: {message}");
        let hint = format!("\nTry 'stemhook {} --help'.\n", words[0]);
        assert!(message.ends_with(&hint), "{words:?}: {message}");
        assert_eq!(message.lines().count(), 2, "{message}");
    }
}

#[test]
fn no_command_or_an_unknown_one() {
    for (words, expected) in [
        (
            &[][..],
            "stemhook: no command is given: pick, list, job or specimen\n",
        ),
        (
            &["choose"],
            "stemhook: unknown command choose: there are pick, list, job and",
        ),
        (&["--weight", "7"], "stemhook: unknown option --weight\n"),
        (&["help", "me"], "stemhook: unknown command me\n"),
        (&["pi\nck"], "stemhook: unknown command pi\\nck: "),
    ] {
        let message = stemhook(words).usage();
        assert!(message.starts_with(expected), "{words:?}: {message}");
        assert!(message.ends_with("Try 'stemhook --help'.\n"), "{message}");
    }
}

#[test]
fn words_that_are_not_utf_8() {
    let odd = OsStr::from_bytes(b"\xff");
    for option in ["--weight", "--style", "--text", "--reading"] {
        let words = [OsStr::new("specimen"), option.as_ref(), odd, "x".as_ref()];
        let message = stemhook(words).usage();
        let expected = format!("stemhook specimen: {option}: \"\u{fffd}\" is not UTF-8\n");
        assert!(message.starts_with(&expected), "{message}");
    }
    assert!(stemhook([odd]).usage().contains("unknown command \u{fffd}"));
    let option = OsStr::from_bytes(b"--\xff=1");
    let message = stemhook([OsStr::new("pick"), option]).usage();
    assert!(message.contains("unknown option --\u{fffd}\n"), "{message}");
}

#[test]
fn the_ways_to_give_a_value() {
    let folder = Folder::with_two("value-ways");
    let expected = stemhook(["pick", folder.text(), "--weight", "700", "--most", "1"]).well();
    assert!(expected.contains("weight 700, most 1\n"), "{expected}");
    let ways = [
        &["--weight=700", "--most=1", folder.text()][..],
        &["--weight=1", "--most=1", folder.text(), "--weight=700"],
        &["-rq", "--weight=700", "--most=1", "--", folder.text()],
        &["--weight=700", "--most=1", "--family", folder.text()],
    ];
    for way in ways {
        assert_eq!(stemhook([&["pick"], way].concat()).well(), expected);
    }
    let joined = format!("--family={}", folder.text());
    let said = stemhook(["pick", &joined, "--weight=700", "--most=1"]).well();
    assert_eq!(said, expected);
}

#[test]
fn files_with_the_names_of_options() {
    let folder = Folder::new("option-names");
    for name in ["--weight", "-", "-o"] {
        folder.font(name, &fonts::weight(400));
    }
    for name in ["--weight", "-", "-o"] {
        let mut program = program();
        program.current_dir(folder.path());
        let said = program.args(["pick", "--", name]).output().unwrap();
        let line = Said::of(said).well();
        assert!(line.contains(&format!("\n  {name}: as it is;")), "{line}");
    }
}

/// Words of which command lines are made.
const WORDS: [&str; 28] = [
    "pick",
    "list",
    "job",
    "specimen",
    "--weight",
    "--weight=700",
    "--width=0.5",
    "--most=2",
    "--family",
    "--fallback",
    "--",
    "-",
    "--json",
    "-r",
    "-q",
    "--style=oblique:9",
    "--text=a",
    "--whole",
    "--not-held=a.ttf",
    "--override=b.ttf:weight=300",
    "a.ttf#0",
    "c.ttc#1",
    "--requests",
    "--reading",
    "--reading=stored",
    "--reading=opentype",
    "",
    "-h",
];

/// Any words end with a code of the program's own, and never by a panic.
#[test]
fn any_words_are_answered() {
    let folder = Folder::with_two("any-words");
    folder.font("c.ttc", &fonts::collection(&[400, 700]));
    let page = folder.file("page.html");
    let mut words: Vec<OsString> = WORDS.map(OsString::from).to_vec();
    words.extend([folder.path().into(), folder.path().join("a.ttf").into()]);
    words.extend([
        OsStr::from_bytes(b"\xff\xfe").into(),
        format!("-o{page}").into(),
    ]);
    let mut random = crate::common::Random(11);
    for _ in 0..300 {
        let mut line: Vec<OsString> = vec![words[random.below(4)].clone()];
        for _ in 0..random.below(7) {
            line.push(words[random.below(words.len())].clone());
        }
        let output = program().args(&line).current_dir(folder.path()).output();
        let output = output.unwrap();
        let err = String::from_utf8_lossy(&output.stderr);
        assert!(
            matches!(output.status.code(), Some(0..=2)),
            "{line:?}: {err}"
        );
        assert!(!err.contains("panicked"), "{line:?}: {err}");
        assert!(output.status.success() || !err.is_empty(), "{line:?}");
    }
}
