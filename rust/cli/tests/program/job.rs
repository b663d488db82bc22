//! The command `job`, and the program that reads what it writes.

use std::{
    fs::{self, File},
    process::{Command, Stdio},
};

use stemhook::{Job, Reading, RequestId};

use crate::{
    common::{self, fonts},
    run::{Folder, program, stemhook, variable},
};

#[test]
fn a_job_that_the_picker_reads() {
    let folder = Folder::with_two("job-read");
    let job = folder.file("out.job");
    let words = ["job", folder.text(), "--weight", "700", "--output", &job];
    let (out, notes) = stemhook(words).well_with_notes();
    assert_eq!(out, "");
    let bytes = fs::read(&job).unwrap();
    let counts = "faces 2, families 1, requests 1";
    let expected = format!("stemhook: {job}: {} bytes, {counts}\n", bytes.len());
    assert_eq!(notes, expected);
    let read = Job::new(&bytes).unwrap();
    let offers = read.offers(RequestId::new(0)).unwrap();
    let places: Vec<_> = offers.map(|offer| offer.unwrap().place).collect();
    assert_eq!(places, [1, 0]);
    assert_eq!(stemhook([&words[..], &["-q"]].concat()).well(), "");

    let output = program()
        .args(["job", "-q", folder.text(), "--weight=700", "-o-"])
        .output();
    assert_eq!(output.unwrap().stdout, bytes);
}

#[test]
fn whole_files_and_a_length_that_offers_does_not_read() {
    let folder = Folder::new("job-whole");
    let mut font = fonts::weight(400);
    font.resize(65_536, 7);
    folder.font("a.ttf", &font);
    let job = folder.file("out.job");
    let words = ["job", folder.text(), "-o", &job];
    let (_, notes) = stemhook(words).well_with_notes();
    assert!(!notes.contains("offers"), "{notes}");
    assert!(fs::read(&job).unwrap().len() < 1000);
    let (_, notes) = stemhook([&words[..], &["--whole"]].concat()).well_with_notes();
    let expected = "; the program offers reads up to 65536 bytes, not this job\n";
    assert!(notes.ends_with(expected), "{notes}");
    let bytes = fs::read(&job).unwrap();
    assert!(bytes.windows(font.len()).any(|window| window == font));
}

#[test]
fn a_file_in_two_families_is_one_face() {
    let folder = Folder::with_two("job-shared");
    let job = folder.file("out.job");
    let words = [
        "job",
        folder.text(),
        "--fallback",
        folder.text(),
        "-o",
        &job,
    ];
    let (_, notes) = stemhook(words).well_with_notes();
    assert!(
        notes.ends_with("faces 2, families 2, requests 1\n"),
        "{notes}"
    );
}

/// A folder with faces that lean and one with a slant axis, and the words of a
/// job of them.
fn leaning(folder: &Folder) -> Vec<String> {
    folder.font("v.otf", &variable());
    folder.font("l.ttf", &fonts::oblique(12));
    folder.font("r.ttf", &fonts::oblique(-12));
    folder.font("s/s.otf", &fonts::variable(&[(*b"slnt", -10, 0, 0)]));
    let requests = b"weight=700\nstyle=italic weight=650 width=0.5\nstyle=oblique:12\n";
    folder.font("list.txt", requests);
    let [family, fallback, requests] = ["", "s", "list.txt"].map(|name| folder.file(name));
    let words = [
        "-q",
        &family,
        "--fallback",
        &fallback,
        "--requests",
        &requests,
    ];
    words.map(str::to_owned).to_vec()
}

/// The proved program prints the same offers as `pick`, under both readings.
#[test]
fn the_program_offers_reads_it() {
    let offers = common::repository_file("target/bin/offers");
    if !offers.is_file() {
        let lack = "target/bin/offers is not there: run tools/example";
        return common::skip("the_program_offers_reads_it", lack);
    }
    let folder = Folder::with_two("job-offers");
    let words = leaning(&folder);
    let words: Vec<&str> = words.iter().map(String::as_str).collect();
    let job = folder.file("out.job");
    stemhook([&["job", "-o", &job], &words[..]].concat()).well();
    let printed = [
        (Reading::AsStored, "stored"),
        (Reading::OpenType, "opentype"),
    ]
    .map(|(reading, word)| {
        let output = Command::new(&offers)
            .arg(reading.number().to_string())
            .stdin(File::open(&job).unwrap())
            .stderr(Stdio::inherit())
            .output()
            .unwrap();
        let printed = String::from_utf8(output.stdout).unwrap();
        assert_eq!(printed, common::text(&fs::read(&job).unwrap(), reading));
        let picked = stemhook([&["pick", "--reading", word], &words[..]].concat()).well();
        let picked = picked.lines().filter(|line| line.starts_with("  ")).count();
        assert_eq!(printed.lines().count(), 1 + picked);
        assert!(printed.starts_with("requests 3\n0 0 1 - 0\n"), "{printed}");
        printed
    });
    assert_ne!(printed[0], printed[1]);
}
