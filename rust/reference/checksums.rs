//! The original's files that are compiled, and whether they are the ones that
//! `original.sha256` pins.

use std::{
    io::Write as _,
    path::Path,
    process::{Command, Stdio},
};

/// A line for each file, as sha256sum writes and reads it.
const LIST: &str = include_str!("original.sha256");

/// The files by their paths from the folder that holds `matching.rs`.
pub fn files() -> impl Iterator<Item = &'static str> {
    LIST.lines()
        .filter_map(|line| line.split_once("  "))
        .map(|(_, file)| file)
}

/// Whether all files are in the folder and none has changed; else what to tell.
pub fn check(folder: &Path) -> Result<(), String> {
    if let Some(missing) = files().find(|file| !folder.join(file).is_file()) {
        return Err(format!(
            "the fontique sources are not there: no {missing} under {}; set FONTIQUE_SRC to the folder that holds matching.rs",
            folder.display()
        ));
    }
    let said = sums(folder).map_err(|error| format!("sha256sum: {error}"))?;
    if said.is_empty() {
        return Ok(());
    }
    Err(format!(
        "the fontique sources under {} are not those that rust/reference/original.sha256 pins: {}",
        folder.display(),
        said.trim_end().replace('\n', ", ")
    ))
}

/// What sha256sum says against the files: nothing where each is as listed.
fn sums(folder: &Path) -> Result<String, String> {
    let mut child = Command::new("sha256sum")
        .args(["--check", "--strict", "--quiet", "-"])
        .env("LC_ALL", "C")
        .current_dir(folder)
        .stdin(Stdio::piped())
        .stdout(Stdio::piped())
        .stderr(Stdio::piped())
        .spawn()
        .map_err(|error| error.to_string())?;
    let mut stdin = child.stdin.take().ok_or("no standard input")?;
    stdin
        .write_all(LIST.as_bytes())
        .map_err(|error| error.to_string())?;
    drop(stdin);
    let output = child
        .wait_with_output()
        .map_err(|error| error.to_string())?;
    let said = String::from_utf8_lossy(&output.stdout).into_owned();
    if output.status.success() || !said.is_empty() {
        return Ok(said);
    }
    let error = String::from_utf8_lossy(&output.stderr);
    Err(format!("{}: {error}", output.status))
}
