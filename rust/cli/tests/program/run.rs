//! Runs the program, and makes folders for it.

use std::{
    ffi::OsStr,
    fs,
    io::Write,
    path::{Path, PathBuf},
    process::{Command, Output, Stdio},
};

use crate::common::fonts;

/// What the program said.
#[derive(Debug)]
pub struct Said {
    pub code: Option<i32>,
    pub out: String,
    pub err: String,
}

impl Said {
    pub fn of(output: Output) -> Self {
        Self {
            code: output.status.code(),
            out: String::from_utf8(output.stdout).unwrap(),
            err: String::from_utf8(output.stderr).unwrap(),
        }
    }

    /// Its standard output, where all went well and nothing else was said.
    pub fn well(self) -> String {
        assert_eq!((self.code, self.err.as_str()), (Some(0), ""), "{self:?}");
        self.out
    }

    /// Its standard output and standard error, where all went well.
    pub fn well_with_notes(self) -> (String, String) {
        assert_eq!(self.code, Some(0), "{self:?}");
        (self.out, self.err)
    }

    /// The message of a failure: code 1 and nothing on standard output.
    pub fn failure(self) -> String {
        assert_eq!((self.code, self.out.as_str()), (Some(1), ""), "{self:?}");
        self.err
    }

    /// The message of wrong words: code 2 and nothing on standard output.
    pub fn usage(self) -> String {
        assert_eq!((self.code, self.out.as_str()), (Some(2), ""), "{self:?}");
        self.err
    }
}

pub fn program() -> Command {
    Command::new(env!("CARGO_BIN_EXE_stemhook"))
}

/// Runs the program on some words.
pub fn stemhook<S: AsRef<OsStr>>(words: impl IntoIterator<Item = S>) -> Said {
    let output = program().args(words).stdin(Stdio::null()).output();
    Said::of(output.unwrap())
}

/// Runs the program with a standard input.
pub fn stemhook_reading<S: AsRef<OsStr>>(words: impl IntoIterator<Item = S>, input: &[u8]) -> Said {
    let mut child = program()
        .args(words)
        .stdin(Stdio::piped())
        .stdout(Stdio::piped())
        .stderr(Stdio::piped())
        .spawn()
        .unwrap();
    child.stdin.take().unwrap().write_all(input).unwrap();
    Said::of(child.wait_with_output().unwrap())
}

/// A folder for a test, which starts empty, and goes with the test.
pub struct Folder(PathBuf);

impl Drop for Folder {
    fn drop(&mut self) {
        let _ = fs::remove_dir_all(&self.0);
    }
}

impl Folder {
    pub fn new(test: &str) -> Self {
        let path = Path::new(env!("CARGO_TARGET_TMPDIR")).join(test);
        if path.exists() {
            fs::remove_dir_all(&path).unwrap();
        }
        fs::create_dir_all(&path).unwrap();
        Self(path)
    }

    /// A folder with a face of weight 400, `a.ttf`, and one of 700, `b.ttf`.
    pub fn with_two(test: &str) -> Self {
        let folder = Self::new(test);
        folder.font("a.ttf", &fonts::weight(400));
        folder.font("b.ttf", &fonts::weight(700));
        folder
    }

    pub fn path(&self) -> &Path {
        &self.0
    }

    pub fn text(&self) -> &str {
        self.0.to_str().unwrap()
    }

    /// Writes a file, in a folder below this one if the name has one.
    pub fn font(&self, name: impl AsRef<Path>, bytes: &[u8]) -> PathBuf {
        let path = self.0.join(name);
        fs::create_dir_all(path.parent().unwrap()).unwrap();
        fs::write(&path, bytes).unwrap();
        path
    }

    /// The path of a file as text.
    pub fn file(&self, name: &str) -> String {
        self.0.join(name).to_str().unwrap().to_owned()
    }

    /// The names of what lies in it, in order.
    pub fn names(&self) -> Vec<String> {
        let entries = fs::read_dir(&self.0).unwrap();
        let name = |entry: fs::DirEntry| entry.file_name().into_string().unwrap();
        let mut names: Vec<String> = entries.map(|entry| name(entry.unwrap())).collect();
        names.sort();
        names
    }
}

/// A variable font of weight 400: weight 100 to 900, width 50 to 200.
pub fn variable() -> Vec<u8> {
    fonts::variable(&[(*b"wght", 100, 400, 900), (*b"wdth", 50, 100, 200)])
}
