//! The linked programs: a list on standard input, a line for each case of it.

use std::{
    env,
    io::Write as _,
    path::PathBuf,
    process::{Command, Stdio},
};

use jobs::font_list;

/// The folder of the programs when STEMHOOK_BIN is not set, from this package's folder.
const DEFAULT: &str = "../../target/bin";

/// A program under test and the most bytes that it reads; tests put a wrong
/// one in its place.
pub struct Program {
    pub name: &'static str,
    pub most: usize,
    pub run: fn(&Program, &[u8]) -> Result<String, String>,
}

pub const MATCH_CASES: Program = Program {
    name: "match_cases",
    most: 600_000,
    run,
};

pub const FONT_CASES: Program = Program {
    name: "font_cases",
    most: font_list::BYTES,
    run,
};

/// It reads nothing: its cases are its own.
pub const OVERRIDE_CASES: Program = Program {
    name: "override_cases",
    most: 0,
    run,
};

impl Program {
    pub fn lines(&self, list: &[u8]) -> Result<Vec<String>, String> {
        assert!(list.len() <= self.most, "the list is too long");
        let text = (self.run)(self, list)?;
        Ok(text.lines().map(str::to_string).collect())
    }

    /// What it prints for a list, or why it prints nothing.
    pub fn printed(&self, list: &[u8]) -> String {
        self.lines(list)
            .map_or_else(|error| error, |lines| lines.join("\n  "))
    }
}

fn file(name: &str) -> PathBuf {
    let folder = env::var_os("STEMHOOK_BIN").unwrap_or_else(|| DEFAULT.into());
    [
        env!("CARGO_MANIFEST_DIR").into(),
        PathBuf::from(folder),
        name.into(),
    ]
    .iter()
    .collect()
}

/// What the linked program writes. It reads all before it writes.
fn run(program: &Program, list: &[u8]) -> Result<String, String> {
    let name = program.name;
    let mut child = Command::new(file(name))
        .stdin(Stdio::piped())
        .stdout(Stdio::piped())
        .spawn()
        .map_err(|error| {
            format!("{name} does not start ({error}); `tools/prove check {name}` in the repository's root makes it, STEMHOOK_BIN names its folder")
        })?;
    let mut stdin = child.stdin.take().expect("piped");
    stdin
        .write_all(list)
        .map_err(|error| format!("{name}: {error}"))?;
    drop(stdin);
    let output = child
        .wait_with_output()
        .map_err(|error| format!("{name}: {error}"))?;
    if !output.status.success() {
        return Err(format!("{name}: {}", output.status));
    }
    String::from_utf8(output.stdout).map_err(|error| format!("{name}: {error}"))
}
