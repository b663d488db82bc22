//! Prints which arrays are alive on each way to a choice, in this repository or
//! in the one that is named. Fails where the rule is broken.

use std::{
    env,
    path::{Path, PathBuf},
    process::ExitCode,
};

fn main() -> ExitCode {
    let own = || Path::new(env!("CARGO_MANIFEST_DIR")).join("../..");
    let root = env::args_os().nth(1).map_or_else(own, PathBuf::from);
    let sources = match arrays::sources::read(&root) {
        Ok(sources) => sources,
        Err(error) => {
            eprintln!("arrays: {error}");
            return ExitCode::FAILURE;
        }
    };
    let report = arrays::check(&sources);
    for line in &report.lines {
        println!("{line}");
    }
    if report.findings.is_empty() {
        return ExitCode::SUCCESS;
    }
    for finding in &report.findings {
        println!("finding: {finding}");
    }
    let count = report.findings.len();
    let word = if count == 1 { "finding" } else { "findings" };
    println!("arrays: {count} {word}");
    ExitCode::FAILURE
}
