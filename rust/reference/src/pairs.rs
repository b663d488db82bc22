//! What the program `pair_cases` has to print: the plain reading's answers to
//! the check call and the offer call, once the original agrees with it.

use std::{fmt::Write as _, fs, io, path::Path};

use jobs::{
    bytes::{filler, hex},
    pairs::{self, Call},
};

use crate::offers::{Harness, compare};

/// Bytes of the array whose first ones are the output.
const SPACE: usize = 48;

/// A number that another job would hardly share.
fn sum(bytes: &[u8]) -> u32 {
    let next = |sum: u32, byte: &u8| (sum * 257 + u32::from(*byte)) % 65521;
    bytes.iter().fold(0, next)
}

/// The line of a call: its answer, the 40 bytes where there are any, and
/// whether all others are as they were.
fn put_call(text: &mut String, job: &[u8], (reading, request, number, size): Call) {
    let before = filler(SPACE, 9);
    let mut out = before.clone();
    let answer = plain::offer(job, reading, request, number, &mut out[..size]);
    let _ = write!(text, " {reading} {request} {number} {size}: {answer} ");
    let written = if answer == 0 { size } else { 0 };
    text.push_str(&hex(&out[..written]));
    if written != 0 {
        text.push(' ');
    }
    let kept = out[written..] == before[written..];
    text.push_str(if kept { "kept\n" } else { "changed\n" });
}

/// Compares the jobs with the original and gives the lines.
pub fn text() -> io::Result<String> {
    let mut harness = Harness::default();
    let mut text = String::new();
    for (case, calls) in pairs::all() {
        compare(&mut harness, &case)?;
        let job = &case.bytes[..];
        let (number, position) = plain::check(job);
        let (label, length) = (&case.label, job.len());
        let _ = writeln!(text, "{label}: {length} {} {number} {position}", sum(job));
        for call in calls {
            put_call(&mut text, job, call);
        }
    }
    Ok(text)
}

/// Writes `stdout` into the folder.
pub fn write(folder: &Path) -> io::Result<()> {
    fs::create_dir_all(folder)?;
    fs::write(folder.join("stdout"), text()?)
}

#[cfg(test)]
mod tests {
    use super::*;

    /// What is stored for the program is what is written here.
    #[test]
    fn stored_lines() {
        let stored = include_str!("../../../crates/pair_cases/stdout");
        assert_eq!(text().unwrap(), stored);
        assert!(!stored.contains("changed"));
    }

    /// Two jobs are longer than the program `offers` takes.
    #[test]
    fn larger_jobs() {
        let lengths = pairs::all().into_iter().map(|(case, _)| case.bytes.len());
        assert_eq!(lengths.filter(|length| *length > 65_536).count(), 2);
    }
}
