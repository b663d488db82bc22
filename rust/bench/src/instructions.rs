//! Instructions of a batch of calls, as callgrind counts them: this program
//! runs once with one batch and once with two, and all else cancels.

use std::{env, process::Command};

/// Whether valgrind is there.
pub fn counted() -> bool {
    let version = Command::new("valgrind").arg("--version").output();
    version.is_ok_and(|output| output.status.success())
}

/// Instructions of one batch of what this program does for the words, which
/// are followed by the number of batches.
pub fn of_batch(words: &[&str]) -> Result<u64, String> {
    let one = of_run(words, "1")?;
    let two = of_run(words, "2")?;
    two.checked_sub(one)
        .ok_or_else(|| format!("{two} instructions for two batches, {one} for one"))
}

fn of_run(words: &[&str], batches: &str) -> Result<u64, String> {
    let program = env::current_exe().map_err(|error| error.to_string())?;
    let output = Command::new("valgrind")
        .args(["--tool=callgrind", "--callgrind-out-file=/dev/null"])
        .arg(program)
        .args(words)
        .arg(batches)
        .output()
        .map_err(|error| format!("valgrind: {error}"))?;
    let said = String::from_utf8_lossy(&output.stderr);
    match collected(&said) {
        Some(count) if output.status.success() => Ok(count),
        _ => Err(format!("valgrind: {}: {said}", output.status)),
    }
}

/// The number of the line `==PID== Collected : N`.
fn collected(said: &str) -> Option<u64> {
    let number = said.lines().find_map(|line| {
        let (before, after) = line.split_once(" Collected :")?;
        before.starts_with("==").then_some(after)
    })?;
    number.trim().parse().ok()
}

#[cfg(test)]
mod tests {
    use super::*;

    #[test]
    fn line_of_the_summary() {
        let said = "==7== \n==7== Events    : Ir\n==7== Collected : 149062\n==7== \n";
        assert_eq!(collected(said), Some(149_062));
        assert_eq!(collected("==7== Events    : Ir\n"), None);
    }
}
