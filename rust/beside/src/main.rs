//! Compares the proved code with the original and with the plain reading.

mod calls;
mod family;
mod font;
mod job;
mod kinds;
mod original;
mod overrides;
mod program;
mod shrink;

use std::{env, process::ExitCode, time::Instant};

use job::Sides;
use jobs::list;

const USAGE: &str = "\
usage:
  beside [--seed S] [--jobs N] [--families N] [--fonts N]
N counts random jobs, choices (two for each family) and fonts; 0 passes a part over.";

struct Options {
    seed: u64,
    jobs: u64,
    families: u64,
    fonts: u64,
}

/// Some seconds.
const SHORT: Options = Options {
    seed: 1,
    jobs: 3000,
    families: 40_000,
    fonts: 20_000,
};

fn options(mut args: impl Iterator<Item = String>) -> Option<Options> {
    let mut options = SHORT;
    while let Some(arg) = args.next() {
        let number = args.next()?.parse().ok()?;
        match arg.as_str() {
            "--seed" => options.seed = number,
            "--jobs" => options.jobs = number,
            "--families" => options.families = number,
            "--fonts" => options.fonts = number,
            _ => return None,
        }
    }
    Some(options)
}

/// The jobs made for a purpose, the largest, then random ones.
fn compare_jobs(seed: u64, count: u64) -> Result<String, String> {
    let mut sides = Sides::new(calls::PROVED);
    let made = list::made().into_iter().chain(list::largest());
    for case in made.chain(list::random(seed).take(count as usize)) {
        sides.compare(&case)?;
    }
    Ok(sides.counts.text())
}

/// Runs one part and prints its counts and seconds.
fn part(
    name: &str,
    count: u64,
    run: impl FnOnce() -> Result<String, String>,
) -> Result<(), String> {
    if count == 0 {
        println!("{name}: passed over");
        return Ok(());
    }
    let start = Instant::now();
    print!("{}", run()?);
    println!("seconds {:.1}", start.elapsed().as_secs_f64());
    Ok(())
}

fn run(options: &Options) -> Result<(), String> {
    let seed = options.seed;
    println!("seed {seed}");
    println!(
        "the proved code beside {}",
        if original::HERE {
            "the original and plain"
        } else {
            "plain alone: the original is not compiled, and nothing is compared with it"
        }
    );
    print!("{}", overrides::compare(&overrides::printed()?)?.text());
    part("fonts", options.fonts, || {
        font::compare(&program::FONT_CASES, seed, options.fonts).map(|counts| counts.text())
    })?;
    part("families", options.families, || {
        family::compare(&program::MATCH_CASES, seed, options.families).map(|counts| counts.text())
    })?;
    part("jobs", options.jobs, || compare_jobs(seed, options.jobs))?;
    println!("no difference");
    Ok(())
}

fn main() -> ExitCode {
    let Some(options) = options(env::args().skip(1)) else {
        eprintln!("{USAGE}");
        return ExitCode::FAILURE;
    };
    match run(&options) {
        Ok(()) => ExitCode::SUCCESS,
        Err(difference) => {
            eprintln!("beside: {difference}");
            ExitCode::FAILURE
        }
    }
}

#[cfg(test)]
mod tests {
    use plain::{job, offers};
    use stemhook::limits;

    /// The limits are read once more in `plain`, and are the crate's.
    #[test]
    fn limits_are_the_same() {
        let [faces, overrides, families, places, requests] = [
            job::FACES,
            job::OVERRIDES,
            job::FAMILIES,
            job::PLACES,
            job::REQUESTS,
        ]
        .map(|limit| limit as usize);
        assert_eq!(job::BYTES, limits::JOB_BYTES);
        assert_eq!(faces, limits::FACES);
        assert_eq!(overrides, limits::OVERRIDES);
        assert_eq!(families, limits::FAMILIES);
        assert_eq!(places, limits::FAMILY_FACES);
        assert_eq!(requests, limits::REQUESTS);
        assert_eq!(offers::OUTPUT, limits::OFFER_BYTES);
    }
}
