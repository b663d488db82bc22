//! Command line of the reference harness.

use std::{env, fs, io, path::PathBuf, process::ExitCode, time::Instant};

use jobs::{font_list, list};
use plain::reading::is_known;
use reference::{describe, families, lists, offers, pairs};

const USAGE: &str = "\
usage:
  reference fonts --out DIR [--seed S] [--labels]
  reference families --out DIR [--seed S] [--count N]
  reference jobs --out DIR [--seed S] [--count N] [--labels]
  reference jobs --compare-only [--seed S] [--count N]
  reference pairs --out DIR
  reference describe FONTFILE [--reading R] [--number N]
R is 0 or 1.";

/// Seed of the lists where none is given.
const SEED: u64 = 1;

/// Families where no count is given.
const COUNT: usize = 2500;

#[derive(Default)]
struct Options {
    out: Option<PathBuf>,
    seed: Option<u64>,
    count: Option<usize>,
    labels: bool,
    compare_only: bool,
    file: Option<PathBuf>,
    reading: u32,
    number: u16,
}

fn options(mut args: impl Iterator<Item = String>) -> Option<Options> {
    let mut options = Options::default();
    while let Some(arg) = args.next() {
        match arg.as_str() {
            "--out" => options.out = Some(args.next()?.into()),
            "--seed" => options.seed = Some(args.next()?.parse().ok()?),
            "--reading" => options.reading = args.next()?.parse().ok().filter(|r| is_known(*r))?,
            "--number" => options.number = args.next()?.parse().ok()?,
            "--count" => options.count = Some(args.next()?.parse().ok()?),
            "--labels" => options.labels = true,
            "--compare-only" => options.compare_only = true,
            _ if !arg.starts_with('-') && options.file.is_none() => options.file = Some(arg.into()),
            _ => return None,
        }
    }
    Some(options)
}

/// The jobs made for a purpose, then random ones; none where there is no folder.
fn jobs(options: &Options, seed: u64) -> Option<io::Result<()>> {
    let count = options.count.unwrap_or(list::RANDOM_JOBS);
    let cases = list::made()
        .into_iter()
        .chain(list::random(seed).take(count));
    let start = Instant::now();
    let counts = if options.compare_only {
        offers::compare_all(cases)
    } else {
        let labels = options.labels;
        let cases = cases.enumerate().map(move |(number, case)| {
            if labels {
                println!("{number} {}", case.label);
            }
            case
        });
        offers::write(options.out.as_ref()?, cases)
    };
    Some(counts.map(|counts| {
        let seconds = start.elapsed().as_secs_f64();
        print!("seed {seed}\n{}", counts.text());
        println!("seconds {seconds:.1}");
    }))
}

/// Runs the command; none where it is not understood.
fn run() -> Option<io::Result<()>> {
    let mut args = env::args().skip(1);
    let command = args.next()?;
    let options = options(args)?;
    let seed = options.seed.unwrap_or(SEED);
    Some(match command.as_str() {
        "fonts" => {
            let list = font_list::list(seed);
            if options.labels {
                for (number, (label, _)) in list.fonts.iter().enumerate() {
                    println!("{number} {label}");
                }
            }
            let asked = lists::fonts(&options.out?, &list);
            asked.map(|asked| print!("seed {seed}\n{}", asked.text()))
        }
        "families" => {
            let cases = families::cases(seed, options.count.unwrap_or(COUNT));
            families::write(&options.out?, &cases)
        }
        "jobs" => jobs(&options, seed)?,
        "pairs" => pairs::write(&options.out?),
        "describe" => fs::read(options.file?).map(|bytes| {
            let line = describe::line(&bytes, options.reading, options.number);
            println!("{line}");
        }),
        _ => return None,
    })
}

fn main() -> ExitCode {
    match run() {
        Some(Ok(())) => ExitCode::SUCCESS,
        Some(Err(error)) => {
            eprintln!("reference: {error}");
            ExitCode::FAILURE
        }
        None => {
            eprintln!("{USAGE}");
            ExitCode::FAILURE
        }
    }
}
