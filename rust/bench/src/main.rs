//! The benchmark: one run, one driver; prints tables for docs/BENCHMARKS.md.

mod instructions;
mod measure;
mod pair;
mod sizes;
mod stack;

use std::{env, fs, hint::black_box, process::ExitCode};

use measure::{Measured, Spread, rounds};
use reference::call;
use stemhook::limits::OFFER_BYTES;

const USAGE: &str = "\
usage:
  bench [--rounds N]                             the tables
  bench --pair BEFORE AFTER [--rounds N] [--old] two builds of our calls, each a shared object (tools/bench-pair);
                                                 with --old the first has an offer call without a reading
  bench --loop SIZE [--rounds N]                 our offer call alone, for a profile
  bench --batch proved|rust SIZE CALLS BATCHES   nothing but these calls, for their instructions
SIZE is small, middle, large or lists; CALLS is `check`, or REQUEST:OFFER with commas between them";

/// The static library that is linked.
const LIBRARY: &str = env!("STEMHOOK_LIBRARY");

/// Rounds where no number is given.
const ROUNDS: usize = 41;

/// Requests of a job that are asked for in one batch, at most, where lists are short.
const ASKED: usize = 16;

/// A job that is measured.
struct Size {
    /// In commands.
    name: &'static str,
    /// In tables.
    label: &'static str,
    job: fn() -> Vec<u8>,
    /// Requests that are asked for in one batch, at most.
    asked: usize,
    /// Whether offers between the first and the last are measured too.
    spread: bool,
}

const SIZES: [Size; 4] = [
    Size {
        name: "small",
        label: "2 faces, 1 family, 1 request",
        job: sizes::small,
        asked: ASKED,
        spread: false,
    },
    Size {
        name: "middle",
        label: "12 faces, 2 families of 6, 20 requests",
        job: || sizes::middle(0),
        asked: ASKED,
        spread: false,
    },
    Size {
        name: "large",
        label: "256 faces, 256 overrides, 64 families of 64, 256 requests",
        job: sizes::large,
        asked: ASKED,
        spread: false,
    },
    // Fewer requests: a list has some hundred offers, and each is compared.
    Size {
        name: "lists",
        label: "256 faces, 64 families of 4 to 8, 256 requests of 255 families and 255 fallbacks, each eighth unknown",
        job: sizes::lists,
        asked: 4,
        spread: true,
    },
];

fn size_of(name: &str) -> Option<&'static Size> {
    SIZES.iter().find(|size| size.name == name)
}

/// Offers of a list that stand for all of them.
const SPREAD: u32 = 16;

/// The call of one side: job, reading, request, offer, output.
type Offer = fn(&[u8], u32, u32, u32, &mut [u8]) -> u32;

/// The sides by the names that a command has for them.
const SIDES: [(&str, Offer); 2] = [("proved", proved), ("rust", call::offer)];

/// The reading that is timed.
const READING: u32 = 0;

/// The crate's offer call, its answer as a number.
fn proved(job: &[u8], reading: u32, request: u32, number: u32, out: &mut [u8]) -> u32 {
    match stemhook::offer_bytes(job, reading, request, number, out) {
        Ok(true) => 0,
        Ok(false) => 1,
        Err(refused) => refused.number(),
    }
}

/// Room for an offer.
type Output = [u8; OFFER_BYTES];

/// A job, and for some of its requests the number of their offers.
struct Asked {
    job: Vec<u8>,
    lists: Vec<(u32, u32)>,
}

/// Asks both sides for every offer of some requests under both readings, up to
/// one past each list. This is the warm-up too.
fn ask(job: Vec<u8>, most: usize) -> Result<Asked, String> {
    let parts = jobs::layout::parts(&job).ok_or("a job that does not keep the layout")?;
    let count = parts.requests.len();
    let asked = count.min(most);
    let mut lists = Vec::new();
    for request in (0..asked).map(|i| (i * count / asked + i % 5).min(count - 1) as u32) {
        offers_of(&job, 1 - READING, request)?;
        lists.push((request, offers_of(&job, READING, request)?));
    }
    Ok(Asked { job, lists })
}

/// How many offers a request has, on which both sides agree.
fn offers_of(job: &[u8], reading: u32, request: u32) -> Result<u32, String> {
    let mut offer = 0;
    loop {
        let mut ours = [0x5a; OFFER_BYTES];
        let mut theirs = [0x5a; OFFER_BYTES];
        let answer = proved(job, reading, request, offer, &mut ours);
        let other = call::offer(job, reading, request, offer, &mut theirs);
        if (answer, ours) != (other, theirs) {
            return Err(format!(
                "reading {reading}, request {request}, offer {offer}: {answer} {ours:02x?}, Rust {other} {theirs:02x?}"
            ));
        }
        match answer {
            0 => offer += 1,
            1 => return Ok(offer),
            _ => return Err(format!("refused with {answer}")),
        }
    }
}

/// Which offers of a list are asked for.
#[derive(Copy, Clone)]
enum Which {
    First,
    Last,
    Past,
    /// From the first to the last, at equal distances.
    Spread,
}

fn calls(asked: &Asked, which: Which) -> Vec<(u32, u32)> {
    let numbers = |offers: u32| {
        let last = offers.saturating_sub(1);
        match which {
            Which::First => vec![0],
            Which::Last => vec![last],
            Which::Past => vec![offers],
            Which::Spread => (0..SPREAD).map(|i| i * last / (SPREAD - 1)).collect(),
        }
    };
    let of_list = |(request, offers): &(u32, u32)| {
        let request = *request;
        numbers(*offers)
            .into_iter()
            .map(move |number| (request, number))
    };
    asked.lists.iter().flat_map(of_list).collect()
}

/// A batch of offer calls; the output is not cleared between them. Neither side
/// knows the reading before the call.
fn batch(job: &[u8], calls: &[(u32, u32)], out: &mut Output, offer: Offer) {
    for (request, number) in calls {
        let out = black_box(&mut out[..]);
        let reading = black_box(READING);
        black_box(offer(black_box(job), reading, *request, *number, out));
    }
}

fn offers(asked: &Asked, which: Which, count: usize) -> Measured {
    let calls = calls(asked, which);
    let (mut ours, mut theirs) = ([0; OFFER_BYTES], [0; OFFER_BYTES]);
    rounds(
        count,
        calls.len(),
        &mut [
            &mut || batch(&asked.job, &calls, &mut ours, proved),
            &mut || batch(&asked.job, &calls, &mut theirs, call::offer),
        ],
    )
}

fn time(spread: Spread) -> String {
    let unit = |ns: f64| {
        if ns < 10_000.0 {
            format!("{ns:.0} ns")
        } else {
            format!("{:.1} us", ns / 1000.0)
        }
    };
    let Spread { low, median, high } = spread;
    format!("{} ({} to {})", unit(median), unit(low), unit(high))
}

fn ratio(spread: Spread) -> String {
    let Spread { low, median, high } = spread;
    format!("{median:.2} ({low:.2} to {high:.2})")
}

fn row(label: &str, bytes: usize, measured: &Measured) -> String {
    format!(
        "| {label} | {bytes} | {} | {} | {} |",
        time(measured.times[0]),
        time(measured.times[1]),
        ratio(measured.ratios[1]),
    )
}

fn head(first: &str) {
    println!("| {first} | Job, bytes | Proved | Rust | Proved / Rust |\n|---|---|---|---|---|");
}

/// Instructions of a call of each side, and the ratio: cells of a table.
fn instructions(size: &Size, words: &str, calls: usize) -> Result<String, String> {
    if !instructions::counted() {
        return Ok("- | - | -".to_owned());
    }
    let of_side = |(side, _)| {
        let words = ["--batch", side, size.name, words];
        instructions::of_batch(&words).map(|count| count as f64 / calls as f64)
    };
    let [ours, theirs] = SIDES.map(of_side);
    let (ours, theirs) = (ours?, theirs?);
    Ok(format!("{ours:.0} | {theirs:.0} | {:.2}", ours / theirs))
}

/// The sizes with their jobs, once both sides agree on them.
fn asked_sizes() -> Result<Vec<(&'static Size, Asked)>, String> {
    let asked = |size: &'static Size| Ok((size, ask((size.job)(), size.asked)?));
    SIZES.iter().map(asked).collect()
}

fn check_calls(asked: &Asked, count: usize) -> Measured {
    let job = &asked.job[..];
    rounds(
        count,
        1,
        &mut [
            &mut || {
                let _ = black_box(stemhook::check(black_box(job)));
            },
            &mut || {
                let _ = black_box(call::check(black_box(job)));
            },
            &mut || {
                black_box(plain::check(black_box(job)));
            },
        ],
    )
}

fn stack_of(asked: &Asked, offer: Offer) -> usize {
    let mut most = 0;
    for which in [Which::First, Which::Last, Which::Past] {
        let calls = calls(asked, which);
        let mut out = [0; OFFER_BYTES];
        most = most.max(stack::used(&mut || {
            batch(&asked.job, &calls, &mut out, offer)
        }));
    }
    most
}

/// Which offers of a size are measured, with their names in tables.
fn which_of(size: &Size) -> Vec<(Which, &'static str)> {
    let mut which = vec![
        (Which::First, "first"),
        (Which::Last, "last"),
        (Which::Past, "past the list"),
    ];
    if size.spread {
        which.push((Which::Spread, "mean of 16 over the list"));
    }
    which
}

fn offer_table(sizes: &[(&Size, Asked)], count: usize) -> Result<(), String> {
    println!("### The offer call\n");
    println!(
        "| Size, offer | Job, bytes | Proved | Rust | Proved / Rust | Instructions, proved | Instructions, Rust | Proved / Rust |\n|---|---|---|---|---|---|---|---|"
    );
    for (size, asked) in sizes {
        for (which, name) in which_of(size) {
            let label = format!("{}, {name}", size.label);
            let measured = offers(asked, which, count);
            let calls = calls(asked, which);
            let words: Vec<String> = calls.iter().map(|(a, b)| format!("{a}:{b}")).collect();
            let counted = instructions(size, &words.join(","), calls.len())?;
            let row = row(&label, asked.job.len(), &measured);
            println!("{row} {counted} |");
        }
    }
    Ok(())
}

fn check_table(sizes: &[(&Size, Asked)], count: usize) -> Result<(), String> {
    println!("\n### The check call\n");
    println!(
        "| Size | Job, bytes | Proved | Rust | `plain` | Proved / Rust | Proved / `plain` | Instructions, proved | Instructions, Rust | Proved / Rust |\n|---|---|---|---|---|---|---|---|---|---|"
    );
    for (size, asked) in sizes {
        let measured = check_calls(asked, count);
        println!(
            "| {} | {} | {} | {} | {} | {} | {} | {} |",
            size.label,
            asked.job.len(),
            time(measured.times[0]),
            time(measured.times[1]),
            time(measured.times[2]),
            ratio(measured.ratios[1]),
            ratio(measured.ratios[2]),
            instructions(size, "check", 1)?,
        );
    }
    Ok(())
}

fn tables(count: usize) -> Result<(), String> {
    let sizes = asked_sizes()?;
    println!(
        "Fonts of {} bytes with 12 tables, the five that are read among them. {count} rounds; median, quarters in brackets. {}\n",
        sizes::font_file(0, 0).len(),
        if instructions::counted() {
            "Instructions of one call, as callgrind counts them."
        } else {
            "Instructions are not counted: valgrind is not there."
        }
    );
    offer_table(&sizes, count)?;
    check_table(&sizes, count)?;
    println!("\n### As the faces of one family double\n");
    head("Faces, past the list");
    for faces in [2, 4, 8, 16, 32, 64] {
        let asked = ask(sizes::family(faces), ASKED)?;
        let measured = offers(&asked, Which::Past, count);
        println!("{}", row(&faces.to_string(), asked.job.len(), &measured));
    }
    println!("\n### As the fonts grow by bytes that no table of the five holds\n");
    head("12 faces, bytes more in each, first offer");
    for more in [0, 1 << 10, 16 << 10, 256 << 10] {
        let asked = ask(sizes::middle(more), ASKED)?;
        let measured = offers(&asked, Which::First, count);
        println!("{}", row(&more.to_string(), asked.job.len(), &measured));
    }
    println!("\n### Stack of one offer call\n");
    println!("| Size | Proved, bytes | Rust, bytes |\n|---|---|---|");
    for (size, asked) in &sizes {
        let [ours, theirs] = SIDES.map(|(_, offer)| stack_of(asked, offer));
        println!("| {} | {ours} | {theirs} |", size.label);
    }
    println!("| no call | {0} | {0} |", stack::used(&mut || {}));
    println!("\n### Size\n");
    let library = fs::metadata(LIBRARY).map_err(|error| error.to_string())?;
    println!("The static library: {} bytes.", library.len());
    Ok(())
}

/// Our offer call alone: the first offers, so many times over.
fn repeat(size: &str, count: usize) -> Option<Result<(), String>> {
    let size = size_of(size)?;
    Some(ask((size.job)(), size.asked).map(|asked| {
        let calls = calls(&asked, Which::First);
        let mut out = [0; OFFER_BYTES];
        for _ in 0..count {
            batch(&asked.job, &calls, &mut out, proved);
        }
        println!("{} calls", count * calls.len());
    }))
}

/// So many batches of calls of one side, and nothing else.
fn batches(side: &str, size: &str, calls: &str, count: &str) -> Option<()> {
    let (side, offer) = *SIDES.iter().find(|(name, _)| *name == side)?;
    let job = &(size_of(size)?.job)()[..];
    let count: usize = count.parse().ok()?;
    if calls == "check" {
        for _ in 0..count {
            if side == "proved" {
                let _ = black_box(stemhook::check(black_box(job)));
            } else {
                let _ = black_box(call::check(black_box(job)));
            }
        }
        return Some(());
    }
    let pair = |word: &str| {
        let (request, number) = word.split_once(':')?;
        Some((request.parse().ok()?, number.parse().ok()?))
    };
    let calls: Vec<(u32, u32)> = calls.split(',').map(pair).collect::<Option<_>>()?;
    let mut out = [0; OFFER_BYTES];
    for _ in 0..count {
        batch(job, &calls, &mut out, offer);
    }
    Some(())
}

/// Runs the command; none where it is not understood.
fn run() -> Option<Result<(), String>> {
    let mut count = ROUNDS;
    let mut size = None;
    let mut pair = None;
    let mut old = false;
    let mut args = env::args().skip(1);
    while let Some(arg) = args.next() {
        match arg.as_str() {
            "--rounds" => count = args.next()?.parse().ok().filter(|count| *count > 0)?,
            "--loop" => size = Some(args.next()?),
            "--pair" => pair = Some((args.next()?, args.next()?)),
            "--old" => old = true,
            "--batch" => {
                let words: Vec<String> = args.collect();
                let [side, size, calls, count] = &words[..] else {
                    return None;
                };
                return batches(side, size, calls, count).map(Ok);
            }
            _ => return None,
        }
    }
    match (size, pair) {
        (Some(size), None) => repeat(&size, count),
        (None, Some((before, after))) => Some(pair::tables((&before, old), &after, count)),
        (None, None) => Some(tables(count)),
        (Some(_), Some(_)) => None,
    }
}

fn main() -> ExitCode {
    match run() {
        Some(Ok(())) => ExitCode::SUCCESS,
        Some(Err(error)) => {
            eprintln!("bench: {error}");
            ExitCode::FAILURE
        }
        None => {
            eprintln!("{USAGE}");
            ExitCode::FAILURE
        }
    }
}

#[cfg(test)]
mod tests {
    use super::*;

    /// Both sides agree on the jobs that are measured, and there are offers.
    #[test]
    fn sides_agree() {
        for (size, asked) in asked_sizes().unwrap() {
            let offers = asked.lists.iter().map(|(_, offers)| *offers);
            assert!(offers.min() > Some(0), "{}", size.label);
        }
    }

    /// The counts that the tables name.
    #[test]
    fn counts_of_the_sizes() {
        let counts = |job: Vec<u8>| {
            let job = jobs::layout::parts(&job).unwrap();
            (
                job.faces.len(),
                job.overrides.len(),
                job.families.len(),
                job.requests.len(),
            )
        };
        assert_eq!(counts(sizes::small()), (2, 0, 1, 1));
        assert_eq!(counts(sizes::middle(0)), (12, 0, 2, 20));
        assert_eq!(counts(sizes::large()), (256, 256, 64, 256));
        let large = sizes::large();
        let large = jobs::layout::parts(&large).unwrap();
        assert!(large.families.iter().all(|places| places.len() == 64));
        assert_eq!(counts(sizes::lists()), (256, 0, 64, 256));
        let lists = sizes::lists();
        let lists = jobs::layout::parts(&lists).unwrap();
        let places = lists.families.iter().map(Vec::len);
        assert_eq!(places.clone().min().zip(places.max()), Some((4, 8)));
        for request in &lists.requests {
            for list in [&request.families, &request.fallbacks] {
                assert_eq!(list.len(), 255);
                assert!((0..64).all(|family| list.contains(&family)));
                assert_eq!(list.iter().filter(|family| **family >= 64).count(), 31);
            }
        }
    }

    /// What README.md and the header for C say of a call's stack.
    #[test]
    fn stack_of_a_call() {
        for (size, asked) in asked_sizes().unwrap() {
            let bytes = stack_of(&asked, proved);
            assert!((5_000..=8_192).contains(&bytes), "{}: {bytes}", size.label);
        }
    }

    /// The last offer of a long list is of one of its last fallbacks, so that
    /// the whole list is walked for it.
    #[test]
    fn last_of_a_long_list() {
        let asked = ask(sizes::lists(), 2).unwrap();
        let job = jobs::layout::parts(&asked.job).unwrap();
        for (request, number) in calls(&asked, Which::Last) {
            let mut out = [0; OFFER_BYTES];
            let answer = proved(&asked.job, READING, request, number, &mut out);
            assert_eq!(answer, 0);
            let known = job.requests[request as usize].fallbacks.iter();
            let last = known.rev().find(|family| **family < 64);
            assert_eq!(last, Some(&u16::from_be_bytes([out[0], out[1]])));
        }
    }

    /// Offers spread over a list begin with the first and end with the last.
    #[test]
    fn spread_over_a_list() {
        let asked = Asked {
            job: Vec::new(),
            lists: vec![(3, 91)],
        };
        let calls = calls(&asked, Which::Spread);
        assert_eq!(calls.len(), SPREAD as usize);
        assert_eq!((calls[0], calls[1], calls[15]), ((3, 0), (3, 6), (3, 90)));
    }
}
