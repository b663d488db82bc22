//! What the tests share.

// Each test program uses a part of it.
#![allow(dead_code)]

pub mod fonts;

use std::{
    env,
    fmt::Write as _,
    fs,
    io::{self, Write as _},
    path::PathBuf,
};

use stemhook::{Job, Offer, Reading, check};

/// A file of the repository, by its path from the root.
pub fn repository_file(path: &str) -> PathBuf {
    PathBuf::from(env!("CARGO_MANIFEST_DIR"))
        .join("../..")
        .join(path)
}

/// The bytes of a file of the repository.
pub fn read(path: &str) -> Vec<u8> {
    fs::read(repository_file(path)).unwrap_or_else(|error| panic!("{path}: {error}"))
}

/// Says that a test is skipped for lack of something, on standard error even
/// where the test passes. With STEMHOOK_SKIP_NOTHING set, as in the gate, it
/// fails the test instead.
pub fn skip(test: &str, lack: &str) {
    assert!(
        env::var_os("STEMHOOK_SKIP_NOTHING").is_none(),
        "{test}: {lack}"
    );
    // Not by a macro: those are captured.
    let _ = writeln!(io::stderr(), "\n{test}: SKIPPED: {lack}");
}

/// The two readings.
pub const READINGS: [Reading; 2] = [Reading::AsStored, Reading::OpenType];

/// What the program `offers` prints for a job under a reading.
pub fn text(bytes: &[u8], reading: Reading) -> String {
    lines(bytes, reading, false)
}

/// What the program `offer_cases` prints for a job: the same under each reading
/// in turn, with the charmap index after the skew.
pub fn indexed_texts(bytes: &[u8]) -> [String; 2] {
    READINGS.map(|reading| lines(bytes, reading, true))
}

fn lines(bytes: &[u8], reading: Reading, indexed: bool) -> String {
    let job = match Job::new(bytes) {
        Ok(job) => job.with_reading(reading),
        Err(refused) => {
            let position = refused.position().unwrap_or(0);
            return format!("refused {} {position}\n", refused.number());
        }
    };
    assert_eq!(check(bytes), Ok(()));
    let mut text = format!("requests {}\n", job.requests().len());
    for request in job.requests() {
        for offer in job.offers(request).expect("the request is in the job") {
            let offer = offer.expect("the job is accepted");
            write!(text, "{request} ").expect("a string takes text");
            text += &line(&offer, indexed);
        }
    }
    text
}

fn line(offer: &Offer, indexed: bool) -> String {
    let bold = if offer.embolden { 'b' } else { '-' };
    let mut line = format!("{} {} {bold} {}", offer.family, offer.place, offer.skew);
    if indexed {
        let index = offer.charmap;
        line += &format!(
            " {} {} {}",
            index.offset,
            u8::from(index.symbol),
            u8::from(index.mac_roman)
        );
    }
    for setting in &offer.settings {
        line += &format!(" {}={:08x}", setting.tag, setting.value.to_bits());
    }
    line + "\n"
}

/// Numbers from a seed, as `jobs` draws them.
pub struct Random(pub u64);

impl Random {
    pub fn next(&mut self) -> u64 {
        jobs::random::draw(&mut self.0)
    }

    /// A number below a limit.
    pub fn below(&mut self, limit: usize) -> usize {
        (self.next() % limit as u64) as usize
    }

    pub fn chance(&mut self, one_in: usize) -> bool {
        self.below(one_in) == 0
    }

    /// One of some values.
    pub fn of<T: Copy>(&mut self, values: &[T]) -> T {
        values[self.below(values.len())]
    }
}

/// The jobs of a list, each after its 32-bit length.
pub fn jobs(list: &[u8]) -> Vec<&[u8]> {
    let mut jobs = Vec::new();
    let mut rest = list;
    while let Some((length, after)) = rest.split_first_chunk::<4>() {
        let (job, next) = after.split_at(u32::from_be_bytes(*length) as usize);
        jobs.push(job);
        rest = next;
    }
    assert!(rest.is_empty(), "the list ends within a length");
    jobs
}

/// The fonts of a list, each a 32-bit length, the file, a 32-bit reading, which
/// is passed over, and the font number.
pub fn numbered_fonts(list: &[u8]) -> Vec<(&[u8], u16)> {
    let mut fonts = Vec::new();
    let mut rest = list;
    while let Some((length, after)) = rest.split_first_chunk::<4>() {
        let (file, after) = after.split_at(u32::from_be_bytes(*length) as usize);
        let (_, after) = after.split_at(4);
        let (number, next) = after.split_first_chunk().expect("the number is there");
        fonts.push((file, u16::from_be_bytes(*number)));
        rest = next;
    }
    assert!(rest.is_empty(), "the list ends within a length");
    fonts
}
