//! The whole way, timed: font files of a folder, a family of their fonts, a job,
//! the offers for four requests; with whole files in the job, and with just what
//! the picker looks at.
//!
//!     cargo run --release --example files_to_offers -- [--opentype] FOLDER..
//!
//! With --opentype the slant numbers of fonts count in OpenType's sense, else as
//! they are stored.

use std::{
    env,
    error::Error,
    fs,
    path::Path,
    time::{Duration, Instant},
};

use stemhook::{
    Angle, Attributes, BuildError, FaceId, FontFile, Job, JobBuilder, Reading, Request, Style,
    face_count, limits::FAMILY_FACES,
};

const ROUNDS: usize = 21;

fn main() -> Result<(), Box<dyn Error>> {
    println!("| Folder | Files | In the job | Job, bytes | Read | Build | Offers | In all |");
    println!("|---|---|---|---|---|---|---|---|");
    let mut words = env::args_os().skip(1).peekable();
    let reading = match words.next_if(|word| word == "--opentype") {
        Some(_) => Reading::OpenType,
        None => Reading::AsStored,
    };
    for folder in words {
        let folder = Path::new(&folder);
        let name = folder.file_name().unwrap_or_default().to_string_lossy();
        let files = usable(folder)?;
        for whole in [true, false] {
            let form = if whole { "whole files" } else { "tables alone" };
            let start = format!("| {name} | {} | {form} |", files.len());
            match measured(folder, &files, whole, reading) {
                Ok(line) => println!("{start} {line} |"),
                Err(error) => println!("{start} {error} | | | | |"),
            }
        }
    }
    Ok(())
}

/// The files of a folder whose fonts can be read, up to a family's most.
fn usable(folder: &Path) -> Result<Vec<String>, Box<dyn Error>> {
    let mut files = Vec::new();
    for entry in fs::read_dir(folder)? {
        let entry = entry?;
        if entry.file_type()?.is_file() {
            files.push(entry.file_name().to_string_lossy().into_owned());
        }
    }
    files.sort();
    let mut count = 0;
    let mut usable = Vec::new();
    for file in files {
        let bytes = fs::read(folder.join(&file))?;
        let faces = add(&mut JobBuilder::new(), &bytes, false).unwrap_or_default();
        count += faces.len();
        if count <= FAMILY_FACES && !faces.is_empty() {
            usable.push(file);
        }
    }
    Ok(usable)
}

/// Adds the faces of a file: the fonts of a collection, or the one font.
fn add(builder: &mut JobBuilder, file: &[u8], whole: bool) -> Result<Vec<FaceId>, BuildError> {
    let font = FontFile::new(file);
    let font = if whole { font.whole() } else { font };
    let numbers = (0..=u16::MAX).take(face_count(file) as usize);
    numbers
        .map(|number| builder.face(font.number(number)))
        .collect()
}

/// The job's length and the middle of the times of some rounds.
fn measured(
    folder: &Path,
    files: &[String],
    whole: bool,
    reading: Reading,
) -> Result<String, Box<dyn Error>> {
    let mut times = [Vec::new(), Vec::new(), Vec::new(), Vec::new()];
    let mut length = 0;
    for _ in 0..ROUNDS {
        let start = Instant::now();
        let fonts = files.iter().map(|file| fs::read(folder.join(file)));
        let fonts = fonts.collect::<Result<Vec<_>, _>>()?;
        let read = start.elapsed();
        let job = build(&fonts, whole)?.with_reading(reading);
        let built = start.elapsed();
        let mut offered = 0;
        for request in job.requests() {
            for offer in job.offers(request)? {
                offer?;
                offered += 1;
            }
        }
        assert!(offered > 0, "a family of faces offers some");
        let all = start.elapsed();
        length = job.as_bytes().len();
        for (kept, time) in times.iter_mut().zip([read, built - read, all - built, all]) {
            kept.push(time);
        }
    }
    let [read, built, offers, all] = times.map(middle);
    Ok(format!("{length} | {read} | {built} | {offers} | {all}"))
}

fn build(files: &[Vec<u8>], whole: bool) -> Result<Job<'static>, Box<dyn Error>> {
    let mut builder = JobBuilder::new();
    let mut faces = Vec::new();
    for file in files {
        faces.extend(add(&mut builder, file, whole)?);
    }
    let families = vec![builder.family(&faces)?];
    for (style, weight) in [
        (Style::Normal, 400.0),
        (Style::Normal, 650.0),
        (Style::Italic, 700.0),
        (Style::Oblique(Angle::Unstated), 300.0),
    ] {
        builder.request(&Request {
            attributes: Attributes {
                style,
                weight,
                ..Attributes::default()
            },
            families: families.clone(),
            ..Request::default()
        })?;
    }
    Ok(builder.build()?)
}

fn middle(mut times: Vec<Duration>) -> String {
    times.sort();
    format!("{:.3} ms", times[times.len() / 2].as_secs_f64() * 1e3)
}
