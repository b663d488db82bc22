//! Which font files there are, and which stand in one family.

use std::{
    collections::HashSet,
    fs::{self, File, Metadata},
    io::{self, Read},
    os::unix::fs::MetadataExt,
    path::{Path, PathBuf},
};

use crate::{
    failure::{Failure, failed, reason},
    font::Font,
    options::Group,
    words::shown,
};

/// The endings of the files that are taken from a folder. Some are refused by
/// the picker, which then says why.
const ENDINGS: [&str; 12] = [
    "ttf", "otf", "otb", "ttc", "otc", "woff", "woff2", "eot", "pfb", "pfa", "t1", "dfont",
];

/// Most bytes of a file that is read.
const MOST_BYTES: u64 = 1 << 30;

/// The files of a family, in order.
#[derive(Debug)]
pub struct Family {
    /// Its folder, or none where the files were named one by one.
    pub folder: Option<PathBuf>,
    pub fallback: bool,
    /// Whole files, and fonts that were named by their numbers.
    pub files: Vec<Font>,
}

/// Most fonts of a file that are told one by one where they cannot be used.
pub const MOST_TOLD: usize = 8;

/// A file or a font that is not used, and why.
#[derive(Debug)]
pub struct Skipped {
    pub font: Font,
    /// The number of the refusal, where the picker refuses it.
    pub refusal: Option<u32>,
    pub reason: String,
}

impl Skipped {
    pub fn new(font: &Font, reason: impl Into<String>) -> Self {
        Self {
            font: font.clone(),
            refusal: None,
            reason: reason.into(),
        }
    }

    /// The fonts of a file with these bytes for which there is no number.
    pub fn over_numbered(file: &Font, bytes: &[u8]) -> Option<Self> {
        let fonts = file.over_numbered(bytes)?;
        let reason = "those past number 65535 cannot be numbered";
        Some(Self::new(file, format!("it has {fonts} fonts: {reason}")))
    }
}

/// Of a file, that so many fonts more cannot be used.
pub fn more(count: usize) -> String {
    let plural = if count == 1 { "" } else { "s" };
    format!("and {count} more font{plural} of this file cannot be used")
}

/// What was found.
#[derive(Debug, Default)]
pub struct Found {
    pub families: Vec<Family>,
    pub skipped: Vec<Skipped>,
    /// Files of other endings.
    pub others: usize,
}

impl Found {
    /// How many files there are to read.
    pub fn files(&self) -> usize {
        self.families.iter().map(|family| family.files.len()).sum()
    }

    fn row(&mut self, row: &mut Vec<Font>, fallback: bool) {
        if !row.is_empty() {
            self.families.push(Family {
                folder: None,
                fallback,
                files: std::mem::take(row),
            });
        }
    }
}

/// The families of the groups: a folder is one, and files in a row are one.
pub fn find(groups: &[Group], recursive: bool) -> Result<Found, Failure> {
    let mut found = Found::default();
    for group in groups {
        let mut row = Vec::new();
        for path in &group.paths {
            if let Some(font) = given(path)? {
                row.push(font);
            } else {
                found.row(&mut row, group.fallback);
                walk(path, group.fallback, recursive, &mut found)?;
            }
        }
        found.row(&mut row, group.fallback);
    }
    Ok(found)
}

/// The file of a path, or the font of FILE#N; none for a folder. What has the
/// path as its very name comes first.
fn given(path: &Path) -> Result<Option<Font>, Failure> {
    match fs::metadata(path) {
        Ok(there) if there.is_dir() => Ok(None),
        Ok(_) => Ok(Some(Font::file(path))),
        Err(error) => {
            let is_file = |font: &Font| fs::metadata(&font.file).is_ok_and(|there| !there.is_dir());
            match Font::numbered(path).filter(is_file) {
                None => failed(told(path, &error)),
                font => Ok(font),
            }
        }
    }
}

fn told(path: &Path, error: &io::Error) -> String {
    format!("{}: {}", shown(path), reason(error))
}

/// Adds the family of a folder and, where it is asked for, those of the folders
/// in it. A folder that is met again by a link is passed over.
fn walk(top: &Path, fallback: bool, recursive: bool, found: &mut Found) -> Result<(), Failure> {
    let before = found.families.len() + found.skipped.len();
    let mut seen = HashSet::new();
    let mut ahead = vec![top.to_owned()];
    while let Some(folder) = ahead.pop() {
        match listing(&folder, &mut seen, found) {
            Ok(listing) => {
                if !listing.files.is_empty() {
                    found.families.push(Family {
                        folder: Some(folder),
                        fallback,
                        files: listing.files,
                    });
                }
                if recursive {
                    ahead.extend(listing.folders.into_iter().rev());
                }
            }
            Err(error) if folder == top => return failed(told(top, &error)),
            Err(error) => {
                let skipped = Skipped::new(&Font::file(&folder), reason(&error));
                found.skipped.push(skipped);
            }
        }
    }
    if found.families.len() + found.skipped.len() == before {
        let hint = if recursive {
            ""
        } else {
            " (--recursive looks into its folders)"
        };
        let reason = format!("there is no font file in the folder{hint}");
        found.skipped.push(Skipped::new(&Font::file(top), reason));
    }
    Ok(())
}

/// What lies in a folder, by name.
#[derive(Default)]
struct Listing {
    files: Vec<Font>,
    folders: Vec<PathBuf>,
}

fn listing(
    folder: &Path,
    seen: &mut HashSet<(u64, u64)>,
    found: &mut Found,
) -> io::Result<Listing> {
    let mut listing = Listing::default();
    let own = fs::metadata(folder)?;
    if !seen.insert((own.dev(), own.ino())) {
        return Ok(listing);
    }
    let entries: io::Result<Vec<_>> = fs::read_dir(folder)?
        .map(|entry| entry.map(|entry| entry.path()))
        .collect();
    let mut entries = entries?;
    entries.sort();
    for path in entries {
        let metadata = fs::metadata(&path);
        if metadata.as_ref().is_ok_and(Metadata::is_dir) {
            listing.folders.push(path);
        } else if !has_font_ending(&path) {
            found.others += 1;
        } else {
            listing.files.push(Font::file(&path));
        }
    }
    Ok(listing)
}

fn has_font_ending(path: &Path) -> bool {
    path.extension().is_some_and(|ending| {
        let ending = ending.to_ascii_lowercase();
        ENDINGS.iter().any(|known| ending == *known)
    })
}

/// The bytes of a font file, or why there are none.
pub fn read(file: &Path) -> Result<Vec<u8>, String> {
    let told = |error: io::Error| reason(&error);
    // Before it is opened: to open a pipe would wait for its writer.
    let metadata = fs::metadata(file).map_err(told)?;
    if !metadata.is_file() {
        return Err("it is not a regular file".into());
    }
    let mut bytes = Vec::new();
    if metadata.len() <= MOST_BYTES {
        let opened = File::open(file).map_err(told)?;
        let mut limited = opened.take(MOST_BYTES + 1);
        limited.read_to_end(&mut bytes).map_err(told)?;
    }
    if metadata.len().max(bytes.len() as u64) > MOST_BYTES {
        return Err(format!("it is over {MOST_BYTES} bytes long"));
    }
    Ok(bytes)
}
