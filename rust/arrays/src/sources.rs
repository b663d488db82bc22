//! The sources of the libraries on the way to a choice.

use std::{fs, io, path::Path};

/// The libraries that a choice goes through.
pub const CRATES: [&str; 5] = ["font", "matching", "query", "stemhook", "stemhook_c"];

#[derive(Clone, Debug, PartialEq, Eq)]
pub struct Source {
    /// As `crates/matching/src/stages.rt`.
    pub file: String,
    pub crate_name: String,
    /// The file's name, `lib` for the crate itself.
    pub module: String,
    pub text: String,
}

/// What lies in a folder of sources has to be a file of them.
fn of_crate(root: &Path, name: &str) -> io::Result<Vec<Source>> {
    let folder = format!("crates/{name}/src");
    let mut sources = Vec::new();
    for entry in fs::read_dir(root.join(&folder))? {
        let path = entry?.path();
        let file = path.file_name().and_then(|n| n.to_str()).unwrap_or("");
        let Some(module) = file.strip_suffix(".rt") else {
            let what = format!("{folder}/{file} is no source");
            return Err(io::Error::new(io::ErrorKind::InvalidData, what));
        };
        sources.push(Source {
            file: format!("{folder}/{file}"),
            crate_name: name.into(),
            module: module.into(),
            text: fs::read_to_string(&path)?,
        });
    }
    sources.sort_by(|a, b| a.file.cmp(&b.file));
    Ok(sources)
}

/// The sources of these libraries, in the order of their names.
pub fn read(root: &Path) -> io::Result<Vec<Source>> {
    let mut all = Vec::new();
    for name in CRATES {
        all.extend(of_crate(root, name)?);
    }
    Ok(all)
}
