//! Standard output, and files that are written whole or not at all.

use std::{
    fs::{self, File, OpenOptions, Permissions},
    io::{self, BufWriter, Write},
    os::unix::{ffi::OsStrExt, fs::MetadataExt},
    path::{Path, PathBuf},
    process,
};

use crate::{
    failure::{Failure, failed, reason},
    load::Loaded,
    options::Options,
    words::shown,
};

/// Writes text to standard output.
pub fn print(text: &str) -> Result<(), Failure> {
    let mut out = io::stdout().lock();
    let written = out.write_all(text.as_bytes()).and_then(|()| out.flush());
    written.map_err(Failure::Output)
}

/// Why something could not be written.
pub enum Broken {
    /// The place to write to.
    Output(io::Error),
    /// What was to be written.
    Content(Failure),
}

impl From<io::Error> for Broken {
    fn from(error: io::Error) -> Self {
        Self::Output(error)
    }
}

impl Broken {
    fn told(self, target: &Path) -> Failure {
        match self {
            Self::Output(error) => {
                Failure::Failed(format!("{}: {}", shown(target), reason(&error)))
            }
            Self::Content(failure) => failure,
        }
    }
}

/// Refuses to write over a file that was read: a font, or the requests.
pub fn is_no_input(target: &Path, options: &Options, loaded: &Loaded) -> Result<(), Failure> {
    let Ok(own) = fs::metadata(target) else {
        return Ok(());
    };
    let same = |file: &PathBuf| {
        fs::metadata(file).is_ok_and(|other| (other.dev(), other.ino()) == (own.dev(), own.ino()))
    };
    let faces = loaded.faces.iter().map(|face| &face.font.file);
    let mut fonts = faces.chain(loaded.skipped.iter().map(|skipped| &skipped.font.file));
    let what = if fonts.any(same) {
        "it is one of the fonts"
    } else if options.requests.as_ref().is_some_and(same) {
        "it is the file of requests"
    } else {
        return Ok(());
    };
    failed(format!("{}: {what}", shown(target)))
}

/// Writes a file by way of a temporary one beside it, which then takes its
/// name. `-` is standard output; a device or a pipe is written as it is.
pub fn whole(
    target: &Path,
    write: impl FnOnce(&mut dyn Write) -> Result<(), Broken>,
) -> Result<(), Failure> {
    if target.as_os_str() == "-" {
        let done = through(io::stdout().lock(), write);
        return match done {
            Err(Broken::Output(error)) => Err(Failure::Output(error)),
            other => other.map_err(|broken| broken.told(target)),
        };
    }
    let told = |error: io::Error| Broken::Output(error).told(target);
    match fs::metadata(target) {
        Ok(there) if there.is_dir() => failed(format!("{}: it is a folder", shown(target))),
        Ok(there) if there.is_file() => {
            let real = fs::canonicalize(target).map_err(told)?;
            let done = Temporary::beside(&real).map_err(told)?;
            let done = done.write(&real, Some(there.permissions()), write);
            done.map_err(|broken| broken.told(target))
        }
        Ok(_) => {
            let opened = OpenOptions::new().write(true).open(target).map_err(told)?;
            through(opened, write).map_err(|broken| broken.told(target))
        }
        Err(_) if target.as_os_str().as_bytes().ends_with(b"/") => {
            failed(format!("{}: there is no such folder", shown(target)))
        }
        Err(_) => {
            let done = Temporary::beside(target).map_err(told)?;
            let done = done.write(target, None, write);
            done.map_err(|broken| broken.told(target))
        }
    }
}

/// Writes to something, and flushes it.
fn through(
    out: impl Write,
    write: impl FnOnce(&mut dyn Write) -> Result<(), Broken>,
) -> Result<(), Broken> {
    let mut out = BufWriter::new(out);
    write(&mut out)?;
    Ok(out.flush()?)
}

/// A file that is removed unless it took its name.
struct Temporary {
    path: PathBuf,
    file: Option<File>,
}

impl Temporary {
    /// A new file in the folder of another.
    fn beside(target: &Path) -> io::Result<Self> {
        let mut number = 0;
        loop {
            let name = format!(".stemhook.{}.{number}.part", process::id());
            let path = target.with_file_name(name);
            match OpenOptions::new().write(true).create_new(true).open(&path) {
                Ok(file) => {
                    let file = Some(file);
                    return Ok(Self { path, file });
                }
                Err(error) if error.kind() == io::ErrorKind::AlreadyExists && number < 100 => {
                    number += 1;
                }
                Err(error) => return Err(error),
            }
        }
    }

    /// Writes it and gives it its name.
    fn write(
        mut self,
        target: &Path,
        permissions: Option<Permissions>,
        write: impl FnOnce(&mut dyn Write) -> Result<(), Broken>,
    ) -> Result<(), Broken> {
        if let Some(file) = &self.file {
            through(file, write)?;
            if let Some(permissions) = permissions {
                file.set_permissions(permissions)?;
            }
            file.sync_all()?;
        }
        fs::rename(&self.path, target)?;
        self.file = None;
        Ok(())
    }
}

impl Drop for Temporary {
    fn drop(&mut self) {
        if self.file.take().is_some() {
            let _ = fs::remove_file(&self.path);
        }
    }
}
