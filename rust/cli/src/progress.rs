//! How far long work is, on a terminal.

use std::{
    io::{self, IsTerminal, Write},
    path::Path,
    time::{Duration, Instant},
};

use crate::words::shown;

/// How long work has to go on before it is told of, and between two lines.
const STEP: Duration = Duration::from_millis(100);

/// Most characters of a file's name on the line.
const NAME: usize = 48;

/// A line on standard error that is written over; nothing where that is no
/// terminal.
pub struct Progress {
    total: usize,
    count: usize,
    last: Instant,
    shown: bool,
    written: bool,
}

impl Progress {
    pub fn new(total: usize, quiet: bool) -> Self {
        Self {
            total,
            count: 0,
            last: Instant::now(),
            shown: !quiet && io::stderr().is_terminal(),
            written: false,
        }
    }

    /// One more file is read.
    pub fn step(&mut self, file: &Path) {
        self.count += 1;
        if self.shown && self.last.elapsed() >= STEP {
            self.last = Instant::now();
            self.written = true;
            let name: String = shown(file.file_name().unwrap_or_default());
            let name: String = name.chars().take(NAME).collect();
            let (count, total) = (self.count, self.total);
            let _ = write!(io::stderr(), "\r\x1b[Kreading {count} of {total}: {name}");
        }
    }
}

/// Clears the line.
impl Drop for Progress {
    fn drop(&mut self) {
        if self.written {
            let _ = write!(io::stderr(), "\r\x1b[K");
        }
    }
}
