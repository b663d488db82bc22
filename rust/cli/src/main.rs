//! The program `stemhook`: from folders of fonts to the faces that are offered
//! for a request, to the job that the picker reads, and to a page that shows
//! the faces as they are to be set.
//!
//! Which faces are offered, in which order and with what done to them is the
//! proved picker's answer, by the crate `stemhook`. What `list` shows of a font
//! (and, on a page, the ranges of its axes) is what the package `plain` reads,
//! which is compared with the picker on generated and damaged fonts.
//!
//! `stemhook --help` and `stemhook COMMAND --help` say what it takes.

mod base64;
mod boxes;
mod command;
mod face;
mod failure;
mod files;
mod font;
mod help;
mod job;
mod json;
mod list;
mod load;
mod options;
mod output;
mod overrides;
mod page;
mod pick;
mod progress;
mod requests;
mod sfnt;
mod specimen;
mod values;
mod words;

use std::{env, process::ExitCode};

fn main() -> ExitCode {
    match command::run(env::args_os().skip(1).collect()) {
        Ok(()) => ExitCode::SUCCESS,
        Err(failure) => failure.report(),
    }
}
