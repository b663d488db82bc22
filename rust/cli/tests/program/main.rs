//! The program, run as it is: its words, files, output and exit codes.

mod arguments;
mod collections;
#[path = "../../../stemhook/tests/common/mod.rs"]
mod common;
mod damaged;
mod files;
mod job;
mod json;
mod limits;
mod list;
mod output;
mod page;
mod pick;
mod progress;
mod real_fonts;
mod requests;
mod run;
