//! The commands, and which one is asked for.

use std::ffi::OsString;

use crate::{
    failure::{Failure, usage},
    help, job, list,
    options::{self, Options},
    output, pick, specimen,
    words::shown,
};

#[derive(Clone, Copy, Debug, PartialEq, Eq)]
pub enum Command {
    Pick,
    List,
    Job,
    Specimen,
}

impl Command {
    pub const ALL: [Self; 4] = [Self::Pick, Self::List, Self::Job, Self::Specimen];

    pub const fn name(self) -> &'static str {
        match self {
            Self::Pick => "pick",
            Self::List => "list",
            Self::Job => "job",
            Self::Specimen => "specimen",
        }
    }

    fn of(name: &str) -> Option<Self> {
        Self::ALL.into_iter().find(|command| command.name() == name)
    }

    fn run(self, options: &Options) -> Result<(), Failure> {
        match self {
            Self::Pick => pick::run(options),
            Self::List => list::run(options),
            Self::Job => job::run(options),
            Self::Specimen => specimen::run(options),
        }
    }
}

/// Runs the program on the words after its name.
pub fn run(words: Vec<OsString>) -> Result<(), Failure> {
    let mut words = words.into_iter();
    let Some(first) = words.next() else {
        return usage("no command is given: pick, list, job or specimen");
    };
    match first.to_str() {
        Some("-h" | "--help") => output::print(help::PROGRAM),
        Some("help") => help_of(words.next()),
        Some("-V" | "--version") => {
            output::print(concat!("stemhook ", env!("CARGO_PKG_VERSION"), "\n"))
        }
        name => match name.and_then(Command::of) {
            Some(command) => {
                of_command(command, words.collect()).map_err(|failure| failure.of(command.name()))
            }
            None if name.is_some_and(|name| name.starts_with('-')) => {
                usage(format!("unknown option {}", shown(&first)))
            }
            None => usage(format!(
                "unknown command {}: there are pick, list, job and specimen",
                shown(&first)
            )),
        },
    }
}

fn of_command(command: Command, words: Vec<OsString>) -> Result<(), Failure> {
    match options::parse(command, words)? {
        Some(options) => command.run(&options),
        None => output::print(help::of(command)),
    }
}

/// `help`, or `help COMMAND`.
fn help_of(name: Option<OsString>) -> Result<(), Failure> {
    let Some(name) = name else {
        return output::print(help::PROGRAM);
    };
    match name.to_str().and_then(Command::of) {
        Some(command) => output::print(help::of(command)),
        None => usage(format!("unknown command {}", shown(&name))),
    }
}
