//! What the words of a command line ask for.

use std::{ffi::OsString, path::PathBuf};

use stemhook::Reading;

use crate::{
    command::Command,
    failure::{Failure, usage},
    overrides::FileOverride,
    values::{self, Asked},
    words::{Name, Takes, Word, Words, shown},
};

#[derive(Debug, Default)]
pub struct Options {
    pub inputs: Vec<Group>,
    pub asked: Asked,
    /// Which way the slant numbers of fonts count.
    pub reading: Reading,
    /// A file of requests; `-` is standard input.
    pub requests: Option<PathBuf>,
    pub overrides: Vec<FileOverride>,
    /// Files that take part in the choice but are not offered.
    pub not_held: Vec<PathBuf>,
    /// Whether whole font files go into the job.
    pub whole: bool,
    pub recursive: bool,
    pub json: bool,
    pub quiet: bool,
    pub output: Option<PathBuf>,
    pub text: Option<String>,
}

/// Files and folders that stand together.
#[derive(Debug, PartialEq)]
pub struct Group {
    /// The option before them, if there is one.
    pub option: Option<&'static str>,
    pub fallback: bool,
    pub paths: Vec<PathBuf>,
}

#[derive(Clone, Copy, Debug, PartialEq, Eq)]
enum Option_ {
    Family,
    Fallback,
    Asked(&'static str),
    Reading,
    Requests,
    Override,
    NotHeld,
    Whole,
    Recursive,
    Json,
    Quiet,
    Output,
    Text,
    Help,
}

/// The commands that make a job. Its bytes hold no reading.
const JOBS: &[Command] = &[Command::Pick, Command::Job, Command::Specimen];
const SHOWN: &[Command] = &[Command::Pick, Command::List];
const READ: &[Command] = &[Command::Pick, Command::List, Command::Specimen];
const WRITTEN: &[Command] = &[Command::Job, Command::Specimen];

/// Each option, and the commands that take it.
#[rustfmt::skip]
const NAMES: [(Name<Option_>, &[Command]); 17] = [
    (name("--family", None, Takes::Joined, Option_::Family), JOBS),
    (name("--fallback", None, Takes::Joined, Option_::Fallback), JOBS),
    (name("--width", None, Takes::Value, Option_::Asked("width")), JOBS),
    (name("--style", None, Takes::Value, Option_::Asked("style")), JOBS),
    (name("--weight", None, Takes::Value, Option_::Asked("weight")), JOBS),
    (name("--most", None, Takes::Value, Option_::Asked("most")), JOBS),
    (name("--reading", None, Takes::Value, Option_::Reading), READ),
    (name("--requests", None, Takes::Value, Option_::Requests), JOBS),
    (name("--override", None, Takes::Value, Option_::Override), &Command::ALL),
    (name("--not-held", None, Takes::Value, Option_::NotHeld), JOBS),
    (name("--whole", None, Takes::Nothing, Option_::Whole), JOBS),
    (name("--recursive", Some(b'r'), Takes::Nothing, Option_::Recursive), &Command::ALL),
    (name("--json", None, Takes::Nothing, Option_::Json), SHOWN),
    (name("--quiet", Some(b'q'), Takes::Nothing, Option_::Quiet), &Command::ALL),
    (name("--output", Some(b'o'), Takes::Value, Option_::Output), WRITTEN),
    (name("--text", None, Takes::Value, Option_::Text), &[Command::Specimen]),
    (name("--help", Some(b'h'), Takes::Nothing, Option_::Help), &Command::ALL),
];

const fn name(
    long: &'static str,
    short: Option<u8>,
    takes: Takes,
    option: Option_,
) -> Name<Option_> {
    Name {
        long,
        short,
        takes,
        option,
    }
}

/// Reads the words after a command's name; none where they ask for help.
pub fn parse(command: Command, words: Vec<OsString>) -> Result<Option<Options>, Failure> {
    let taken = NAMES
        .iter()
        .filter(|(_, commands)| commands.contains(&command));
    let mut words = Words::new(taken.map(|(name, _)| *name).collect(), words);
    let mut options = Options::default();
    while let Some(word) = words.next()? {
        match word {
            Word::Operand(path) => options.path(path)?,
            Word::Option(Option_::Help, _) => return Ok(None),
            Word::Option(option, value) => options.set(option, value)?,
        }
    }
    options.complete(command)?;
    Ok(Some(options))
}

impl Options {
    /// Sets what an option says.
    fn set(&mut self, option: Option_, value: Option<OsString>) -> Result<(), Failure> {
        match (option, value) {
            (Option_::Family, path) => self.start("--family", false, path)?,
            (Option_::Fallback, path) => self.start("--fallback", true, path)?,
            (Option_::Asked(key), Some(text)) => self.ask(key, text)?,
            (Option_::Reading, Some(text)) => self.read(text)?,
            (Option_::Requests, Some(file)) => self.requests = Some(file.into()),
            (Option_::Override, Some(text)) => self.overrides.push(FileOverride::parse(&text)?),
            (Option_::NotHeld, Some(file)) => self.not_held.push(file.into()),
            (Option_::Output, Some(file)) => self.output = Some(file.into()),
            (Option_::Text, Some(value)) => self.text = Some(text("--text", value)?),
            (Option_::Whole, _) => self.whole = true,
            (Option_::Recursive, _) => self.recursive = true,
            (Option_::Json, _) => self.json = true,
            (Option_::Quiet, _) => self.quiet = true,
            (Option_::Help, _) | (_, None) => {}
        }
        Ok(())
    }

    /// Width, style, weight or most.
    fn ask(&mut self, key: &str, value: OsString) -> Result<(), Failure> {
        let option = format!("--{key}");
        let said = self.asked.set(key, &text(&option, value)?);
        said.or_else(|message| usage(format!("{option}: {message}")))
    }

    /// Under which reading.
    fn read(&mut self, value: OsString) -> Result<(), Failure> {
        let said = values::reading(&text("--reading", value)?);
        self.reading = said.or_else(|message| usage(format!("--reading: {message}")))?;
        Ok(())
    }

    /// Starts a group, with a first path or without.
    fn start(
        &mut self,
        option: &'static str,
        fallback: bool,
        path: Option<OsString>,
    ) -> Result<(), Failure> {
        self.inputs.push(Group {
            option: Some(option),
            fallback,
            paths: Vec::new(),
        });
        match path {
            Some(path) => self.path(path),
            None => Ok(()),
        }
    }

    /// Adds a path to the last group, or to a first one.
    fn path(&mut self, path: OsString) -> Result<(), Failure> {
        if path.is_empty() {
            return usage("a file or folder has an empty name");
        }
        if self.inputs.is_empty() {
            self.inputs.push(Group {
                option: None,
                fallback: false,
                paths: Vec::new(),
            });
        }
        if let Some(group) = self.inputs.last_mut() {
            group.paths.push(path.into());
        }
        Ok(())
    }

    /// Whether nothing is missing.
    fn complete(&self, command: Command) -> Result<(), Failure> {
        let empty = self.inputs.iter().find(|group| group.paths.is_empty());
        if let Some(option) = empty.and_then(|group| group.option) {
            return usage(format!("{option} needs a file or folder after it"));
        }
        if self.inputs.is_empty() {
            return usage("no font file or folder is given");
        }
        if WRITTEN.contains(&command) && self.output.is_none() {
            return usage("the file to write is not given: -o FILE");
        }
        if self
            .output
            .as_ref()
            .is_some_and(|file| file.as_os_str().is_empty())
        {
            return usage("--output: the file's name is empty");
        }
        if self
            .text
            .as_ref()
            .is_some_and(|text| text.trim().is_empty())
        {
            return usage("--text: there is nothing to set");
        }
        Ok(())
    }
}

/// The value of an option, as text.
fn text(option: &str, value: OsString) -> Result<String, Failure> {
    match value.into_string() {
        Ok(text) => Ok(text),
        Err(value) => usage(format!("{option}: {:?} is not UTF-8", shown(value))),
    }
}
