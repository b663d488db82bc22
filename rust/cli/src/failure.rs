//! Why the program fails, and with which exit code.

use std::{
    io::{self, Write},
    process::ExitCode,
};

#[derive(Debug)]
pub enum Failure {
    /// The words of the command line are wrong.
    Usage {
        /// Empty where no command was named.
        command: &'static str,
        message: String,
    },
    /// What is asked for cannot be done.
    Failed(String),
    /// Standard output cannot be written.
    Output(io::Error),
}

pub fn usage<T>(message: impl Into<String>) -> Result<T, Failure> {
    Err(Failure::Usage {
        command: "",
        message: message.into(),
    })
}

pub fn failed<T>(message: impl Into<String>) -> Result<T, Failure> {
    Err(Failure::Failed(message.into()))
}

/// What an error of the system says, without its number.
pub fn reason(error: &io::Error) -> String {
    let said = error.to_string();
    match said.rsplit_once(" (os error ") {
        Some((words, _)) => words.to_owned(),
        None => said,
    }
}

impl Failure {
    /// The same, met in a command.
    pub fn of(self, name: &'static str) -> Self {
        match self {
            Self::Usage { message, .. } => Self::Usage {
                command: name,
                message,
            },
            other => other,
        }
    }

    /// Says on standard error why, and gives the exit code: 2 for wrong words,
    /// else 1. A reader of standard output that has gone away is no failure.
    pub fn report(&self) -> ExitCode {
        match self {
            Self::Usage { command, message } => {
                let space = if command.is_empty() { "" } else { " " };
                let hint = format!("Try 'stemhook{space}{command} --help'.");
                say(&format!("stemhook{space}{command}: {message}\n{hint}"));
                ExitCode::from(2)
            }
            Self::Failed(message) => {
                say(&format!("stemhook: {message}"));
                ExitCode::FAILURE
            }
            Self::Output(error) if error.kind() == io::ErrorKind::BrokenPipe => ExitCode::SUCCESS,
            Self::Output(error) => {
                say(&format!("stemhook: standard output: {}", reason(error)));
                ExitCode::FAILURE
            }
        }
    }
}

/// A line on standard error. Where that is closed, the exit code is all there is.
pub fn say(line: &str) {
    let _ = writeln!(io::stderr(), "{line}");
}
