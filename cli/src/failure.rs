//! What can go wrong, with its exit status and its message.

use crate::reasons::Given;
use crate::shown::shown;
use captions::Refusal;
use std::fmt::Display;
use std::io;
use std::path::Path;

/// Exit statuses beside those of the refusals, which are 1 to 15 and may come
/// to 16. Most are the numbers that sysexits.h gives to a wrong command line,
/// wrong data, missing input, output that can't be made, failed input or output
/// and "try again later".
const WRONG_USAGE: u8 = 64;
const WRONG_DATA: u8 = 65;
const NO_INPUT: u8 = 66;
const NO_OUTPUT: u8 = 73;
const FAILED_FILE: u8 = 74;
const LOCKED: u8 = 75;
/// Past the last number of sysexits.h, so that it is nobody's failure.
const NOT_FLUSHED: u8 = 79;

pub enum Failure {
    /// The library refused; with what is known of it beside its word.
    Refused(Refusal, Option<String>),
    /// Lines of a table can't be imported, each for the reason that its text
    /// gives; with the refusal, if that is why.
    Lines(Vec<String>, Option<Refusal>),
    /// The command line is wrong; the text is to be shown whole.
    Usage(String),
    /// A file of keys or a table isn't in its form.
    Data(String),
    /// What is to be read isn't there, may not be read or is empty.
    NoInput(String),
    /// A file can't be made, or what is there isn't replaced.
    NoOutput(String),
    /// A file, standard input or standard output failed midway.
    File(String),
    /// The folder stayed locked.
    Locked(String),
    /// The change is done, but the folder can't be flushed.
    NotFlushed(String),
}

impl Failure {
    /// A file that failed midway, by its name.
    pub fn of_file(path: &Path, error: impl Display) -> Failure {
        Failure::File(format!("{}: {error}", shown(path)))
    }

    /// A file that can't be read, by its name.
    pub fn no_input(path: &Path, error: impl Display) -> Failure {
        Failure::NoInput(format!("{}: {error}", shown(path)))
    }

    /// A file that can't be made or replaced, by its name.
    pub fn no_output(path: &Path, error: impl Display) -> Failure {
        Failure::NoOutput(format!("{}: {error}", shown(path)))
    }

    pub fn of_standard_input(error: io::Error) -> Failure {
        Failure::NoInput(format!("standard input: {error}"))
    }

    pub fn of_standard_output(error: io::Error) -> Failure {
        Failure::File(format!("standard output: {error}"))
    }

    /// The exit status.
    pub fn status(&self) -> u8 {
        match self {
            Failure::Refused(refusal, _) | Failure::Lines(_, Some(refusal)) => refusal.number(),
            Failure::Usage(_) => WRONG_USAGE,
            Failure::Data(_) | Failure::Lines(_, None) => WRONG_DATA,
            Failure::NoInput(_) => NO_INPUT,
            Failure::NoOutput(_) => NO_OUTPUT,
            Failure::File(_) => FAILED_FILE,
            Failure::Locked(_) => LOCKED,
            Failure::NotFlushed(_) => NOT_FLUSHED,
        }
    }

    /// The lines for standard error. A refusal's last line is its number and
    /// word alone, so that a script can take it as it is; the line before it has
    /// what else is known.
    pub fn message(&self) -> String {
        match self {
            Failure::Refused(refusal, Some(reason)) => {
                let word = refusal.word();
                format!("captions: {word}: {reason}\n{}", last_line(refusal))
            }
            Failure::Refused(refusal, None) => last_line(refusal),
            Failure::Lines(lines, refusal) => {
                let lines = lines.iter().map(|line| format!("captions: {line}\n"));
                lines.collect::<String>() + &refusal.as_ref().map(last_line).unwrap_or_default()
            }
            Failure::Usage(text)
            | Failure::Data(text)
            | Failure::NoInput(text)
            | Failure::NoOutput(text)
            | Failure::File(text)
            | Failure::Locked(text)
            | Failure::NotFlushed(text) => format!("captions: {text}\n"),
        }
    }
}

fn last_line(refusal: &Refusal) -> String {
    format!("{} {}\n", refusal.number(), refusal.word())
}

impl From<Refusal> for Failure {
    fn from(refusal: Refusal) -> Failure {
        Given::default().refused(refusal)
    }
}
