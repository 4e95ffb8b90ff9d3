//! The words of the command line, told apart by a command's page of the help.

use crate::failure::Failure;
use crate::help::{self, Page, PAGES};
use crate::shown::shown;
use std::ffi::{OsStr, OsString};
use std::os::unix::ffi::OsStrExt;

/// What the command line asks for.
pub enum Request<'a> {
    Print(String),
    Run(&'static Page, Words<'a>),
}

/// The words of one command: as many operands as its page allows, and options
/// that its page has.
pub struct Words<'a> {
    operands: Vec<&'a OsStr>,
    options: Vec<(&'static str, &'a OsStr)>,
}

impl<'a> Words<'a> {
    /// An operand by its place; an empty word where there is none.
    pub fn operand(&self, place: usize) -> &'a OsStr {
        self.operands.get(place).copied().unwrap_or_default()
    }

    /// Whether an option is given.
    pub fn has(&self, option: &str) -> bool {
        self.value(option).is_some()
    }

    /// The word that an option is given, if the option is; for an option that
    /// takes none, an empty one.
    pub fn value(&self, option: &str) -> Option<&'a OsStr> {
        let mut given = self.options.iter().filter(|(name, _)| *name == option);
        given.next().map(|(_, value)| *value)
    }
}

/// Reads the words after the program's name.
pub fn request(words: &[OsString]) -> Result<Request<'_>, Failure> {
    let Some((first, rest)) = words.split_first() else {
        return Err(Failure::Usage(format!(
            "no command\n{}(captions --help says more)",
            help::commands()
        )));
    };
    match first.to_str() {
        Some("--help" | "-h") => Ok(Request::Print(help::overview())),
        Some("--version" | "-V") => Ok(Request::Print(version())),
        Some("help") => help_on(rest).map(Request::Print),
        _ => of_command(page_named(first)?, rest),
    }
}

fn version() -> String {
    concat!("captions ", env!("CARGO_PKG_VERSION"), "\n").to_string()
}

fn page_named(name: &OsStr) -> Result<&'static Page, Failure> {
    let found = PAGES.iter().find(|page| name == page.name);
    found.ok_or_else(|| wrong(&format!("no command {}", shown(name))))
}

fn help_on(words: &[OsString]) -> Result<String, Failure> {
    let asks = |word: &OsString| word == "--help" || word == "-h";
    match words {
        [] => Ok(help::overview()),
        // Of a command, its page; else how to ask.
        [word] if asks(word) => page_named(OsStr::new("help")).map(help::page),
        [name, word] if asks(word) => page_named(name).map(help::page),
        [name] => page_named(name).map(help::page),
        _ => Err(wrong("help takes one command")),
    }
}

fn of_command<'a>(page: &'static Page, words: &'a [OsString]) -> Result<Request<'a>, Failure> {
    let mut found = Words {
        operands: Vec::new(),
        options: Vec::new(),
    };
    let mut rest = words.iter().map(OsString::as_os_str);
    while let Some(word) = rest.next() {
        match word.as_bytes() {
            b"--" => found.operands.extend(rest.by_ref()),
            b"--help" | b"-h" => return Ok(Request::Print(help::page(page))),
            [b'-', _, ..] => found.options.push(option(page, word, &mut rest)?),
            _ => found.operands.push(word),
        }
    }
    check(page, &found)?;
    Ok(Request::Run(page, found))
}

/// An option's name and its value, which stands after `=` or is the next word,
/// whatever that begins with.
fn option<'a>(
    page: &Page,
    word: &'a OsStr,
    rest: &mut impl Iterator<Item = &'a OsStr>,
) -> Result<(&'static str, &'a OsStr), Failure> {
    let bytes = word.as_bytes();
    let (given, value) = match bytes.iter().position(|byte| *byte == b'=') {
        Some(at) => (&bytes[..at], Some(OsStr::from_bytes(&bytes[at + 1..]))),
        None => (bytes, None),
    };
    for (option, _) in page.options {
        let (name, operand) = option.split_once(' ').unwrap_or((option, ""));
        if name.as_bytes() != given {
            continue;
        }
        return match (operand, value) {
            ("", None) => Ok((name, OsStr::new(""))),
            ("", Some(_)) => Err(wrong_for(page, &format!("{name} takes no word"))),
            (_, Some(value)) => Ok((name, value)),
            _ => match rest.next() {
                Some(value) => Ok((name, value)),
                None => Err(wrong_for(page, &format!("{name} takes {operand}"))),
            },
        };
    }
    Err(wrong_for(page, &format!("no option {}", shown(word))))
}

/// Each option once, and as many operands as the page names, or as stay beside
/// the option that stands in place of the last.
fn check(page: &Page, words: &Words) -> Result<(), Failure> {
    for (place, (name, _)) in words.options.iter().enumerate() {
        if words.options[..place]
            .iter()
            .any(|(other, _)| other == name)
        {
            return Err(wrong_for(page, &format!("{name} is given twice")));
        }
    }
    let (name, given) = (page.name, words.operands.len());
    let (name, wanted) = match page.instead {
        Some((option, operands)) if words.has(option) => (format!("{name} {option}"), operands),
        _ => (name.to_string(), page.operands.len()),
    };
    if given != wanted {
        let plural = if wanted == 1 { "word" } else { "words" };
        let message = format!("{name} takes {wanted} {plural}, not {given}");
        return Err(wrong_for(page, &message));
    }
    Ok(())
}

/// A wrong command line, where no command is known.
fn wrong(message: &str) -> Failure {
    let usage = "usage: captions COMMAND ...";
    Failure::Usage(format!("{message}\n{usage}\n(captions --help says more)"))
}

/// A wrong command line of a command.
pub fn wrong_for(page: &Page, message: &str) -> Failure {
    let (usage, name) = (help::usage(page), page.name);
    Failure::Usage(format!(
        "{message}\n{usage}(captions help {name} says more)"
    ))
}
