//! Prints vectors, the arrays after each round of a block, every date, the
//! running order of a day, the listing or the first fault of a sheet on standard
//! input, a panel sealed, or whether a text is well formed.

use reference::faults::fault_line;
use reference::listing::MOST_BYTES;
use reference::panel::{panel, MOST_PANEL_BYTES};
use reference::text::text_line;
use reference::{calendar, listing, running_order, vectors, OVERLONG};
use std::ffi::OsString;
use std::fs::File;
use std::io::{self, stderr, stdin, stdout, Error, Read, Write};
use std::process::ExitCode;

const USAGE: &str = "\
usage: reference vectors blocks|present|keys|bench|cmac|steps|cbc|panel|marks
       reference vectors sheet|faults|dated|classes|texts
       reference rounds KEY BLOCK
       reference dates
       reference order SHEET TERMS DATE
       reference list < sheet
       reference fault < sheet
       reference panel KEY FIRST < panel
       reference text < text
";

/// Why a command fails: a wrong command line, an overlong panel, or input or
/// output that failed.
enum Failure {
    Usage,
    Overlong,
    Io(Error),
}

impl Failure {
    /// The exit status.
    fn status(&self) -> u8 {
        match self {
            Failure::Usage => 64,
            Failure::Overlong => 65,
            Failure::Io(_) => 74,
        }
    }

    /// What is printed on standard error.
    fn text(&self) -> String {
        match self {
            Failure::Usage => USAGE.to_string(),
            Failure::Overlong => "reference: overlong\n".to_string(),
            Failure::Io(error) => format!("reference: {error}\n"),
        }
    }
}

impl From<Error> for Failure {
    fn from(error: Error) -> Failure {
        Failure::Io(error)
    }
}

/// How a command ends.
type Ended = Result<(), Failure>;

fn main() -> ExitCode {
    let arguments: Vec<OsString> = std::env::args_os().skip(1).collect();
    match run(&arguments) {
        Ok(()) => ExitCode::SUCCESS,
        Err(failure) => {
            let _ = stderr().write_all(failure.text().as_bytes());
            ExitCode::from(failure.status())
        }
    }
}

/// Runs a command; prints nothing for a wrong command line.
fn run(arguments: &[OsString]) -> Ended {
    let texts: Vec<_> = arguments
        .iter()
        .map(|word| word.to_string_lossy())
        .collect();
    let words: Vec<&str> = texts.iter().map(|word| word.as_ref()).collect();
    let text = match words[..] {
        ["vectors", "blocks"] => vectors::blocks(),
        ["vectors", "present"] => vectors::present(),
        ["vectors", "keys"] => vectors::keys(),
        ["vectors", "bench"] => vectors::bench(),
        ["vectors", "cmac"] => vectors::cmacs(),
        ["vectors", "steps"] => vectors::steps(),
        ["vectors", "cbc"] => vectors::cbc(),
        ["vectors", "panel"] => vectors::panels(),
        ["vectors", "marks"] => vectors::marks(),
        ["vectors", "sheet"] => vectors::sheet(),
        ["vectors", "faults"] => vectors::faults(),
        ["vectors", "dated"] => vectors::dated(),
        ["vectors", "classes"] => vectors::classes(),
        ["vectors", "texts"] => vectors::texts(),
        ["rounds", key, block] => vectors::rounds(key, block).ok_or(Failure::Usage)?,
        ["dates"] => calendar::all_dates(),
        ["order", ..] => return print_order(&arguments[1..]),
        ["list"] => return print_of_sheet(listing),
        ["fault"] => return print_of_sheet(|sheet| fault_line(sheet).into_bytes()),
        ["panel", key, first] => return print_sealed(key, first),
        ["text"] => text_line(&whole_input()?),
        _ => return Err(Failure::Usage),
    };
    print(text.as_bytes())
}

fn print(text: &[u8]) -> Ended {
    let mut out = stdout().lock();
    out.write_all(text)?;
    Ok(out.flush()?)
}

/// What a source gives, of which no more is read than one byte above `most`.
fn beginning(source: impl Read, most: usize) -> io::Result<Vec<u8>> {
    let mut bytes = Vec::new();
    source.take(most as u64 + 1).read_to_end(&mut bytes)?;
    Ok(bytes)
}

/// Standard input to its end.
fn whole_input() -> io::Result<Vec<u8>> {
    let mut bytes = Vec::new();
    stdin().lock().read_to_end(&mut bytes)?;
    Ok(bytes)
}

/// Prints what a sheet on standard input gives. Reads one byte more than the
/// longest sheet has, which is enough to list it and to find its first fault.
fn print_of_sheet(text: impl Fn(&[u8]) -> Vec<u8>) -> Ended {
    print(&text(&beginning(stdin().lock(), MOST_BYTES)?))
}

/// Prints the running order of a caption sheet, a term sheet and a date. A file
/// that isn't named is as one that can't be read, a date that is missing is empty,
/// and what follows the date is passed over.
fn print_order(operands: &[OsString]) -> Ended {
    let sheet = operands.first().map(file).unwrap_or_default();
    let terms = operands.get(1).map(file).unwrap_or_default();
    let date = operands.get(2).map(|date| date.as_encoded_bytes());
    print(&running_order(&sheet, &terms, date.unwrap_or_default()))
}

/// The bytes of a file; none, which fit no sheet of either kind, if it can't be
/// read. Reads one byte more than the longest sheet has, which is enough to find
/// either kind overlong.
fn file(name: &OsString) -> Vec<u8> {
    let opened = File::open(name);
    opened
        .and_then(|file| beginning(file, MOST_BYTES))
        .unwrap_or_default()
}

/// Prints the panel on standard input sealed. Reads one byte more than the
/// longest panel has, which is enough to find it overlong.
fn print_sealed(key: &str, first: &str) -> Ended {
    let (key, first) = vectors::panel_operands(key, first).ok_or(Failure::Usage)?;
    let text = beginning(stdin().lock(), MOST_PANEL_BYTES)?;
    let mut sealed = vec![0; text.len()];
    match panel(&key, first, &text, &mut sealed).number {
        0 => print(&sealed),
        OVERLONG => Err(Failure::Overlong),
        _ => Err(Failure::Usage),
    }
}
