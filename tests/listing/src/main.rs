//! Runs a listing program on many sheets and compares what it prints with the
//! second program's listing.
//!
//!     listing-test PROGRAM [WORD...]
//!
//! Each sheet goes to the program's standard input: from a pipe in one piece,
//! from a pipe in several, or from a file. Sheets are seeded, so every run is
//! the same. Prints counts; exits with 1 at the first difference.

#![forbid(unsafe_code)]

/// The editions, from the second program's tests.
#[path = "../../../reference/tests/suite/edition.rs"]
mod edition;
/// A seeded generator, from the second program's tests.
#[allow(dead_code)]
#[path = "../../../reference/tests/suite/random.rs"]
mod random;
mod sheets;

use sheets::Sheet;
use std::fs::File;
use std::io::{Seek, Write};
use std::process::{Command, ExitCode, Output, Stdio};
use std::thread;
use std::time::Duration;

/// How a sheet is handed to the program.
#[derive(Clone, Copy, Debug)]
enum Way {
    Pipe,
    Pieces,
    File,
}

const WAYS: [Way; 3] = [Way::Pipe, Way::Pieces, Way::File];

fn main() -> ExitCode {
    let words: Vec<String> = std::env::args().skip(1).collect();
    let Some((program, words)) = words.split_first() else {
        eprintln!("usage: listing-test PROGRAM [WORD...]");
        return ExitCode::from(64);
    };
    match compare_all(program, words) {
        Ok(()) => ExitCode::SUCCESS,
        Err(message) => {
            eprintln!("listing-test: {message}");
            ExitCode::FAILURE
        }
    }
}

fn compare_all(program: &str, words: &[String]) -> Result<(), String> {
    let sheets = sheets::all();
    let (mut fit, mut unfit) = (0, 0);
    for (number, sheet) in sheets.iter().enumerate() {
        let way = WAYS[number % WAYS.len()];
        compare(program, words, way, sheet)
            .map_err(|message| format!("{}, by {way:?}: {message}", sheet.what))?;
        if reference::fit(&sheet.bytes) {
            fit += 1;
        } else {
            unfit += 1;
        }
    }
    for (group, count) in sheets::counts(sheets.iter().map(|sheet| &sheet.group[..])) {
        println!("{count:5} {group}");
    }
    println!(
        "{} sheets, {fit} fit, {unfit} unfit: all listed alike",
        sheets.len()
    );
    Ok(())
}

/// Runs the program on one sheet. It says nothing else and ends with status 0.
fn compare(program: &str, words: &[String], way: Way, sheet: &Sheet) -> Result<(), String> {
    let expected = reference::listing(&sheet.bytes);
    let output = run(program, words, way, &sheet.bytes).map_err(|error| error.to_string())?;
    if !output.status.success() {
        return Err(format!("it ended with {}", output.status));
    }
    if !output.stderr.is_empty() {
        return Err(format!("on standard error: {}", text(&output.stderr)));
    }
    if output.stdout != expected {
        let (printed, expected) = (text(&output.stdout), text(&expected));
        return Err(format!("it printed\n{printed}and not\n{expected}"));
    }
    Ok(())
}

fn run(program: &str, words: &[String], way: Way, bytes: &[u8]) -> std::io::Result<Output> {
    let mut command = Command::new(program);
    command
        .args(words)
        .stdout(Stdio::piped())
        .stderr(Stdio::piped());
    if let Way::File = way {
        return command.stdin(file_of(bytes)?).spawn()?.wait_with_output();
    }
    let mut child = command.stdin(Stdio::piped()).spawn()?;
    let mut stdin = child.stdin.take();
    thread::scope(|scope| {
        scope.spawn(move || {
            // A program that has seen enough may stop reading: a broken pipe is
            // no fault.
            let pipe = stdin.as_mut().expect("standard input is a pipe");
            let _ = match way {
                Way::Pieces => feed_in_pieces(pipe, bytes),
                _ => pipe.write_all(bytes),
            };
        });
        child.wait_with_output()
    })
}

/// A few pieces with pauses, so that the program's reads are short ones.
fn feed_in_pieces(pipe: &mut impl Write, bytes: &[u8]) -> std::io::Result<()> {
    let mut rest = bytes;
    for length in [1, 6, 1, 100, 4096] {
        let (piece, after) = rest.split_at(length.min(rest.len()));
        pipe.write_all(piece)?;
        thread::sleep(Duration::from_micros(200));
        rest = after;
    }
    pipe.write_all(rest)
}

/// A file without a name, at its beginning.
fn file_of(bytes: &[u8]) -> std::io::Result<File> {
    let name = format!("listing-test-{}", std::process::id());
    let path = std::env::temp_dir().join(name);
    let mut file = File::options()
        .read(true)
        .write(true)
        .create_new(true)
        .open(&path)?;
    std::fs::remove_file(&path)?;
    file.write_all(bytes)?;
    file.rewind()?;
    Ok(file)
}

fn text(bytes: &[u8]) -> String {
    String::from_utf8_lossy(bytes).into_owned()
}
