//! Runs a running order program on many pairs of files and dates, and compares what it
//! prints with the second program's running order.
//!
//!     order-test LINES PROGRAM [WORD...]
//!
//! Each pair goes into two files, whose names and a date are the program's arguments.
//! Pairs are seeded, so every run is the same. What the program printed of pairs that
//! fit is left in the file LINES, each line behind the number of its run. Prints
//! counts; exits with 1 at the first difference.

#![forbid(unsafe_code)]

/// The editions, from the second program's tests.
#[path = "../../../reference/tests/suite/edition.rs"]
mod edition;
mod pairs;
/// A seeded generator, from the second program's tests.
#[allow(dead_code)]
#[path = "../../../reference/tests/suite/random.rs"]
mod random;
mod sheets;
/// Term sheets laid out, from the second program's tests.
#[allow(dead_code)]
#[path = "../../../reference/tests/suite/term_sheet.rs"]
mod term_sheet;

use pairs::Pair;
use std::ffi::{OsStr, OsString};
use std::fs;
use std::os::unix::ffi::OsStrExt;
use std::path::{Path, PathBuf};
use std::process::{Command, ExitCode, Output};

fn main() -> ExitCode {
    let words: Vec<OsString> = std::env::args_os().skip(1).collect();
    let [lines, program @ ..] = &words[..] else {
        return usage();
    };
    if program.is_empty() {
        return usage();
    }
    let folder = std::env::temp_dir().join(format!("order-test-{}", std::process::id()));
    let compared = compare_all(Path::new(lines), program, &folder);
    let _ = fs::remove_dir_all(&folder);
    match compared {
        Ok(()) => ExitCode::SUCCESS,
        Err(message) => {
            eprintln!("order-test: {message}");
            ExitCode::FAILURE
        }
    }
}

fn usage() -> ExitCode {
    eprintln!("usage: order-test LINES PROGRAM [WORD...]");
    ExitCode::from(64)
}

fn compare_all(lines: &Path, program: &[OsString], folder: &Path) -> Result<(), String> {
    fs::create_dir_all(folder).map_err(|error| error.to_string())?;
    let (mut orders, mut printed) = (0, String::new());
    let pairs = pairs::all();
    for (number, pair) in pairs.iter().enumerate() {
        let output = compare(program, folder, pair)
            .map_err(|message| format!("{}: {message}", pair.what))?;
        if !["unfit\n", "no such date\n"].contains(&&output[..]) {
            orders += 1;
            printed.extend(output.lines().map(|line| format!("{number} {line}\n")));
        }
    }
    fs::write(lines, printed).map_err(|error| error.to_string())?;
    for (group, count) in sheets::counts(pairs.iter().map(|pair| pair.group)) {
        println!("{count:5} {group}");
    }
    let notes = pairs.len() - orders;
    println!(
        "{} pairs, {orders} in order, {notes} notes: all printed alike",
        pairs.len()
    );
    Ok(())
}

/// Runs the program on one pair. It says nothing else and ends with status 0.
fn compare(program: &[OsString], folder: &Path, pair: &Pair) -> Result<String, String> {
    let expected = text(&reference::running_order(
        &pair.sheet,
        &pair.terms,
        &pair.date,
    ));
    let output = run(program, folder, pair).map_err(|error| error.to_string())?;
    if !output.status.success() {
        return Err(format!("it ended with {}", output.status));
    }
    if !output.stderr.is_empty() {
        return Err(format!("on standard error: {}", text(&output.stderr)));
    }
    let printed = text(&output.stdout);
    if printed != expected {
        return Err(format!("it printed\n{printed}and not\n{expected}"));
    }
    Ok(printed)
}

fn run(program: &[OsString], folder: &Path, pair: &Pair) -> std::io::Result<Output> {
    let file = |name: &str, bytes: &[u8]| -> std::io::Result<PathBuf> {
        let path = folder.join(name);
        fs::write(&path, bytes)?;
        Ok(path)
    };
    Command::new(&program[0])
        .args(&program[1..])
        .arg(file("sheet", &pair.sheet)?)
        .arg(file("terms", &pair.terms)?)
        .arg(OsStr::from_bytes(&pair.date))
        .output()
}

fn text(bytes: &[u8]) -> String {
    String::from_utf8_lossy(bytes).into_owned()
}
