//! Standard input, output and error.

use crate::failure::Failure;
use crate::system;
use std::fs::File;
use std::io::{self, stderr, stdin, stdout, ErrorKind, IsTerminal, Write};
use std::os::fd::{AsFd, BorrowedFd};

/// Prints bytes on standard output. A reader that has closed the pipe has all
/// that it wanted.
pub fn print(bytes: &[u8]) -> Result<(), Failure> {
    let written = if system::standard_output_was_closed() {
        Err(closed())
    } else {
        // Not std's own handle, to which a descriptor that can't be written is
        // as good as one that can.
        handle(stdout().as_fd()).and_then(|mut out| out.write_all(bytes))
    };
    match written {
        Err(error) if error.kind() == ErrorKind::BrokenPipe => Ok(()),
        other => other.map_err(Failure::of_standard_output),
    }
}

/// Prints a caption or a panel as it is. On a terminal a line feed ends its line, so
/// that what comes next begins a line of its own.
pub fn print_caption(caption: &[u8]) -> Result<(), Failure> {
    match stdout().is_terminal() && !caption.ends_with(b"\n") {
        true => print(&[caption, b"\n"].concat()),
        false => print(caption),
    }
}

/// Standard input as a file.
pub fn input() -> Result<File, Failure> {
    let file = if system::standard_input_was_closed() {
        Err(closed())
    } else {
        handle(stdin().as_fd())
    };
    file.map_err(Failure::of_standard_input)
}

fn closed() -> io::Error {
    io::Error::new(ErrorKind::NotConnected, "it is closed")
}

fn handle(descriptor: BorrowedFd) -> io::Result<File> {
    descriptor.try_clone_to_owned().map(File::from)
}

/// Says something on standard error. Where that can't be written, the exit
/// status still tells.
pub fn say(text: &str) {
    let _ = stderr().write_all(text.as_bytes());
}

/// A line on standard error beside what the exit status tells.
pub fn warn(text: &str) {
    say(&format!("captions: {text}\n"));
}

/// A line for somebody who sits before a terminal.
pub fn hint(text: &str) {
    if stderr().is_terminal() {
        warn(text);
    }
}

/// A line for somebody who is to type on the terminal that standard input is.
pub fn prompt(text: &str) {
    if stdin().is_terminal() {
        warn(text);
    }
}
