//! The command `captions`: caption sheets at a shell.
//!
//! What is accepted or refused is decided by the proved library. Here are the
//! words of the command line, the files and the exit status.

#![deny(unsafe_code)]

mod attributes;
mod blank_sheet;
mod caption;
mod cipher;
mod commands;
mod date;
mod escapes;
mod exchange;
mod failure;
mod header;
mod help;
mod hex;
mod input;
mod keys;
mod kind;
mod listing;
mod lock;
mod map;
mod order;
mod panel;
mod place;
mod reasons;
mod sheet_file;
mod shown;
mod system;
mod table;
mod temporary;
mod terminal;
mod terms;
mod words;

use std::ffi::OsString;
use std::process::ExitCode;

fn main() -> ExitCode {
    let words: Vec<OsString> = std::env::args_os().skip(1).collect();
    match commands::run(&words) {
        Ok(()) => ExitCode::SUCCESS,
        Err(failure) => {
            terminal::say(&failure.message());
            ExitCode::from(failure.status())
        }
    }
}
