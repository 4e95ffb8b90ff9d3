//! The file of a sheet or a term sheet: read, and replaced whole or not at all.
//!
//! A changed sheet is written to a temporary file in the same folder, flushed,
//! and renamed over the old file; then the folder is flushed. The rename is one
//! step: before it the old sheet stands, after it the new one. The folder is
//! locked meanwhile, so that two commands never change a sheet from the same
//! old state, which would lose a caption and use a write number twice.

use crate::failure::Failure;
use crate::input;
use crate::kind::Kind;
use crate::place::{self, Existing, Place};
use captions::{sheet_len, SLOTS};
use std::io::{ErrorKind, Read};
use std::path::Path;
use std::time::Duration;

/// Enough of a file for the library to judge it: one that is longer than the
/// longest sheet is as unfit as its first bytes past that.
const MOST_BYTES: usize = sheet_len(SLOTS) + 1;

/// The bytes of the sheet in a file, or on standard input for `-`.
pub fn read(path: &Path) -> Result<Vec<u8>, Failure> {
    input::of_file(path)?.bytes(MOST_BYTES)
}

/// Changes the sheet in a file. A refusal leaves the file alone, and so does a
/// change that changes nothing.
pub fn change(
    path: &Path,
    wait: Duration,
    edit: impl FnOnce(&mut [u8]) -> Result<(), Failure>,
) -> Result<(), Failure> {
    replaceable(path)?;
    let place = Place::locked(path, place::of_existing, wait)?;
    let old = place.existing().map_err(|error| match error.kind() {
        ErrorKind::NotFound => Failure::no_input(path, error),
        _ => Failure::no_output(path, error),
    })?;
    let mut sheet = bytes_of(&old, path)?;
    let before = sheet.clone();
    edit(&mut sheet)?;
    match sheet == before {
        true => Ok(()),
        false => place.replace(&sheet, &old),
    }
}

/// Puts a new sheet or term sheet into a file. Over an existing one only where
/// that is asked, it is of that kind, and nothing is against it.
pub fn create(
    path: &Path,
    wait: Duration,
    sheet: &[u8],
    over_existing: bool,
    kind: Kind,
    against: impl FnOnce(&[u8]) -> Option<String>,
) -> Result<(), Failure> {
    replaceable(path)?;
    let place = Place::locked(path, place::of_new, wait)?;
    match place.existing() {
        Ok(old) if over_existing => {
            let bytes = bytes_of(&old, path)?;
            let found = Kind::of(&bytes);
            if ![kind, Kind::Empty].contains(&found) {
                let (found, kind) = (found.name(), kind.name());
                let message = format!("{found}, and --force replaces {kind} alone");
                return Err(Failure::no_output(path, message));
            }
            match against(&bytes) {
                Some(reason) => Err(Failure::no_output(path, reason)),
                None => place.replace(sheet, &old),
            }
        }
        Ok(_) => Err(Failure::no_output(path, "exists; --force blanks it")),
        Err(error) if error.kind() == ErrorKind::NotFound => place.make(sheet, false),
        Err(error) => Err(Failure::no_output(path, error)),
    }
}

/// Puts a sealed panel into a file. Over an existing one only where that is asked,
/// and never over a sheet, a term sheet or keys.
pub fn put(path: &Path, wait: Duration, bytes: &[u8], over_existing: bool) -> Result<(), Failure> {
    replaceable(path)?;
    let place = Place::locked(path, place::of_new, wait)?;
    match place.existing() {
        Ok(old) if over_existing => match Kind::of(&bytes_of(&old, path)?) {
            kind @ (Kind::Sheet | Kind::Terms | Kind::Keys) => {
                let message = format!("{}, which no panel replaces", kind.name());
                Err(Failure::no_output(path, message))
            }
            Kind::Empty | Kind::Other => place.replace(bytes, &old),
        },
        Ok(_) => Err(Failure::no_output(path, "exists; --force replaces it")),
        Err(error) if error.kind() == ErrorKind::NotFound => place.make(bytes, false),
        Err(error) => Err(Failure::no_output(path, error)),
    }
}

/// The bytes of a file that is to be replaced.
fn bytes_of(old: &Existing, path: &Path) -> Result<Vec<u8>, Failure> {
    let mut bytes = Vec::with_capacity(MOST_BYTES);
    let mut source = (&old.file).take(MOST_BYTES as u64);
    let read = source.read_to_end(&mut bytes);
    read.map_err(|error| Failure::of_file(path, error))?;
    Ok(bytes)
}

/// Puts bytes into a new file that only its owner can read.
pub fn create_private(path: &Path, wait: Duration, bytes: &[u8]) -> Result<(), Failure> {
    replaceable(path)?;
    let place = Place::locked(path, place::of_new, wait)?;
    match place.is_vacant() {
        Ok(true) => place.make(bytes, true),
        Ok(false) => Err(Failure::no_output(path, "exists; it is never overwritten")),
        Err(error) => Err(Failure::no_output(path, error)),
    }
}

/// Standard input can't be replaced.
fn replaceable(path: &Path) -> Result<(), Failure> {
    match input::is_standard(path) {
        true => Err(Failure::Usage(
            "- is standard input; a file of that name is ./-".to_string(),
        )),
        false => Ok(()),
    }
}
