//! What is read: a file, or standard input where the name is `-`.

use crate::failure::Failure;
use crate::shown::shown;
use crate::terminal;
use std::fs::File;
use std::io::{self, ErrorKind, Read};
use std::os::unix::fs::MetadataExt;
use std::path::Path;

/// A file that is open, and what messages call it.
pub struct Input {
    pub file: File,
    pub name: String,
}

/// Whether a name stands for standard input.
pub fn is_standard(path: &Path) -> bool {
    path.as_os_str() == "-"
}

/// The device and inode of what a name stands for; none where nothing is there.
pub fn identity(path: &Path) -> Option<(u64, u64)> {
    let path = match is_standard(path) {
        true => Path::new("/dev/stdin"),
        false => path,
    };
    let metadata = std::fs::metadata(path).ok()?;
    Some((metadata.dev(), metadata.ino()))
}

/// Why there is no such file, where a symbolic link leads nowhere in its own words.
pub fn missing(path: &Path, error: io::Error) -> String {
    let is_link = std::fs::symlink_metadata(path).is_ok();
    match error.kind() {
        ErrorKind::NotFound if is_link => "a symbolic link to nothing".to_string(),
        _ => error.to_string(),
    }
}

pub fn of_file(path: &Path) -> Result<Input, Failure> {
    if is_standard(path) {
        return of_standard_input();
    }
    let opened = File::open(path);
    let file = opened.map_err(|error| Failure::no_input(path, missing(path, error)))?;
    let name = shown(path).to_string();
    Ok(Input { file, name })
}

pub fn of_standard_input() -> Result<Input, Failure> {
    Ok(Input {
        file: terminal::input()?,
        name: "standard input".to_string(),
    })
}

impl Input {
    /// The bytes up to the end, or as many as are wanted at most. Where not even
    /// the first can be read, as of a folder, it is no input.
    pub fn bytes(self, most: usize) -> Result<Vec<u8>, Failure> {
        let mut bytes = Vec::new();
        let mut source = self.file.take(most as u64);
        let name = self.name;
        match source.read_to_end(&mut bytes) {
            Ok(_) => Ok(bytes),
            Err(error) if bytes.is_empty() => Err(Failure::NoInput(format!("{name}: {error}"))),
            Err(error) => Err(Failure::File(format!("{name}: {error}"))),
        }
    }
}
