//! Where the caption of `captions write` comes from, and a panel.

use crate::failure::Failure;
use crate::input;
use crate::terminal::{hint, prompt};
use crate::words::Words;
use std::ffi::OsStr;
use std::os::unix::ffi::OsStrExt;
use std::path::Path;

/// What is longer isn't read on, and so not counted.
pub const MOST_COUNTED: usize = 1 << 20;

/// The caption that the options give, or standard input.
pub enum Source<'a> {
    Empty,
    Text(&'a OsStr),
    File(&'a Path),
}

impl<'a> Source<'a> {
    pub fn of(words: &Words<'a>) -> Result<Source<'a>, Failure> {
        let (text, file) = (words.value("--text"), words.value("--file"));
        match (text, file, words.has("--empty")) {
            (None, None, true) => Ok(Source::Empty),
            (Some(text), None, false) => Ok(Source::Text(text)),
            (None, Some(name), false) => Ok(Source::File(Path::new(name))),
            (None, None, false) => Ok(Source::File(Path::new("-"))),
            _ => Err(Failure::Usage(
                "one of --text, --file and --empty at most".to_string(),
            )),
        }
    }

    pub fn is_standard_input(&self) -> bool {
        matches!(self, Source::File(path) if input::is_standard(path))
    }

    /// The file that the caption comes from; an empty name where none does.
    pub fn file(&self) -> &Path {
        match self {
            Source::File(path) => path,
            _ => Path::new(""),
        }
    }

    /// The bytes of the caption, or of what else is named. Where there are none, they
    /// were lost on their way unless that is asked for.
    pub fn bytes(&self, what: &str) -> Result<Vec<u8>, Failure> {
        let (bytes, name) = match self {
            Source::Empty => return Ok(Vec::new()),
            Source::Text(text) => (text.as_bytes().to_vec(), "--text".to_string()),
            Source::File(path) => {
                if self.is_standard_input() {
                    prompt(&format!(
                        "type the {what}; Ctrl-D twice ends it, Enter is part of it"
                    ));
                }
                let input = input::of_file(path)?;
                let name = input.name.clone();
                (input.bytes(MOST_COUNTED + 1)?, name)
            }
        };
        if bytes.is_empty() {
            let message = format!("{name}: no {what}; --empty gives one of no bytes");
            return Err(Failure::NoInput(message));
        }
        Ok(bytes)
    }
}

/// Tells somebody at a terminal what isn't seen there.
pub fn hint_at_line_feed(caption: &[u8]) {
    if caption.ends_with(b"\n") {
        hint("the caption ends with a line feed, which is kept; printf '%s' gives none");
    }
}

/// Tells somebody at a terminal what a broken text may be: where no letter beyond
/// ASCII is whole, it is hardly UTF-8 at all.
pub fn hint_at_character_set(caption: &[u8]) {
    let mut chunks = caption.utf8_chunks();
    if chunks.all(|chunk| chunk.valid().is_ascii() && chunk.invalid().len() <= 1) {
        hint(
            "the text may be in another character set; iconv -f LATIN1 -t UTF-8 makes UTF-8 \
             of Latin-1",
        );
    }
}
