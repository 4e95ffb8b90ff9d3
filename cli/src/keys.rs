//! Files of keys: two lines of hex digits, the sealing and the checking key, or
//! one line, a key for the bench or for panels.

use crate::failure::Failure;
use crate::hex;
use crate::input;
use crate::kind::Kind;
use crate::system;
use crate::terminal::warn;
use std::fs::Metadata;
use std::os::unix::fs::MetadataExt;
use std::path::Path;

/// Far above any keys; what is longer isn't read on.
const MOST_BYTES: usize = 4096;

pub struct Keys {
    pub sealing: Vec<u8>,
    pub checking: Vec<u8>,
}

impl Keys {
    /// The keys that a file holds. Their lengths are for the library to judge.
    pub fn of_file(path: &Path) -> Result<Keys, Failure> {
        let [sealing, checking] = keys_of_file(path, &PAIR)?;
        Ok(Keys { sealing, checking })
    }

    /// A new pair of keys of this many bytes each, unlike each other.
    pub fn random(length: usize) -> Result<Keys, Failure> {
        let mut keys = Keys {
            sealing: vec![0; length],
            checking: vec![0; length],
        };
        while keys.sealing == keys.checking {
            system::fill_random(&mut keys.sealing)
                .and_then(|()| system::fill_random(&mut keys.checking))
                .map_err(|error| Failure::File(format!("the random source: {error}")))?;
        }
        Ok(keys)
    }

    /// The text of a file of these keys.
    pub fn text(&self) -> String {
        let mut text = String::new();
        for key in [&self.sealing, &self.checking] {
            text += &hex::digits_of(key);
            text.push('\n');
        }
        text
    }
}

/// The one key that a file holds. Its length is for the library to judge.
pub fn key_of_file(path: &Path) -> Result<Vec<u8>, Failure> {
    keys_of_file(path, &SINGLE).map(|[key]| key)
}

/// What a file of keys holds: a line for each, and what messages call them.
struct Form<const LINES: usize> {
    names: [&'static str; LINES],
    all: &'static str,
    counted: &'static str,
    more: &'static str,
}

const PAIR: Form<2> = Form {
    names: ["sealing", "checking"],
    all: "keys",
    counted: "two keys",
    more: "more than two lines",
};

const SINGLE: Form<1> = Form {
    names: ["one"],
    all: "key",
    counted: "one key",
    more: "more than one line; this command takes one key",
};

fn keys_of_file<const LINES: usize>(
    path: &Path,
    form: &Form<LINES>,
) -> Result<[Vec<u8>; LINES], Failure> {
    let input = input::of_file(path)?;
    let (name, metadata) = (input.name.clone(), input.file.metadata());
    let text = input.bytes(MOST_BYTES + 1)?;
    // The message gives the line and what is wrong there: no part of a key
    // is ever shown.
    let keys = keys_of_text(&text, form).map_err(|fault| {
        let message = match Kind::of(&text) {
            kind @ (Kind::Sheet | Kind::Terms) => format!("{}, not {}", kind.name(), form.all),
            _ => fault,
        };
        Failure::Data(format!("{name}: {message}"))
    })?;
    if let Ok(metadata) = metadata {
        warn_if_open_to_all(&name, &metadata, form.all);
    }
    Ok(keys)
}

fn keys_of_text<const LINES: usize>(
    text: &[u8],
    form: &Form<LINES>,
) -> Result<[Vec<u8>; LINES], String> {
    if text.len() > MOST_BYTES {
        return Err(format!("too long for {}", form.counted));
    }
    if text.is_empty() {
        return Err("it is empty".to_string());
    }
    let text = text.strip_suffix(b"\n").unwrap_or(text);
    let mut lines = text.split(|byte| *byte == b'\n').zip(1..);
    let mut keys = [const { Vec::new() }; LINES];
    for (key, name) in keys.iter_mut().zip(form.names) {
        let (line, number) = lines
            .next()
            .ok_or_else(|| format!("no line for the {name} key"))?;
        *key = bytes_of_line(line).map_err(|fault| format!("line {number}: {fault}"))?;
    }
    match lines.next() {
        None => Ok(keys),
        // An empty line before the keys makes the last of them one too many.
        Some(_) if keys.iter().any(Vec::is_empty) => {
            let number = keys.iter().position(Vec::is_empty).unwrap_or(0) + 1;
            Err(format!(
                "line {number}: an empty line; only the keys can stand there"
            ))
        }
        Some(([], number)) => Err(format!(
            "line {number}: an empty line after the {}",
            form.counted
        )),
        Some((_, number)) => Err(format!("line {number}: {}", form.more)),
    }
}

/// Says so where every user of the machine could learn the keys, or put others
/// in their place. A group may share them.
fn warn_if_open_to_all(name: &str, metadata: &Metadata, keys: &str) {
    let open = match metadata.mode() & 0o006 {
        _ if !metadata.is_file() => return,
        0o004 => "read",
        0o002 => "written",
        0o006 => "read and written",
        _ => return,
    };
    warn(&format!(
        "{name}: the {keys} can be {open} by every user: chmod 600 ends that"
    ));
}

/// The bytes of a line of hex digits, or what is wrong with the line.
fn bytes_of_line(line: &[u8]) -> Result<Vec<u8>, String> {
    let line = line.strip_suffix(b"\r").unwrap_or(line);
    if let Some(fault) = known_fault(line) {
        return Err(fault.to_string());
    }
    if let Some(place) = line.iter().position(|byte| !byte.is_ascii_hexdigit()) {
        let what = match line[place] {
            b' ' | b'\t' => "a blank",
            b'#' | b';' => "a comment, which can't stand here,",
            0 => "a zero byte (text in UTF-16 has them)",
            _ => "what is no hex digit",
        };
        return Err(format!("{what} in column {}", place + 1));
    }
    if !line.len().is_multiple_of(2) {
        return Err(format!("an odd number of hex digits, {}", line.len()));
    }
    hex::bytes_of(line).ok_or_else(|| "not hex digits".to_string())
}

/// What a line begins with that is no key but that people put there.
fn known_fault(line: &[u8]) -> Option<&'static str> {
    match line {
        [0xef, 0xbb, 0xbf, ..] => Some("a byte order mark; save the file without one"),
        [0xff, 0xfe, ..] | [0xfe, 0xff, ..] => Some("text in UTF-16; save the file as plain text"),
        [b'#' | b';', ..] | [b'/', b'/', ..] => Some("a comment; only the keys can stand there"),
        [b'0', b'x' | b'X', ..] => Some("0x before the digits; only the digits can stand there"),
        _ => None,
    }
}
