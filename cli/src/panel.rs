//! The panel of `captions panel`: where it comes from, and its numbers.

use crate::caption::Source;
use crate::failure::Failure;
use crate::shown::shown;
use crate::words::Words;
use captions::panel_blocks;
use std::ffi::OsStr;
use std::path::Path;

/// The panel that the options give, or standard input.
pub fn source<'a>(words: &Words<'a>) -> Result<Source<'a>, Failure> {
    match (words.value("--file"), words.has("--empty")) {
        (None, true) => Ok(Source::Empty),
        (Some(name), false) => Ok(Source::File(Path::new(name))),
        (None, false) => Ok(Source::File(Path::new("-"))),
        (Some(_), true) => Err(Failure::Usage(
            "one of --file and --empty at most".to_string(),
        )),
    }
}

/// The number of a panel's first block.
pub struct First {
    pub number: u64,
    is_hex: bool,
}

impl First {
    /// A decimal number, or one of hex digits behind 0x. The library takes every one,
    /// so what is no 64-bit number never gets there.
    pub fn of(word: &OsStr) -> Result<First, Failure> {
        let text = word.to_str().unwrap_or_default();
        let hex = text.strip_prefix("0x").or_else(|| text.strip_prefix("0X"));
        let (digits, radix) = hex.map_or((text, 10), |digits| (digits, 16));
        // Without this a sign would be taken too.
        let is_number = digits.chars().all(|digit| digit.is_digit(radix));
        let number = u64::from_str_radix(digits, radix).ok();
        let number = number.filter(|_| is_number).ok_or_else(|| {
            let most = u64::MAX;
            let allowed = format!("0 to {most}, or 0x and hex digits");
            Failure::Usage(format!("FIRST is {allowed}, not {}", shown(word)))
        })?;
        Ok(First {
            number,
            is_hex: radix == 16,
        })
    }

    /// The number after those that a panel of this many bytes uses, written as the
    /// first was.
    pub fn after(&self, length: usize) -> String {
        let next = self.number.wrapping_add(panel_blocks(length));
        match self.is_hex {
            true => format!("{next:#018x}"),
            false => next.to_string(),
        }
    }
}
