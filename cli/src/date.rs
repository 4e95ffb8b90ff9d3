//! Dates as they are typed: ten characters, YYYY-MM-DD. The form is judged here,
//! the date by the library.

use captions::Refusal;
use std::ffi::OsStr;
use std::os::unix::ffi::OsStrExt;

/// The day of a date. A word of another form is no date either: the library is
/// asked for one of zeros, which it refuses.
pub fn day_of(word: &OsStr) -> Result<u16, Refusal> {
    let [year, month, day] = numbers(word.as_bytes()).unwrap_or_default();
    captions::day_of_date(year, month, day)
}

/// Year, month and day of a word of the form.
fn numbers(word: &[u8]) -> Option<[usize; 3]> {
    let word: &[u8; 10] = word.try_into().ok()?;
    if word[4] != b'-' || word[7] != b'-' {
        return None;
    }
    Some([
        number(&word[..4])?,
        number(&word[5..7])?,
        number(&word[8..])?,
    ])
}

/// The number that these digits make, if they are digits.
fn number(digits: &[u8]) -> Option<usize> {
    digits.iter().try_fold(0, |number, digit| {
        let value = char::from(*digit).to_digit(10)?;
        Some(10 * number + value as usize)
    })
}
