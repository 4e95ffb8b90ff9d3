//! The running order of a day, as text and taken apart.

use crate::{date::Date, first_fault, library, unless_refused, Fault, Refusal, RUNNING_ORDER};
use std::fmt;

/// A written slot that is on show: a line of the running order. Shown as that line,
/// without its line feed.
///
/// ```
/// use captions::{date_of_day, Refusal, Showing};
///
/// let (opening, closing) = (date_of_day(9617)?, date_of_day(9800)?);
/// let showing = Showing { slot: 1, opening, closing, length: 71 };
/// assert_eq!(showing.to_string(), "1 2026-05-01 2026-10-31 71");
/// # Ok::<(), Refusal>(())
/// ```
#[derive(Clone, Copy, Debug, PartialEq, Eq, Hash)]
pub struct Showing {
    /// The slot.
    pub slot: usize,
    /// Its first day on show.
    pub opening: Date,
    /// Its last day on show.
    pub closing: Date,
    /// The bytes of its caption.
    pub length: usize,
}

impl fmt::Display for Showing {
    fn fmt(&self, f: &mut fmt::Formatter<'_>) -> fmt::Result {
        let Showing {
            slot,
            opening,
            closing,
            length,
        } = self;
        write!(f, "{slot} {opening} {closing} {length}")
    }
}

/// Puts the running order of a day into the first bytes of `out`, as text, and gives
/// how many bytes it has; the bytes after them stay as they were. `date` is a date's
/// text, ten characters, YYYY-MM-DD.
///
/// Every written slot that is on show on that day by the term sheet has a line, and
/// no other slot has one: slot, opening date, closing date and caption length. The
/// earliest opening comes first, and among equals the lower slot. `Ok(0)` says that
/// nothing is on show. The text is `unfit` for an unfit sheet or term sheet, else
/// `no such date` for what is no date from 2000-01-01 to 2099-12-31, with a line feed
/// each; [`showings`] gives these as refusals. It takes no keys and tests no seal: an
/// altered caption has its line too.
///
/// # Errors
///
/// [`Refusal::WrongSpan`] where the text has more bytes than `out`, which is then as it
/// was. An `out` of [`RUNNING_ORDER`] bytes holds any text.
///
/// ```
/// use captions::{blank, running_order, sheet_len, write, Refusal, RUNNING_ORDER};
///
/// let mut sheet = vec![0; sheet_len(2)];
/// blank(&mut sheet, 2, 4, 1, &[1; 8], &[2; 8])?;
/// write(&[1; 8], &[2; 8], &mut sheet, 1, b"Clock")?;
/// // Slot 0 is always on show, slot 1 from 2026-05-01 to 2026-10-31.
/// let terms = [2, 0, 9617, 36524, 9800].map(u16::to_be_bytes).concat();
///
/// let mut out = [0; RUNNING_ORDER];
/// let length = running_order(&sheet, &terms, "2026-05-01", &mut out)?;
/// assert_eq!(&out[..length], b"1 2026-05-01 2026-10-31 5\n");
/// assert_eq!(running_order(&sheet, &terms, "2026-04-30", &mut out), Ok(0));
///
/// let length = running_order(&sheet, &terms, "2026-02-29", &mut out)?;
/// assert_eq!(&out[..length], b"no such date\n");
/// let answer = running_order(&sheet, &terms, "2026-05-01", &mut out[..25]);
/// assert_eq!(answer, Err(Refusal::WrongSpan));
/// # Ok::<(), Refusal>(())
/// ```
pub fn running_order(
    sheet: &[u8],
    terms: &[u8],
    date: impl AsRef<[u8]>,
    out: &mut [u8],
) -> Result<usize, Refusal> {
    let answer = library::running_order(sheet, terms, date.as_ref(), out);
    unless_refused(answer.number, answer.length.into())
}

/// The running order of a day, a [`Showing`] for each line of [`running_order`] and in
/// its order; none where nothing is on show. `date` is a date's text, YYYY-MM-DD, such
/// as a [`Date`] is shown as.
///
/// # Errors
///
/// In the order of the tests: [`Refusal::UnfitSheet`] (the sheet, then the term sheet)
/// and [`Refusal::NoSuchDate`].
///
/// ```
/// use captions::{blank, date_of_day, sheet_len, showings, write, Fault, Refusal};
///
/// let mut sheet = vec![0; sheet_len(3)];
/// blank(&mut sheet, 3, 4, 1, &[1; 8], &[2; 8])?;
/// write(&[1; 8], &[2; 8], &mut sheet, 0, b"Clock")?;
/// write(&[1; 8], &[2; 8], &mut sheet, 2, b"Vase, 1751")?;
/// // Slot 0 is on show from day 9617 on, slot 2 from day 9600.
/// let terms = [3, 9617, 0, 9600, 9800, 0, 9700].map(u16::to_be_bytes).concat();
///
/// let opening_day = date_of_day(9617)?.to_string();
/// let order = showings(&sheet, &terms, &opening_day)?;
/// let slots: Vec<usize> = order.iter().map(|showing| showing.slot).collect();
/// assert_eq!(slots, [2, 0]);
/// assert_eq!(order[0].closing.to_string(), "2026-07-23");
/// assert_eq!(order[0].length, 10);
///
/// assert_eq!(showings(&sheet, &terms, "2026-12-24"), Ok(vec![]));
/// assert_eq!(showings(&sheet, &terms, "24.12.2026"), Err(Refusal::NoSuchDate));
/// let unfit = Refusal::UnfitSheet(Fault::Terms);
/// assert_eq!(showings(&sheet, &terms[1..], "2026-12-24"), Err(unfit));
/// # Ok::<(), Refusal>(())
/// ```
pub fn showings(
    sheet: &[u8],
    terms: &[u8],
    date: impl AsRef<[u8]>,
) -> Result<Vec<Showing>, Refusal> {
    let mut text = vec![0; RUNNING_ORDER];
    let length = running_order(sheet, terms, date, &mut text)?;
    text.truncate(length);
    match text.as_slice() {
        // The text names no rule, but the sheet is here.
        b"unfit\n" => Err(Refusal::UnfitSheet(
            first_fault(sheet).unwrap_or(Fault::Terms),
        )),
        b"no such date\n" => Err(Refusal::NoSuchDate),
        lines => showings_in(lines).ok_or(NO_LINES),
    }
}

/// What stands in for a panic if the text weren't lines, which the library's always is.
const NO_LINES: Refusal = Refusal::Other(u8::MAX);

fn showings_in(lines: &[u8]) -> Option<Vec<Showing>> {
    let lines = std::str::from_utf8(lines).ok()?;
    lines.lines().map(showing_of).collect()
}

/// Of a line such as `1 2026-05-01 2026-10-31 71`.
fn showing_of(line: &str) -> Option<Showing> {
    let words: Vec<&str> = line.split(' ').collect();
    let [slot, opening, closing, length] = words[..] else {
        return None;
    };
    Some(Showing {
        slot: slot.parse().ok()?,
        opening: Date::of_text(opening)?,
        closing: Date::of_text(closing)?,
        length: length.parse().ok()?,
    })
}
