//! Term sheets, made and asked without their bytes being written by hand.
//!
//! They are plain bytes (`docs/FORMAT.md`, "Term sheets"), so this is code of the
//! crate and not of the proved library. Its tests hold it to what the library says
//! in a dated read.

use crate::{terms_len, Fault, Refusal, LAST_DAY, SLOTS};

/// Makes a buffer of [`terms_len`]`(slots)` bytes a term sheet by which no slot is
/// ever on show. What the buffer held doesn't matter.
///
/// # Errors
///
/// [`Refusal::WrongSpan`] for `slots` outside 1 to 256 or a buffer of another
/// length; `terms` is then as it was.
///
/// ```
/// use captions::{terms_blank, terms_len, terms_on_show, Refusal};
///
/// let mut terms = vec![0; terms_len(2)];
/// terms_blank(&mut terms, 2)?;
/// assert_eq!(terms_on_show(&terms, 1, 9617), Ok(false));
/// assert_eq!(terms_blank(&mut terms, 3), Err(Refusal::WrongSpan));
/// # Ok::<(), Refusal>(())
/// ```
pub fn terms_blank(terms: &mut [u8], slots: usize) -> Result<(), Refusal> {
    if !(1..=SLOTS).contains(&slots) || terms.len() != terms_len(slots) {
        return Err(Refusal::WrongSpan);
    }
    put(terms, 0, slots);
    for slot in 0..slots {
        put(terms, 1 + slot, LAST_DAY.into());
        put(terms, 1 + slots + slot, 0);
    }
    Ok(())
}

/// Sets the days from which and to which a slot is on show, both included. Where
/// `opening` is above `closing` it never is.
///
/// # Errors
///
/// In the order of the tests: [`Refusal::UnfitSheet`] with [`Fault::Terms`],
/// [`Refusal::NoSuchDate`] for a day above [`LAST_DAY`] and
/// [`Refusal::NoSuchSlot`]; `terms` is then as it was.
///
/// ```
/// use captions::{day_of_date, terms_blank, terms_len, terms_on_show, terms_set, Refusal};
///
/// let (opening, closing) = (day_of_date(2026, 5, 1)?, day_of_date(2026, 10, 31)?);
/// let mut terms = vec![0; terms_len(2)];
/// terms_blank(&mut terms, 2)?;
/// terms_set(&mut terms, 1, opening.into(), closing.into())?;
/// assert_eq!(terms_on_show(&terms, 1, closing.into()), Ok(true));
/// assert_eq!(terms_on_show(&terms, 1, usize::from(closing) + 1), Ok(false));
/// assert_eq!(terms_set(&mut terms, 2, 0, 0), Err(Refusal::NoSuchSlot));
/// # Ok::<(), Refusal>(())
/// ```
pub fn terms_set(
    terms: &mut [u8],
    slot: usize,
    opening: usize,
    closing: usize,
) -> Result<(), Refusal> {
    let slots = slots_of(terms)?;
    if opening.max(closing) > LAST_DAY.into() {
        return Err(Refusal::NoSuchDate);
    }
    if slot >= slots {
        return Err(Refusal::NoSuchSlot);
    }
    put(terms, 1 + slot, opening);
    put(terms, 1 + slots + slot, closing);
    Ok(())
}

/// Whether a slot is on show on a day, as [`dated_read`](crate::dated_read) judges
/// it.
///
/// # Errors
///
/// In the order of the tests: [`Refusal::UnfitSheet`] with [`Fault::Terms`],
/// [`Refusal::NoSuchDate`] for a day above [`LAST_DAY`] and
/// [`Refusal::NoSuchSlot`].
///
/// ```
/// use captions::{terms_on_show, Fault, Refusal};
///
/// // One slot, on show from day 1 to day 2.
/// let terms = [0, 1, 0, 1, 0, 2];
/// assert_eq!(terms_on_show(&terms, 0, 2), Ok(true));
/// assert_eq!(terms_on_show(&terms, 0, 3), Ok(false));
/// assert_eq!(terms_on_show(&terms, 0, 36525), Err(Refusal::NoSuchDate));
/// let unfit = Refusal::UnfitSheet(Fault::Terms);
/// assert_eq!(terms_on_show(&terms[..5], 0, 2), Err(unfit));
/// ```
pub fn terms_on_show(terms: &[u8], slot: usize, day: usize) -> Result<bool, Refusal> {
    let slots = slots_of(terms)?;
    if day > LAST_DAY.into() {
        return Err(Refusal::NoSuchDate);
    }
    if slot >= slots {
        return Err(Refusal::NoSuchSlot);
    }
    Ok(number(terms, 1 + slot) <= day && day <= number(terms, 1 + slots + slot))
}

/// The slot count of a term sheet that is fit: of that length, and with no day
/// above the last.
fn slots_of(terms: &[u8]) -> Result<usize, Refusal> {
    let slots = number(terms, 0);
    let is_whole = (1..=SLOTS).contains(&slots) && terms.len() == terms_len(slots);
    let last = usize::from(LAST_DAY);
    match is_whole && (1..=2 * slots).all(|place| number(terms, place) <= last) {
        true => Ok(slots),
        false => Err(Refusal::UnfitSheet(Fault::Terms)),
    }
}

/// A number of two bytes by its place; 0 where it isn't there.
fn number(terms: &[u8], place: usize) -> usize {
    let (numbers, _) = terms.as_chunks();
    let number = numbers.get(place).map(|bytes| u16::from_be_bytes(*bytes));
    number.unwrap_or(0).into()
}

/// Puts a number that has 16 bits into its place.
fn put(terms: &mut [u8], place: usize, number: usize) {
    let (numbers, _) = terms.as_chunks_mut();
    if let Some(bytes) = numbers.get_mut(place) {
        *bytes = (number as u16).to_be_bytes();
    }
}
