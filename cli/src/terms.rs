//! A term sheet: for each slot the days from which and to which its caption may
//! be shown. Its bytes are numbers of two bytes each: the slot count, the opening
//! days of all slots, then the closing days.

use crate::blank_sheet::{any_keys, blank_sheet};
use crate::keys::Keys;
use crate::listing::{in_json, with_list};
use crate::reasons;
use captions::{date_of_day, Cipher, Date, Fault, Refusal, FIELD, LAST_DAY};

/// When a slot is on show.
#[derive(Clone, Copy)]
pub struct Term {
    pub opening: u16,
    pub closing: u16,
}

impl Term {
    /// The opening is above the closing day, by as much as can be.
    pub const NEVER: Term = Term {
        opening: LAST_DAY,
        closing: 0,
    };

    /// The dates of its days; none where the slot is never on show.
    fn dates(self) -> Option<(Date, Date)> {
        let date = |day: u16| date_of_day(day.into()).ok();
        match self.opening <= self.closing {
            true => Some((date(self.opening)?, date(self.closing)?)),
            false => None,
        }
    }
}

/// A term sheet in which no slot is ever on show.
pub fn blank(slots: usize) -> Result<Vec<u8>, Refusal> {
    // The library says how many slots there can be.
    blank_sheet(slots, Cipher::Mcrypton64, 0, &any_keys())?;
    let mut numbers = vec![u16::try_from(slots).unwrap_or_default()];
    numbers.extend(vec![Term::NEVER.opening; slots]);
    numbers.extend(vec![Term::NEVER.closing; slots]);
    Ok(numbers.into_iter().flat_map(u16::to_be_bytes).collect())
}

/// Sets the term of a slot.
pub fn set(sheet: &mut [u8], slot: usize, term: Term) -> Result<(), Refusal> {
    let slots = slots_with(sheet, slot)?;
    let (numbers, _) = sheet.as_chunks_mut();
    for (place, day) in [(1 + slot, term.opening), (1 + slots + slot, term.closing)] {
        if let Some(number) = numbers.get_mut(place) {
            *number = day.to_be_bytes();
        }
    }
    Ok(())
}

/// The terms of the slots, a line each after the slot count.
pub fn text(sheet: &[u8]) -> String {
    let Some(terms) = terms_in(sheet) else {
        return "unfit\n".to_string();
    };
    let mut text = format!("slots {}\n", terms.len());
    for (slot, term) in terms.iter().enumerate() {
        text += &match term.dates() {
            Some((opening, closing)) => format!("{slot} {opening} {closing}\n"),
            None => format!("{slot} never\n"),
        };
    }
    text
}

/// Why a term sheet is unfit; none where it is fit.
pub fn unfit(sheet: &[u8]) -> Option<String> {
    match terms_in(sheet) {
        Some(_) => None,
        None => Some(reasons::unfit_terms(sheet)),
    }
}

/// The same as JSON. Every object has all its members; what isn't there is null.
pub fn json(sheet: &[u8], reason: Option<&str>) -> String {
    let reason = in_json(reason);
    let Some(terms) = terms_in(sheet) else {
        let header = format!(r#"{{"fit":false,"slots":null,"reason":{reason}"#);
        return with_list(&header, Vec::new());
    };
    let header = format!(r#"{{"fit":true,"slots":{},"reason":{reason}"#, terms.len());
    let slots = terms.iter().enumerate().map(|(slot, term)| {
        let (opening, closing) = match term.dates() {
            Some((opening, closing)) => (format!("\"{opening}\""), format!("\"{closing}\"")),
            None => ("null".to_string(), "null".to_string()),
        };
        format!(r#"{{"slot":{slot},"opening":{opening},"closing":{closing}}}"#)
    });
    with_list(&header, slots.collect())
}

/// The slot count of a term sheet; none where it is unfit.
pub fn slots_in(sheet: &[u8]) -> Option<usize> {
    slots_with(sheet, 0).ok()
}

/// The terms of a term sheet; none where it is unfit.
fn terms_in(sheet: &[u8]) -> Option<Vec<Term>> {
    let slots = slots_with(sheet, 0).ok()?;
    let days = numbers(sheet).skip(1);
    let terms = days.clone().zip(days.skip(slots));
    let terms = terms.map(|(opening, closing)| Term { opening, closing });
    Some(terms.collect())
}

fn numbers(sheet: &[u8]) -> impl Iterator<Item = u16> + Clone + '_ {
    let (numbers, _) = sheet.as_chunks();
    numbers.iter().map(|bytes| u16::from_be_bytes(*bytes))
}

/// The slot count of a term sheet that is fit and has this slot. The library says
/// so: a dated read of a blank sheet with as many slots comes as far as "blank".
fn slots_with(sheet: &[u8], slot: usize) -> Result<usize, Refusal> {
    let slots = numbers(sheet).next().map_or(0, usize::from);
    let (keys, mut window) = (any_keys(), [0; FIELD]);
    let blank = blank_sheet(slots, Cipher::Mcrypton64, 0, &keys);
    let blank = blank.map_err(|_| Refusal::UnfitSheet(Fault::Terms))?;
    let Keys { sealing, checking } = &keys;
    match captions::dated_read(sealing, checking, &blank, sheet, slot, 0, &mut window) {
        Ok(_) | Err(Refusal::Blank) => Ok(slots),
        Err(refusal) => Err(refusal),
    }
}
