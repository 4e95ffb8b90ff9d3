//! The term sheet and the dated read (document 02, requests 1, 5, 7 and 10).

use crate::calendar::LAST_DAY;
use crate::faults::Fault;
use crate::keys::Keys;
use crate::sheet::{answer_read, mark_of, number, tested_caption, tested_header, Caption, FIELD};
use crate::{
    refuse_if, Pointed, Refusal, BLANK, NOT_ON_SHOW, NO_SUCH_DATE, NO_SUCH_SLOT, WRONG_SPAN,
};

/// The term of a slot.
pub(crate) struct Term {
    pub(crate) opening: usize,
    pub(crate) closing: usize,
}

impl Term {
    /// Whether the slot is on show; an opening above the closing means never.
    pub(crate) fn on_show(&self, day: usize) -> bool {
        self.opening <= day && day <= self.closing
    }
}

/// The number of two bytes that starts at a place.
fn number_at(terms: &[u8], place: usize) -> usize {
    number(&terms[place..place + 2]) as usize
}

/// Whether a term sheet fits a caption sheet of n slots: the same n, the
/// length 2 + 4 × n, and no day above the last one, in any slot.
pub fn terms_fit(terms: &[u8], n: usize) -> bool {
    fit_terms(terms, n).is_some()
}

/// The terms of all slots, if the term sheet fits: n, then the opening days,
/// then the closing days, two bytes each.
pub(crate) fn fit_terms(terms: &[u8], n: usize) -> Option<Vec<Term>> {
    // Two bytes hold n, so 2 + 4 × n is no overflow where it is counted.
    if terms.len() < 2 || number_at(terms, 0) != n || terms.len() != 2 + 4 * n {
        return None;
    }
    let openings = 2;
    let closings = 2 + 2 * n;
    let terms: Vec<Term> = (0..n)
        .map(|slot| Term {
            opening: number_at(terms, openings + 2 * slot),
            closing: number_at(terms, closings + 2 * slot),
        })
        .collect();
    let days_fit = |term: &Term| term.opening <= LAST_DAY && term.closing <= LAST_DAY;
    terms.iter().all(days_fit).then_some(terms)
}

/// Reading a slot on a day into a window of 192 bytes. Refusals 1, 2, 3, 4 for
/// the caption sheet, 4 for the term sheet, 5, 11, 14, 6, 9, 12, 10, in that
/// order; 4 and 10 point as a read's do, 4 for the term sheet to that sheet as such. A
/// refused read makes every byte of its window zero.
pub fn dated_read(
    sealing_key: &[u8],
    checking_key: &[u8],
    sheet: &[u8],
    terms: &[u8],
    slot: usize,
    day: usize,
    window: &mut [u8],
) -> Pointed {
    let tested = tested_dated_read(sealing_key, checking_key, sheet, terms, slot, day, window);
    answer_read(tested, window)
}

fn tested_dated_read(
    sealing_key: &[u8],
    checking_key: &[u8],
    sheet: &[u8],
    terms: &[u8],
    slot: usize,
    day: usize,
    window: &[u8],
) -> Result<Caption, Refusal> {
    let keys = Keys::tested(sealing_key, checking_key)?;
    refuse_if(window.len() != FIELD, WRONG_SPAN)?;
    let header = tested_header(sheet)?;
    let terms = fit_terms(terms, header.n).ok_or(Refusal::unfit(Some(Fault::Terms)))?;
    let pair = keys.tested_class(header.t)?;
    refuse_if(day > LAST_DAY, NO_SUCH_DATE)?;
    pair.test_mark(&header)?;
    refuse_if(slot >= header.n, NO_SUCH_SLOT)?;
    let mark = mark_of(sheet, &header, slot).ok_or(BLANK)?;
    refuse_if(!terms[slot].on_show(day), NOT_ON_SHOW)?;
    tested_caption(&pair, sheet, &header, slot, &mark)
}
