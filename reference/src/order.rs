//! The running order of a day (document 02, request 11): the captions on show,
//! in the order in which their terms open. It takes no keys.

use crate::calendar::{date_text, day_of_text};
use crate::sheet::{fit_header, mark_of};
use crate::terms::fit_terms;

/// A written slot that is on show.
#[derive(Clone, Copy, Debug, PartialEq, Eq)]
pub struct Showing {
    pub slot: usize,
    /// The opening day of its term.
    pub opening: usize,
    /// The closing day of its term.
    pub closing: usize,
    /// The caption's length, by its mark.
    pub length: u16,
}

/// The running order of a day, or why there is none.
#[derive(Clone, Debug, PartialEq, Eq)]
pub enum RunningOrder {
    Unfit,
    NoSuchDate,
    Showings(Vec<Showing>),
}

impl RunningOrder {
    /// Of a caption sheet, its term sheet and a date as YYYY-MM-DD. Every written
    /// slot on show is in it, no other is; the earliest opening comes first, and
    /// among equals the lower slot.
    pub fn of(sheet: &[u8], terms: &[u8], date: &[u8]) -> RunningOrder {
        let Some(header) = fit_header(sheet) else {
            return RunningOrder::Unfit;
        };
        let Some(terms) = fit_terms(terms, header.n) else {
            return RunningOrder::Unfit;
        };
        let Some(day) = day_of_text(date) else {
            return RunningOrder::NoSuchDate;
        };
        let mut showings = Vec::new();
        let on_show = terms
            .iter()
            .enumerate()
            .filter(|(_, term)| term.on_show(day));
        for (slot, term) in on_show {
            if let Some(mark) = mark_of(sheet, &header, slot) {
                showings.push(Showing {
                    slot,
                    opening: term.opening,
                    closing: term.closing,
                    length: mark.length,
                });
            }
        }
        showings.sort_by_key(|showing| (showing.opening, showing.slot));
        RunningOrder::Showings(showings)
    }

    /// What is printed: a note on its line, or a line for each showing, and
    /// nothing at all where nothing is on show.
    pub fn text(&self) -> String {
        match self {
            RunningOrder::Unfit => "unfit\n".to_string(),
            RunningOrder::NoSuchDate => "no such date\n".to_string(),
            RunningOrder::Showings(showings) => showings.iter().map(line).collect(),
        }
    }
}

/// Slot, opening date, closing date and length, as in
/// "3 2026-01-31 2026-02-28 17".
fn line(showing: &Showing) -> String {
    let opening = date_text(showing.opening);
    let closing = date_text(showing.closing);
    format!("{} {opening} {closing} {}\n", showing.slot, showing.length)
}

/// The running order as it is printed.
pub fn running_order(sheet: &[u8], terms: &[u8], date: &[u8]) -> Vec<u8> {
    RunningOrder::of(sheet, terms, date).text().into_bytes()
}
