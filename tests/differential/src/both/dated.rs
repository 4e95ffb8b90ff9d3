//! The calls of request 1 (document 02): conversions and dated reads.

use super::Both;
use crate::library;
use crate::sheets::Keys;
use reference::{DateAnswer, DayAnswer, Pointed};

impl Both {
    /// The day of a date.
    pub fn day_of_date(&mut self, year: usize, month: usize, day: usize) -> DayAnswer {
        let call = || format!("day of year {year}, month {month}, day {day}");
        let theirs = reference::day_of_date(year, month, day);
        let ours = library::day_of_date(year, month, day);
        self.hold(call, ours, theirs, theirs.number);
        ours
    }

    /// The date of a day.
    pub fn date_of_day(&mut self, day: usize) -> DateAnswer {
        let call = || format!("date of day {day}");
        let theirs = reference::date_of_day(day);
        let ours = library::date_of_day(day);
        self.hold(call, ours, theirs, theirs.number);
        ours
    }

    /// A read on a day into a window of a length: its answer, and the window
    /// after it.
    pub fn dated_read(
        &mut self,
        keys: &Keys,
        sheet: &[u8],
        terms: &[u8],
        slot: usize,
        day: usize,
        window: usize,
    ) -> (Pointed, Vec<u8>) {
        let call = || {
            let length = sheet.len();
            format!(
                "read {slot} on day {day}, window of {window}, {keys:02x?}, on {length} bytes, terms {terms:02x?}"
            )
        };
        // No zero byte, so that a byte left as it was shows.
        let mut true_window = vec![0x5a; window];
        let mut lent_window = self.lend(&true_window);
        let (sealing, checking) = (self.lend(&keys.sealing), self.lend(&keys.checking));
        let (lent_sheet, lent_terms) = (self.lend(sheet), self.lend(terms));
        let theirs = reference::dated_read(
            &keys.sealing,
            &keys.checking,
            sheet,
            terms,
            slot,
            day,
            &mut true_window,
        );
        let ours = library::dated_read(
            sealing.bytes(),
            checking.bytes(),
            lent_sheet.bytes(),
            lent_terms.bytes(),
            slot,
            day,
            lent_window.bytes_mut(),
        );
        self.hold_pointed(call, ours, theirs, sheet);
        self.hold_bytes(call, "window", &lent_window, &true_window);
        self.hold_bytes(call, "sealing key", &sealing, &keys.sealing);
        self.hold_bytes(call, "checking key", &checking, &keys.checking);
        self.hold_bytes(call, "sheet", &lent_sheet, sheet);
        self.hold_bytes(call, "term sheet", &lent_terms, terms);
        (ours, true_window)
    }
}
