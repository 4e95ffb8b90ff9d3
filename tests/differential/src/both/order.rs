//! The running order of a day (document 02, request 11).

use super::Both;
use crate::library;
use reference::{Answer, WRONG_SPAN};

impl Both {
    /// The running order into an output of a length: whole where there is room for
    /// it, with the bytes behind it as they were; else none of it, and a wrong span.
    pub fn order_into(&mut self, sheet: &[u8], terms: &[u8], date: &[u8], text: &[u8], out: usize) {
        let call = || {
            let (length, date) = (sheet.len(), date.escape_ascii());
            format!("order of {length} bytes, terms {terms:02x?}, date {date}, into {out}")
        };
        // No byte of a text, so that a byte left as it was shows.
        let mut true_out = vec![0x5a; out];
        let (lent_sheet, lent_terms, lent_date) =
            (self.lend(sheet), self.lend(terms), self.lend(date));
        let mut lent_out = self.lend(&true_out);
        let ours = library::running_order(
            lent_sheet.bytes(),
            lent_terms.bytes(),
            lent_date.bytes(),
            lent_out.bytes_mut(),
        );
        let theirs = match true_out.get_mut(..text.len()) {
            Some(start) => {
                start.copy_from_slice(text);
                Answer::accepted(text.len() as u16)
            }
            None => Answer::refused(WRONG_SPAN),
        };
        self.hold_answer(call, ours, theirs);
        self.hold_bytes(call, "output", &lent_out, &true_out);
        self.hold_bytes(call, "sheet", &lent_sheet, sheet);
        self.hold_bytes(call, "term sheet", &lent_terms, terms);
        self.hold_bytes(call, "date", &lent_date, date);
    }

    /// The second program's running order, which the library puts into outputs exactly
    /// large enough and larger, and not into one that is a byte short.
    pub fn order(&mut self, sheet: &[u8], terms: &[u8], date: &[u8]) -> Vec<u8> {
        let text = reference::running_order(sheet, terms, date);
        let exact = text.len();
        let short = exact.checked_sub(1);
        for out in [exact, exact + 40].into_iter().chain(short) {
            self.order_into(sheet, terms, date, &text, out);
        }
        text
    }
}
