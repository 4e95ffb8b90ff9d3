//! The running order of a day: the library's own text, or a table for people.

use crate::date;
use crate::escapes;
use crate::keys::Keys;
use captions::{Refusal, Showing, FIELD, RUNNING_ORDER};
use std::ffi::OsStr;
use std::os::unix::ffi::OsStrExt;

/// What a running order is made from; the keys are for the captions' texts.
pub struct Order<'a> {
    pub sheet: &'a [u8],
    pub terms: &'a [u8],
    pub date: &'a OsStr,
    pub keys: Option<&'a Keys>,
}

impl Order<'_> {
    /// The text, that of a refusal too.
    pub fn text(&self) -> Result<Vec<u8>, Refusal> {
        let mut text = vec![0; RUNNING_ORDER];
        let date = self.date.as_bytes();
        let length = captions::running_order(self.sheet, self.terms, date, &mut text)?;
        text.truncate(length);
        Ok(text)
    }

    /// Its lines, or why there are none.
    pub fn showings(&self) -> Result<Vec<Showing>, Refusal> {
        captions::showings(self.sheet, self.terms, self.date.as_bytes())
    }

    /// A table with headings and, where there are keys, the captions' texts. Where one
    /// can't be read, its refusal's word stands in brackets; with the first such refusal.
    pub fn table(&self, showings: &[Showing]) -> (Vec<u8>, Option<Refusal>) {
        let heading = self.keys.map(|_| "text");
        let mut table = line("slot", "opening", "closing", "length", heading);
        let mut unread = None;
        for showing in showings {
            let text = self.keys.map(|keys| {
                self.caption(keys, showing.slot).unwrap_or_else(|refusal| {
                    unread.get_or_insert(refusal);
                    format!("[{}]", refusal.word())
                })
            });
            let (slot, length) = (showing.slot.to_string(), showing.length.to_string());
            let (opening, closing) = (showing.opening.to_string(), showing.closing.to_string());
            table += &line(&slot, &opening, &closing, &length, text.as_deref());
        }
        (table.into_bytes(), unread)
    }

    /// The caption of a slot, read on the day, on one line.
    fn caption(&self, keys: &Keys, slot: usize) -> Result<String, Refusal> {
        let Order { sheet, terms, .. } = self;
        let Keys { sealing, checking } = keys;
        let (day, mut window) = (date::day_of(self.date)?.into(), [0; FIELD]);
        let read = captions::dated_read(sealing, checking, sheet, terms, slot, day, &mut window);
        let caption = window.get(..read?).unwrap_or(&window);
        Ok(escapes::on_a_line(caption))
    }
}

/// The columns two blanks apart, numbers on the right, and no blank at the end.
fn line(slot: &str, opening: &str, closing: &str, length: &str, text: Option<&str>) -> String {
    let numbers = format!("{slot:>4}  {opening:10}  {closing:10}  {length:>6}");
    match text {
        None | Some("") => numbers + "\n",
        Some(text) => format!("{numbers}  {text}\n"),
    }
}
