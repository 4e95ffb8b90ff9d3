//! Second program for mCrypton caption sheets.
//!
//! It is written from documents 01 (the scope) and 02 (the change requests, of
//! them requests 1 to 11), document 000 (the mCrypton paper), the PRESENT paper
//! (CHES 2007) and ISO/IEC 29192-2, the NIST standards SP 800-38A (CBC, CTR) and
//! SP 800-38B (CMAC) and RFC 3629 (UTF-8) alone, to be read beside them and
//! compared with, not to be fast.
//!
//! Every public function is total: it takes slices of any length and numbers
//! of any size, and never panics.

#![forbid(unsafe_code)]

pub mod bench;
pub mod book;
pub mod calendar;
pub mod cipher;
pub mod class;
pub mod faults;
pub mod keys;
pub mod listing;
pub mod modes;
pub mod order;
pub mod panel;
pub mod present;
pub mod sheet;
pub mod terms;
pub mod text;
pub mod vectors;

pub use bench::{array_after, bench_block};
pub use book::Book;
pub use calendar::{date_of_day, day_of_date, DateAnswer, DayAnswer};
pub use cipher::{decrypt_block, encrypt_block};
pub use class::{key_bytes, SheetCipher};
pub use faults::{first_fault, Fault};
pub use keys::{key_mark, key_refusal};
pub use listing::listing;
pub use modes::cmac;
pub use order::running_order;
pub use panel::{panel, panel_blocks};
pub use present::{decrypt_block as present_decrypt_block, encrypt_block as present_encrypt_block};
pub use sheet::{blank, clear, fit, read, store_field, write};
pub use terms::{dated_read, terms_fit};
pub use text::{breaks_at, well_formed};

/// What a call hands back: its number (0 when accepted) and a length
/// (document 01, "The sheet" and "What the kiosk shows instead of a caption").
/// A conversion answers a `DayAnswer` or a `DateAnswer` instead; a read, a write
/// and a dated read answer a `Pointed`.
#[derive(Clone, Copy, Debug, PartialEq, Eq)]
pub struct Answer {
    pub number: u8,
    pub length: u16,
}

impl Answer {
    /// Number 0, with the caption's length for a read and 0 for all else.
    pub fn accepted(length: u16) -> Answer {
        Answer { number: 0, length }
    }

    /// A refusal: its number and length 0.
    pub fn refused(number: u8) -> Answer {
        Answer { number, length: 0 }
    }
}

/// What a read, a write or a dated read hands back: an answer and, for refusals
/// 4 and 10, the rule that gave it (document 02, request 5).
///
/// `slot` is the slot's number for rules 7 to 11. `place` is the header's byte
/// for rule 5, the mark's byte for rule 9 and the field's byte for rule 11. All
/// else is 0.
#[derive(Clone, Copy, Debug, PartialEq, Eq)]
pub struct Pointed {
    pub number: u8,
    pub rule: u8,
    pub length: u16,
    pub slot: u16,
    pub place: u16,
}

impl Pointed {
    /// The number and the length alone.
    pub fn answer(self) -> Answer {
        Answer {
            number: self.number,
            length: self.length,
        }
    }

    fn new(answer: Answer, fault: Option<Fault>) -> Pointed {
        let (rule, slot, place) = fault.map_or((RULE_NONE, 0, 0), Fault::numbers);
        Pointed {
            number: answer.number,
            rule,
            length: answer.length,
            slot,
            place,
        }
    }

    /// Number 0, with the caption's length for a read and 0 for a write.
    pub(crate) fn accepted(length: u16) -> Pointed {
        Pointed::new(Answer::accepted(length), None)
    }

    /// A refusal: its number, length 0 and what it points to.
    pub(crate) fn refused(refusal: Refusal) -> Pointed {
        Pointed::new(Answer::refused(refusal.number), refusal.fault)
    }
}

/// A refusal's number, and the fault that it points to.
pub(crate) struct Refusal {
    number: u8,
    fault: Option<Fault>,
}

impl Refusal {
    pub(crate) fn unfit(fault: Option<Fault>) -> Refusal {
        Refusal {
            number: UNFIT_SHEET,
            fault,
        }
    }

    pub(crate) fn altered(fault: Fault) -> Refusal {
        Refusal {
            number: ALTERED,
            fault: Some(fault),
        }
    }
}

/// A refusal that points to nothing.
impl From<u8> for Refusal {
    fn from(number: u8) -> Refusal {
        Refusal {
            number,
            fault: None,
        }
    }
}

/// A key isn't 8, 12 or 16 bytes (on sheets 10 too; PRESENT's block calls: isn't
/// 10 or 16), or the two lengths differ; blanking: t isn't 4, 6, 8, 21 or 24.
pub const WRONG_KEY: u8 = 1;
/// Sealing and checking key are equal (read, write, blanking).
pub const TWIN_KEYS: u8 = 2;
/// A block, wanted array, output, window or buffer has the wrong length (a
/// panel's output another than the panel); blanking: n isn't 1 to 256.
pub const WRONG_SPAN: u8 = 3;
/// The sheet is shorter than its header or breaks a rule of the layout; the
/// term sheet has another n, another length or a day above 36524.
pub const UNFIT_SHEET: u8 = 4;
/// The key bytes aren't 2 × t, for t of 21 and 24 aren't 10 and 16.
pub const OTHER_KEY_CLASS: u8 = 5;
/// The slot is n or more.
pub const NO_SUCH_SLOT: u8 = 6;
/// The caption is above 192 bytes, or the panel above 65536.
pub const OVERLONG: u8 = 7;
/// A write with w = 4294967295.
pub const WORN: u8 = 8;
/// A read of a blank slot.
pub const BLANK: u8 = 9;
/// The check differs, or an opened byte at or past the length isn't zero.
pub const ALTERED: u8 = 10;
/// There is no such date from 2000-01-01 to 2099-12-31; a day above 36524.
pub const NO_SUCH_DATE: u8 = 11;
/// A dated read of a slot that isn't on show on that day.
pub const NOT_ON_SHOW: u8 = 12;
/// The bench: the round is above 12.
pub const NO_SUCH_ROUND: u8 = 13;
/// The key mark of an edition 3 sheet isn't that of the keys.
pub const OTHER_KEYS: u8 = 14;
/// A write of a caption that isn't UTF-8 of RFC 3629.
pub const BROKEN_TEXT: u8 = 15;

/// Accepted, or a refusal that points to no rule.
pub const RULE_NONE: u8 = 0;
/// The sheet is under 8 bytes.
pub const RULE_SHORT: u8 = 1;
/// n isn't 1 to 256.
pub const RULE_SLOT_COUNT: u8 = 2;
/// Byte 2 isn't 4, 6 or 8, nor in edition 3 21 or 24.
pub const RULE_KEY_CLASS: u8 = 3;
/// Byte 3 is no edition's.
pub const RULE_EDITION: u8 = 4;
/// A zero byte of the header is set.
pub const RULE_HEADER_ZERO: u8 = 5;
/// The sheet's length isn't that of n slots.
pub const RULE_LENGTH: u8 = 6;
/// A mark's write number is 0 or above w.
pub const RULE_MARK_NUMBER: u8 = 7;
/// A mark's caption length is above 192.
pub const RULE_MARK_LENGTH: u8 = 8;
/// A zero byte of a mark is set.
pub const RULE_MARK_ZERO: u8 = 9;
/// The check differs.
pub const RULE_CHECK: u8 = 10;
/// An opened byte at or past the length isn't zero.
pub const RULE_OPENED_BYTE: u8 = 11;
/// The term sheet is unfit.
pub const RULE_TERMS: u8 = 12;

/// One test of the table: gives the refusal when it applies.
pub(crate) fn refuse_if<R>(applies: bool, refusal: R) -> Result<(), R> {
    if applies {
        Err(refusal)
    } else {
        Ok(())
    }
}
