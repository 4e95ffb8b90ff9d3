//! What a refusal points at: the rule that an unfit sheet breaks first, and what
//! differs in an altered slot.

use crate::library::Pointed;
use crate::{sheet_len, FIELD, HEADER, HEADER_1, MARK, SLOTS};
use std::fmt;

/// The rule that an unfit sheet breaks first: a sheet under 8 bytes, then the
/// header by its lowest byte, the length last, then the lowest slot, its mark by
/// the lowest byte, and after all of them the term sheet. `place` is a byte of
/// the sheet.
///
/// ```
/// use captions::{blank, first_fault, sheet_len, Fault};
///
/// let mut sheet = vec![0; sheet_len(2)];
/// blank(&mut sheet, 2, 4, 1, b"seal it.", b"check it").unwrap();
/// assert_eq!(first_fault(&sheet), None);
///
/// let torn = first_fault(&sheet[..212]).unwrap();
/// assert_eq!(torn, Fault::Length { bytes: 212, slots: 2, whole: 432 });
/// assert_eq!(torn.to_string(), "212 bytes, where 2 slots have 432");
/// assert_eq!(torn.numbers(), (6, 0, 0));
///
/// let other_file = first_fault(b"Lender\tBronze\n").unwrap();
/// assert_eq!(
///     other_file.to_string(),
///     "19557 slots, where a sheet has 1 to 256 (bytes 0 and 1)"
/// );
/// ```
#[derive(Clone, Copy, Debug, PartialEq, Eq, Hash)]
#[non_exhaustive]
pub enum Fault {
    /// Rule 1: fewer bytes than any header has.
    Short {
        /// The bytes that there are.
        bytes: usize,
    },
    /// Rule 2: the slot count, bytes 0 and 1, isn't 1 to 256.
    SlotCount {
        /// The slot count.
        slots: u16,
    },
    /// Rule 3: byte 2 isn't 4, 6 or 8, nor in edition 3 21 or 24: no
    /// [`Cipher`](crate::Cipher) that the edition has.
    KeyWords {
        /// Byte 2.
        words: u8,
    },
    /// Rule 4: byte 3 is no edition, 1, 2 or 3.
    Edition {
        /// Byte 3.
        edition: u8,
    },
    /// Rule 5: a byte of the header, 10 to 15, that edition 2 keeps zero.
    HeaderByte {
        /// The byte.
        place: usize,
    },
    /// Rule 6: another length than so many slots have.
    Length {
        /// The bytes that there are.
        bytes: usize,
        /// The slot count.
        slots: u16,
        /// The bytes that a sheet of its edition with so many slots has.
        whole: usize,
    },
    /// Rule 7: a slot that isn't blank has a write number of 0, or one above the
    /// sheet's last.
    WriteNumber {
        /// The slot.
        slot: u16,
        /// Its write number.
        number: u32,
        /// The sheet's last write number.
        last: u32,
        /// The first of the number's four bytes.
        place: usize,
    },
    /// Rule 8: a slot's caption has a length above 192.
    CaptionLength {
        /// The slot.
        slot: u16,
        /// The first of the length's two bytes.
        place: usize,
    },
    /// Rule 9: one of the two zero bytes of a slot's mark isn't zero.
    MarkByte {
        /// The slot.
        slot: u16,
        /// Which of the mark's bytes, 6 or 7.
        byte: u16,
        /// The byte of the sheet.
        place: usize,
    },
    /// Rule 12: it is the term sheet that is unfit, and the sheet is fit.
    Terms,
    /// Rule 0: an answer that names no rule. A refused read or write always
    /// names one.
    Unnamed,
}

impl Fault {
    /// The fault that an answer of 4 points at in a sheet. The library tells
    /// rule, slot and place; what the bytes are is read off the sheet.
    pub(crate) fn of_pointed(answer: &Pointed, sheet: &[u8]) -> Fault {
        let (slot, header) = (answer.slot, header(sheet));
        let mark = header + MARK * usize::from(slot);
        match answer.rule {
            1 => Fault::Short { bytes: sheet.len() },
            2 => Fault::SlotCount {
                slots: slot_count(sheet),
            },
            3 => Fault::KeyWords {
                words: byte(sheet, 2),
            },
            4 => Fault::Edition {
                edition: byte(sheet, 3),
            },
            5 => Fault::HeaderByte {
                place: answer.place.into(),
            },
            6 => Fault::Length {
                bytes: sheet.len(),
                slots: slot_count(sheet),
                whole: header + (MARK + FIELD) * usize::from(slot_count(sheet)),
            },
            7 => Fault::WriteNumber {
                slot,
                number: number(sheet, mark),
                last: number(sheet, 4),
                place: mark,
            },
            8 => Fault::CaptionLength {
                slot,
                place: mark + 4,
            },
            9 => Fault::MarkByte {
                slot,
                byte: answer.place,
                place: mark + usize::from(answer.place),
            },
            12 => Fault::Terms,
            _ => Fault::Unnamed,
        }
    }

    /// Rule, slot and place, as the C interface gives them: the slot is 0 where
    /// the rule isn't a mark's, and the place is 0 but for the header's byte of
    /// rule 5 and the mark's byte of rule 9.
    ///
    /// ```
    /// use captions::Fault;
    ///
    /// assert_eq!(Fault::HeaderByte { place: 11 }.numbers(), (5, 0, 11));
    /// assert_eq!(Fault::Terms.numbers(), (12, 0, 0));
    /// ```
    pub fn numbers(self) -> (u8, u16, u16) {
        match self {
            Fault::Unnamed => (0, 0, 0),
            Fault::Short { .. } => (1, 0, 0),
            Fault::SlotCount { .. } => (2, 0, 0),
            Fault::KeyWords { .. } => (3, 0, 0),
            Fault::Edition { .. } => (4, 0, 0),
            Fault::HeaderByte { place } => (5, 0, place as u16),
            Fault::Length { .. } => (6, 0, 0),
            Fault::WriteNumber { slot, .. } => (7, slot, 0),
            Fault::CaptionLength { slot, .. } => (8, slot, 0),
            Fault::MarkByte { slot, byte, .. } => (9, slot, byte),
            Fault::Terms => (12, 0, 0),
        }
    }
}

/// In words for somebody who holds the tag.
impl fmt::Display for Fault {
    fn fmt(&self, f: &mut fmt::Formatter<'_>) -> fmt::Result {
        match *self {
            Fault::Unnamed => write!(f, "no rule is named"),
            Fault::Short { bytes } => {
                write!(f, "{}, where a sheet has at least 8", bytes_of(bytes))
            }
            Fault::SlotCount { slots } => write!(
                f,
                "{}, where a sheet has 1 to {SLOTS} (bytes 0 and 1)",
                slots_of(slots)
            ),
            Fault::KeyWords { words } => write!(
                f,
                "key class {words}, where there are 4, 6 and 8, in edition 3 also 21 and 24 (byte 2)"
            ),
            Fault::Edition { edition } => {
                write!(f, "edition {edition}, where there are 1, 2 and 3 (byte 3)")
            }
            Fault::HeaderByte { place } => write!(f, "byte {place} of the header is not zero"),
            Fault::Length {
                bytes,
                slots,
                whole,
            } => {
                // What is longer than any sheet may have been read in part.
                match bytes > sheet_len(SLOTS) {
                    true => write!(f, "more than {} bytes", sheet_len(SLOTS))?,
                    false => write!(f, "{}", bytes_of(bytes))?,
                }
                let have = if slots == 1 { "has" } else { "have" };
                write!(f, ", where {} {have} {whole}", slots_of(slots))
            }
            Fault::WriteNumber {
                slot,
                number: 0,
                place,
                ..
            } => write!(
                f,
                "slot {slot}: not blank, and without a write number (bytes {place} to {})",
                place + 3
            ),
            Fault::WriteNumber {
                slot,
                number,
                last,
                place,
            } => write!(
                f,
                "slot {slot}: write number {number}, above the sheet's last, {last} (bytes {place} to {})",
                place + 3
            ),
            Fault::CaptionLength { slot, place } => write!(
                f,
                "slot {slot}: length above {FIELD} (bytes {place} and {})",
                place + 1
            ),
            Fault::MarkByte { slot, byte, place } => write!(
                f,
                "slot {slot}: byte {byte} of its mark is not zero (byte {place})"
            ),
            Fault::Terms => write!(f, "the term sheet does not fit"),
        }
    }
}

/// What differs in an altered slot.
///
/// ```
/// use captions::{blank, read, sheet_len, write, Change, Refusal, FIELD};
///
/// let mut sheet = vec![0; sheet_len(1)];
/// blank(&mut sheet, 1, 4, 1, &[1; 8], &[2; 8])?;
/// write(&[1; 8], &[2; 8], &mut sheet, 0, b"Clock")?;
/// sheet[100] ^= 1;
/// let refusal = read(&[1; 8], &[2; 8], &sheet, 0, &mut [0; FIELD]).unwrap_err();
/// assert_eq!(refusal, Refusal::Altered(Change::Check { slot: 0 }));
/// assert_eq!(refusal.to_string(), "altered: the check differs");
/// # Ok::<(), Refusal>(())
/// ```
#[derive(Clone, Copy, Debug, PartialEq, Eq, Hash)]
#[non_exhaustive]
pub enum Change {
    /// Rule 10: the check.
    Check {
        /// The slot.
        slot: u16,
    },
    /// Rule 11: the check agrees, and this is the first byte of the opened
    /// field, from 0, that is at or past the caption's length and isn't zero.
    Byte {
        /// The slot.
        slot: u16,
        /// The byte, up to 191.
        place: u16,
    },
    /// Rule 0: what differs isn't named. A refused read always names it.
    Unnamed,
}

impl Change {
    /// What an answer of 10 points at.
    pub(crate) fn of_pointed(answer: &Pointed) -> Change {
        let (slot, place) = (answer.slot, answer.place);
        match answer.rule {
            10 => Change::Check { slot },
            11 => Change::Byte { slot, place },
            _ => Change::Unnamed,
        }
    }

    /// Rule, slot and place, as the C interface gives them.
    ///
    /// ```
    /// let byte = captions::Change::Byte { slot: 3, place: 45 };
    /// assert_eq!(byte.numbers(), (11, 3, 45));
    /// assert_eq!(byte.to_string(), "byte 45 is behind the caption and not zero");
    /// ```
    pub fn numbers(self) -> (u8, u16, u16) {
        match self {
            Change::Unnamed => (0, 0, 0),
            Change::Check { slot } => (10, slot, 0),
            Change::Byte { slot, place } => (11, slot, place),
        }
    }
}

impl fmt::Display for Change {
    fn fmt(&self, f: &mut fmt::Formatter<'_>) -> fmt::Result {
        match self {
            Change::Unnamed => write!(f, "what differs is not named"),
            Change::Check { .. } => write!(f, "the check differs"),
            Change::Byte { place, .. } => {
                write!(f, "byte {place} is behind the caption and not zero")
            }
        }
    }
}

// ---- A sheet's bytes ----

/// A byte of the sheet; 0 where it lacks it.
fn byte(sheet: &[u8], place: usize) -> u8 {
    sheet.get(place).copied().unwrap_or(0)
}

fn slot_count(sheet: &[u8]) -> u16 {
    u16::from_be_bytes([byte(sheet, 0), byte(sheet, 1)])
}

fn number(sheet: &[u8], place: usize) -> u32 {
    u32::from_be_bytes([0, 1, 2, 3].map(|k| byte(sheet, place + k)))
}

/// The bytes before the marks, by the edition in byte 3.
fn header(sheet: &[u8]) -> usize {
    match byte(sheet, 3) {
        2 | 3 => HEADER,
        _ => HEADER_1,
    }
}

fn bytes_of(bytes: usize) -> String {
    format!("{bytes} byte{}", if bytes == 1 { "" } else { "s" })
}

fn slots_of(slots: u16) -> String {
    format!("{slots} slot{}", if slots == 1 { "" } else { "s" })
}
