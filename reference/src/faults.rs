//! The faults that a refusal points to, and the first fault of a sheet
//! (document 02, requests 5 and 10).

use crate::sheet::{all_zero, number, Edition};
use crate::{
    refuse_if, RULE_CHECK, RULE_EDITION, RULE_HEADER_ZERO, RULE_KEY_CLASS, RULE_LENGTH,
    RULE_MARK_LENGTH, RULE_MARK_NUMBER, RULE_MARK_ZERO, RULE_OPENED_BYTE, RULE_SHORT,
    RULE_SLOT_COUNT, RULE_TERMS,
};
use std::ops::Range;

/// A broken rule, and where it is broken.
#[derive(Clone, Copy, Debug, PartialEq, Eq)]
pub enum Fault {
    /// The sheet is under 8 bytes.
    Short,
    /// n isn't 1 to 256.
    SlotCount,
    /// Byte 2 isn't 4, 6 or 8, nor in edition 3 21 or 24.
    KeyClass,
    /// Byte 3 is no edition's.
    Edition,
    /// A zero byte of the header, counted from the sheet's start, is set.
    HeaderZero { place: usize },
    /// The sheet's length isn't that of n slots.
    Length,
    /// A mark's write number is 0 or above w.
    MarkNumber { slot: usize },
    /// A mark's caption length is above 192.
    MarkLength { slot: usize },
    /// A zero byte of a mark, counted from the mark's start, is set.
    MarkZero { slot: usize, place: usize },
    /// A mark's check differs.
    Check { slot: usize },
    /// An opened byte at or past the length, counted from the field's start,
    /// isn't zero.
    OpenedByte { slot: usize, place: usize },
    /// The term sheet is unfit.
    Terms,
}

impl Fault {
    /// Rule, slot and place; slot and place are 0 where the fault has none.
    pub fn numbers(self) -> (u8, u16, u16) {
        let (rule, slot, place) = match self {
            Fault::Short => (RULE_SHORT, 0, 0),
            Fault::SlotCount => (RULE_SLOT_COUNT, 0, 0),
            Fault::KeyClass => (RULE_KEY_CLASS, 0, 0),
            Fault::Edition => (RULE_EDITION, 0, 0),
            Fault::HeaderZero { place } => (RULE_HEADER_ZERO, 0, place),
            Fault::Length => (RULE_LENGTH, 0, 0),
            Fault::MarkNumber { slot } => (RULE_MARK_NUMBER, slot, 0),
            Fault::MarkLength { slot } => (RULE_MARK_LENGTH, slot, 0),
            Fault::MarkZero { slot, place } => (RULE_MARK_ZERO, slot, place),
            Fault::Check { slot } => (RULE_CHECK, slot, 0),
            Fault::OpenedByte { slot, place } => (RULE_OPENED_BYTE, slot, place),
            Fault::Terms => (RULE_TERMS, 0, 0),
        };
        // A slot of a sheet is below 256, a place below 192.
        (rule, slot as u16, place as u16)
    }
}

/// The first fault of a caption sheet, of any bytes; none if it is fit.
pub fn first_fault(sheet: &[u8]) -> Option<Fault> {
    sheet_rules(sheet).err()
}

/// The first fault as text: rule, slot and place, or "none", on a line.
pub fn fault_line(sheet: &[u8]) -> String {
    match first_fault(sheet).map(Fault::numbers) {
        Some((rule, slot, place)) => format!("{rule} {slot} {place}\n"),
        None => "none\n".to_string(),
    }
}

/// A sheet under 8 bytes precedes all; the header comes first, then the lowest
/// slot.
fn sheet_rules(sheet: &[u8]) -> Result<(), Fault> {
    refuse_if(sheet.len() < 8, Fault::Short)?;
    let slots = header_rules(sheet)?;
    for slot in 0..slots.n {
        mark_rules(sheet, &slots, slot)?;
    }
    Ok(())
}

/// What a header that breaks no rule settles of the slots.
struct Slots {
    n: usize,
    edition: Edition,
    w: u32,
}

/// The header's rules by their lowest byte, for a sheet of at least 8 bytes; a
/// length that doesn't fit n is the last.
fn header_rules(sheet: &[u8]) -> Result<Slots, Fault> {
    let n = number(&sheet[0..2]) as usize;
    refuse_if(!(1..=256).contains(&n), Fault::SlotCount)?;
    refuse_if(!classes(sheet[3]).contains(&sheet[2]), Fault::KeyClass)?;
    let edition = Edition::of_number(sheet[3]).ok_or(Fault::Edition)?;
    let w = number(&sheet[4..8]);
    // A byte that a short sheet lacks breaks only the last rule.
    let set = |place: &usize| sheet.get(*place).is_some_and(|byte| *byte != 0);
    if let Some(place) = zero_bytes(edition).find(set) {
        return Err(Fault::HeaderZero { place });
    }
    refuse_if(sheet.len() != edition.sheet_length(n), Fault::Length)?;
    Ok(Slots { n, edition, w })
}

/// The values of byte 2 under a byte 3, be that an edition's or not.
fn classes(byte_3: u8) -> &'static [u8] {
    match byte_3 {
        3 => &[4, 6, 8, 21, 24],
        _ => &[4, 6, 8],
    }
}

/// The header's zero bytes; editions 1 and 3 have none.
fn zero_bytes(edition: Edition) -> Range<usize> {
    match edition {
        Edition::One | Edition::Three => 0..0,
        Edition::Two => 10..16,
    }
}

/// A mark's rules by their lowest byte. A slot that isn't all zero is held to
/// the rules of a written one.
fn mark_rules(sheet: &[u8], slots: &Slots, slot: usize) -> Result<(), Fault> {
    let mark = &sheet[slots.edition.mark_place(slot)];
    let field = &sheet[slots.edition.field_place(slots.n, slot)];
    if all_zero(mark) && all_zero(field) {
        return Ok(());
    }
    let write_number = number(&mark[0..4]);
    let numbered = 1 <= write_number && write_number <= slots.w;
    refuse_if(!numbered, Fault::MarkNumber { slot })?;
    let length = number(&mark[4..6]);
    refuse_if(length > 192, Fault::MarkLength { slot })?;
    match (6..8).find(|place| mark[*place] != 0) {
        Some(place) => Err(Fault::MarkZero { slot, place }),
        None => Ok(()),
    }
}
