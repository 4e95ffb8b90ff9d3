//! Broken rules of a sheet, found and made here and by no program that is tested
//! (document 02, requests 5, 7 and 10).

use crate::edition::Edition;
use crate::support::UNKNOWN_EDITION;
use std::ops::Range;

/// Rule, slot and place.
pub type Numbers = (u8, u16, u16);

/// No rule is broken.
pub const NOWHERE: Numbers = (0, 0, 0);

/// The number of some bytes.
fn number_at(sheet: &[u8], from: usize, count: usize) -> u64 {
    let bytes = sheet[from..from + count].iter();
    bytes.fold(0, |x, byte| 256 * x + u64::from(*byte))
}

/// The first broken rule of a sheet: all of them are gathered, and the one that
/// stands lowest counts.
pub fn first_broken(sheet: &[u8]) -> Numbers {
    if sheet.len() < 8 {
        return (1, 0, 0);
    }
    let mut broken = broken_header(sheet);
    if broken.is_empty() {
        broken = broken_marks(sheet);
    }
    let lowest = broken.into_iter().min();
    lowest.map_or(NOWHERE, |(_, numbers)| numbers)
}

fn edition_of(sheet: &[u8]) -> Option<Edition> {
    let mut editions = Edition::ALL.into_iter();
    editions.find(|edition| edition.number() == sheet[3])
}

/// The header's zero bytes. Edition 1 has none there, and edition 3 its key mark,
/// which may be any six bytes.
pub fn zero_bytes(edition: Edition) -> Range<usize> {
    match edition {
        Edition::Two(_) => 10..16,
        Edition::One | Edition::Three(_) => 10..10,
    }
}

/// The header's broken rules, each with its byte; the length's is past them all.
fn broken_header(sheet: &[u8]) -> Vec<(usize, Numbers)> {
    let mut broken = Vec::new();
    let n = number_at(sheet, 0, 2) as usize;
    match edition_of(sheet) {
        None => broken.push((3, (4, 0, 0))),
        Some(edition) => {
            if sheet.len() != edition.sheet_length(n) {
                broken.push((usize::MAX, (6, 0, 0)));
            }
            let zeros = zero_bytes(edition).filter(|place| *place < sheet.len());
            let set = zeros.filter(|place| sheet[*place] != 0);
            broken.extend(set.map(|place| (place, (5, 0, place as u16))));
        }
    }
    let is_class = match sheet[2] {
        4 | 6 | 8 => true,
        21 | 24 => sheet[3] == 3,
        _ => false,
    };
    if !is_class {
        broken.push((2, (3, 0, 0)));
    }
    if n == 0 || n > 256 {
        broken.push((0, (2, 0, 0)));
    }
    broken
}

/// The marks' broken rules, each with its byte, on a sheet with a good header.
fn broken_marks(sheet: &[u8]) -> Vec<(usize, Numbers)> {
    let mut broken = Vec::new();
    let edition = edition_of(sheet).unwrap();
    let n = number_at(sheet, 0, 2) as usize;
    let w = number_at(sheet, 4, 4);
    for slot in 0..n {
        let mark = edition.mark_place(slot);
        let field = edition.field_place(n, slot);
        if sheet[mark.clone()].iter().max() == Some(&0) && sheet[field].iter().max() == Some(&0) {
            continue;
        }
        let mut add = |byte: usize, rule, place| {
            broken.push((mark.start + byte, (rule, slot as u16, place)));
        };
        for place in [6, 7] {
            if sheet[mark.start + place] != 0 {
                add(place, 9, place as u16);
            }
        }
        if number_at(sheet, mark.start + 4, 2) > 192 {
            add(4, 8, 0);
        }
        if !(1..=w).contains(&number_at(sheet, mark.start, 4)) {
            add(0, 7, 0);
        }
    }
    broken
}

/// A rule to break, on a sheet of three written slots.
#[derive(Clone, Copy, Debug, PartialEq, Eq)]
pub enum Break {
    Short,
    SlotCount,
    KeyClass,
    Edition,
    HeaderZero(usize),
    Length,
    MarkNumber(usize),
    MarkLength(usize),
    MarkZero(usize, usize),
}

/// How many ways there are of breaking a rule.
pub const BREAK_WAYS: usize = 4;

impl Break {
    /// All that an edition has, the first one first.
    pub fn all(edition: Edition) -> Vec<Break> {
        let mut all = vec![
            Break::Short,
            Break::SlotCount,
            Break::KeyClass,
            Break::Edition,
        ];
        all.extend(zero_bytes(edition).map(Break::HeaderZero));
        all.push(Break::Length);
        for slot in 0..3 {
            all.extend([Break::MarkNumber(slot), Break::MarkLength(slot)]);
            all.extend([6, 7].map(|place| Break::MarkZero(slot, place)));
        }
        all
    }

    /// What shall be answered if no other rule is broken.
    pub fn numbers(self) -> Numbers {
        match self {
            Break::Short => (1, 0, 0),
            Break::SlotCount => (2, 0, 0),
            Break::KeyClass => (3, 0, 0),
            Break::Edition => (4, 0, 0),
            Break::HeaderZero(place) => (5, 0, place as u16),
            Break::Length => (6, 0, 0),
            Break::MarkNumber(slot) => (7, slot as u16, 0),
            Break::MarkLength(slot) => (8, slot as u16, 0),
            Break::MarkZero(slot, place) => (9, slot as u16, place as u16),
        }
    }

    /// Bytes are changed first, then the length, then the sheet is cut short, so
    /// that each change finds its place and none undoes another.
    fn stage(self) -> u8 {
        match self {
            Break::Short => 2,
            Break::Length => 1,
            _ => 0,
        }
    }

    /// Breaks the rule in one of the ways.
    fn apply(self, edition: Edition, sheet: &mut Vec<u8>, way: usize) {
        let mark = |slot| edition.mark_place(slot).start;
        match self {
            Break::Short => sheet.truncate([7, 0, 1, 4][way]),
            Break::SlotCount => put(sheet, 0, &[[0, 0], [1, 1], [255, 255], [2, 0]][way]),
            Break::KeyClass => sheet[2] = [5, 0, 255, 10][way],
            Break::Edition => sheet[3] = [UNKNOWN_EDITION, 0, 255, 129][way],
            Break::HeaderZero(place) => sheet[place] = [1, 0x80, 255, 16][way],
            Break::Length => {
                let length = sheet.len();
                sheet.resize(
                    [length + 1, length - 1, edition.header(), length + 208][way],
                    0,
                );
            }
            Break::MarkNumber(slot) => {
                let numbers = [0, number_at(sheet, 4, 4) as u32 + 1, u32::MAX, 1 << 24];
                put(sheet, mark(slot), &numbers[way].to_be_bytes());
            }
            Break::MarkLength(slot) => {
                let lengths: [u16; 4] = [193, 256, 65535, 32768];
                put(sheet, mark(slot) + 4, &lengths[way].to_be_bytes());
            }
            Break::MarkZero(slot, place) => sheet[mark(slot) + place] = [1, 0x80, 255, 192][way],
        }
    }
}

fn put(sheet: &mut [u8], place: usize, bytes: &[u8]) {
    sheet[place..place + bytes.len()].copy_from_slice(bytes);
}

/// The sheet with these rules broken.
pub fn broken_sheet(edition: Edition, sheet: &[u8], breaks: &[Break], way: usize) -> Vec<u8> {
    let mut sheet = sheet.to_vec();
    let mut breaks = breaks.to_vec();
    breaks.sort_by_key(|rule| rule.stage());
    for rule in breaks {
        rule.apply(edition, &mut sheet, way % BREAK_WAYS);
    }
    sheet
}
