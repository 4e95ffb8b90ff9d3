//! What a refusal points at: torn and grown sheets, pairs of broken rules, marks
//! byte by byte, and sealed fields with a byte behind the caption.

use crate::both;
use differential::both::Both;
use differential::edition::Edition;
use differential::letters::good_text;
use differential::random::Random;
use differential::report;
use differential::sheets::{kinds, set_last_number, Keys, FIELD, MCRYPTON};
use differential::term_sheet::{put_number, term_sheet, ALWAYS};
use reference::Pointed;

const SLOTS: usize = 3;

/// Slot 0 holds a short caption, slot 1 is blank and slot 2 holds a full one.
fn good_sheet(random: &mut Random, edition: Edition, t: usize, keys: &Keys) -> Vec<u8> {
    let mut sheet = keys.blank_sheet(edition, SLOTS, t);
    for (slot, length) in [(0, 17), (2, FIELD)] {
        let caption = good_text(random, length);
        let answer = reference::write(&keys.sealing, &keys.checking, &mut sheet, slot, &caption);
        assert_eq!(answer.number, 0);
    }
    sheet
}

/// Every call that points, on one slot, by terms that fit and by terms that
/// don't; the answer of the read.
fn every_call(both: &mut Both, keys: &Keys, sheet: &[u8], slot: usize) -> Pointed {
    let terms = term_sheet(&[ALWAYS; SLOTS]);
    let mut unfit = terms.clone();
    put_number(&mut unfit, 0, SLOTS as u16 + 1);
    both.write(keys, &mut sheet.to_vec(), slot, b"another");
    both.clear(&mut sheet.to_vec(), slot);
    both.dated_read(keys, sheet, &terms, slot, 9, FIELD);
    let (dated, _) = both.dated_read(keys, sheet, &unfit, slot, 9, FIELD);
    let (answer, _) = both.read(keys, sheet, slot, FIELD);
    // The term sheet is named after all faults of the caption sheet.
    let rule = if answer.number == 4 { answer.rule } else { 12 };
    assert_eq!((dated.number, dated.rule), (4, rule), "{}", both.label);
    answer
}

fn reported(both: &Both, what: &str) {
    let (calls, rules) = (both.calls, both.rules_met());
    report(&format!("sheet: {what}, {calls} calls, rules: {rules}"));
}

#[test]
fn sheets_cut_and_grown() {
    let mut random = Random::of_part(540);
    let mut both = both("lengths");
    for (edition, t) in kinds() {
        let keys = Keys::unlike(&mut random, t);
        let sheet = good_sheet(&mut random, edition, t, &keys);
        for length in 0..=sheet.len() + 20 {
            let mut torn = sheet.clone();
            torn.resize(length, 0);
            let answer = every_call(&mut both, &keys, &torn, 0);
            let rule = match length {
                0..8 => 1,
                _ if length != sheet.len() => 6,
                _ => 0,
            };
            assert_eq!(answer.rule, rule, "{edition:?} of {length} bytes");
            // What is left where the front is gone is another sheet, if any.
            every_call(&mut both, &keys, &sheet[length.min(sheet.len())..], 0);
        }
    }
    reported(&both, "cut and grown");
}

/// Each header byte of a short sheet of edition 2 or 3 that it has, set: a zero
/// byte of edition 2 is pointed at, of edition 3 the length alone.
#[test]
fn short_headers() {
    let mut random = Random::of_part(541);
    let mut both = both("short headers");
    let [_, two, three] = Edition::ALL;
    for edition in [two, three] {
        let keys = Keys::unlike(&mut random, 4);
        let sheet = good_sheet(&mut random, edition, 4, &keys);
        for length in 8..=16 {
            for place in 8..16 {
                for value in [0, 1, 255] {
                    let mut torn = sheet[..length].to_vec();
                    if let Some(byte) = torn.get_mut(place) {
                        *byte = value;
                    }
                    let answer = every_call(&mut both, &keys, &torn, 0);
                    let set = place >= 10 && place < length && value != 0;
                    let pointed = match edition {
                        Edition::Two(_) if set => (5, place as u16),
                        _ => (6, 0),
                    };
                    assert_eq!((answer.rule, answer.place), pointed);
                }
            }
        }
    }
    both.hold_pointed_at([5, 6]);
    reported(&both, "short headers");
}

/// Changes that break one rule each, with the place in the order of faults;
/// those of edition 3's key mark break none.
fn breaks(edition: Edition) -> Vec<(usize, u8)> {
    let mark = |slot: usize, byte: usize| edition.mark_place(slot).start + byte;
    let field = |slot: usize| edition.field_place(SLOTS, slot).start;
    let mut breaks = vec![(0, 1), (1, 0), (2, 5), (3, 9), (4, 0)];
    if edition.header() == 16 {
        breaks.extend((10..16).map(|place| (place, 7)));
    }
    for slot in 0..SLOTS {
        breaks.extend([(mark(slot, 0), 255), (mark(slot, 3), 0), (mark(slot, 4), 1)]);
        breaks.extend([(mark(slot, 5), 193), (mark(slot, 6), 1), (mark(slot, 7), 1)]);
        breaks.extend([
            (mark(slot, 8), 77),
            (field(slot), 78),
            (field(slot) + 191, 79),
        ]);
    }
    breaks
}

#[test]
fn pairs_of_broken_rules() {
    let mut random = Random::of_part(542);
    let mut both = both("pairs of broken rules");
    for (edition, t) in kinds() {
        let keys = Keys::unlike(&mut random, t);
        let sheet = good_sheet(&mut random, edition, t, &keys);
        let breaks = breaks(edition);
        for first in &breaks {
            for second in &breaks {
                let mut broken = sheet.clone();
                for (place, value) in [first, second] {
                    broken[*place] = *value;
                }
                both.label = format!("{first:?} and {second:?}, {edition:?}");
                for slot in 0..SLOTS {
                    every_call(&mut both, &keys, &broken, slot);
                }
                // And a length that fits no n.
                broken.pop();
                every_call(&mut both, &keys, &broken, 0);
            }
        }
    }
    both.hold_pointed_at((0..=12).filter(|rule| ![1, 11].contains(rule)));
    reported(&both, "pairs of broken rules");
}

#[test]
fn every_byte_of_a_mark() {
    let mut random = Random::of_part(543);
    let mut both = both("marks");
    for edition in Edition::ALL {
        let keys = Keys::unlike(&mut random, 6);
        let mut sheet = good_sheet(&mut random, edition, 6, &keys);
        for w in [2, 0x0102_0304, u32::MAX] {
            set_last_number(&mut sheet, w);
            for slot in 0..SLOTS {
                for place in edition.mark_place(slot) {
                    for value in 0..=255 {
                        let mut changed = sheet.clone();
                        changed[place] = value;
                        both.read(&keys, &changed, slot, FIELD);
                        both.write(&keys, &mut changed, (slot + 1) % SLOTS, b"");
                    }
                }
            }
        }
    }
    both.hold_pointed_at([0, 7, 8, 9, 10]);
    reported(&both, "every byte of a mark");
}

/// A zero mark over a field with one byte set is no blank slot.
#[test]
fn zero_marks() {
    let mut random = Random::of_part(544);
    let mut both = both("zero marks");
    for (edition, t) in kinds() {
        let keys = Keys::unlike(&mut random, t);
        let sheet = keys.blank_sheet(edition, SLOTS, t);
        for slot in 0..SLOTS {
            for place in edition.field_place(SLOTS, slot) {
                let mut changed = sheet.clone();
                changed[place] = 1 + random.below(255) as u8;
                let answer = every_call(&mut both, &keys, &changed, slot);
                let pointed = (answer.number, answer.rule, answer.slot, answer.place);
                assert_eq!(pointed, (4, 7, slot as u16, 0));
            }
        }
    }
    both.hold_pointed_at([7]);
    reported(&both, "zero marks");
}

/// Fields sealed with a byte behind the caption: each place from the length to
/// 191, alone and with others behind it.
#[test]
fn bytes_behind_the_caption() {
    let mut random = Random::of_part(545);
    let mut both = both("bytes behind the caption");
    for (edition, t) in kinds() {
        let keys = Keys::unlike(&mut random, t);
        for length in [0, 1, 8, 45, 100, 184, 191, 192] {
            // One in three of PRESENT, and all about the ends.
            let near_end = |place: usize| place < length + 2 || place > FIELD - 2;
            let mcrypton = MCRYPTON.contains(&t);
            for place in (length..=FIELD).filter(|p| mcrypton || p % 3 == 0 || near_end(*p)) {
                let mut sheet = good_sheet(&mut random, edition, t, &keys);
                let mut field = [0; FIELD];
                field[..length].copy_from_slice(&random.bytes(length));
                if let Some(byte) = field.get_mut(place) {
                    *byte = 1 + random.below(255) as u8;
                }
                if random.once_in(2) {
                    let behind = place + random.below(FIELD + 1 - place);
                    if let Some(byte) = field.get_mut(behind) {
                        *byte |= 1;
                    }
                }
                let slot = random.below(SLOTS);
                let stored = reference::store_field(
                    &keys.sealing,
                    &keys.checking,
                    &mut sheet,
                    slot,
                    length as u16,
                    &field,
                );
                assert_eq!(stored.number, 0);
                let answer = every_call(&mut both, &keys, &sheet, slot);
                let pointed = (answer.number, answer.rule, answer.slot, answer.place);
                let expected = match place < FIELD {
                    true => (10, 11, slot as u16, place as u16),
                    false => (0, 0, 0, 0),
                };
                assert_eq!(pointed, expected, "length {length}");
                // Where the check differs too, it is the check.
                sheet[edition.mark_place(slot).start + 8] ^= 1;
                let answer = every_call(&mut both, &keys, &sheet, slot);
                assert_eq!((answer.rule, answer.place), (10, 0));
            }
        }
    }
    both.hold_pointed_at([0, 10, 11, 12]);
    reported(&both, "bytes behind the caption");
}
