//! Every single bit of a sheet flipped, one at a time.

use crate::both;
use differential::letters::good_text;
use differential::random::{seed, Random};
use differential::report;
use differential::sheets::{kinds, Keys, FIELD, MCRYPTON};

/// Slot 0 blank, slot 1 an empty caption, slot 2 a full one; each flip, then
/// each call on each slot. With PRESENT, which takes the second program long, one
/// write in three.
fn every_bit(t: usize) {
    let mcrypton = MCRYPTON.contains(&t);
    let mut random = Random::of_part(530 + t as u64);
    let mut both = both("bits");
    let (mut bits, mut unfit) = (0, 0);
    for (edition, _) in kinds().filter(|kind| kind.1 == t) {
        let keys = Keys::unlike(&mut random, t);
        let mut sheet = keys.blank_sheet(edition, 3, t);
        both.write(&keys, &mut sheet, 1, b"");
        both.write(&keys, &mut sheet, 2, &good_text(&mut random, FIELD));
        for bit in 0..8 * sheet.len() {
            both.label = format!(
                "bit {bit} of a sheet of edition {edition:?} with t = {t}, seed {:#x}",
                seed()
            );
            let mut flipped = sheet.clone();
            flipped[bit / 8] ^= 1 << (bit % 8);
            bits += 1;
            unfit += usize::from(!reference::fit(&flipped));
            both.list(&flipped);
            for slot in 0..=3 {
                both.read(&keys, &flipped, slot, FIELD);
                if mcrypton || (bit + slot) % 3 == 0 {
                    both.write(&keys, &mut flipped.clone(), slot, b"another caption");
                }
                both.clear(&mut flipped.clone(), slot);
            }
        }
    }
    // A PRESENT sheet of another byte 3 breaks rule 3 before 4 or 5; rule 11 is met by
    // another serial, where no key mark has it.
    let unmet: &[usize] = if mcrypton { &[1] } else { &[1, 4, 5, 11] };
    both.hold_pointed_at((0..=11).filter(|rule| !unmet.contains(rule)));
    let (calls, met, rules) = (both.calls, both.numbers_met(), both.rules_met());
    report(&format!(
        "sheet: {bits} single bits flipped, t = {t}, {unfit} of them unfit, {calls} calls: {met}; rules: {rules}"
    ));
}

#[test]
fn every_bit_of_a_sheet_of_class_4() {
    every_bit(4);
}

#[test]
fn every_bit_of_a_sheet_of_class_6() {
    every_bit(6);
}

#[test]
fn every_bit_of_a_sheet_of_class_8() {
    every_bit(8);
}

#[test]
fn every_bit_of_a_sheet_of_class_21() {
    every_bit(21);
}

#[test]
fn every_bit_of_a_sheet_of_class_24() {
    every_bit(24);
}
