//! The serial of editions 2 and 3 and the six zero bytes of edition 2 (document
//! 02, requests 3 and 7).

use crate::edition::Edition;
use crate::letters::good_text;
use crate::random::Random;
use crate::support::*;
use crate::term_sheet::{term_sheet, ALWAYS};
use std::array::from_fn;
use std::collections::BTreeSet;

fn xor(a: [u8; 8], b: [u8; 8]) -> [u8; 8] {
    from_fn(|i| a[i] ^ b[i])
}

fn first_block(bytes: &[u8]) -> [u8; 8] {
    from_fn(|i| bytes[i])
}

/// Writes eight bytes into a slot, and gets its start block back from the first
/// sealed block: that is sealed of start block and caption, by exclusive or.
fn start_of_write(
    edition: Edition,
    keys: &(Vec<u8>, Vec<u8>),
    sheet: &mut [u8],
    slot: usize,
) -> [u8; 8] {
    let n = usize::from(sheet[0]) * 256 + usize::from(sheet[1]);
    assert_eq!(write(keys, sheet, slot, b"8 bytes."), accepted(0));
    let sealed = first_block(&sheet[edition.field_place(n, slot)]);
    let t = usize::from(sheet[2]);
    xor(decrypt_in(t, &keys.0, sealed), *b"8 bytes.")
}

#[test]
fn the_start_block_is_sealed_of_write_number_slot_and_serial() {
    let mut random = Random::new(120);
    for t in ALL_CLASSES {
        let keys = unlike(&mut random, t);
        let editions = [
            (Edition::One, [0, 0]),
            (Edition::Two(0), [0, 0]),
            (Edition::Two(1), [0, 1]),
            (Edition::Two(255), [0, 255]),
            (Edition::Two(256), [1, 0]),
            (Edition::Two(0x1234), [0x12, 0x34]),
            (Edition::Two(65535), [255, 255]),
            (Edition::Three(0), [0, 0]),
            (Edition::Three(1), [0, 1]),
            (Edition::Three(255), [0, 255]),
            (Edition::Three(256), [1, 0]),
            (Edition::Three(0x1234), [0x12, 0x34]),
            (Edition::Three(65535), [255, 255]),
        ];
        let has_class = |edition: Edition| classes_of(edition).contains(&t);
        for (edition, [g, h]) in editions.into_iter().filter(|kind| has_class(kind.0)) {
            let mut sheet = blank_for(edition, &keys, 256, t);
            set_w(&mut sheet, 0x0a0b0c0c);
            let start = start_of_write(edition, &keys, &mut sheet, 255);
            let plain = [0x0a, 0x0b, 0x0c, 0x0d, 0, 255, g, h];
            assert_eq!(start, encrypt_in(t, &keys.0, plain));
        }
    }
}

/// What the request is for: the same keys, slot and write number after each
/// blanking.
#[test]
fn a_sheet_blanked_with_another_serial_has_other_start_blocks() {
    let mut random = Random::new(121);
    for t in ALL_CLASSES {
        let keys = unlike(&mut random, t);
        let mut sheet = vec![0; Edition::BLANKED.sheet_length(2)];
        let mut starts = BTreeSet::new();
        for serial in Edition::SERIALS {
            let answer = reference::blank(&mut sheet, 2, t, serial, &keys.0, &keys.1);
            assert_eq!(answer, accepted(0));
            starts.insert(start_of_write(Edition::BLANKED, &keys, &mut sheet, 1));
            assert_eq!(w_of(&sheet), 1);
        }
        assert_eq!(starts.len(), Edition::SERIALS.len());
    }
}

#[test]
fn with_serial_0_marks_and_fields_are_those_of_edition_1() {
    let mut random = Random::new(122);
    for t in CLASSES {
        let keys = unlike(&mut random, t);
        let mut old = Edition::One.blank_sheet(3, t);
        let newer = [Edition::Two(0), Edition::Three(0)];
        let mut newer = newer.map(|edition| blank_for(edition, &keys, 3, t));
        for length in [0, 5, 8, 100, 192] {
            let slot = random.below(3);
            let caption = good_text(&mut random, length);
            assert_eq!(write(&keys, &mut old, slot, &caption), accepted(0));
            for new in &mut newer {
                assert_eq!(write(&keys, new, slot, &caption), accepted(0));
                assert_eq!(old[4..8], new[4..8]);
                assert_eq!(old[8..], new[16..]);
            }
        }
    }
}

#[test]
fn with_one_serial_editions_2_and_3_differ_in_byte_3_and_the_key_mark_alone() {
    let mut random = Random::new(127);
    for t in CLASSES {
        for serial in Edition::SERIALS {
            let keys = unlike(&mut random, t);
            let mut two = Edition::Two(serial).blank_sheet(3, t);
            let mut three = blank_for(Edition::Three(serial), &keys, 3, t);
            for length in [0, 5, 8, 100, 192] {
                let slot = random.below(3);
                let caption = good_text(&mut random, length);
                assert_eq!(write(&keys, &mut two, slot, &caption), accepted(0));
                assert_eq!(write(&keys, &mut three, slot, &caption), accepted(0));
                let mut relabelled = two.clone();
                relabelled[3] = 3;
                put_mark(&mut relabelled, &keys);
                assert_eq!(relabelled, three);
            }
        }
    }
}

/// The serial is in no check: under another one the mark stays true, and the
/// first block is opened with another start block. In edition 3 it is in the key
/// mark, so that the sheet is to be made the keys' own again.
#[test]
fn the_check_does_not_depend_on_the_serial() {
    let mut random = Random::new(123);
    let editions = [Edition::Two(7), Edition::Three(7)].into_iter();
    let with_classes = |edition| classes_of(edition).iter().map(move |t| (edition, *t));
    for (edition, t) in editions.flat_map(with_classes) {
        let keys = unlike(&mut random, t);
        let longest = good_text(&mut random, 192);
        let mut sheet = blank_for(edition, &keys, 2, t);
        assert_eq!(write(&keys, &mut sheet, 0, &longest), accepted(0));
        assert_eq!(write(&keys, &mut sheet, 1, b"short"), accepted(0));
        let start = |serial: [u8; 2]| {
            let [high, low] = serial;
            encrypt_in(t, &keys.0, [0, 0, 0, 1, 0, 0, high, low])
        };
        for serial in Edition::SERIALS.map(u16::to_be_bytes) {
            sheet[8..10].copy_from_slice(&serial);
            if edition.number() == 3 {
                assert_eq!(read(&keys, &sheet, 0), (refused(14), [0; 192]));
            }
            put_mark(&mut sheet, &keys);
            let mut window = shown(&longest);
            let change = xor(start([0, 7]), start(serial));
            window[..8].copy_from_slice(&xor(first_block(&longest), change));
            assert_eq!(read(&keys, &sheet, 0), (accepted(192), window));
            // The zeros after a caption that ends in the first block aren't met.
            assert_eq!(read(&keys, &sheet, 1), (refused(10), [0; 192]));
        }
    }
}

#[test]
fn each_of_the_six_zero_bytes_is_tested_by_every_call() {
    let mut random = Random::new(124);
    let keys = unlike(&mut random, 8);
    let mut sheet = Edition::Two(0xa53c).blank_sheet(2, 8);
    assert_eq!(write(&keys, &mut sheet, 0, b"caption"), accepted(0));
    let terms = term_sheet(&[ALWAYS; 2]);
    for place in 10..16 {
        for bit in 0..8 {
            let mut unfit = sheet.clone();
            unfit[place] = 1 << bit;
            let before = unfit.clone();
            assert_eq!(read(&keys, &unfit, 0), (refused(4), [0; 192]));
            let dated = dated_read(&keys, &unfit, &terms, 0, 9);
            assert_eq!(dated, (refused(4), [0; 192]));
            assert_eq!(write(&keys, &mut unfit, 1, b""), refused(4));
            assert_eq!(reference::clear(&mut unfit, 1), refused(4));
            assert_eq!(reference::listing(&unfit), b"unfit\n");
            assert_eq!(unfit, before);
        }
    }
}
