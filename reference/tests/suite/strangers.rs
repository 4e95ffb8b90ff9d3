//! Keys that aren't the sheet's: 14, and what comes before and after it (document
//! 02, requests 7 and 10).

use crate::broken::NOWHERE;
use crate::edition::Edition;
use crate::faults::{mixed_sheet, written_sheet};
use crate::random::Random;
use crate::support::*;
use crate::term_sheet::*;
use reference::key_refusal;

type Keys = (Vec<u8>, Vec<u8>);

/// Slots of a sheet of three and beyond it.
const SLOTS: [usize; 9] = [0, 1, 2, 3, 4, 255, 256, 65536, usize::MAX];

/// Keys that a sheet of the edition with this number refuses, if these keys are
/// its own, and the refusal.
pub fn stranger(random: &mut Random, edition: u8, keys: &Keys) -> (Keys, u8) {
    let bytes = keys.0.len();
    let kinds = if edition == 3 { 4 } else { 3 };
    match random.below(kinds) {
        0 => (wrong_keys(random, keys), 1),
        1 => {
            let class = random.pick(&ALL_CLASSES);
            let any = random.bytes(key_bytes(class));
            let key = [keys.0.clone(), keys.1.clone(), any];
            let key = &key[random.below(3)];
            ((key.clone(), key.clone()), 2)
        }
        2 => {
            let class = class_without(bytes, random.below(12));
            (unlike(random, class), 5)
        }
        _ => (other_keys(random, keys), 14),
    }
}

/// A pair that meets 1.
fn wrong_keys(random: &mut Random, keys: &Keys) -> Keys {
    let bytes = keys.0.len();
    let mut wrong = keys.clone();
    match random.below(5) {
        0 => wrong.0.truncate(random.below(8)),
        1 => wrong.1.truncate(random.below(8)),
        2 => wrong = (random.bytes(bytes + 1), random.bytes(bytes + 1)),
        3 => wrong.1 = random.bytes(if bytes == 8 { 16 } else { 8 }),
        _ => wrong = (vec![3; 11], vec![3; 11]),
    }
    wrong
}

/// An unlike pair with as many key bytes and another mark.
fn other_keys(random: &mut Random, keys: &Keys) -> Keys {
    let bytes = keys.0.len();
    let mut others = keys.clone();
    let (byte, bit) = (random.below(bytes), random.below(8));
    match random.below(6) {
        0 => others = (keys.1.clone(), keys.0.clone()),
        1 => others.0[byte] ^= 1 << bit,
        2 => others.1[byte] ^= 1 << bit,
        3 => others.0 = random.bytes(bytes),
        4 => others.1 = random.bytes(bytes),
        _ => others = (random.bytes(bytes), random.bytes(bytes)),
    }
    assert!(others.0 != others.1 && others != *keys);
    others
}

/// That a read, a dated read and a write of any slot with these keys give 14,
/// point nowhere, show nothing and change nothing.
fn assert_others(keys: &Keys, sheet: &[u8], slots: &[usize]) {
    let terms = term_sheet(&[ALWAYS; 3]);
    let expected = pointed(refused(14), NOWHERE);
    let (sealing, checking) = (&keys.0, &keys.1);
    assert_eq!(key_refusal(sealing, checking, sheet), 14);
    for slot in slots {
        let mut window = [0x5a; 192];
        let answer = reference::read(sealing, checking, sheet, *slot, &mut window);
        assert_eq!((answer, window), (expected, [0; 192]));
        let mut window = [0x5a; 192];
        let answer = reference::dated_read(sealing, checking, sheet, &terms, *slot, 7, &mut window);
        assert_eq!((answer, window), (expected, [0; 192]));
        for caption in [&b""[..], b"caption", &[7; 192], &[7; 193]] {
            let mut copy = sheet.to_vec();
            let answer = reference::write(sealing, checking, &mut copy, *slot, caption);
            assert_eq!((answer, &copy[..]), (expected, sheet));
        }
        let mut copy = sheet.to_vec();
        let answer = reference::store_field(sealing, checking, &mut copy, *slot, 9, &[1; 192]);
        assert_eq!((answer, &copy[..]), (refused(14), sheet));
    }
}

#[test]
fn every_bit_of_the_mark_flipped_gives_14_in_every_slot() {
    let mut random = Random::new(200);
    for t in ALL_CLASSES {
        let (keys, sheet) = mixed_sheet(&mut random, (Edition::BLANKED, t));
        for bit in 8 * 10..8 * 16 {
            let mut flipped = sheet.clone();
            flipped[bit / 8] ^= 1 << (bit % 8);
            assert!(reference::fit(&flipped));
            assert_others(&keys, &flipped, &SLOTS);
        }
        assert_eq!(key_refusal(&keys.0, &keys.1, &sheet), 0);
    }
}

#[test]
fn every_other_value_of_each_byte_of_the_mark_gives_14() {
    let mut random = Random::new(201);
    for t in ALL_CLASSES {
        let (keys, sheet) = mixed_sheet(&mut random, (Edition::BLANKED, t));
        for place in 10..16 {
            for value in (0..=255).filter(|value| *value != sheet[place]) {
                let mut changed = sheet.clone();
                changed[place] = value;
                assert_others(&keys, &changed, &[0]);
            }
        }
        for mark in [[0; 6], [255; 6]] {
            let mut changed = sheet.clone();
            changed[10..16].copy_from_slice(&mark);
            assert_others(&keys, &changed, &SLOTS);
        }
    }
}

/// Each bit of either key, the two exchanged, and other pairs.
#[test]
fn every_pair_but_the_sheet_s_own_is_refused() {
    let mut random = Random::new(202);
    for t in ALL_CLASSES {
        let (keys, sheet) = mixed_sheet(&mut random, (Edition::BLANKED, t));
        for bit in 0..8 * key_bytes(t) {
            let mut near = [keys.clone(), keys.clone()];
            near[0].0[bit / 8] ^= 1 << (bit % 8);
            near[1].1[bit / 8] ^= 1 << (bit % 8);
            for near in near {
                assert_others(&near, &sheet, &[0, 1, 3]);
            }
        }
        assert_others(&(keys.1.clone(), keys.0.clone()), &sheet, &SLOTS);
        for _ in 0..200 {
            assert_others(&other_keys(&mut random, &keys), &sheet, &[2, 3]);
        }
    }
}

/// The mark of another n or serial is another one; w moves nothing.
#[test]
fn a_mark_from_another_sheet_is_not_this_one_s() {
    let mut random = Random::new(203);
    for t in ALL_CLASSES {
        let (keys, sheet) = mixed_sheet(&mut random, (Edition::BLANKED, t));
        for (n, serial) in [(1, 0xa53c), (2, 0xa53c), (4, 0xa53c), (3, 0xa53d), (3, 0)] {
            let other = blank_for(Edition::Three(serial), &keys, n, t);
            let mut changed = sheet.clone();
            changed[10..16].copy_from_slice(&other[10..16]);
            assert_others(&keys, &changed, &SLOTS);
        }
        let mut other = blank_for(Edition::BLANKED, &keys, 3, t);
        set_w(&mut other, u32::MAX);
        assert_eq!(sheet[10..16], other[10..16]);
    }
}

#[test]
fn a_sheet_relabelled_from_edition_2_is_nobody_s() {
    let mut random = Random::new(204);
    for serial in [0, 0xa53c] {
        for t in CLASSES {
            let kind = (Edition::Two(serial), t);
            let (keys, mut sheet) = written_sheet(&mut random, kind, [5, 17, 192]);
            sheet[3] = 3;
            assert!(reference::fit(&sheet));
            assert_others(&keys, &sheet, &SLOTS);
            // With the keys' mark it is theirs, and shows what it showed.
            put_mark(&mut sheet, &keys);
            let answers = [0, 1, 2].map(|slot| read(&keys, &sheet, slot).0);
            assert_eq!(answers, [5, 17, 192].map(accepted));
            assert_eq!(write(&keys, &mut sheet, 0, b"new"), accepted(0));
            // And back: a mark is no zero bytes.
            sheet[3] = 2;
            assert_eq!(read(&keys, &sheet, 0), (refused(4), [0; 192]));
        }
    }
}

/// A clear takes no keys, a listing neither.
#[test]
fn a_sheet_with_a_wrong_mark_is_cleared_and_listed() {
    let mut random = Random::new(205);
    for t in ALL_CLASSES {
        let kind = (Edition::BLANKED, t);
        let (keys, sheet) = written_sheet(&mut random, kind, [5, 17, 192]);
        for bit in 8 * 10..8 * 16 {
            let mut flipped = sheet.clone();
            flipped[bit / 8] ^= 1 << (bit % 8);
            assert_eq!(reference::listing(&flipped), reference::listing(&sheet));
            let slot = bit % 3;
            let mut expected = flipped.clone();
            expected[Edition::BLANKED.mark_place(slot)].fill(0);
            expected[Edition::BLANKED.field_place(3, slot)].fill(0);
            for slot in [3, 4, usize::MAX] {
                assert_eq!(reference::clear(&mut flipped, slot), refused(6));
            }
            assert_eq!(reference::clear(&mut flipped, slot), accepted(0));
            assert_eq!(flipped, expected);
            assert_eq!(read(&keys, &flipped, slot), (refused(14), [0; 192]));
        }
    }
}

#[test]
fn other_keys_are_14() {
    assert_eq!(reference::OTHER_KEYS, 14);
}

/// 14 hides 6, 7, 8, 9, 12 and 10, and is hidden by 1, 2, 3, 4, 5 and 11.
#[test]
fn what_comes_before_14_and_after_it() {
    let mut random = Random::new(206);
    let edition = Edition::BLANKED;
    for t in ALL_CLASSES {
        let (keys, mut sheet) = mixed_sheet(&mut random, (edition, t));
        sheet[edition.mark_place(2).start + 9] ^= 4;
        set_w(&mut sheet, u32::MAX);
        let others = other_keys(&mut random, &keys);
        let never = term_sheet(&[NEVER; 3]);
        let always = term_sheet(&[ALWAYS; 3]);
        // The pair's own reads and writes meet what 14 hides.
        for (slot, number) in [(0, 0), (1, 9), (2, 10), (3, 6)] {
            assert_eq!(read(&keys, &sheet, slot).0.number, number);
            assert_eq!(read(&others, &sheet, slot), (refused(14), [0; 192]));
            let dated = |keys, terms: &[u8], day| dated_read(keys, &sheet, terms, slot, day);
            assert_eq!(dated(&keys, &always, 7).0.number, number);
            for terms in [&always, &never] {
                assert_eq!(dated(&others, terms, 7), (refused(14), [0; 192]));
                assert_eq!(dated(&others, terms, 36525), (refused(11), [0; 192]));
            }
            assert_eq!(dated(&others, &[], 7), (refused(4), [0; 192]));
        }
        assert_eq!(dated_read(&keys, &sheet, &never, 0, 7).0, refused(12));
        for (slot, caption, number) in [(0, 192, 8), (0, 193, 7), (3, 193, 6)] {
            let caption = vec![1; caption];
            assert_eq!(write(&keys, &mut sheet, slot, &caption), refused(number));
            assert_eq!(write(&others, &mut sheet, slot, &caption), refused(14));
        }
        let mut window = [1; 191];
        let answer = reference::read(&others.0, &others.1, &sheet, 0, &mut window);
        assert_eq!((answer.number, window), (3, [0; 191]));
        let class = unlike(&mut random, class_without(key_bytes(t), t));
        let mut unfit = sheet.clone();
        unfit.push(0);
        for (keys, sheet, number) in [
            (&(others.0.clone(), vec![]), &unfit, 1),
            (&(others.0.clone(), others.0.clone()), &unfit, 2),
            (&others, &unfit, 4),
            (&class, &sheet, 5),
        ] {
            assert_eq!(read(keys, sheet, 3), (refused(number), [0; 192]));
            let dated = dated_read(keys, sheet, &always, 3, 36525);
            assert_eq!(dated, (refused(number), [0; 192]));
            assert_eq!(write(keys, &mut sheet.clone(), 3, b""), refused(number));
            assert_eq!(key_refusal(&keys.0, &keys.1, sheet), number);
        }
    }
}

/// The window of a refused read becomes zero also where there is more to it than
/// 14, whatever its length.
#[test]
fn a_window_of_any_length_becomes_zero() {
    let mut random = Random::new(207);
    let (keys, sheet) = mixed_sheet(&mut random, (Edition::BLANKED, 4));
    let others = other_keys(&mut random, &keys);
    let (sealing, checking) = (&others.0, &others.1);
    let terms = term_sheet(&[ALWAYS; 3]);
    for length in 0..400 {
        let number = if length == 192 { 14 } else { 3 };
        let mut window = vec![0xee; length];
        let answer = reference::read(sealing, checking, &sheet, 0, &mut window);
        assert_eq!(unpointed(answer), refused(number));
        assert_eq!(window, vec![0; length]);
        let mut window = vec![0xee; length];
        let answer = reference::dated_read(sealing, checking, &sheet, &terms, 0, 7, &mut window);
        assert_eq!(unpointed(answer), refused(number));
        assert_eq!(window, vec![0; length]);
    }
}

/// Another pair of the right class writes over what it can't read.
#[test]
fn editions_1_and_2_never_give_14() {
    let mut random = Random::new(208);
    let terms = term_sheet(&[ALWAYS; 3]);
    for edition in [Edition::One, Edition::Two(0), Edition::Two(0xa53c)] {
        for t in CLASSES {
            let (keys, sheet) = written_sheet(&mut random, (edition, t), [5, 17, 192]);
            for _ in 0..100 {
                let others = other_keys(&mut random, &keys);
                assert_eq!(key_refusal(&others.0, &others.1, &sheet), 0);
                for slot in 0..3 {
                    let (answer, _) = read(&others, &sheet, slot);
                    assert!([0, 10].contains(&answer.number));
                    let (dated, _) = dated_read(&others, &sheet, &terms, slot, 7);
                    assert_eq!(dated, answer);
                }
                assert_eq!(read(&others, &sheet, 3).0, refused(6));
                let mut copy = sheet.clone();
                assert_eq!(write(&others, &mut copy, 1, b"over"), accepted(0));
                assert_eq!(read(&others, &copy, 1), (accepted(4), shown(b"over")));
            }
        }
    }
}

// ---- The refusal of a pair ----

/// Every kind of pair on every kind of sheet, against the write of a slot that is
/// there, with a caption that is short, on a sheet that isn't worn.
#[test]
fn the_refusal_of_a_pair_is_that_of_its_write() {
    let mut random = Random::new(209);
    let mut met = [0; 15];
    for (edition, t) in kinds() {
        let (keys, sheet) = mixed_sheet(&mut random, (edition, t));
        for _ in 0..400 {
            let (pair, number) = match random.below(4) {
                0 => (keys.clone(), 0),
                _ => stranger(&mut random, edition.number(), &keys),
            };
            let refusal = key_refusal(&pair.0, &pair.1, &sheet);
            assert_eq!(refusal, number);
            let answer = write(&pair, &mut sheet.clone(), 0, b"");
            assert_eq!(answer, refused(refusal));
            met[usize::from(number)] += 1;
        }
    }
    let numbers: Vec<usize> = (0..15).filter(|number| met[*number] > 100).collect();
    assert_eq!(numbers, [0, 1, 2, 5, 14], "{met:?}");
}

/// 1, 2 and then 4, for bytes of any length.
#[test]
fn the_refusal_of_a_pair_with_an_unfit_sheet_is_4() {
    let mut random = Random::new(210);
    for edition in Edition::ALL {
        for length in 0..600 {
            let keys = unlike(&mut random, 6);
            let mut sheet = random.bytes(length);
            let start = [0, 1, 6, edition.number()];
            let shared = length.min(4);
            sheet[..shared].copy_from_slice(&start[..shared]);
            if !reference::fit(&sheet) {
                assert_eq!(key_refusal(&keys.0, &keys.1, &sheet), 4);
            }
            assert_eq!(key_refusal(&keys.0, &keys.0, &sheet), 2);
            assert_eq!(key_refusal(&keys.0, &[], &sheet), 1);
            assert_eq!(key_refusal(&[], &[], &sheet), 1);
        }
    }
}
