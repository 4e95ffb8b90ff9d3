//! Each refusal from both sides, and their order (document 01, the table;
//! document 02, requests 3, 7, 9 and 10).

use crate::edition::Edition;
use crate::letters::{bad_text, good_text};
use crate::random::Random;
use crate::support::*;

/// Lengths about every edge.
const LENGTHS: [usize; 20] = [
    0, 1, 7, 8, 9, 10, 11, 12, 13, 15, 16, 17, 18, 24, 32, 191, 192, 193, 200, 256,
];

/// Whether a key of mCrypton may have this length.
fn is_key_length(length: usize) -> bool {
    [8, 12, 16].contains(&length)
}

/// Whether a key of a sheet may have this length.
fn is_sheet_key_length(length: usize) -> bool {
    [8, 10, 12, 16].contains(&length)
}

/// The tests of a write, in their order.
const WRITE_ORDER: [u8; 9] = [1, 2, 4, 5, 14, 6, 7, 15, 8];
/// The tests of a read, in their order, but for 9 and 10 at the end.
const READ_ORDER: [u8; 7] = [1, 2, 3, 4, 5, 14, 6];

/// All sets of the numbers that a call on an edition can meet; only edition 3
/// has a key mark.
fn sets_of(numbers: &[u8], edition: Edition) -> Vec<Vec<u8>> {
    let met = |number: &u8| *number != 14 || matches!(edition, Edition::Three(_));
    let numbers: Vec<u8> = numbers.iter().copied().filter(met).collect();
    subsets(&numbers)
}

/// All sets of refusals that apply to a write together.
pub fn write_sets(edition: Edition) -> Vec<Vec<u8>> {
    sets_of(&WRITE_ORDER, edition)
}

/// All sets of refusals that apply to a read together. A blank slot has no
/// check, so 9 and 10 never do.
pub fn read_sets(edition: Edition) -> Vec<Vec<u8>> {
    let sets = sets_of(&READ_ORDER, edition).into_iter();
    let ended = |set: Vec<u8>| [&[][..], &[9], &[10]].map(|end| [&set, end].concat());
    sets.flat_map(ended).collect()
}

/// All subsets of a list of numbers, each in the list's order.
fn subsets(numbers: &[u8]) -> Vec<Vec<u8>> {
    let mut all = vec![Vec::new()];
    for number in numbers {
        for mut subset in all.clone() {
            subset.push(*number);
            all.push(subset);
        }
    }
    all
}

/// The first number of a set, or 0; a set is in the order of the tests.
pub fn first(set: &[u8]) -> u8 {
    set.first().copied().unwrap_or(0)
}

#[test]
fn sealing_and_opening_a_block_test_1_and_3() {
    for key_length in LENGTHS {
        for block_length in LENGTHS {
            for out_length in LENGTHS {
                let number = if !is_key_length(key_length) {
                    1
                } else if block_length != 8 || out_length != 8 {
                    3
                } else {
                    0
                };
                let key = vec![1; key_length];
                let block = vec![2; block_length];
                for call in [reference::encrypt_block, reference::decrypt_block] {
                    let mut out = vec![3; out_length];
                    assert_eq!(call(&key, &block, &mut out), refused(number));
                    assert_eq!(out == vec![3; out_length], number != 0 || out_length == 0);
                }
            }
        }
    }
}

#[test]
fn cmac_tests_1_and_3() {
    for key_length in LENGTHS {
        for message_length in LENGTHS {
            for out_length in LENGTHS {
                let number = if !is_key_length(key_length) {
                    1
                } else if out_length != 8 {
                    3
                } else {
                    0
                };
                let key = vec![1; key_length];
                let message = vec![2; message_length];
                let mut out = vec![3; out_length];
                let answer = reference::cmac(&key, &message, &mut out);
                assert_eq!(answer, refused(number));
                assert_eq!(out == vec![3; out_length], number != 0 || out_length == 0);
            }
        }
    }
}

#[test]
fn a_clear_tests_4_and_6() {
    for edition in Edition::ALL {
        for set in subsets(&[4, 6]) {
            let mut sheet = edition.blank_sheet(2, 4);
            if set.contains(&4) {
                sheet[3] = UNKNOWN_EDITION;
            }
            for slot in if set.contains(&6) {
                [2, usize::MAX]
            } else {
                [0, 1]
            } {
                let before = sheet.clone();
                assert_eq!(reference::clear(&mut sheet, slot), refused(first(&set)));
                assert_eq!(sheet, before);
            }
        }
    }
}

#[test]
fn a_clear_of_any_short_or_random_sheet_changes_nothing() {
    let mut random = Random::new(70);
    for edition in Edition::ALL {
        let two = edition.sheet_length(2);
        for length in (0..300).chain([two, two + 1]) {
            let mut sheet = random.bytes(length);
            let before = sheet.clone();
            assert_eq!(reference::clear(&mut sheet, 0), refused(4));
            assert_eq!(sheet, before);
        }
    }
}

/// What a call on a sheet is given, so that a set of refusals applies.
#[derive(Clone)]
pub struct Call {
    pub sealing: Vec<u8>,
    pub checking: Vec<u8>,
    pub sheet: Vec<u8>,
    pub slot: usize,
    pub caption: Vec<u8>,
    pub window: Vec<u8>,
}

/// How many ways there are of provoking a refusal, at most.
pub const WAYS: usize = 9;

/// Makes a sheet unfit.
fn make_unfit(sheet: &mut Vec<u8>, edition: Edition, way: usize) {
    let mark = edition.mark_place(0).start;
    match way % WAYS {
        0 => sheet[3] = UNKNOWN_EDITION,
        1 => sheet.truncate(edition.header() - 1),
        2 => sheet[mark + 12] = 1,
        3 => sheet[edition.field_place(3, 0).start] = 1,
        4 => sheet.push(0),
        5 => sheet.clear(),
        // Another edition, though not 3 for 2, as which it fits.
        6 => sheet[3] = if edition == Edition::One { 3 } else { 1 },
        // Edition 2 with a zero byte of the header set: that byte is in slot 0's
        // mark in edition 1, in the key mark in edition 3.
        7 => {
            sheet[3] = 2;
            sheet[15] = 1;
        }
        // A zero byte of slot 0's mark.
        _ => sheet[mark + 7] = 1,
    }
}

/// Makes the key mark of a sheet of edition 3 another one than the keys'.
fn unmark(sheet: &mut [u8], (sealing, checking): &(Vec<u8>, Vec<u8>), way: usize) {
    let before = sheet[8..16].to_vec();
    match way % WAYS {
        0 => sheet[10] ^= 0x80,
        1 => sheet[15] ^= 1,
        2 => sheet[10..16].fill(0),
        3 => sheet[10..16].copy_from_slice(&Edition::SOME_MARK),
        4 => sheet[10..16].reverse(),
        // The serial, from which the mark is made.
        5 => sheet[9] ^= 1,
        // Keys that aren't of the class have no mark.
        _ if key_bytes(usize::from(sheet[2])) != sealing.len() => {}
        6 => put_mark(sheet, &(near(sealing), checking.clone())),
        7 => put_mark(sheet, &(sealing.clone(), near(checking))),
        _ => put_mark(sheet, &(checking.clone(), sealing.clone())),
    }
    // Twins are the same when exchanged.
    if sheet[8..16] == before {
        sheet[12] ^= 4;
    }
}

/// The key with one bit flipped.
fn near(key: &[u8]) -> Vec<u8> {
    let mut key = key.to_vec();
    key[0] ^= 1;
    key
}

/// A caption of so many bytes, more than 192, broken at one place or nowhere.
fn overlong(random: &mut Random, length: usize, broken: bool) -> Vec<u8> {
    let begin = if broken { bad_text } else { good_text };
    let mut caption = begin(random, 192);
    caption.resize(length, b'x');
    caption
}

/// A call to which each refusal of the set applies, whatever else does, and 14
/// and 15 only where they are in the set: `way` chooses among ways of provoking one.
pub fn call_for(
    set: &[u8],
    (edition, t): (Edition, usize),
    way: usize,
    random: &mut Random,
) -> Call {
    let provoke = |number| set.contains(&number);
    let mut keys = unlike(random, t);
    let mut sheet = blank_for(edition, &keys, 3, t);
    let slot = 1;
    let caption = good_text(random, 40);
    if !provoke(9) {
        assert_eq!(write(&keys, &mut sheet, slot, &caption), accepted(0));
    }
    if provoke(8) {
        set_w(&mut sheet, u32::MAX);
    }
    if provoke(10) {
        // The check or the field of slot 1.
        let (mark, field) = (edition.mark_place(slot), edition.field_place(3, slot));
        let places = [mark.start + 8, mark.end - 1, field.start, field.end - 1];
        sheet[places[way % 4]] ^= 0x40;
    }
    if provoke(5) {
        keys = unlike(random, class_without(key_bytes(t), way));
    }
    if provoke(1) {
        // Equal wrong lengths, as a pair of twins has.
        let length = [0, 7, 9, 11, 13, 15, 17][way % 7];
        keys.0.resize(length, 1);
        keys.1.resize(length, 2);
    }
    if provoke(2) {
        keys.1 = keys.0.clone();
    }
    put_mark(&mut sheet, &keys);
    if provoke(14) {
        unmark(&mut sheet, &keys, way + set.len());
    }
    if provoke(4) {
        make_unfit(&mut sheet, edition, way);
    }
    Call {
        sealing: keys.0,
        checking: keys.1,
        sheet,
        slot: if provoke(6) {
            [3, 4, 256, 65537, usize::MAX][way % 5]
        } else {
            slot
        },
        caption: match (provoke(7), provoke(15)) {
            (true, broken) => overlong(random, [193, 194, 65728][way % 3], broken),
            (false, true) => bad_text(random, [1, 2, 40, 191, 192][way % 5]),
            (false, false) => caption,
        },
        window: vec![
            0xee;
            if provoke(3) {
                [0, 1, 191, 193, 1000][way % 5]
            } else {
                192
            }
        ],
    }
}

#[test]
fn a_write_gives_the_first_refusal_of_every_set() {
    let mut random = Random::new(71);
    for (edition, t) in kinds() {
        for set in write_sets(edition) {
            for way in 0..WAYS {
                let mut call = call_for(&set, (edition, t), way, &mut random);
                let before = call.sheet.clone();
                let answer = unpointed(reference::write(
                    &call.sealing,
                    &call.checking,
                    &mut call.sheet,
                    call.slot,
                    &call.caption,
                ));
                assert_eq!(answer, refused(first(&set)), "{set:?} {way}");
                assert_eq!(call.sheet == before, !set.is_empty(), "{set:?} {way}");
            }
        }
    }
}

#[test]
fn a_read_gives_the_first_refusal_of_every_set_and_zeroes_its_window() {
    let mut random = Random::new(72);
    for (edition, t) in kinds() {
        for set in read_sets(edition) {
            for way in 0..WAYS {
                let mut call = call_for(&set, (edition, t), way, &mut random);
                let answer = unpointed(reference::read(
                    &call.sealing,
                    &call.checking,
                    &call.sheet,
                    call.slot,
                    &mut call.window,
                ));
                if set.is_empty() {
                    assert_eq!(answer, accepted(40));
                    assert_eq!(call.window, shown(&call.caption));
                } else {
                    assert_eq!(answer, refused(first(&set)), "{set:?} {way}");
                    assert!(call.window.iter().all(|byte| *byte == 0));
                }
            }
        }
    }
}

#[test]
fn one_wrong_key_or_two_lengths_that_differ_give_1() {
    for edition in Edition::ALL {
        for sealing in LENGTHS {
            for checking in LENGTHS {
                let fine = is_sheet_key_length(sealing) && sealing == checking;
                let keys = (vec![1; sealing], vec![2; checking]);
                for t in classes_of(edition) {
                    let number = match fine {
                        false => 1,
                        true if key_bytes(*t) != sealing => 5,
                        true => 0,
                    };
                    let mut sheet = edition.blank_sheet(1, *t);
                    if fine {
                        put_mark(&mut sheet, &keys);
                    }
                    assert_eq!(write(&keys, &mut sheet, 0, b""), refused(number));
                    assert_eq!(read(&keys, &sheet, 0), (refused(number), [0; 192]));
                }
            }
        }
    }
}

#[test]
fn empty_keys_are_wrong_before_they_are_twins() {
    for edition in Edition::ALL {
        let mut sheet = edition.blank_sheet(1, 4);
        let keys = (Vec::new(), Vec::new());
        assert_eq!(write(&keys, &mut sheet, 0, b""), refused(1));
        assert_eq!(read(&keys, &sheet, 0), (refused(1), [0; 192]));
    }
}

#[test]
fn keys_that_differ_in_one_bit_are_not_twins() {
    let mut random = Random::new(73);
    for (edition, t) in kinds() {
        let sealing = random.bytes(key_bytes(t));
        let mut sheet = edition.blank_sheet(1, t);
        let twins = (sealing.clone(), sealing.clone());
        assert_eq!(write(&twins, &mut sheet, 0, b"x"), refused(2));
        assert_eq!(read(&twins, &sheet, 0), (refused(2), [0; 192]));
        for bit in 0..8 * key_bytes(t) {
            let mut checking = sealing.clone();
            checking[bit / 8] ^= 1 << (bit % 8);
            let keys = (sealing.clone(), checking);
            put_mark(&mut sheet, &keys);
            assert_eq!(write(&twins, &mut sheet, 0, b"x"), refused(2));
            assert_eq!(write(&keys, &mut sheet, 0, b"x"), accepted(0));
            assert_eq!(read(&keys, &sheet, 0), (accepted(1), shown(b"x")));
        }
    }
}

#[test]
fn any_window_but_192_gives_3_and_becomes_zero() {
    let mut random = Random::new(74);
    for edition in Edition::ALL {
        let keys = unlike(&mut random, 4);
        let mut sheet = blank_for(edition, &keys, 1, 4);
        write(&keys, &mut sheet, 0, b"caption");
        for length in 0..400 {
            let mut window = vec![0xee; length];
            let answer = unpointed(reference::read(&keys.0, &keys.1, &sheet, 0, &mut window));
            if length == 192 {
                assert_eq!(answer, accepted(7));
                assert_eq!(window, shown(b"caption"));
            } else {
                assert_eq!(answer, refused(3));
                assert_eq!(window, vec![0; length]);
            }
        }
    }
}

#[test]
fn keys_of_each_class_on_sheets_of_each_class() {
    let mut random = Random::new(75);
    for (edition, t) in kinds() {
        for class in ALL_CLASSES {
            let keys = unlike(&mut random, class);
            let mut sheet = blank_for(edition, &keys, 1, t);
            let fits = key_bytes(class) == key_bytes(t);
            let number = if fits { 0 } else { 5 };
            assert_eq!(write(&keys, &mut sheet, 0, b""), refused(number));
            assert_eq!(read(&keys, &sheet, 0).0, refused(number));
        }
    }
}
