//! Each side of each edge (document 01), with the numbers of the papers
//! beside the second program's.

use crate::{both, FAR_SLOTS};
use differential::both::Both;
use differential::edition::Edition;
use differential::letters::good_text;
use differential::random::Random;
use differential::report;
use differential::sheets::{key_bytes, kinds, last_number, set_last_number, Keys, FIELD};
use differential::term_sheet::{term_sheet, ALWAYS};
use reference::{
    SheetCipher, ALTERED, NO_SUCH_SLOT, OTHER_KEY_CLASS, OVERLONG, TWIN_KEYS, WORN, WRONG_KEY,
    WRONG_SPAN,
};

pub fn done(both: &Both, edge: &str) {
    let (calls, met) = (both.calls, both.numbers_met());
    report(&format!("sheet: {edge}: {calls} calls: {met}"));
}

/// Key bytes 7, 9, 11, 13, 15, 17 refused; 8, 10, 12, 16 taken, each on its own class
/// and 16 on two.
#[test]
fn lengths_of_keys() {
    let mut random = Random::of_part(500);
    let mut both = both("key bytes");
    let lengths = || (0..=20).chain([8 + 256, 10 + 256, 12 + 256, 16 + 65_536]);
    let terms = term_sheet(&[ALWAYS; 2]);
    for (edition, t) in kinds() {
        for sealing in lengths() {
            for checking in lengths() {
                let keys = Keys::of_lengths(&mut random, sealing, checking);
                let number = match (sealing, checking) {
                    (8 | 10 | 12 | 16, _) if sealing != checking => WRONG_KEY,
                    (8 | 10 | 12 | 16, _) if sealing != key_bytes(t) => OTHER_KEY_CLASS,
                    (8 | 10 | 12 | 16, _) => 0,
                    _ => WRONG_KEY,
                };
                let mut sheet = keys.blank_sheet(edition, 2, t);
                let mut blanked = vec![7; Edition::BLANKED.sheet_length(2)];
                let answers = [
                    both.write(&keys, &mut sheet, 1, b"caption").number,
                    both.read(&keys, &sheet, 1, FIELD).0.number,
                    both.dated_read(&keys, &sheet, &terms, 1, 7, FIELD).0.number,
                    both.blank(&keys, &mut blanked, 2, t, 7).number,
                ];
                assert_eq!(answers, [number; 4], "{sealing} {checking} {t}");
            }
        }
    }
    done(&both, "keys of 0 to 20 bytes");
}

/// Keys that differ in a single bit, each bit in turn, are no twins.
#[test]
fn keys_that_differ_in_one_bit() {
    let mut random = Random::of_part(508);
    let mut both = both("keys that differ in one bit");
    for (edition, t) in kinds() {
        for bit in 0..8 * key_bytes(t) {
            let mut keys = Keys::twins(&mut random, key_bytes(t));
            let mut sheet = edition.blank_sheet(1, t);
            let answer = both.write(&keys, &mut sheet, 0, b"twins");
            assert_eq!(answer.number, TWIN_KEYS);
            assert_eq!(both.read(&keys, &sheet, 0, FIELD).0.number, TWIN_KEYS);
            keys.checking[bit / 8] ^= 1 << (bit % 8);
            keys.put_mark(&mut sheet);
            assert_eq!(both.write(&keys, &mut sheet, 0, b"no twins").number, 0);
            assert_eq!(both.read(&keys, &sheet, 0, FIELD).0.length, 8);
        }
    }
    done(&both, "keys that differ in one bit");
}

/// Caption 192 taken, 193 refused.
#[test]
fn caption_bytes() {
    let mut random = Random::of_part(501);
    let mut both = both("caption bytes");
    for (edition, t) in kinds() {
        let keys = Keys::unlike(&mut random, t);
        let mut sheet = keys.blank_sheet(edition, 2, t);
        for length in (0..=400).chain([192 + 256, 65_536, 65_536 + 192]) {
            let caption = good_text(&mut random, length);
            let answer = both.write(&keys, &mut sheet, 1, &caption);
            assert_eq!(answer.number, if length <= 192 { 0 } else { OVERLONG });
            let (answer, window) = both.read(&keys, &sheet, 1, FIELD);
            let shown = length.min(192);
            assert_eq!((answer.number, usize::from(answer.length)), (0, shown));
            assert!(length > 192 || window[..length] == caption);
        }
    }
    done(&both, "captions of 0 to 400 bytes");
}

/// Slot n - 1 taken, n refused.
#[test]
fn slots() {
    let mut random = Random::of_part(502);
    let mut both = both("slots");
    for (edition, t) in kinds() {
        for n in [1, 2, 3, 16, 255, 256] {
            let keys = Keys::unlike(&mut random, t);
            let mut sheet = keys.blank_sheet(edition, n, t);
            let far = FAR_SLOTS.into_iter().filter(|slot| *slot > n);
            for slot in [0, n / 2, n - 1, n, n + 1].into_iter().chain(far) {
                let number = if slot < n { 0 } else { NO_SUCH_SLOT };
                assert_eq!(both.write(&keys, &mut sheet, slot, b"x").number, number);
                assert_eq!(both.read(&keys, &sheet, slot, FIELD).0.number, number);
                assert_eq!(both.clear(&mut sheet, slot).number, number);
            }
        }
    }
    done(&both, "slots on both sides of n");
}

/// With w = 4294967294 a write is taken and w becomes 4294967295; the next is
/// worn. Reading and clearing go on.
#[test]
fn last_write_numbers() {
    let mut random = Random::of_part(503);
    let mut both = both("last write numbers");
    for (edition, t) in kinds() {
        let keys = Keys::unlike(&mut random, t);
        let mut sheet = keys.blank_sheet(edition, 2, t);
        set_last_number(&mut sheet, 4294967294);
        assert_eq!(both.write(&keys, &mut sheet, 1, b"the last").number, 0);
        assert_eq!(last_number(&sheet), 4294967295);
        for slot in 0..2 {
            assert_eq!(both.write(&keys, &mut sheet, slot, b"worn").number, WORN);
        }
        assert_eq!(both.read(&keys, &sheet, 1, FIELD).0.length, 8);
        assert_eq!(both.clear(&mut sheet, 1).number, 0);
        assert_eq!(both.write(&keys, &mut sheet, 1, b"worn").number, WORN);
        assert_eq!(last_number(&sheet), 4294967295);
        // Carries between the bytes of w.
        for w in [0xff, 0xffff, 0x00ff_ffff, 0x0100_00ff, 0x7fff_ffff] {
            let mut sheet = keys.blank_sheet(edition, 1, t);
            set_last_number(&mut sheet, w);
            assert_eq!(both.write(&keys, &mut sheet, 0, b"carried").number, 0);
            assert_eq!(last_number(&sheet), w + 1);
            assert_eq!(both.read(&keys, &sheet, 0, FIELD).0.length, 7);
        }
    }
    done(&both, "w = 4294967294, 4294967295 and carries");
}

#[test]
fn windows() {
    let mut random = Random::of_part(505);
    let mut both = both("windows");
    for (edition, t) in kinds() {
        let keys = Keys::unlike(&mut random, t);
        let mut sheet = keys.blank_sheet(edition, 2, t);
        both.write(&keys, &mut sheet, 0, &good_text(&mut random, 100));
        for length in (0..=400).chain([192 + 256, 192 + 65_536]) {
            for slot in 0..2 {
                let (answer, window) = both.read(&keys, &sheet, slot, length);
                assert_eq!(answer.number == WRONG_SPAN, length != FIELD);
                assert!(answer.number == 0 || window.iter().all(|byte| *byte == 0));
            }
        }
    }
    done(&both, "windows of 0 to 400 bytes");
}

/// Every slot of the smallest and the largest sheet written, read, written
/// again, cleared.
#[test]
fn sheets_of_1_and_256_slots() {
    let mut random = Random::of_part(506);
    let mut both = both("sheets of 1 and 256 slots");
    for (edition, t) in kinds() {
        for n in [1, 256] {
            let keys = Keys::unlike(&mut random, t);
            let mut sheet = vec![0xa5; edition.sheet_length(n)];
            both.begin(edition, &keys, &mut sheet, n, t);
            for slot in 0..n {
                let length = random.below(FIELD + 1);
                let caption = good_text(&mut random, length);
                both.write(&keys, &mut sheet, slot, &caption);
            }
            for slot in (0..n).step_by(7) {
                both.write(&keys, &mut sheet, slot, b"");
            }
            for slot in (0..n).step_by(5) {
                both.clear(&mut sheet, slot);
            }
            for slot in 0..n {
                both.read(&keys, &sheet, slot, FIELD);
            }
            both.list(&sheet);
        }
    }
    done(&both, "sheets of 1 and 256 slots");
}

/// A mark with another length under a true check: a read takes it where every
/// opened byte at or past that length is zero, and else calls it altered.
#[test]
fn zeros_past_the_length() {
    let mut random = Random::of_part(507);
    let mut both = both("zeros past the length");
    for (edition, t) in kinds() {
        let keys = Keys::unlike(&mut random, t);
        for nonzero in [0, 1, 8, 9, 100, 191, 192] {
            let mut sheet = keys.blank_sheet(edition, 2, t);
            let caption: Vec<u8> = (0..nonzero).map(|i| i as u8 % 128 | 1).collect();
            both.write(&keys, &mut sheet, 1, &caption);
            for length in 0..=192 {
                put_length(edition, t, &keys, &mut sheet, length as u16);
                let (answer, _) = both.read(&keys, &sheet, 1, FIELD);
                let number = if length < nonzero { ALTERED } else { 0 };
                assert_eq!(answer.number, number, "{nonzero} {length}");
            }
        }
    }
    done(&both, "each length under a true check");
}

/// Gives slot 1 of a sheet of 2 another length, and the check that belongs to
/// it.
fn put_length(edition: Edition, t: usize, keys: &Keys, sheet: &mut [u8], length: u16) {
    let mark = edition.mark_place(1).start;
    sheet[mark + 4..mark + 6].copy_from_slice(&length.to_be_bytes());
    let mut message = sheet[mark..mark + 4].to_vec();
    message.extend([0, 1]);
    message.extend(length.to_be_bytes());
    message.extend(&sheet[edition.field_place(2, 1)]);
    let cipher = SheetCipher::of_class(t, &keys.checking).expect("a key of the class");
    sheet[mark + 8..mark + 16].copy_from_slice(&cipher.cmac(&message));
}
