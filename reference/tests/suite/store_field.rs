//! Fields stored whole, and the opened byte that a read points to (document 02,
//! request 5).

use crate::broken::NOWHERE;
use crate::edition::Edition;
use crate::letters::{bad_text, good_text};
use crate::random::Random;
use crate::refusals::{call_for, first, write_sets, WAYS};
use crate::support::*;
use reference::modes::cbc_decrypt;
use reference::{Answer, Pointed};

fn store(
    keys: &(Vec<u8>, Vec<u8>),
    sheet: &mut [u8],
    slot: usize,
    length: u16,
    field: &[u8; 192],
) -> Answer {
    reference::store_field(&keys.0, &keys.1, sheet, slot, length, field)
}

/// A read's whole answer; the window of a refused one is zero.
fn read_whole(keys: &(Vec<u8>, Vec<u8>), sheet: &[u8], slot: usize) -> (Pointed, [u8; 192]) {
    let mut window = [0x5a; 192];
    let answer = reference::read(&keys.0, &keys.1, sheet, slot, &mut window);
    if answer.number != 0 {
        assert_eq!(window, [0; 192]);
    }
    (answer, window)
}

#[test]
fn a_caption_with_its_zeros_is_stored_as_a_write_stores_it() {
    let mut random = Random::new(150);
    for (edition, t) in kinds() {
        let keys = unlike(&mut random, t);
        let mut written = blank_for(edition, &keys, 3, t);
        let mut stored = written.clone();
        for length in 0..=192 {
            let slot = random.below(3);
            let caption = good_text(&mut random, length);
            assert_eq!(write(&keys, &mut written, slot, &caption), accepted(0));
            let answer = store(&keys, &mut stored, slot, length as u16, &shown(&caption));
            assert_eq!(answer, accepted(0));
            assert_eq!(stored, written);
        }
    }
}

/// Any 192 bytes with any length: they are sealed as they are, and the check is
/// that of what is stored.
#[test]
fn the_field_is_sealed_as_it_is() {
    let mut random = Random::new(151);
    for (edition, t) in kinds() {
        let keys = unlike(&mut random, t);
        for length in [0u16, 1, 8, 100, 191, 192] {
            let mut sheet = blank_for(edition, &keys, 3, t);
            set_w(&mut sheet, 0x01020304);
            let before = sheet.clone();
            let plain: [u8; 192] = random.bytes(192).try_into().unwrap();
            assert_eq!(store(&keys, &mut sheet, 2, length, &plain), accepted(0));

            let number = [1, 2, 3, 5];
            let [high, low] = length.to_be_bytes();
            let [g, h] = edition.start_tail();
            let start = encrypt_in(t, &keys.0, [1, 2, 3, 5, 0, 2, g, h]);
            let field = &sheet[edition.field_place(3, 2)];
            let blocks = field.as_chunks::<8>().0;
            let opened = cbc_decrypt(&|block| decrypt_in(t, &keys.0, block), start, blocks);
            assert_eq!(opened.concat(), plain);
            let message = [&number[..], &[0, 2, high, low], field].concat();
            let check = cmac_in(t, &keys.1, &message);
            let mark = [&number[..], &[high, low, 0, 0], &check].concat();
            assert_eq!(sheet[edition.mark_place(2)], mark);

            // All else is as it was.
            let mut rest = sheet.clone();
            rest[4..8].copy_from_slice(&before[4..8]);
            rest[edition.mark_place(2)].fill(0);
            rest[edition.field_place(3, 2)].fill(0);
            assert_eq!(rest, before);
            assert_eq!(sheet[4..8], number);
        }
    }
}

/// It never tests 15: with a broken caption it gives what comes after.
#[test]
fn it_gives_the_first_refusal_of_every_set() {
    let mut random = Random::new(152);
    for (edition, t) in kinds() {
        for set in write_sets(edition) {
            for way in 0..WAYS {
                let call = call_for(&set, (edition, t), way, &mut random);
                let length = if set.contains(&7) {
                    [193, 256, 65535][way % 3]
                } else {
                    [0, 40, 192][way % 3]
                };
                let field = if set.contains(&15) {
                    shown(&bad_text(&mut random, usize::from(length).clamp(1, 192)))
                } else {
                    [9; 192]
                };
                let set: Vec<u8> = set.iter().copied().filter(|&test| test != 15).collect();
                let mut sheet = call.sheet.clone();
                let keys = (call.sealing, call.checking);
                let answer = store(&keys, &mut sheet, call.slot, length, &field);
                assert_eq!(answer, refused(first(&set)), "{set:?} {way}");
                assert_eq!(sheet == call.sheet, !set.is_empty(), "{set:?} {way}");
            }
        }
    }
}

/// What a read of slot 1 answers, of this length and plain field.
fn read_of_stored(
    keys: &(Vec<u8>, Vec<u8>),
    (edition, t): (Edition, usize),
    length: usize,
    plain: &[u8; 192],
) -> Pointed {
    let mut sheet = blank_for(edition, keys, 2, t);
    let answer = store(keys, &mut sheet, 1, length as u16, plain);
    assert_eq!(answer, accepted(0));
    let (answer, window) = read_whole(keys, &sheet, 1);
    assert!(answer.number != 0 || window == *plain);
    answer
}

/// The answer that points to a byte of slot 1's field.
fn byte_place(place: usize) -> Pointed {
    pointed(refused(10), (11, 1, place as u16))
}

#[test]
fn each_byte_set_alone_at_or_past_the_length_is_pointed_to() {
    let mut random = Random::new(153);
    for (edition, t) in kinds() {
        let keys = unlike(&mut random, t);
        for length in [0, 1, 7, 8, 9, 100, 190, 191, 192] {
            let caption = random.bytes(length);
            for place in 0..192 {
                let mut plain = shown(&caption);
                plain[place] = random.pick(&[1, 0x80, 255]);
                let expected = if place < length {
                    pointed(accepted(length as u16), NOWHERE)
                } else {
                    byte_place(place)
                };
                let answer = read_of_stored(&keys, (edition, t), length, &plain);
                assert_eq!(answer, expected, "{length} {place}");
            }
        }
    }
}

/// One byte below the length counts for nothing, the one at it is the first.
#[test]
fn every_length_with_all_bytes_set() {
    let mut random = Random::new(154);
    for kind in kinds() {
        let keys = unlike(&mut random, kind.1);
        for length in 0..192 {
            let answer = read_of_stored(&keys, kind, length, &[255; 192]);
            assert_eq!(answer, byte_place(length));
        }
        let answer = read_of_stored(&keys, kind, 192, &[255; 192]);
        assert_eq!(answer, pointed(accepted(192), NOWHERE));
    }
}

#[test]
fn of_several_bytes_the_first_at_or_past_the_length() {
    let mut random = Random::new(155);
    for kind in kinds() {
        let keys = unlike(&mut random, kind.1);
        for _ in 0..300 {
            let length = random.below(193);
            let mut plain = [0; 192];
            for _ in 0..random.below(6) {
                plain[random.below(192)] = 1 + random.below(255) as u8;
            }
            let first = (length..192).find(|place| plain[*place] != 0);
            let expected = match first {
                Some(place) => byte_place(place),
                None => pointed(accepted(length as u16), NOWHERE),
            };
            assert_eq!(read_of_stored(&keys, kind, length, &plain), expected);
        }
    }
}

/// A slot with set bytes past its length and a check that differs, by any bit
/// of the check, of the length or of the sealed field: the check is named.
#[test]
fn the_check_precedes_the_byte_place() {
    let mut random = Random::new(156);
    for (edition, t) in kinds() {
        let keys = unlike(&mut random, t);
        let mut sheet = blank_for(edition, &keys, 3, t);
        assert_eq!(store(&keys, &mut sheet, 2, 10, &[7; 192]), accepted(0));
        let expected = pointed(refused(10), (11, 2, 10));
        assert_eq!(read_whole(&keys, &sheet, 2).0, expected);
        let mark = edition.mark_place(2).start;
        let check_bits = 8 * (mark + 8)..8 * (mark + 16);
        // The low six bits of the length, which stays below 192.
        let length_bits = 8 * (mark + 5)..8 * (mark + 5) + 6;
        let field = edition.field_place(3, 2);
        let field_bits = (8 * field.start..8 * field.end).step_by(7);
        for bit in check_bits.chain(length_bits).chain(field_bits) {
            let mut flipped = sheet.clone();
            flipped[bit / 8] ^= 1 << (bit % 8);
            let expected = pointed(refused(10), (10, 2, 0));
            assert_eq!(read_whole(&keys, &flipped, 2).0, expected, "{bit}");
        }
        // With another checking key the check differs, with another sealing key
        // it doesn't, on a sheet that is made their own.
        let mut other = keys.clone();
        other.1[0] ^= 1;
        put_mark(&mut sheet, &other);
        let (answer, _) = read_whole(&other, &sheet, 2);
        assert_eq!(answer, pointed(refused(10), (10, 2, 0)));
        let mut other = keys.clone();
        other.0[0] ^= 1;
        put_mark(&mut sheet, &other);
        assert_eq!(read_whole(&other, &sheet, 2).0.rule, 11);
    }
}

/// The slot of the answer is the one that is read, up to the last of 256.
#[test]
fn the_slot_that_is_read_is_named() {
    let mut random = Random::new(157);
    for edition in Edition::ALL {
        let keys = unlike(&mut random, 4);
        let mut sheet = blank_for(edition, &keys, 256, 4);
        let slots = [0, 1, 127, 128, 254, 255];
        for slot in slots {
            let mut plain = [0; 192];
            plain[slot % 100 + 50] = 1;
            assert_eq!(store(&keys, &mut sheet, slot, 50, &plain), accepted(0));
        }
        for slot in slots {
            let place = slot % 100 + 50;
            let expected = pointed(refused(10), (11, slot as u16, place as u16));
            assert_eq!(read_whole(&keys, &sheet, slot).0, expected);
            let mut flipped = sheet.clone();
            flipped[edition.mark_place(slot).end - 1] ^= 1;
            let expected = pointed(refused(10), (10, slot as u16, 0));
            assert_eq!(read_whole(&keys, &flipped, slot).0, expected);
        }
    }
}

/// A write over such a slot and a clear of it test nothing of this.
#[test]
fn a_slot_with_set_bytes_is_written_and_cleared() {
    let mut random = Random::new(158);
    for (edition, t) in kinds() {
        let keys = unlike(&mut random, t);
        let mut sheet = blank_for(edition, &keys, 2, t);
        for slot in 0..2 {
            assert_eq!(store(&keys, &mut sheet, slot, 0, &[1; 192]), accepted(0));
        }
        assert!(reference::fit(&sheet));
        assert_eq!(write(&keys, &mut sheet, 0, b"new"), accepted(0));
        assert_eq!(reference::clear(&mut sheet, 1), accepted(0));
        assert_eq!(read(&keys, &sheet, 0), (accepted(3), shown(b"new")));
        assert_eq!(read(&keys, &sheet, 1), (refused(9), [0; 192]));
    }
}
