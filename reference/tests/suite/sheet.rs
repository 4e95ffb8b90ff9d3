//! What the calls store and show (document 01, "The sheet"; document 02,
//! requests 3, 7 and 10).

use crate::edition::Edition;
use crate::letters::good_text;
use crate::random::Random;
use crate::support::*;
use reference::modes::cbc_encrypt;

fn blocks(bytes: &[u8]) -> Vec<[u8; 8]> {
    bytes.chunks(8).map(|b| b.try_into().unwrap()).collect()
}

/// Start block by the papers: write number, slot, serial (edition 1: two zero
/// bytes), sealed.
fn start((edition, t): (Edition, usize), key: &[u8], number: u32, slot: usize) -> [u8; 8] {
    let mut plain = [0; 8];
    plain[..4].copy_from_slice(&number.to_be_bytes());
    plain[4..6].copy_from_slice(&(slot as u16).to_be_bytes());
    plain[6..].copy_from_slice(&edition.start_tail());
    encrypt_in(t, key, plain)
}

/// Check by the paper: CMAC of write number, slot, length, sealed field.
fn check(t: usize, key: &[u8], number: u32, slot: usize, length: u16, field: &[u8]) -> [u8; 8] {
    let mut message = number.to_be_bytes().to_vec();
    message.extend((slot as u16).to_be_bytes());
    message.extend(length.to_be_bytes());
    message.extend(field);
    assert_eq!(message.len(), 200);
    cmac_in(t, key, &message)
}

/// Puts a slot together by hand: 192 plain bytes, sealed, with a true check.
fn put(
    edition: Edition,
    keys: &(Vec<u8>, Vec<u8>),
    sheet: &mut [u8],
    number: u32,
    slot: usize,
    length: u16,
    plain: [u8; 192],
) {
    let n = usize::from(u16::from_be_bytes([sheet[0], sheet[1]]));
    let t = usize::from(sheet[2]);
    let field = cbc_encrypt(
        &|block| encrypt_in(t, &keys.0, block),
        start((edition, t), &keys.0, number, slot),
        &blocks(&plain),
    )
    .concat();
    let mark = &mut sheet[edition.mark_place(slot)];
    mark[0..4].copy_from_slice(&number.to_be_bytes());
    mark[4..6].copy_from_slice(&length.to_be_bytes());
    mark[6..8].copy_from_slice(&[0, 0]);
    let mac = check(t, &keys.1, number, slot, length, &field);
    mark[8..16].copy_from_slice(&mac);
    sheet[edition.field_place(n, slot)].copy_from_slice(&field);
}

/// A sheet with a caption in every slot.
fn full_sheet(
    random: &mut Random,
    edition: Edition,
    keys: &(Vec<u8>, Vec<u8>),
    n: usize,
    t: usize,
) -> Vec<u8> {
    let mut sheet = blank_for(edition, keys, n, t);
    for slot in 0..n {
        let length = random.below(193);
        let caption = good_text(random, length);
        assert_eq!(write(keys, &mut sheet, slot, &caption), accepted(0));
    }
    sheet
}

#[test]
fn a_write_stores_header_mark_and_field_and_nothing_else() {
    let mut random = Random::new(50);
    for (edition, t) in kinds() {
        for length in [0, 1, 7, 8, 9, 100, 191, 192] {
            let keys = unlike(&mut random, t);
            let slot = random.below(3);
            let mut sheet = full_sheet(&mut random, edition, &keys, 3, t);
            let w = random.next() as u32 >> 1 | 0x10;
            set_w(&mut sheet, w);
            let mut expected = sheet.clone();

            let caption = good_text(&mut random, length);
            assert_eq!(write(&keys, &mut sheet, slot, &caption), accepted(0));

            set_w(&mut expected, w + 1);
            let plain = shown(&caption);
            put(
                edition,
                &keys,
                &mut expected,
                w + 1,
                slot,
                length as u16,
                plain,
            );
            assert_eq!(sheet, expected);
        }
    }
}

#[test]
fn a_write_into_slot_255_of_256_has_its_slot_in_start_block_and_check() {
    let mut random = Random::new(51);
    for edition in Edition::ALL {
        let keys = unlike(&mut random, 8);
        let mut sheet = blank_for(edition, &keys, 256, 8);
        let mut expected = sheet.clone();
        assert_eq!(write(&keys, &mut sheet, 255, b"far"), accepted(0));
        set_w(&mut expected, 1);
        put(edition, &keys, &mut expected, 1, 255, 3, shown(b"far"));
        assert_eq!(sheet, expected);
    }
}

#[test]
fn every_block_of_the_field_is_sealed_however_short_the_caption() {
    let mut random = Random::new(52);
    for (edition, t) in kinds() {
        let keys = unlike(&mut random, t);
        let mut sheet = blank_for(edition, &keys, 1, t);
        assert_eq!(write(&keys, &mut sheet, 0, b""), accepted(0));
        for block in sheet[edition.field_place(1, 0)].chunks(8) {
            assert_ne!(block, [0; 8]);
        }
    }
}

#[test]
fn two_writes_of_one_caption_are_stored_unlike() {
    let mut random = Random::new(53);
    for edition in Edition::ALL {
        let keys = unlike(&mut random, 6);
        let mut sheet = blank_for(edition, &keys, 2, 6);
        write(&keys, &mut sheet, 0, b"same");
        write(&keys, &mut sheet, 1, b"same");
        let [first, second] = [0, 1].map(|slot| &sheet[edition.field_place(2, slot)]);
        assert_ne!(first, second);
    }
}

#[test]
fn every_length_is_read_back() {
    let mut random = Random::new(54);
    for (edition, t) in kinds() {
        let keys = unlike(&mut random, t);
        let mut sheet = blank_for(edition, &keys, 1, t);
        for length in 0..=192 {
            let caption = good_text(&mut random, length);
            assert_eq!(write(&keys, &mut sheet, 0, &caption), accepted(0));
            assert_eq!(w_of(&sheet), length as u32 + 1);
            let before = sheet.clone();
            let read = read(&keys, &sheet, 0);
            assert_eq!(read, (accepted(length as u16), shown(&caption)));
            assert_eq!(sheet, before);
        }
    }
}

#[test]
fn a_caption_of_zero_bytes_keeps_its_length() {
    let mut random = Random::new(55);
    for edition in Edition::ALL {
        let keys = unlike(&mut random, 4);
        let mut sheet = blank_for(edition, &keys, 1, 4);
        for length in [0, 1, 8, 192] {
            assert_eq!(write(&keys, &mut sheet, 0, &vec![0; length]), accepted(0));
            assert_eq!(read(&keys, &sheet, 0), (accepted(length as u16), [0; 192]));
        }
    }
}

#[test]
fn a_clear_makes_208_bytes_zero_keeps_w_and_touches_nothing_else() {
    let mut random = Random::new(56);
    for (edition, t) in kinds() {
        let keys = unlike(&mut random, t);
        for slot in 0..3 {
            let mut sheet = full_sheet(&mut random, edition, &keys, 3, t);
            let mut expected = sheet.clone();
            expected[edition.mark_place(slot)].fill(0);
            expected[edition.field_place(3, slot)].fill(0);
            assert_eq!(reference::clear(&mut sheet, slot), accepted(0));
            assert_eq!(sheet, expected);
            assert_eq!(w_of(&sheet), 3);
            // Clearing a blank slot is accepted.
            assert_eq!(reference::clear(&mut sheet, slot), accepted(0));
            assert_eq!(sheet, expected);
            assert_eq!(read(&keys, &sheet, slot), (refused(9), [0; 192]));
        }
    }
}

#[test]
fn a_write_and_a_clear_test_nothing_of_the_former_content_beyond_the_layout() {
    let mut random = Random::new(57);
    for edition in Edition::ALL {
        let keys = unlike(&mut random, 4);
        let mut sheet = full_sheet(&mut random, edition, &keys, 2, 4);
        sheet[edition.field_place(2, 0).start] ^= 1;
        sheet[edition.field_place(2, 1).start] ^= 1;
        assert_eq!(read(&keys, &sheet, 0), (refused(10), [0; 192]));
        assert_eq!(read(&keys, &sheet, 1), (refused(10), [0; 192]));
        assert_eq!(write(&keys, &mut sheet, 0, b"new"), accepted(0));
        assert_eq!(reference::clear(&mut sheet, 1), accepted(0));
        assert_eq!(read(&keys, &sheet, 0), (accepted(3), shown(b"new")));
        assert_eq!(read(&keys, &sheet, 1), (refused(9), [0; 192]));
    }
}

#[test]
fn a_slot_moved_to_another_place_is_altered() {
    let mut random = Random::new(59);
    for edition in Edition::ALL {
        let keys = unlike(&mut random, 6);
        let mut sheet = full_sheet(&mut random, edition, &keys, 2, 6);
        sheet.copy_within(edition.mark_place(0), edition.mark_place(1).start);
        sheet.copy_within(edition.field_place(2, 0), edition.field_place(2, 1).start);
        assert_eq!(read(&keys, &sheet, 0).0.number, 0);
        assert_eq!(read(&keys, &sheet, 1), (refused(10), [0; 192]));
    }
}

#[test]
fn an_opened_byte_at_or_past_the_length_must_be_zero() {
    let mut random = Random::new(60);
    for (edition, t) in kinds() {
        let keys = unlike(&mut random, t);
        for length in [0, 1, 8, 100, 191, 192] {
            let caption = random.bytes(length);
            let mut sheet = blank_for(edition, &keys, 2, t);
            set_w(&mut sheet, 77);
            for place in [0, 1, 7, 8, 9, 99, 100, 101, 190, 191] {
                let mut plain = shown(&caption);
                plain[place] = 0x80;
                put(edition, &keys, &mut sheet, 42, 1, length as u16, plain);
                let expected = if place < length {
                    (accepted(length as u16), plain)
                } else {
                    (refused(10), [0; 192])
                };
                assert_eq!(read(&keys, &sheet, 1), expected);
            }
        }
    }
}

/// On edition 3 such keys are others, and the slot is altered only where the
/// sheet is made their own.
#[test]
fn a_read_with_either_key_wrong_is_altered() {
    let mut random = Random::new(61);
    for (edition, t) in kinds() {
        let keys = unlike(&mut random, t);
        let number = if edition.number() == 3 { 14 } else { 10 };
        let mut sheet = full_sheet(&mut random, edition, &keys, 1, t);
        let mut other_checking = keys.clone();
        other_checking.1[0] ^= 1;
        let read_of = |sheet: &[u8]| read(&other_checking, sheet, 0);
        assert_eq!(read_of(&sheet), (refused(number), [0; 192]));
        put_mark(&mut sheet, &other_checking);
        assert_eq!(read_of(&sheet), (refused(10), [0; 192]));
        // A wrong sealing key is met by the zero bytes, if the caption leaves any.
        let mut short = blank_for(edition, &keys, 1, t);
        write(&keys, &mut short, 0, b"short");
        let mut other_sealing = keys.clone();
        other_sealing.0[0] ^= 1;
        let read_of = |sheet: &[u8]| read(&other_sealing, sheet, 0);
        assert_eq!(read_of(&short), (refused(number), [0; 192]));
        put_mark(&mut short, &other_sealing);
        assert_eq!(read_of(&short), (refused(10), [0; 192]));
    }
}
