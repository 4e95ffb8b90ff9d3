//! The classes of a sheet: byte 2 under every edition, the key bytes, and the
//! cipher that a class means (document 02, request 10).

use crate::broken::{first_broken, NOWHERE};
use crate::edition::Edition;
use crate::faults::mixed_sheet;
use crate::letters::good_text;
use crate::present::sealed_by_numbers;
use crate::random::Random;
use crate::support::*;
use crate::term_sheet::{term_sheet, ALWAYS};
use reference::{first_fault, fit, key_refusal, Fault, SheetCipher};

type Keys = (Vec<u8>, Vec<u8>);

/// Numbers far above every class.
const FAR: [usize; 7] = [260, 262, 264, 277, 280, (1 << 32) + 21, usize::MAX];

#[test]
fn the_key_bytes_of_each_class_and_of_no_other() {
    for t in (0..=255).chain(FAR) {
        let bytes = match t {
            4 => Some(8),
            6 => Some(12),
            8 => Some(16),
            21 => Some(10),
            24 => Some(16),
            _ => None,
        };
        assert_eq!(reference::key_bytes(t), bytes);
    }
}

#[test]
fn the_cipher_of_a_class_takes_its_key_bytes_alone() {
    let mut random = Random::new(430);
    for t in (0..=255).chain(FAR) {
        for length in 0..=34 {
            let (key, block) = (random.bytes(length), random.block());
            let cipher = SheetCipher::of_class(t, &key);
            assert_eq!(cipher.is_some(), length > 0 && key_bytes(t) == length);
            if let Some(cipher) = cipher {
                assert_eq!(cipher.encrypt(block), encrypt_in(t, &key, block));
                assert_eq!(cipher.decrypt(block), decrypt_in(t, &key, block));
                assert_eq!(cipher.cmac(&block), cmac_in(t, &key, &block));
            }
        }
    }
}

// ---- Byte 2 ----

/// A blank sheet of one slot as long as its edition wants it, an unknown one's
/// as edition 3's, with the keys' mark if they have one.
fn sheet_with(byte_2: u8, byte_3: u8, keys: &Keys) -> Vec<u8> {
    let edition = match byte_3 {
        1 => Edition::One,
        2 => Edition::Two(0xa53c),
        _ => Edition::BLANKED,
    };
    let mut sheet = edition.blank_sheet(1, byte_2.into());
    sheet[3] = byte_3;
    put_mark(&mut sheet, keys);
    sheet
}

/// The rule that such a sheet breaks, or 0: byte 2 comes before byte 3, and 21
/// and 24 are edition 3's.
fn rule_of(byte_2: u8, byte_3: u8) -> u8 {
    match (byte_2, byte_3) {
        (4 | 6 | 8, 1..=3) | (21 | 24, 3) => 0,
        (4 | 6 | 8, _) => 4,
        _ => 3,
    }
}

#[test]
fn every_byte_2_under_every_byte_3() {
    let keys = (vec![1; 10], vec![2; 10]);
    let mut met = [0; 5];
    for byte_3 in 0..=255 {
        for byte_2 in 0..=255 {
            let sheet = sheet_with(byte_2, byte_3, &keys);
            let rule = rule_of(byte_2, byte_3);
            let numbers = first_fault(&sheet).map_or(NOWHERE, Fault::numbers);
            assert_eq!(numbers, (rule, 0, 0), "{byte_2} {byte_3}");
            assert_eq!(first_broken(&sheet), numbers);
            assert_eq!(fit(&sheet), rule == 0);
            let bits = 8 * key_bytes(byte_2.into());
            let listed = match rule {
                0 => format!("slots 1 key {bits} last 0\n0 blank\n"),
                _ => "unfit\n".to_string(),
            };
            assert_eq!(reference::listing(&sheet), listed.as_bytes());
            met[usize::from(rule)] += 1;
        }
    }
    // Three values in editions 1 and 2, five in edition 3, three in 253 others.
    let fit = 3 + 3 + 5;
    assert_eq!(met, [fit, 0, 0, 65536 - fit - 253 * 3, 253 * 3]);
}

/// Every call on sheets with every byte 2, under each edition and some unknown
/// ones, with keys of every length.
#[test]
fn every_call_with_every_byte_2_and_keys_of_every_length() {
    let terms = term_sheet(&[ALWAYS]);
    let mut met = [0; 6];
    for byte_3 in [0, 1, 2, 3, 4, 21, 255] {
        for byte_2 in 0..=255 {
            for length in 7..=17 {
                let keys = (vec![1; length], vec![2; length]);
                let mut sheet = sheet_with(byte_2, byte_3, &keys);
                let before = sheet.clone();
                let rule = rule_of(byte_2, byte_3);
                let number = if ![8, 10, 12, 16].contains(&length) {
                    1
                } else if rule != 0 {
                    4
                } else if length != key_bytes(byte_2.into()) {
                    5
                } else {
                    0
                };
                met[usize::from(number)] += 1;
                let rule = if number == 4 { rule } else { 0 };
                let expected = |number| pointed(refused(number), (rule, 0, 0));
                let (sealing, checking) = (&keys.0, &keys.1);
                // The one slot is blank.
                let read_number = if number == 0 { 9 } else { number };
                let mut window = [7; 192];
                let answer = reference::read(sealing, checking, &sheet, 0, &mut window);
                assert_eq!((answer, window), (expected(read_number), [0; 192]));
                let mut window = [7; 192];
                let answer =
                    reference::dated_read(sealing, checking, &sheet, &terms, 0, 5, &mut window);
                assert_eq!((answer, window), (expected(read_number), [0; 192]));
                assert_eq!(key_refusal(sealing, checking, &sheet), number);
                let answer = reference::write(sealing, checking, &mut sheet, 0, b"x");
                assert_eq!(answer, expected(number), "{byte_2} {byte_3} {length}");
                assert_eq!(sheet == before, number != 0);
                let mut sheet = before.clone();
                let answer = reference::clear(&mut sheet, 0);
                assert_eq!(answer, refused(if fit(&before) { 0 } else { 4 }));
                assert_eq!(sheet, before);
            }
        }
    }
    // Of 11 lengths 4 pass test 1; of those one fits each of the 11 good sheets.
    let sheets = 7 * 256;
    assert_eq!(met, [11, 7 * sheets, 0, 0, 4 * (sheets - 11), 3 * 11]);
}

// ---- Keys of 10 bytes ----

/// 9 and 11 bytes are wrong keys. 10 pass that test on every edition and class,
/// and then meet 2, 3, 4, 5 or none.
#[test]
fn ten_bytes_pass_the_key_test_on_every_edition() {
    let terms = term_sheet(&[ALWAYS; 3]);
    let mut random = Random::new(431);
    for (edition, t) in kinds() {
        let (own, sheet) = mixed_sheet(&mut random, (edition, t));
        let mut unfit = sheet.clone();
        unfit.push(0);
        for length in [9, 10, 11] {
            let keys = match t {
                21 if length == 10 => own.clone(),
                _ => (random.bytes(length), random.bytes(length)),
            };
            let twins = (keys.0.clone(), keys.0.clone());
            let past_1 = |number| if length == 10 { number } else { 1 };
            assert_eq!(read(&twins, &unfit, 0).0, refused(past_1(2)));
            assert_eq!(read(&keys, &unfit, 0).0, refused(past_1(4)));
            assert_eq!(write(&keys, &mut unfit.clone(), 0, b""), refused(past_1(4)));
            let (sealing, checking) = (&keys.0, &keys.1);
            let mut window = [7; 191];
            let answer = reference::read(sealing, checking, &unfit, 0, &mut window);
            assert_eq!((answer.number, window), (past_1(3), [0; 191]));
            let dated = |terms: &[u8], day| dated_read(&keys, &sheet, terms, 3, day).0;
            assert_eq!(dated(&[], 36525), refused(past_1(4)));
            let class = if t == 21 { 11 } else { 5 };
            assert_eq!(dated(&terms, 36525), refused(past_1(class)));
            let class = if t == 21 { 6 } else { 5 };
            assert_eq!(read(&keys, &sheet, 3).0, refused(past_1(class)));
            assert_eq!(
                write(&keys, &mut sheet.clone(), 3, b""),
                refused(past_1(class))
            );
        }
        // Two lengths that are both fine.
        let mixed = (
            random.bytes(10),
            random.bytes(key_bytes(class_without(10, t))),
        );
        assert_eq!(read(&mixed, &sheet, 0).0, refused(1));
        assert_eq!(read(&(mixed.1, mixed.0), &sheet, 0).0, refused(1));
    }
}

// ---- The class decides ----

/// 16 bytes are class 8 or class 24: the same keys, serial and captions give
/// other key marks, fields and checks, and a sheet is read in its own class alone.
#[test]
fn sixteen_bytes_are_of_the_cipher_that_the_class_means() {
    let mut random = Random::new(432);
    let edition = Edition::BLANKED;
    for _ in 0..20 {
        let keys = unlike(&mut random, 8);
        let caption = good_text(&mut random, 20);
        let sheets = [8, 24].map(|t| {
            let mut sheet = vec![1; 16 + 208];
            let answer = reference::blank(&mut sheet, 1, t, 0xa53c, &keys.0, &keys.1);
            assert_eq!(answer, accepted(0));
            assert_eq!(write(&keys, &mut sheet, 0, &caption), accepted(0));
            assert_eq!(read(&keys, &sheet, 0), (accepted(20), shown(&caption)));
            sheet
        });
        let check = edition.mark_place(0).start + 8..edition.mark_place(0).end;
        for part in [10..16, check, edition.field_place(1, 0)] {
            assert_ne!(sheets[0][part.clone()], sheets[1][part]);
        }
        for (mut sheet, other) in sheets.into_iter().zip([24, 8]) {
            sheet[2] = other;
            assert!(fit(&sheet));
            assert_eq!(read(&keys, &sheet, 0), (refused(14), [0; 192]));
            assert_eq!(key_refusal(&keys.0, &keys.1, &sheet), 14);
            // Made the keys' own in the other class, its slot is altered.
            put_mark(&mut sheet, &keys);
            assert_eq!(read(&keys, &sheet, 0), (refused(10), [0; 192]));
            assert_eq!(write(&keys, &mut sheet, 0, &caption), accepted(0));
            assert_eq!(read(&keys, &sheet, 0), (accepted(20), shown(&caption)));
        }
    }
}

fn xor(a: [u8; 8], b: [u8; 8]) -> [u8; 8] {
    std::array::from_fn(|i| a[i] ^ b[i])
}

/// CMAC of whole blocks, at least one, by SP 800-38B with no part of the program.
fn cmac_by_hand(key: &[u8], blocks: &[[u8; 8]]) -> [u8; 8] {
    let l = u64::from_be_bytes(sealed_by_numbers(key, [0; 8]));
    let k1 = l << 1 ^ if l >> 63 == 1 { 0x1b } else { 0 };
    let mut chain = [0; 8];
    for (i, block) in blocks.iter().enumerate() {
        chain = xor(chain, *block);
        if i + 1 == blocks.len() {
            chain = xor(chain, k1.to_be_bytes());
        }
        chain = sealed_by_numbers(key, chain);
    }
    chain
}

/// A PRESENT sheet's key mark, start block, field and check, put together with
/// PRESENT on whole numbers and no part of the program.
#[test]
fn a_present_sheet_put_together_by_hand() {
    let mut random = Random::new(433);
    for t in PRESENT_CLASSES {
        for length in [0, 1, 8, 100, 192] {
            let keys = unlike(&mut random, t);
            let seal = |block| sealed_by_numbers(&keys.0, block);
            let caption = good_text(&mut random, length);
            let mut expected = vec![0; 16 + 208 * 3];
            let header = [0, 3, t as u8, 3, 0, 0, 0, 1, 0x12, 0x34];
            expected[..10].copy_from_slice(&header);
            let mark = seal([0, 3, t as u8, 3, 0x12, 0x34, 0, 0]);
            let mark = cmac_by_hand(&keys.1, &[mark]);
            expected[10..16].copy_from_slice(&mark[..6]);

            let mut chain = seal([0, 0, 0, 1, 0, 2, 0x12, 0x34]);
            let mut message = vec![[0, 0, 0, 1, 0, 2, 0, length as u8]];
            for block in shown(&caption).as_chunks::<8>().0 {
                chain = seal(xor(chain, *block));
                message.push(chain);
            }
            let check = cmac_by_hand(&keys.1, &message);
            let mark = [0, 0, 0, 1, 0, length as u8, 0, 0];
            expected[48..56].copy_from_slice(&mark);
            expected[56..64].copy_from_slice(&check);
            expected[16 + 48 + 384..].copy_from_slice(&message[1..].concat());

            let mut sheet = vec![0xa5; 16 + 208 * 3];
            let answer = reference::blank(&mut sheet, 3, t, 0x1234, &keys.0, &keys.1);
            assert_eq!(answer, accepted(0));
            assert_eq!(write(&keys, &mut sheet, 2, &caption), accepted(0));
            assert_eq!(sheet, expected);
            let shows = (accepted(length as u16), shown(&caption));
            assert_eq!(read(&keys, &sheet, 2), shows);
        }
    }
}
