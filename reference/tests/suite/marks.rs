//! The key mark of edition 3 (document 02, requests 7 and 10).

use crate::edition::Edition;
use crate::letters::{bad_text, good_text};
use crate::random::Random;
use crate::support::*;
use std::collections::BTreeSet;

type Keys = (Vec<u8>, Vec<u8>);

fn key_mark(n: usize, t: usize, serial: u16, keys: &Keys) -> Option<[u8; 6]> {
    reference::key_mark(n, t, serial, &keys.0, &keys.1)
}

/// The mark of a pair that has one.
fn mark(n: usize, t: usize, serial: u16, keys: &Keys) -> [u8; 6] {
    key_mark(n, t, serial, keys).unwrap()
}

/// The keys with one bit flipped, counted through both.
fn flipped(keys: &Keys, bit: usize) -> Keys {
    let mut flipped = keys.clone();
    let key = if bit < 8 * keys.0.len() {
        &mut flipped.0
    } else {
        &mut flipped.1
    };
    let bit = bit % (8 * keys.0.len());
    key[bit / 8] ^= 1 << (bit % 8);
    flipped
}

#[test]
fn the_first_six_bytes_of_the_check_of_the_sealed_block() {
    let mut random = Random::new(190);
    for t in ALL_CLASSES {
        for (n, [n1, n2]) in [(1, [0, 1]), (2, [0, 2]), (255, [0, 255]), (256, [1, 0])] {
            for (serial, [s1, s2]) in [
                (0, [0, 0]),
                (1, [0, 1]),
                (255, [0, 255]),
                (256, [1, 0]),
                (0xa53c, [0xa5, 0x3c]),
                (65535, [255, 255]),
            ] {
                let keys = unlike(&mut random, t);
                let sealed = encrypt_in(t, &keys.0, [n1, n2, t as u8, 3, s1, s2, 0, 0]);
                let mac = cmac_in(t, &keys.1, &sealed);
                assert_eq!(mark(n, t, serial, &keys), mac[..6]);
            }
        }
    }
}

#[test]
fn a_pair_that_meets_1_2_or_5_has_no_mark_and_no_n_but_1_to_256_has() {
    let fine = (vec![1; 12], vec![2; 12]);
    let far = [65536, 65537, 1 << 32, usize::MAX];
    for n in (0..600).chain(far) {
        assert_eq!(key_mark(n, 6, 7, &fine).is_some(), (1..=256).contains(&n));
    }
    for t in (0..600).chain(far) {
        for length in [8, 10, 12, 16] {
            let keys = (vec![1; length], vec![2; length]);
            let fits = [(4, 8), (6, 12), (8, 16), (21, 10), (24, 16)].contains(&(t, length));
            assert_eq!(key_mark(1, t, 7, &keys).is_some(), fits);
        }
    }
    for t in ALL_CLASSES {
        for sealing in 0..=34 {
            for checking in 0..=34 {
                let own = sealing == key_bytes(t) && checking == key_bytes(t);
                let keys = (vec![1; sealing], vec![2; checking]);
                assert_eq!(key_mark(3, t, 7, &keys).is_some(), own);
                let twins = (vec![1; sealing], vec![1; checking]);
                assert_eq!(key_mark(3, t, 7, &twins), None);
            }
        }
    }
}

#[test]
fn blanking_stores_the_mark() {
    let mut random = Random::new(191);
    for t in ALL_CLASSES {
        for _ in 0..200 {
            let keys = unlike(&mut random, t);
            let n = 1 + random.below(9);
            let serial = random.next() as u16;
            let mut sheet = vec![1; 16 + 208 * n];
            let answer = reference::blank(&mut sheet, n, t, serial, &keys.0, &keys.1);
            assert_eq!(answer, accepted(0));
            assert_eq!(sheet[10..16], mark(n, t, serial, &keys));
        }
    }
}

#[test]
fn each_n_has_another_mark() {
    let mut random = Random::new(192);
    for t in ALL_CLASSES {
        let keys = unlike(&mut random, t);
        let marks: BTreeSet<[u8; 6]> = (1..=256).map(|n| mark(n, t, 9, &keys)).collect();
        assert_eq!(marks.len(), 256);
    }
}

#[test]
fn each_serial_has_another_mark() {
    let mut random = Random::new(193);
    for t in ALL_CLASSES {
        let keys = unlike(&mut random, t);
        let marks = (0..=65535).map(|serial| mark(1, t, serial, &keys));
        let marks: BTreeSet<[u8; 6]> = marks.collect();
        assert_eq!(marks.len(), 65536);
    }
}

/// t and the edition too, though no two sheets of one pair differ in them: the
/// mark is held against that of the block with any other value in any place.
#[test]
fn every_byte_of_the_block_is_in_the_mark() {
    let mut random = Random::new(194);
    for t in ALL_CLASSES {
        let keys = unlike(&mut random, t);
        let own = mark(3, t, 0x0102, &keys);
        let mut blocks = 0;
        for byte in 0..8 {
            for value in 0..=255 {
                let mut block = [0, 3, t as u8, 3, 1, 2, 0, 0];
                block[byte] = value;
                let same = block == [0, 3, t as u8, 3, 1, 2, 0, 0];
                let other = mark_of_block(t, &keys, block);
                assert_eq!(other == own, same, "{byte} {value}");
                blocks += usize::from(same);
            }
        }
        assert_eq!(blocks, 8);
    }
}

#[test]
fn each_bit_of_either_key_is_in_the_mark() {
    let mut random = Random::new(195);
    for t in ALL_CLASSES {
        for _ in 0..10 {
            let keys = unlike(&mut random, t);
            let own = mark(2, t, 0xa53c, &keys);
            let mut marks = BTreeSet::from([own]);
            for bit in 0..16 * key_bytes(t) {
                let near = flipped(&keys, bit);
                assert_ne!(near.0, near.1);
                marks.insert(mark(2, t, 0xa53c, &near));
            }
            assert_eq!(marks.len(), 16 * key_bytes(t) + 1);
        }
    }
}

#[test]
fn exchanged_keys_have_another_mark() {
    let mut random = Random::new(196);
    for t in ALL_CLASSES {
        for _ in 0..200 {
            let keys = unlike(&mut random, t);
            let exchanged = (keys.1.clone(), keys.0.clone());
            assert_ne!(mark(1, t, 0, &keys), mark(1, t, 0, &exchanged));
        }
    }
}

/// Writes up to the last number, clears, and any w put in: the mark stays, and
/// the sheet is the keys'.
#[test]
fn w_is_not_in_the_mark() {
    let mut random = Random::new(197);
    for t in ALL_CLASSES {
        let keys = unlike(&mut random, t);
        let own = mark(2, t, 0xa53c, &keys);
        let mut sheet = blank_for(Edition::BLANKED, &keys, 2, t);
        for w in [0, 1, 2, 255, 256, 65535, 1 << 16, 1 << 31, u32::MAX - 1] {
            assert_eq!(reference::clear(&mut sheet, 0), accepted(0));
            set_w(&mut sheet, w);
            assert_eq!(read(&keys, &sheet, 0), (refused(9), [0; 192]));
            assert_eq!(write(&keys, &mut sheet, 0, b"w"), accepted(0));
            assert_eq!(w_of(&sheet), w + 1);
            assert_eq!(read(&keys, &sheet, 0), (accepted(1), shown(b"w")));
            assert_eq!(sheet[10..16], own);
        }
        assert_eq!(write(&keys, &mut sheet, 0, b"w"), refused(8));
    }
}

/// No write and no clear moves the mark, nor the rest of the header but w.
#[test]
fn the_mark_stays_through_any_calls() {
    let mut random = Random::new(198);
    for t in ALL_CLASSES {
        let keys = unlike(&mut random, t);
        let mut sheet = blank_for(Edition::BLANKED, &keys, 4, t);
        let before = sheet[..16].to_vec();
        for _ in 0..100 {
            let slot = random.below(5);
            let (good, bad) = (good_text(&mut random, 20), bad_text(&mut random, 20));
            match random.below(4) {
                0 => reference::clear(&mut sheet, slot),
                1 => write(&keys, &mut sheet, slot, &bad),
                _ => write(&keys, &mut sheet, slot, &good),
            };
            assert_eq!(sheet[..4], before[..4]);
            assert_eq!(sheet[8..16], before[8..]);
        }
    }
}
