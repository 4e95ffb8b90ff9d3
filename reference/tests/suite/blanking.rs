//! Blanking (document 01, "The sheet", the table and the edges; document 02,
//! requests 3, 7 and 10).

use crate::edition::Edition;
use crate::random::Random;
use crate::support::*;
use reference::Answer;

/// Numbers far above every edge.
const FAR: [usize; 5] = [65536, 65540, 1 << 32, usize::MAX - 1, usize::MAX];

type Keys = (Vec<u8>, Vec<u8>);

fn blank(sheet: &mut [u8], n: usize, t: usize, serial: u16, keys: &Keys) -> Answer {
    reference::blank(sheet, n, t, serial, &keys.0, &keys.1)
}

#[test]
fn blanking_stores_n_t_edition_3_the_serial_the_key_mark_and_zeros() {
    let mut random = Random::new(180);
    for t in ALL_CLASSES {
        for n in 1usize..=256 {
            for serial in Edition::SERIALS {
                let keys = unlike(&mut random, t);
                let mut sheet = vec![0xa5; 16 + 208 * n];
                assert_eq!(blank(&mut sheet, n, t, serial, &keys), accepted(0));
                let [n1, n2] = [n / 256, n % 256].map(|byte| byte as u8);
                let [s1, s2] = [serial / 256, serial % 256].map(|byte| byte as u8);
                let mark = mark_of_block(t, &keys, [n1, n2, t as u8, 3, s1, s2, 0, 0]);
                assert_eq!(sheet[..10], [n1, n2, t as u8, 3, 0, 0, 0, 0, s1, s2]);
                assert_eq!(sheet[10..16], mark);
                assert_eq!(sheet[16..], vec![0; 208 * n]);
                let by_hand = blank_for(Edition::Three(serial), &keys, n, t);
                assert_eq!(sheet, by_hand);
            }
        }
    }
}

#[test]
fn every_serial_is_taken() {
    let mut random = Random::new(181);
    let keys = unlike(&mut random, 6);
    let mut sheet = vec![0xa5; 224];
    for serial in 0..=65535 {
        assert_eq!(blank(&mut sheet, 1, 6, serial, &keys), accepted(0));
        assert_eq!(sheet, blank_for(Edition::Three(serial), &keys, 1, 6));
        assert!(reference::fit(&sheet));
    }
}

/// The number by the paper: 1, 2, 3, 5.
fn number_of(length: usize, n: usize, t: usize, (sealing, checking): &Keys) -> u8 {
    let is_key = |key: &Vec<u8>| [8, 10, 12, 16].contains(&key.len());
    let right_keys = is_key(sealing) && is_key(checking) && sealing.len() == checking.len();
    if !right_keys || ![4, 6, 8, 21, 24].contains(&t) {
        1
    } else if sealing == checking {
        2
    } else if n == 0 || n > 256 || length != 16 + 208 * n {
        3
    } else if sealing.len() != key_bytes(t) {
        5
    } else {
        0
    }
}

/// Blanks with both serials, and holds that a refusal changes no byte.
fn blank_both(length: usize, n: usize, t: usize, keys: &Keys) -> u8 {
    let number = number_of(length, n, t, keys);
    let mut sheet = vec![7; length];
    for serial in [0, 0x0707] {
        assert_eq!(blank(&mut sheet, n, t, serial, keys), refused(number));
        if number == 0 {
            assert_eq!(sheet, blank_for(Edition::Three(serial), keys, n, t));
        } else {
            assert!(sheet.iter().all(|byte| *byte == 7));
        }
    }
    number
}

#[test]
fn n_t_and_the_length_about_every_edge() {
    let mut random = Random::new(182);
    let header = Edition::BLANKED.header();
    let fitting = |n: usize| Edition::BLANKED.sheet_length(n);
    let lengths = [
        0,
        header - 1,
        header,
        header + 1,
        Edition::One.sheet_length(1),
        fitting(1) - 1,
        fitting(1),
        fitting(1) + 1,
        fitting(2),
        Edition::One.sheet_length(256),
        fitting(256) - 1,
        fitting(256),
        fitting(256) + 1,
        fitting(257),
    ];
    let classes = ALL_CLASSES.map(|class| unlike(&mut random, class));
    let mut met = [0; 6];
    for t in (0..30).chain(FAR).chain([260, 262, 264, 277, 280]) {
        for n in [0, 1, 2, 3, 255, 256, 257, 258].into_iter().chain(FAR) {
            for length in lengths {
                for keys in &classes {
                    met[usize::from(blank_both(length, n, t, keys))] += 1;
                }
            }
        }
    }
    // Of t's 40 values 5 are right, of 13 × 14 sizes 3. Of the 5 × 5 pairs of t
    // and the keys' class 7 fit, as 8 and 24 have the same key bytes.
    let sizes = 13 * 14;
    let spans = 25 * (sizes - 3);
    assert_eq!(met, [3 * 7, 35 * sizes * 5, 0, spans, 0, 3 * 18]);
}

#[test]
fn keys_of_every_pair_of_lengths_unlike_and_equal() {
    let mut met = [0; 6];
    for t in [0, 4, 5, 6, 8, 10, 12, 20, 21, 24, usize::MAX] {
        for (n, length) in [(1, 224), (2, 432), (0, 16), (1, 216), (1, 223)] {
            for sealing in 0..=34 {
                for checking in 0..=34 {
                    for second in [1, 2] {
                        let keys = (vec![1; sealing], vec![second; checking]);
                        met[usize::from(blank_both(length, n, t, &keys))] += 1;
                    }
                }
            }
        }
    }
    // Of t's 11 values 5 are right, of 5 sizes 2, of 2 × 35 × 35 pairs 8, half of
    // them twins. Each t is fit by one of the other 4.
    let wrong_keys = 5 * 5 * (2 * 35 * 35 - 8) + 6 * 5 * 2 * 35 * 35;
    let twins = 5 * 5 * 4;
    let spans = 5 * 3 * 4;
    assert_eq!(met, [5 * 2, wrong_keys, twins, spans, 0, 5 * 2 * 3]);
}

/// What blanking is given so that a set of refusals applies.
fn blanking_for(
    set: &[u8],
    t: usize,
    way: usize,
    random: &mut Random,
) -> (usize, usize, Keys, usize) {
    let provoke = |number| set.contains(&number);
    let other_class = class_without(key_bytes(t), way);
    let mut keys = unlike(random, if provoke(5) { other_class } else { t });
    let mut t = t;
    if provoke(1) {
        match way % 6 {
            0 => t = [0, 3, 5, 7, 9, 20, 22, 23, 25, usize::MAX][random.below(10)],
            1 => keys.0.truncate(7),
            2 if !provoke(2) => keys.1.push(1),
            3 => keys = (vec![1; 11], vec![1; 11]),
            4 => keys = (random.bytes(17), random.bytes(17)),
            _ => keys = (Vec::new(), Vec::new()),
        }
    }
    if provoke(2) {
        keys.1 = keys.0.clone();
    }
    let (n, length) = if provoke(3) {
        [
            (0, 16),
            (257, 53472),
            (3, 639),
            (3, 641),
            (3, 632),
            (usize::MAX, 0),
        ][way % 6]
    } else {
        (3, 640)
    };
    (n, t, keys, length)
}

#[test]
fn blanking_gives_the_first_refusal_of_every_set() {
    let mut random = Random::new(183);
    let mut met = [0; 6];
    for t in ALL_CLASSES {
        for set in 0..16 {
            let numbers = [1, 2, 3, 5].into_iter().enumerate();
            let in_set = numbers.filter(|(i, _)| set >> i & 1 == 1);
            let set: Vec<u8> = in_set.map(|(_, number)| number).collect();
            for way in 0..30 {
                let (n, t, keys, length) = blanking_for(&set, t, way, &mut random);
                let number = blank_both(length, n, t, &keys);
                assert_eq!(number, set.first().copied().unwrap_or(0), "{set:?} {way}");
                met[usize::from(number)] += 1;
            }
        }
    }
    assert_eq!(met, [150, 8 * 150, 4 * 150, 2 * 150, 0, 150]);
}

/// Blanking takes nothing from what the buffer held, be it a sheet of any
/// edition.
#[test]
fn a_used_sheet_is_blanked_for_other_keys() {
    let mut random = Random::new(184);
    for t in ALL_CLASSES {
        let [first, second] = [0, 1].map(|_| unlike(&mut random, t));
        let mut sheet = vec![0; 16 + 208 * 2];
        for (keys, others, serial) in [(&first, &second, 1), (&second, &first, 1)] {
            assert_eq!(blank(&mut sheet, 2, t, serial, keys), accepted(0));
            assert_eq!(sheet, blank_for(Edition::Three(serial), keys, 2, t));
            assert_eq!(write(keys, &mut sheet, 0, b"venue"), accepted(0));
            assert_eq!(read(keys, &sheet, 0), (accepted(5), shown(b"venue")));
            let before = sheet.clone();
            assert_eq!(write(others, &mut sheet, 1, b"other"), refused(14));
            assert_eq!(sheet, before);
        }
    }
}

#[test]
fn one_slot_is_224_bytes_and_256_are_53264() {
    let mut random = Random::new(185);
    for t in ALL_CLASSES {
        let keys = unlike(&mut random, t);
        for (n, length) in [(1, 224), (256, 53264)] {
            assert_eq!(blank_both(length, n, t, &keys), 0);
            let mut sheet = vec![9; length];
            assert_eq!(blank(&mut sheet, n, t, 0, &keys), accepted(0));
            assert!(reference::fit(&sheet));
            for wrong in [length - 8, length - 1, length + 1] {
                let mut sheet = vec![9; wrong];
                assert_eq!(blank(&mut sheet, n, t, 0, &keys), refused(3));
                assert_eq!(sheet, vec![9; wrong]);
            }
        }
        for n in [0, 257] {
            let length = Edition::BLANKED.sheet_length(n);
            let mut sheet = vec![9; length];
            assert_eq!(blank(&mut sheet, n, t, 0, &keys), refused(3));
            assert_eq!(sheet, vec![9; length]);
        }
    }
}
