//! Wall panels in counter mode (document 02, request 8).

use crate::random::Random;
use crate::support::{accepted, decrypt, encrypt, refused, CLASSES};
use reference::modes::ctr;
use reference::{panel, panel_blocks};
use std::cell::RefCell;
use std::collections::HashSet;

/// First counters: the lowest two, one that carries into the upper half, those
/// from which the longest panel ends with the last counter and one past it, and
/// the highest two.
const FIRSTS: [u64; 7] = [
    0,
    1,
    0x0000_0000_ffff_ffff,
    0xffff_ffff_ffff_e000,
    0xffff_ffff_ffff_e001,
    0xffff_ffff_ffff_fffe,
    0xffff_ffff_ffff_ffff,
];

/// The bytes of the longest panel.
const LONGEST: usize = 65536;

/// Counter block i: the sum without its carry past 64 bits, byte by byte.
fn counter_by_hand(first: u64, i: usize) -> [u8; 8] {
    let sum = (u128::from(first) + i as u128) % (1 << 64);
    [56, 48, 40, 32, 24, 16, 8, 0].map(|shift| (sum >> shift) as u8)
}

/// A sealed panel: byte i is byte i of the panel, and byte i mod 8 of the
/// encryption of counter block i / 8 added to it.
pub fn sealed_by_hand(key: &[u8], first: u64, panel: &[u8]) -> Vec<u8> {
    let byte = |i: usize| panel[i] ^ encrypt(key, counter_by_hand(first, i / 8))[i % 8];
    (0..panel.len()).map(byte).collect()
}

/// The output of an accepted call.
fn seal(key: &[u8], first: u64, text: &[u8]) -> Vec<u8> {
    let mut output = vec![0x5a; text.len()];
    assert_eq!(panel(key, first, text, &mut output), accepted(0));
    output
}

/// A random key of each class with each first counter.
fn keys_and_firsts(random: &mut Random) -> Vec<(Vec<u8>, u64)> {
    let mut all = Vec::new();
    for t in CLASSES {
        all.extend(FIRSTS.map(|first| (random.bytes(2 * t), first)));
    }
    all
}

/// The counter blocks that a panel of a length uses, in their order.
fn counters(first: u64, length: usize) -> Vec<[u8; 8]> {
    let inputs = RefCell::new(Vec::new());
    let ciph = |block| {
        inputs.borrow_mut().push(block);
        block
    };
    ctr(&ciph, first, &vec![0; length]);
    inputs.into_inner()
}

// ---- What is sealed ----

#[test]
fn every_length_to_300_is_sealed_byte_by_byte_and_back() {
    let mut random = Random::new(300);
    for (key, first) in keys_and_firsts(&mut random) {
        for length in 0..=300 {
            let text = random.bytes(length);
            let sealed = seal(&key, first, &text);
            assert_eq!(sealed, sealed_by_hand(&key, first, &text));
            assert_eq!(seal(&key, first, &sealed), text);
        }
    }
}

#[test]
fn the_longest_panels_are_sealed_byte_by_byte_and_back() {
    let mut random = Random::new(301);
    for (key, first) in keys_and_firsts(&mut random) {
        for length in [LONGEST - 1, LONGEST] {
            let text = random.bytes(length);
            let sealed = seal(&key, first, &text);
            assert!(sealed == sealed_by_hand(&key, first, &text));
            assert!(seal(&key, first, &sealed) == text);
        }
    }
}

#[test]
fn what_the_output_held_before_counts_for_nothing() {
    let mut random = Random::new(302);
    for (key, first) in keys_and_firsts(&mut random) {
        for length in [0, 1, 7, 8, 9, 300] {
            let text = random.bytes(length);
            let mut output = random.bytes(length);
            assert_eq!(panel(&key, first, &text, &mut output), accepted(0));
            assert_eq!(output, seal(&key, first, &text));
        }
    }
}

#[test]
fn a_panel_of_0_bytes_is_accepted() {
    let mut random = Random::new(303);
    for (key, first) in keys_and_firsts(&mut random) {
        assert_eq!(panel(&key, first, &[], &mut []), accepted(0));
    }
}

#[test]
fn the_beginning_of_a_panel_is_sealed_as_the_beginning() {
    let mut random = Random::new(304);
    for (key, first) in keys_and_firsts(&mut random) {
        let text = random.bytes(300);
        let sealed = seal(&key, first, &text);
        for length in 0..=300 {
            assert_eq!(seal(&key, first, &text[..length]), sealed[..length]);
        }
    }
}

#[test]
fn a_flipped_bit_of_a_sealed_panel_flips_that_bit_of_the_panel() {
    let mut random = Random::new(305);
    for (key, first) in keys_and_firsts(&mut random) {
        for length in [1, 7, 8, 9, 65] {
            let text = random.bytes(length);
            let sealed = seal(&key, first, &text);
            for bit in 0..8 * length {
                let (mut altered, mut expected) = (sealed.clone(), text.clone());
                altered[bit / 8] ^= 1 << (bit % 8);
                expected[bit / 8] ^= 1 << (bit % 8);
                assert_eq!(seal(&key, first, &altered), expected);
                assert_eq!(seal(&key, first, &expected), altered);
            }
        }
    }
}

// ---- Counters ----

#[test]
fn no_two_counter_blocks_of_the_longest_panel_are_alike() {
    for first in FIRSTS {
        let counters = counters(first, LONGEST);
        assert_eq!(counters.len(), 8192);
        assert_eq!(counters.iter().collect::<HashSet<_>>().len(), 8192);
        for (i, counter) in counters.into_iter().enumerate() {
            assert_eq!(counter, counter_by_hand(first, i));
        }
    }
}

/// Zeros are sealed as the key blocks, and those open as the counter blocks.
#[test]
fn the_key_blocks_of_the_longest_panel_open_as_its_counters() {
    let mut random = Random::new(306);
    for (key, first) in keys_and_firsts(&mut random) {
        let sealed = seal(&key, first, &[0; LONGEST]);
        let blocks = sealed.as_chunks::<8>().0;
        assert_eq!(blocks.iter().collect::<HashSet<_>>().len(), 8192);
        for (i, block) in blocks.iter().enumerate() {
            assert_eq!(decrypt(&key, *block), counter_by_hand(first, i));
        }
    }
}

#[test]
fn every_bit_of_the_first_counter_counts() {
    let mut random = Random::new(307);
    for (key, first) in keys_and_firsts(&mut random) {
        let mut sealed: Vec<Vec<u8>> = (0..64)
            .map(|bit| seal(&key, first ^ 1 << bit, &[0; 8]))
            .collect();
        sealed.push(seal(&key, first, &[0; 8]));
        assert_eq!(sealed.iter().collect::<HashSet<_>>().len(), 65);
    }
}

#[test]
fn panel_blocks_about_each_edge() {
    for (length, blocks) in [
        (0, 0),
        (1, 1),
        (7, 1),
        (8, 1),
        (9, 2),
        (15, 2),
        (16, 2),
        (17, 3),
        (65527, 8191),
        (65528, 8191),
        (65529, 8192),
        (65535, 8192),
        (65536, 8192),
        (65537, 8193),
        (usize::MAX - 7, (1 << 61) - 1),
        (usize::MAX - 6, 1 << 61),
        (usize::MAX, 1 << 61),
    ] {
        assert_eq!(panel_blocks(length), blocks);
    }
}

#[test]
fn panel_blocks_is_the_number_of_counters_used() {
    for length in (0..=300).chain(65500..=LONGEST) {
        let used = (0..length).step_by(8).count();
        assert_eq!(panel_blocks(length), used as u64);
        assert_eq!(counters(u64::MAX, length).len(), used);
    }
}

#[test]
fn two_panels_of_which_the_first_has_whole_blocks_are_sealed_as_one() {
    let mut random = Random::new(308);
    for (key, first) in keys_and_firsts(&mut random) {
        for length in [0, 8, 16, 192, 296, 65528] {
            for second_length in [0, 1, 7, 8, LONGEST.min(9 + length) - length] {
                let text = random.bytes(length + second_length);
                let second = first.wrapping_add(panel_blocks(length));
                let mut sealed = seal(&key, first, &text[..length]);
                sealed.extend(seal(&key, second, &text[length..]));
                assert!(sealed == seal(&key, first, &text));
            }
        }
    }
}

/// The second panel begins right after the first one's counters, a part
/// block's too, and shares none with it.
#[test]
fn a_second_panel_shares_no_counter_with_the_first() {
    for first in FIRSTS {
        for length in (0..=70).chain([LONGEST - 8, LONGEST - 7, LONGEST - 1, LONGEST]) {
            let blocks = panel_blocks(length);
            let second = first.wrapping_add(blocks);
            assert_eq!(
                counters(second, 1),
                [counter_by_hand(first, blocks as usize)]
            );
            let mut both = counters(first, length);
            both.extend(counters(second, LONGEST));
            assert_eq!(both.iter().collect::<HashSet<_>>().len(), both.len());
        }
    }
}

// ---- Refusals ----

/// The number of the first test that applies, or 0.
fn first_refusal(key: usize, panel: usize, output: usize) -> u8 {
    let refusals = [
        (1, ![8, 12, 16].contains(&key)),
        (3, panel != output),
        (7, panel >= 65537),
    ];
    let mut numbers = refusals.iter().filter(|one| one.1).map(|one| one.0);
    numbers.next().unwrap_or(0)
}

/// A call with random bytes of these lengths: a refusal leaves the output's
/// bytes.
fn check_call(random: &mut Random, key: usize, text: usize, output: usize) -> u8 {
    let number = first_refusal(key, text, output);
    let first = random.next();
    let (key, text) = (random.bytes(key), random.bytes(text));
    let before = random.bytes(output);
    let mut output = before.clone();
    let answer = panel(&key, first, &text, &mut output);
    assert_eq!(answer, refused(number));
    let expected = match number {
        0 => sealed_by_hand(&key, first, &text),
        _ => before,
    };
    assert!(output == expected);
    number
}

#[test]
fn an_output_one_shorter_or_one_longer_is_a_wrong_span() {
    let mut random = Random::new(309);
    for t in CLASSES {
        for length in (0..=300).chain([65535, 65536, 65537]) {
            assert_eq!(check_call(&mut random, 2 * t, length, length + 1), 3);
            if length > 0 {
                assert_eq!(check_call(&mut random, 2 * t, length, length - 1), 3);
            }
        }
    }
}

/// Lengths below and above the edge, and ones that a narrower number would take
/// for a shorter panel.
#[test]
fn panels_to_65536_bytes_are_taken_and_those_above_refused() {
    let mut random = Random::new(310);
    for t in CLASSES {
        for length in [0, 1, 65528, 65529, 65535, 65536] {
            assert_eq!(check_call(&mut random, 2 * t, length, length), 0);
        }
        for length in [65537, 65543, 65544, 65545, 131071, 131072, 131073, 1 << 20] {
            assert_eq!(check_call(&mut random, 2 * t, length, length), 7);
        }
    }
}

#[test]
fn keys_of_every_length_to_40() {
    let mut random = Random::new(311);
    let mut taken = Vec::new();
    for key in (0..=40).chain([264, 268, 272]) {
        for length in [0, 1, 8, 100] {
            let number = check_call(&mut random, key, length, length);
            assert!([0, 1].contains(&number));
            if number == 0 {
                taken.push((key, length));
            }
        }
    }
    assert_eq!(taken.len(), 3 * 4);
    assert_eq!([0, 4, 8].map(|place| taken[place].0), [8, 12, 16]);
}

/// Panel and output lengths: neither test, 3 alone, 7 alone, both. Some outputs
/// differ by 65536 from the panel.
const SPANS: [[(usize, usize); 4]; 4] = [
    [(0, 0), (1, 1), (65535, 65535), (65536, 65536)],
    [(0, 1), (1, 65537), (65536, 0), (65536, 65537)],
    [
        (65537, 65537),
        (65538, 65538),
        (65544, 65544),
        (131072, 131072),
    ],
    [(65537, 65536), (65537, 65538), (65537, 0), (131072, 65536)],
];

#[test]
fn a_panel_tests_1_3_and_7_in_that_order() {
    let mut random = Random::new(312);
    let wrong_keys = [0, 7, 9, 10, 11, 13, 15, 17, 24, 32, 40];
    for (set, spans) in SPANS.into_iter().enumerate() {
        for (text, output) in spans {
            for key in [8, 12, 16] {
                let number = check_call(&mut random, key, text, output);
                assert_eq!(number, [0, 3, 7, 3][set]);
            }
            for key in wrong_keys {
                assert_eq!(check_call(&mut random, key, text, output), 1);
            }
        }
    }
}

#[test]
fn the_numbers_are_those_of_document_01() {
    use reference::{OVERLONG, WRONG_KEY, WRONG_SPAN};
    assert_eq!([WRONG_KEY, WRONG_SPAN, OVERLONG], [1, 3, 7]);
    assert_eq!(reference::panel::MOST_PANEL_BYTES, LONGEST);
}
