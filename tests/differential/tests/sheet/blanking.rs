//! Blanking: counts, key words, serials and buffers on both sides of each edge,
//! and its refusals in every combination (document 02, request 7).

use crate::both;
use crate::edges::done;
use differential::edition::Edition;
use differential::random::Random;
use differential::sheets::{key_bytes, some_serial, Keys, CLASSES};
use reference::{OTHER_KEY_CLASS, TWIN_KEYS, WRONG_KEY, WRONG_SPAN};

/// 208 times it is 208 in 64 bits.
const WRAPPING: usize = (1 << 60) + 1;

/// The number that blanking has by the papers: 1 for keys or t, 2, 3, 5.
fn refusal(keys: &Keys, n: usize, t: usize, length: usize) -> u8 {
    let bytes = keys.sealing.len();
    let right_keys = matches!(bytes, 8 | 10 | 12 | 16) && keys.checking.len() == bytes;
    if !right_keys || !CLASSES.contains(&t) {
        WRONG_KEY
    } else if keys.sealing == keys.checking {
        TWIN_KEYS
    } else if !(1..=256).contains(&n) || length != 16 + 208 * n {
        WRONG_SPAN
    } else if bytes != key_bytes(t) {
        OTHER_KEY_CLASS
    } else {
        0
    }
}

/// n = 1 is 224 bytes, n = 256 is 53264; t is 4, 6, 8, 21 or 24; every serial is taken.
#[test]
fn blanking() {
    let edition = Edition::BLANKED;
    assert_eq!([1, 256].map(|n| edition.sheet_length(n)), [224, 53_264]);
    let mut random = Random::of_part(504);
    let mut both = both("blanking");
    let counts = [
        0,
        1,
        2,
        3,
        255,
        256,
        257,
        258,
        65_536,
        65_537,
        WRAPPING,
        usize::MAX,
    ];
    let classes = || (0..=26).chain([256 + 4, 256 + 21, 65_536 + 6, (1 << 32) + 24, usize::MAX]);
    let (header, one) = (edition.header(), edition.sheet_length(1));
    for n in counts {
        let near_count = if n <= 258 { n } else { 1 };
        let near = edition.sheet_length(near_count);
        for length in [
            0,
            1,
            header - 1,
            header,
            header + 1,
            one - 1,
            one,
            one + 1,
            Edition::One.sheet_length(near_count),
            near - 1,
            near,
            near + 1,
            near + 208,
        ] {
            for t in classes() {
                let mut sheet = random.bytes(length);
                let class = if CLASSES.contains(&t) { t } else { 6 };
                let keys = Keys::unlike(&mut random, class);
                let serial = some_serial(&mut random);
                let number = refusal(&keys, n, t, length);
                let answer = both.blank(&keys, &mut sheet, n, t, serial);
                assert_eq!(answer.number, number, "{n} {t} {length}");
                let made = || keys.blank_sheet(Edition::Three(serial), n, t);
                assert!(number != 0 || sheet == made());
            }
        }
    }
    both.hold_met([0, 1, 3]);
    done(
        &both,
        "blanking with counts, key words and buffers on both sides",
    );
}

/// Pairs for a class: fit ones, then ones with a key of a wrong length, of unlike
/// lengths, twins and pairs of another class, alone and together.
fn pairs(random: &mut Random, t: usize) -> Vec<Keys> {
    let bytes = key_bytes(t);
    let mut pairs = vec![
        Keys::unlike(random, t),
        Keys::unlike(random, t).swapped(),
        Keys::of_lengths(random, bytes - 1, bytes),
        Keys::of_lengths(random, bytes + 1, bytes),
        Keys::of_lengths(random, bytes, bytes - 1),
        Keys::of_lengths(random, bytes, bytes + 1),
        Keys::of_lengths(random, 0, bytes),
        Keys::of_lengths(random, bytes, 0),
        Keys::of_lengths(random, bytes + 256, bytes + 256),
        Keys::twins(random, bytes),
        Keys::twins(random, 0),
        Keys::twins(random, bytes + 1),
    ];
    for other in [8, 10, 12, 16].into_iter().filter(|other| *other != bytes) {
        pairs.push(Keys::of_lengths(random, other, other));
        pairs.push(Keys::twins(random, other));
        pairs.push(Keys::of_lengths(random, bytes, other));
        pairs.push(Keys::of_lengths(random, other, bytes));
    }
    pairs
}

/// Every pair with every t, n and buffer; a refusal changes no byte.
#[test]
fn every_combination_of_refusals() {
    let mut random = Random::of_part(509);
    let mut both = both("refusals of blanking");
    let edition = Edition::BLANKED;
    for t in CLASSES {
        let pairs = pairs(&mut random, t);
        let classes = CLASSES
            .into_iter()
            .chain([0, 5, key_bytes(t), 256 + t, usize::MAX]);
        for key_words in classes {
            for n in [1, 2, 0, 256, 257, 65_537, WRAPPING, usize::MAX] {
                let right = edition.sheet_length(if n <= 257 { n } else { 1 });
                for length in [right, right - 1, right + 1, right - 8, 0] {
                    for keys in &pairs {
                        let before = random.bytes(length);
                        let mut sheet = before.clone();
                        let serial = some_serial(&mut random);
                        let number = refusal(keys, n, key_words, length);
                        let answer = both.blank(keys, &mut sheet, n, key_words, serial);
                        let call = (n, key_words, length);
                        assert_eq!((answer.number, answer.length), (number, 0), "{call:?}");
                        let after = match number {
                            0 => keys.blank_sheet(Edition::Three(serial), n, key_words),
                            _ => before,
                        };
                        assert!(sheet == after, "{call:?}, {keys:02x?}");
                    }
                }
            }
        }
    }
    both.hold_met([0, 1, 2, 3, 5]);
    done(&both, "blanking's refusals in every combination");
}
