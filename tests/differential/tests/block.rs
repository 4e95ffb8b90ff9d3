//! One block: mCrypton's encryption and decryption by path numbers, PRESENT's, and
//! their refusals.

use differential::both::{Both, Direction};
use differential::lent::Place;
use differential::random::{seed, Random};
use differential::report;
use differential::sheets::{key_bytes, MCRYPTON};
use reference::Answer;

const BOTH_WAYS: [Direction; 2] = [Direction::Encrypt, Direction::Decrypt];

/// The second program's PRESENT goes bit by bit, so there are fewer.
const PRESENT_BLOCKS: usize = 10_000;

fn both(test: &str) -> Both {
    Both::new(Place::Guarded, &format!("{test}, seed {:#x}", seed()))
}

#[derive(Clone, Copy, Debug)]
enum Cipher {
    MCrypton,
    Present,
}

impl Cipher {
    /// The key bytes that its calls take.
    fn key_bytes(self) -> &'static [usize] {
        match self {
            Cipher::MCrypton => &[8, 12, 16],
            Cipher::Present => &[10, 16],
        }
    }

    /// A call, mCrypton's by a random path number.
    fn block(
        self,
        both: &mut Both,
        random: &mut Random,
        direction: Direction,
        (key, block, out): (&[u8], &[u8], &[u8]),
    ) -> (Answer, Vec<u8>) {
        match self {
            Cipher::MCrypton => both.block(direction, key, block, random.path(), out),
            Cipher::Present => both.present_block(direction, key, block, out),
        }
    }
}

/// Random keys and blocks, by random path numbers; what is decrypted by another path
/// number than it was encrypted by is the block again.
fn random_blocks(cipher: Cipher, t: usize, blocks: usize) {
    let bytes = key_bytes(t);
    let mut random = Random::of_part(100 + t as u64);
    let mut both = both("random blocks");
    for _ in 0..blocks {
        let (key, block, out) = (random.bytes(bytes), random.block(), random.block());
        let mut call = |direction, block: &[u8]| {
            let arguments = (&key[..], block, &out[..]);
            cipher.block(&mut both, &mut random, direction, arguments).1
        };
        let encrypted = call(Direction::Encrypt, &block);
        let opened = call(Direction::Decrypt, &encrypted);
        assert_eq!(opened, block, "key {key:02x?}");
        call(Direction::Decrypt, &block);
    }
    let calls = both.calls;
    report(&format!(
        "block: {cipher:?}, {blocks} random keys of {bytes} bytes and blocks, {calls} calls, seed {:#x}",
        seed()
    ));
}

#[test]
fn random_blocks_with_keys_of_8_bytes() {
    random_blocks(Cipher::MCrypton, 4, 100_000);
}

#[test]
fn random_blocks_with_keys_of_12_bytes() {
    random_blocks(Cipher::MCrypton, 6, 100_000);
}

#[test]
fn random_blocks_with_keys_of_16_bytes() {
    random_blocks(Cipher::MCrypton, 8, 100_000);
}

#[test]
fn random_present_blocks_with_keys_of_10_bytes() {
    random_blocks(Cipher::Present, 21, PRESENT_BLOCKS);
}

#[test]
fn random_present_blocks_with_keys_of_16_bytes() {
    random_blocks(Cipher::Present, 24, PRESENT_BLOCKS);
}

#[test]
fn every_path_number_with_every_key_size() {
    let mut random = Random::of_part(110);
    let mut both = both("every path number");
    for path in 0..=u16::MAX {
        for t in MCRYPTON {
            let key = random.bytes(2 * t);
            for direction in BOTH_WAYS {
                both.block(direction, &key, &random.block(), path, &[0; 8]);
            }
        }
    }
    let calls = both.calls;
    report(&format!("block: each of 65536 path numbers, {calls} calls"));
}

/// Paths of words alone and of nibbles alone, with and without the top four
/// bits, which count for nothing.
#[test]
fn four_path_numbers_on_the_same_block() {
    const BLOCKS: usize = 5_000;
    let mut random = Random::of_part(111);
    let mut both = both("four path numbers");
    for t in MCRYPTON {
        for _ in 0..BLOCKS {
            let key = random.bytes(2 * t);
            let block = random.block();
            for direction in BOTH_WAYS {
                let outputs = [0, 0x0fff, 0xf000, 0xffff]
                    .map(|path| both.block(direction, &key, &block, path, &[0; 8]).1);
                assert!(outputs.iter().all(|out| *out == outputs[0]));
            }
        }
    }
    let calls = both.calls;
    report(&format!(
        "block: path numbers 0, 0x0fff, 0xf000, 0xffff agree on {} blocks, {calls} calls",
        3 * BLOCKS
    ));
}

/// What the papers say of lengths: a key of the cipher's, a block and an output of 8.
fn answer_to_lengths(cipher: Cipher, key: usize, block: usize, out: usize) -> Answer {
    match (cipher.key_bytes().contains(&key), block, out) {
        (true, 8, 8) => Answer::accepted(0),
        (true, _, _) => Answer::refused(reference::WRONG_SPAN),
        _ => Answer::refused(reference::WRONG_KEY),
    }
}

fn lengths(both: &mut Both, random: &mut Random, key: usize, block: usize, out: usize) {
    let (key_bytes, block_bytes) = (random.bytes(key), random.bytes(block));
    let out_bytes = random.bytes(out);
    for cipher in [Cipher::MCrypton, Cipher::Present] {
        for direction in BOTH_WAYS {
            let arguments = (&key_bytes[..], &block_bytes[..], &out_bytes[..]);
            let (answer, after) = cipher.block(both, random, direction, arguments);
            assert_eq!(answer, answer_to_lengths(cipher, key, block, out));
            assert!(answer.number == 0 || after == out_bytes);
        }
    }
}

#[test]
fn every_refusal_from_both_sides() {
    let mut random = Random::of_part(112);
    let mut both = both("lengths");
    for key in 0..=20 {
        for block in 0..=20 {
            for out in 0..=20 {
                lengths(&mut both, &mut random, key, block, out);
            }
        }
    }
    let (calls, met) = (both.calls, both.numbers_met());
    report(&format!(
        "block: both ciphers, keys, blocks and outputs of 0 to 20 bytes, {calls} calls: {met}"
    ));
}

/// Lengths that a count of 8 or 16 bits would take for right ones.
#[test]
fn long_spans_are_refused_by_their_whole_length() {
    let mut random = Random::of_part(113);
    let mut both = both("long spans");
    for more in [256, 65_536] {
        for key in [8, 10, 12, 16] {
            lengths(&mut both, &mut random, key + more, 8, 8);
            lengths(&mut both, &mut random, key, 8 + more, 8);
            lengths(&mut both, &mut random, key, 8, 8 + more);
        }
    }
    let (calls, met) = (both.calls, both.numbers_met());
    report(&format!(
        "block: both ciphers, spans longer by 256 and 65536, {calls} calls: {met}"
    ));
}
