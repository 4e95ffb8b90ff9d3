//! The bench for tag chips: the block that leads to an array after a round, and
//! its refusals.

use differential::both::{Both, Direction};
use differential::lent::Place;
use differential::random::{seed, Random};
use differential::report;
use differential::sheets::MCRYPTON;
use reference::cipher::{array_of_block, block_of_array, phi, ROUNDS};
use reference::{array_after, Answer};

/// Rounds above the last, some of which a count of 8, 16 or 32 bits would take
/// for right ones.
const NO_ROUNDS: [usize; 9] = [
    ROUNDS + 1,
    255,
    256,
    256 + ROUNDS,
    65_536,
    65_536 + ROUNDS,
    1 << 32,
    (1 << 32) + ROUNDS,
    usize::MAX,
];

fn both(test: &str) -> Both {
    Both::new(Place::Guarded, &format!("{test}, seed {:#x}", seed()))
}

/// Random arrays: the block that is found leads there, by the second program.
/// Random blocks: the array after each round leads back to the block.
fn there_and_back(t: usize) {
    const EACH: usize = 2_000;
    let mut random = Random::of_part(600 + t as u64);
    let mut both = both("there and back");
    for r in 0..=ROUNDS {
        for _ in 0..EACH {
            let (key, wanted, block) = (random.bytes(2 * t), random.block(), random.block());
            let (answer, found) = both.bench(&key, r, &wanted, &random.block());
            assert_eq!(answer, Answer::accepted(0));
            assert_eq!(array_after(&key, &found, r), Some(wanted), "round {r}");
            let array = array_after(&key, &block, r).unwrap();
            let (_, found) = both.bench(&key, r, &array, &random.block());
            assert_eq!(found, block, "key {key:02x?} round {r}");
        }
    }
    let (calls, bytes) = (both.calls, 2 * t);
    report(&format!(
        "bench: each round from 0 to {ROUNDS}, {EACH} random keys of {bytes} bytes, arrays and blocks each, {calls} calls, seed {:#x}",
        seed()
    ));
}

#[test]
fn there_and_back_with_keys_of_8_bytes() {
    there_and_back(4);
}

#[test]
fn there_and_back_with_keys_of_12_bytes() {
    there_and_back(6);
}

#[test]
fn there_and_back_with_keys_of_16_bytes() {
    there_and_back(8);
}

/// φ of what the library seals, by any path number, is the array after round
/// 12; from it the bench finds the block, and from φ of any block the one that
/// the library opens it to.
#[test]
fn the_last_round_beside_sealing_and_opening_by_any_path() {
    const BLOCKS: usize = 5_000;
    let before_phi = |block: &[u8]| {
        let block = block.try_into().unwrap();
        block_of_array(phi(array_of_block(block)))
    };
    let mut random = Random::of_part(610);
    let mut both = both("last round");
    for t in MCRYPTON {
        for _ in 0..BLOCKS {
            let (key, block) = (random.bytes(2 * t), random.block());
            let (_, sealed) = both.block(Direction::Encrypt, &key, &block, random.path(), &[0; 8]);
            let (_, found) = both.bench(&key, ROUNDS, &before_phi(&sealed), &[0; 8]);
            assert_eq!(found, block, "key {key:02x?}");
            let (_, opened) = both.block(Direction::Decrypt, &key, &block, random.path(), &[0; 8]);
            let (_, found) = both.bench(&key, ROUNDS, &before_phi(&block), &[0; 8]);
            assert_eq!(found, opened, "key {key:02x?}");
        }
    }
    let calls = both.calls;
    report(&format!(
        "bench: round {ROUNDS} beside {} blocks sealed and opened by random path numbers, {calls} calls",
        3 * BLOCKS
    ));
}

/// Every block of a chip's neighbourhood leads elsewhere: all that differ from
/// the found one in one bit.
#[test]
fn no_block_beside_the_found_one_leads_there() {
    let mut random = Random::of_part(611);
    let mut both = both("neighbours");
    for t in MCRYPTON {
        for r in 0..=ROUNDS {
            let (key, wanted) = (random.bytes(2 * t), random.block());
            let (_, found) = both.bench(&key, r, &wanted, &[0; 8]);
            for bit in 0..64 {
                let mut other = found.clone();
                other[bit / 8] ^= 1 << (bit % 8);
                let array = array_after(&key, &other, r).unwrap();
                assert_ne!(array, wanted);
                assert_eq!(both.bench(&key, r, &array, &[0; 8]).1, other);
            }
        }
    }
    let calls = both.calls;
    report(&format!(
        "bench: 64 neighbours of {} blocks, {calls} calls",
        3 * (ROUNDS + 1)
    ));
}

/// What the papers say: a key of 8, 12 or 16 bytes, an array and an output of 8,
/// a round up to 12.
fn answer_to(key: usize, round: usize, wanted: usize, out: usize) -> Answer {
    match (key, wanted, out, round) {
        (8 | 12 | 16, 8, 8, 0..=ROUNDS) => Answer::accepted(0),
        (8 | 12 | 16, 8, 8, _) => Answer::refused(reference::NO_SUCH_ROUND),
        (8 | 12 | 16, _, _, _) => Answer::refused(reference::WRONG_SPAN),
        _ => Answer::refused(reference::WRONG_KEY),
    }
}

fn hold(both: &mut Both, random: &mut Random, key: usize, round: usize, wanted: usize, out: usize) {
    let (key_bytes, wanted_bytes) = (random.bytes(key), random.bytes(wanted));
    let out_bytes = random.bytes(out);
    let (answer, after) = both.bench(&key_bytes, round, &wanted_bytes, &out_bytes);
    assert_eq!(answer, answer_to(key, round, wanted, out));
    assert!(answer.number == 0 || after == out_bytes);
}

#[test]
fn every_refusal_from_both_sides_and_in_its_order() {
    let mut random = Random::of_part(612);
    let mut both = both("refusals");
    for key in 0..=20 {
        for wanted in 0..=20 {
            for out in 0..=20 {
                for round in [0, ROUNDS, ROUNDS + 1, usize::MAX] {
                    hold(&mut both, &mut random, key, round, wanted, out);
                }
            }
        }
    }
    for key in MCRYPTON.map(|t| 2 * t) {
        for round in (0..=300).chain(NO_ROUNDS) {
            hold(&mut both, &mut random, key, round, 8, 8);
        }
    }
    both.hold_met([0, 1, 3, 13]);
    let (calls, met) = (both.calls, both.numbers_met());
    report(&format!(
        "bench: keys, arrays and outputs of 0 to 20 bytes, rounds to 300 and far above, {calls} calls: {met}"
    ));
}

/// Lengths that a count of 8 or 16 bits would take for right ones.
#[test]
fn long_spans_are_refused_by_their_whole_length() {
    let mut random = Random::of_part(613);
    let mut both = both("long spans");
    for more in [256, 65_536] {
        for key in MCRYPTON.map(|t| 2 * t) {
            for round in [ROUNDS, ROUNDS + 1] {
                hold(&mut both, &mut random, key + more, round, 8, 8);
                hold(&mut both, &mut random, key, round, 8 + more, 8);
                hold(&mut both, &mut random, key, round, 8, 8 + more);
            }
        }
    }
    both.hold_met([1, 3]);
    let (calls, met) = (both.calls, both.numbers_met());
    report(&format!(
        "bench: spans longer by 256 and 65536, {calls} calls: {met}"
    ));
}
