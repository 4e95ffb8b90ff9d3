//! The bench for tag chips (document 02, request 4).

use crate::random::Random;
use crate::support::{accepted, decrypt, encrypt, hex_block, refused, CLASSES};
use reference::cipher::*;
use reference::{array_after, bench_block};

/// The rounds that there are: 0, the first key addition, to 12.
const LAST_ROUND: usize = 12;

/// The block of an accepted call.
fn bench(key: &[u8], round: usize, wanted: [u8; 8]) -> [u8; 8] {
    let mut out = [0x5a; 8];
    assert_eq!(bench_block(key, round, &wanted, &mut out), accepted(0));
    out
}

/// The array after a round that there is.
fn after(key: &[u8], block: [u8; 8], r: usize) -> [u8; 8] {
    array_after(key, &block, r).unwrap()
}

fn phi_of_block(block: [u8; 8]) -> [u8; 8] {
    block_of_array(phi(array_of_block(block)))
}

/// The eight bytes of a sum of two rows of four words.
fn sum(a: [u16; 4], b: [u16; 4]) -> [u8; 8] {
    let words: [u16; 4] = std::array::from_fn(|i| a[i] ^ b[i]);
    block_of_array(array_of_words(words))
}

/// `times` random keys of each class, each with every round.
fn keys_and_rounds(random: &mut Random, times: usize) -> Vec<(Vec<u8>, usize)> {
    let mut all = Vec::new();
    for t in CLASSES {
        for _ in 0..times {
            let key = random.bytes(2 * t);
            all.extend((0..=LAST_ROUND).map(|r| (key.clone(), r)));
        }
    }
    all
}

// ---- Both ways ----

#[test]
fn the_block_that_is_answered_leads_to_the_wanted_array() {
    let mut random = Random::new(200);
    for (key, r) in keys_and_rounds(&mut random, 200) {
        let wanted = random.block();
        assert_eq!(after(&key, bench(&key, r, wanted), r), wanted);
    }
}

#[test]
fn the_array_that_a_block_leads_to_gives_that_block() {
    let mut random = Random::new(201);
    for (key, r) in keys_and_rounds(&mut random, 200) {
        let block = random.block();
        assert_eq!(bench(&key, r, after(&key, block, r)), block);
    }
}

#[test]
fn both_ways_with_keys_and_arrays_of_one_byte_throughout() {
    for t in CLASSES {
        for r in 0..=LAST_ROUND {
            for (key_byte, byte) in [(0, 0), (0, 0xff), (0xff, 0), (0xff, 0xff), (0x5a, 0xa5)] {
                let key = vec![key_byte; 2 * t];
                assert_eq!(after(&key, bench(&key, r, [byte; 8]), r), [byte; 8]);
                assert_eq!(bench(&key, r, after(&key, [byte; 8], r)), [byte; 8]);
            }
        }
    }
}

// ---- What each round is ----

#[test]
fn the_array_after_round_0_is_the_block_with_round_key_0_added() {
    let mut random = Random::new(202);
    for t in CLASSES {
        for _ in 0..200 {
            let key = random.bytes(2 * t);
            let block = random.block();
            let round_key_0 = sealing_key(&key, 0).unwrap();
            let added = sum(words_of_array(array_of_block(block)), round_key_0);
            assert_eq!(after(&key, block, 0), added);
            assert_eq!(bench(&key, 0, block), added);
        }
    }
}

#[test]
fn the_array_after_the_next_round_is_rho_of_it() {
    let mut random = Random::new(203);
    for (key, r) in keys_and_rounds(&mut random, 50) {
        if r < LAST_ROUND {
            let block = random.block();
            let a = array_of_block(after(&key, block, r));
            let next = rho(sealing_key(&key, r + 1).unwrap(), a);
            assert_eq!(after(&key, block, r + 1), block_of_array(next));
        }
    }
}

#[test]
fn an_array_and_rho_of_it_a_round_later_have_one_block() {
    let mut random = Random::new(204);
    for (key, r) in keys_and_rounds(&mut random, 50) {
        if r < LAST_ROUND {
            let wanted = random.block();
            let next = rho(sealing_key(&key, r + 1).unwrap(), array_of_block(wanted));
            let one = bench(&key, r, wanted);
            assert_eq!(bench(&key, r + 1, block_of_array(next)), one);
        }
    }
}

#[test]
fn rho_inverse_undoes_rho_and_the_reverse() {
    let mut random = Random::new(205);
    for _ in 0..1000 {
        let a = array_of_block(random.block());
        let k = words_of_array(array_of_block(random.block()));
        assert_eq!(rho_inverse(k, rho(k, a)), a);
        assert_eq!(rho(k, rho_inverse(k, a)), a);
    }
}

#[test]
fn phi_of_the_array_after_round_12_is_the_encrypted_block() {
    let mut random = Random::new(206);
    for t in CLASSES {
        for _ in 0..200 {
            let key = random.bytes(2 * t);
            let block = random.block();
            assert_eq!(
                phi_of_block(after(&key, block, LAST_ROUND)),
                encrypt(&key, block)
            );
        }
    }
}

/// φ is its own inverse, so φ of an encrypted block is the array before φ. The
/// decrypted block comes by the opening keys, which the bench doesn't use.
#[test]
fn the_bench_of_phi_of_an_encrypted_block_is_the_decrypted_block() {
    let mut random = Random::new(207);
    for t in CLASSES {
        for _ in 0..200 {
            let key = random.bytes(2 * t);
            let encrypted = random.block();
            assert_eq!(
                bench(&key, LAST_ROUND, phi_of_block(encrypted)),
                decrypt(&key, encrypted)
            );
        }
    }
}

// ---- No other block leads there ----

#[test]
fn each_change_of_one_bit_leads_to_another_array() {
    let mut random = Random::new(208);
    for (key, r) in keys_and_rounds(&mut random, 4) {
        let wanted = random.block();
        let block = bench(&key, r, wanted);
        for bit in 0..64 {
            let mut other = block;
            other[bit / 8] ^= 1 << (bit % 8);
            assert_ne!(after(&key, other, r), wanted);
            let mut other = wanted;
            other[bit / 8] ^= 1 << (bit % 8);
            assert_ne!(bench(&key, r, other), block);
        }
    }
}

#[test]
fn of_all_values_of_one_row_of_the_block_one_leads_there() {
    let mut random = Random::new(209);
    for (t, r, row) in [(4, 1, 0), (6, 2, 3), (8, 12, 1)] {
        let key = random.bytes(2 * t);
        let wanted = random.block();
        let block = bench(&key, r, wanted);
        let mut leading = Vec::new();
        for value in 0..=u16::MAX {
            let mut other = block;
            other[2 * row..2 * row + 2].copy_from_slice(&value.to_be_bytes());
            if after(&key, other, r) == wanted {
                leading.push(other);
            }
        }
        assert_eq!(leading, [block]);
    }
}

// ---- Values worked out from cases F to J of document 01 ----

/// Case F: sealing key 0 of the zero key.
const KEY_0: [u16; 4] = [0x5000, 0x0500, 0x0050, 0x0005];

/// Case G: sealing key 12 of the zero key.
const KEY_12: [u16; 4] = [0xb000, 0x0b00, 0x00b0, 0x000b];

/// Case I: one round of the zero array, zero round key.
const ONE_ROUND: [u16; 4] = [0x58ea; 4];

const ZERO: [u8; 8] = [0; 8];

/// By case F the first key addition adds 5000 0500 0050 0005, so that block
/// gives the zero array after it, and the zero block gives those bytes.
#[test]
fn zero_key_round_0() {
    let key_0 = hex_block("5000 0500 0050 0005");
    for t in CLASSES {
        let key = vec![0; 2 * t];
        assert_eq!(bench(&key, 0, ZERO), key_0);
        assert_eq!(bench(&key, 0, key_0), ZERO);
        assert_eq!(after(&key, key_0, 0), ZERO);
        let counting = hex_block("0123 4567 89ab cdef");
        assert_eq!(bench(&key, 0, counting), hex_block("5123 4067 89fb cdea"));
    }
}

/// The zero register stays zero, S0 of 0 is 4 and c_1 is 2, so sealing key 1
/// is 6000 0600 0060 0006. By case F the block 5000 0500 0050 0005 goes into
/// round 1 as the zero array; by case I it comes out as 58ea four times with
/// that key added.
#[test]
fn zero_key_round_1_from_the_zero_array() {
    let array = hex_block("38ea 5eea 588a 58ec");
    let block = hex_block("5000 0500 0050 0005");
    for t in CLASSES {
        let key = vec![0; 2 * t];
        assert_eq!(bench(&key, 1, array), block);
        assert_eq!(after(&key, block, 1), array);
    }
}

/// The way back from the zero array after round 1, with the zero key:
/// - σ gives sealing key 1, 6000 0600 0060 0006, and τ leaves it alone;
/// - in column i of it only nibble i is set, so π puts 6 masked by m with index
///   2i + j in row j: 6 4 2 6 in columns 0 and 2, 2 6 6 4 in columns 1 and 3,
///   row by row 6262 4646 2626 6464;
/// - γ inverse begins rows 0 to 3 with S2, S3, S0, S1 and goes on by one:
///   S2 S3 S0 S1 of 6 2 6 2 is d a c 7, S3 S0 S1 S2 of 4 6 4 6 is d c 6 d,
///   S0 S1 S2 S3 of 2 6 2 6 is 3 5 c 4, S1 S2 S3 S0 of 6 4 6 4 is 5 0 4 d;
/// - σ with sealing key 0 (case F) makes the block of dac7 dc6d 35c4 504d.
///
/// As c_2 is 4, sealing key 2 is zero, so by case I the same block has 58ea
/// four times after round 2.
#[test]
fn zero_key_round_1_to_the_zero_array() {
    let block = hex_block("8ac7 d96d 3594 5048");
    let one_round = sum(ONE_ROUND, [0; 4]);
    for t in CLASSES {
        let key = vec![0; 2 * t];
        assert_eq!(after(&key, block, 0), hex_block("dac7 dc6d 35c4 504d"));
        assert_eq!(bench(&key, 0, hex_block("dac7 dc6d 35c4 504d")), block);
        assert_eq!(bench(&key, 1, ZERO), block);
        assert_eq!(bench(&key, 2, one_round), block);
        assert_eq!(after(&key, block, 2), one_round);
    }
}

/// Sealing key r of the zero key has 4 (S0 of 0) exclusive or c_r once in each
/// row, so by case I the block of the zero array after round r has 58ea four
/// times with that of r + 1 added a round later.
#[test]
fn zero_key_zero_array_after_each_round() {
    let constants = [1, 2, 4, 8, 3, 6, 12, 11, 5, 10, 7, 14, 15];
    let key_of_zero = |r: usize| [12, 8, 4, 0].map(|shift| (4 ^ constants[r]) << shift);
    assert_eq!(key_of_zero(0), KEY_0);
    assert_eq!(key_of_zero(12), KEY_12);
    for t in CLASSES {
        let key = vec![0; 2 * t];
        for r in 0..LAST_ROUND {
            let later = sum(ONE_ROUND, key_of_zero(r + 1));
            assert_eq!(bench(&key, r + 1, later), bench(&key, r, ZERO));
        }
    }
}

/// The zero array after round 11 is e8ea 53ea 585a 58e1 after round 12, by
/// cases I and G. φ adds up row by row: of 58ea four times it is 417b 17b4 7b41
/// b417 (case J), of sealing key 12 it is a9b3 b3a9 a9b3 b3a9 (case H, as
/// opening key 0 is φ of it), so the sealed block is e8c8 a41d d2f2 07be.
#[test]
fn zero_key_round_12() {
    let array = hex_block("e8ea 53ea 585a 58e1");
    let sealed = hex_block("e8c8 a41d d2f2 07be");
    assert_eq!(sum(ONE_ROUND, KEY_12), array);
    for t in CLASSES {
        let key = vec![0; 2 * t];
        let block = bench(&key, 12, array);
        assert_eq!(bench(&key, 11, ZERO), block);
        assert_eq!(encrypt(&key, block), sealed);
        assert_eq!(decrypt(&key, sealed), block);
        // The zero array before φ is sealed as zeros.
        assert_eq!(bench(&key, 12, ZERO), decrypt(&key, ZERO));
    }
}

// ---- Refusals ----

/// Lengths of a key about every edge, and those that 256 takes off.
const KEY_LENGTHS: [usize; 13] = [0, 7, 8, 9, 11, 12, 13, 15, 16, 17, 264, 268, 272];

/// Lengths of the wanted array, of the output and of a block.
const LENGTHS: [usize; 6] = [0, 7, 8, 9, 16, 264];

/// Rounds on both sides of the edge, and numbers that a narrower number would
/// take for one of them.
const ROUND_NUMBERS: [usize; 13] = [
    0,
    1,
    12,
    13,
    14,
    255,
    256,
    268,
    65536,
    65548,
    1 << 31,
    (1 << 32) + 12,
    usize::MAX,
];

/// The number of the first test that applies, or 0.
fn first_fault(key: usize, wanted: usize, out: usize, round: usize) -> u8 {
    let faults = [
        (1, ![8, 12, 16].contains(&key)),
        (3, wanted != 8 || out != 8),
        (13, ![0, 1, 12].contains(&round)),
    ];
    let mut numbers = faults.iter().filter(|fault| fault.1).map(|fault| fault.0);
    numbers.next().unwrap_or(0)
}

/// A call with random bytes of these lengths: a refusal leaves the output's
/// bytes, and an accepted call fills it whatever was there.
fn check_call(random: &mut Random, key: usize, wanted: usize, out: usize, round: usize) -> u8 {
    let number = first_fault(key, wanted, out, round);
    let key = random.bytes(key);
    let wanted = random.bytes(wanted);
    let before = random.bytes(out);
    let mut out = before.clone();
    let answer = bench_block(&key, round, &wanted, &mut out);
    assert_eq!(answer, refused(number));
    if number == 0 {
        assert_eq!(
            array_after(&key, &out, round),
            Some(wanted.try_into().unwrap())
        );
    } else {
        assert_eq!(out, before);
    }
    number
}

#[test]
fn the_bench_tests_1_3_and_13_in_that_order() {
    let mut random = Random::new(210);
    let mut counts = [0; 14];
    for key in KEY_LENGTHS {
        for wanted in LENGTHS {
            for out in LENGTHS {
                for round in ROUND_NUMBERS {
                    let number = check_call(&mut random, key, wanted, out, round);
                    counts[usize::from(number)] += 1;
                }
            }
        }
    }
    // Three keys fit and ten don't; one pair of 36 lengths fits; three rounds
    // of 13 are there.
    let expected = [3 * 3, 10 * 36 * 13, 3 * 35 * 13, 3 * 10];
    assert_eq!([0, 1, 3, 13].map(|number| counts[number]), expected);
}

#[test]
fn rounds_0_to_12_are_taken_and_those_above_refused() {
    let mut random = Random::new(211);
    for t in CLASSES {
        let key = random.bytes(2 * t);
        for round in 0..1000 {
            let number = if round <= 12 { 0 } else { 13 };
            let wanted = random.block();
            let mut out = [0xee; 8];
            let answer = bench_block(&key, round, &wanted, &mut out);
            assert_eq!(answer, refused(number));
            assert_eq!(out == [0xee; 8], round > 12);
            assert_eq!(array_after(&key, &wanted, round).is_some(), round <= 12);
        }
    }
}

#[test]
fn array_after_gives_none_for_a_wrong_key_block_or_round() {
    let mut random = Random::new(212);
    for key in KEY_LENGTHS {
        for block in LENGTHS {
            for round in ROUND_NUMBERS {
                let array = array_after(&random.bytes(key), &random.bytes(block), round);
                let fine = first_fault(key, block, 8, round) == 0;
                assert_eq!(array.is_some(), fine);
            }
        }
    }
}

#[test]
fn the_number_of_the_new_refusal_is_13() {
    assert_eq!(reference::NO_SUCH_ROUND, 13);
}
