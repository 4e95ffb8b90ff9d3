//! PRESENT: the authors' vectors, its parts, and its block calls (document 02,
//! request 10).

use crate::random::Random;
use crate::support::{decrypt, encrypt, *};
use reference::present::*;
use reference::Answer;

/// The authors' vectors: key byte, plaintext byte, ciphertext with 80 key bits,
/// ciphertext with 128.
const AUTHORS: [(u8, u8, &str, &str); 4] = [
    (0x00, 0x00, "5579c1387b228445", "96db702a2e6900af"),
    (0xff, 0x00, "e72c46c0f5945049", "13238c710272a5d8"),
    (0x00, 0xff, "a112ffc72f68417b", "3c6019e5e5edd563"),
    (0xff, 0xff, "3333dcd3213210d2", "628d9fbd4218e5b4"),
];

fn sealed(key: &[u8], block: [u8; 8]) -> [u8; 8] {
    encrypt_in(PRESENT_CLASSES[usize::from(key.len() == 16)], key, block)
}

fn opened(key: &[u8], block: [u8; 8]) -> [u8; 8] {
    decrypt_in(PRESENT_CLASSES[usize::from(key.len() == 16)], key, block)
}

#[test]
fn the_authors_vectors() {
    for (key, text, short, long) in AUTHORS {
        for (bytes, cipher) in [(10, short), (16, long)] {
            let key = vec![key; bytes];
            assert_eq!(sealed(&key, [text; 8]), hex_block(cipher));
            assert_eq!(opened(&key, hex_block(cipher)), [text; 8]);
        }
    }
}

// ---- The parts ----

#[test]
fn bit_0_of_a_state_is_the_lowest_of_the_last_byte() {
    for i in 0..64 {
        let b = state_of_block((1u64 << i).to_be_bytes());
        let expected = std::array::from_fn(|j| j == i);
        assert_eq!(b, expected);
    }
    let mut random = Random::new(420);
    for _ in 0..100 {
        let block = random.block();
        assert_eq!(block_of_state(state_of_block(block)), block);
    }
}

#[test]
fn the_s_box_is_c56b90ad3ef84712() {
    let digits: String = S.iter().map(|y| format!("{y:X}")).collect();
    assert_eq!(digits, "C56B90AD3EF84712");
    let layer = |digits: &str| block_of_state(s_box_layer(state_of_block(hex_block(digits))));
    assert_eq!(layer("0123456789abcdef"), hex_block("c56b90ad3ef84712"));
    let back = s_box_layer_inverse(state_of_block(hex_block("c56b90ad3ef84712")));
    assert_eq!(block_of_state(back), hex_block("0123456789abcdef"));
}

/// Some places of the paper's table, and the rule for all.
#[test]
fn the_p_layer_moves_bit_i_to_place_p_of_i() {
    let place = |i: usize| {
        let moved = p_layer(std::array::from_fn(|j| j == i));
        assert_eq!(moved.iter().filter(|bit| **bit).count(), 1);
        moved.iter().position(|bit| *bit).unwrap()
    };
    let printed = [
        (0, 0),
        (1, 16),
        (2, 32),
        (3, 48),
        (4, 1),
        (15, 51),
        (16, 4),
        (47, 59),
        (61, 31),
        (62, 47),
        (63, 63),
    ];
    for (i, p) in printed {
        assert_eq!(place(i), p);
    }
    // 16 nibbles of 4 bits become 4 rows of 16.
    for i in 0..64 {
        assert_eq!(place(i), i / 4 + 16 * (i % 4));
    }
}

#[test]
fn each_layer_is_undone() {
    let mut random = Random::new(421);
    for _ in 0..300 {
        let b = state_of_block(random.block());
        let k = state_of_block(random.block());
        assert_eq!(s_box_layer_inverse(s_box_layer(b)), b);
        assert_eq!(s_box_layer(s_box_layer_inverse(b)), b);
        assert_eq!(p_layer_inverse(p_layer(b)), b);
        assert_eq!(p_layer(p_layer_inverse(b)), b);
        assert_eq!(add_round_key(k, add_round_key(k, b)), b);
    }
}

/// The first round keys of the zero key, worked by hand. 80 bits: the first step
/// makes the leftmost nibble c and sets bit 15, which is below the round key. The
/// second turns the c to bits 60 to 57 and bit 15 to bit 76, so that the leftmost
/// nibble is 1, and S makes it 5; counter 2 is bit 16, the last of the round key.
/// 128 bits: the first step makes the leftmost byte cc and sets bit 62. The second
/// turns the cc to bits 60 to 53, below the round key, and bit 62 to bit 123, so
/// that the leftmost nibbles are 0 and 8, and S makes them c and 3.
#[test]
fn the_first_round_keys_of_the_zero_key() {
    let round_key = |bytes: usize, i: usize| {
        let keys = round_keys(Register::of_key(&vec![0; bytes]).unwrap());
        assert_eq!(keys.len(), 32);
        block_of_state(keys[i - 1])
    };
    assert_eq!(round_key(10, 1), [0; 8]);
    assert_eq!(round_key(10, 2), hex_block("c000000000000000"));
    assert_eq!(round_key(10, 3), hex_block("5000180000000001"));
    assert_eq!(round_key(16, 1), [0; 8]);
    assert_eq!(round_key(16, 2), hex_block("cc00000000000000"));
    assert_eq!(round_key(16, 3), hex_block("c300000000000000"));
}

/// PRESENT once more, on whole numbers: the key register is turned by shifts,
/// the S-box looked up by nibbles, and pLayer gathers the bits of like places.
pub fn sealed_by_numbers(key: &[u8], block: [u8; 8]) -> [u8; 8] {
    let s = |x: u128| 0x21748fe3da09b65c_u128 >> (4 * x) & 0xf;
    let bits = 8 * key.len();
    let mask = u128::MAX >> (128 - bits);
    let mut register = key.iter().fold(0, |x, byte| x << 8 | u128::from(*byte));
    let mut state = u64::from_be_bytes(block);
    for round in 1..=31 {
        state ^= (register >> (bits - 64)) as u64;
        let mut next = 0;
        for nibble in 0..16 {
            let y = s(u128::from(state >> (4 * nibble) & 0xf)) as u64;
            for bit in 0..4 {
                next |= (y >> bit & 1) << (16 * bit + nibble);
            }
        }
        state = next;
        register = (register << 61 | register >> (bits - 61)) & mask;
        for top in [bits - 4, bits - 8] {
            if top == bits - 4 || bits == 128 {
                let nibble = register >> top & 0xf;
                register ^= (nibble ^ s(nibble)) << top;
            }
        }
        register ^= round << if bits == 80 { 15 } else { 62 };
    }
    (state ^ (register >> (bits - 64)) as u64).to_be_bytes()
}

#[test]
fn random_blocks_against_whole_numbers() {
    let mut random = Random::new(422);
    for bytes in [10, 16] {
        for _ in 0..3000 {
            let (key, block) = (random.bytes(bytes), random.block());
            let sealed_block = sealed(&key, block);
            assert_eq!(sealed_block, sealed_by_numbers(&key, block));
            assert_eq!(opened(&key, sealed_block), block);
            assert_eq!(sealed(&key, opened(&key, block)), block);
        }
    }
}

/// Each bit of the key and of the block is in the sealed block.
#[test]
fn every_bit_flipped_gives_another_block() {
    let mut random = Random::new(423);
    for bytes in [10, 16] {
        let (key, block) = (random.bytes(bytes), random.block());
        let own = sealed(&key, block);
        for bit in 0..8 * bytes {
            let mut near = key.clone();
            near[bit / 8] ^= 1 << (bit % 8);
            assert_ne!(sealed(&near, block), own);
        }
        for bit in 0..64 {
            let mut near = block;
            near[bit / 8] ^= 1 << (bit % 8);
            assert_ne!(sealed(&key, near), own);
        }
    }
}

/// Every number is taken as a round's, and its low five bits count.
#[test]
fn any_round_number_is_taken() {
    for bytes in [10, 16] {
        let register = Register::of_key(&vec![0x5a; bytes]).unwrap();
        for i in [0, 1, 31, 32, 33, 1 << 20, usize::MAX] {
            assert_eq!(register.step(i), register.step(i % 32));
        }
    }
}

// ---- The block calls ----

type Call = fn(&[u8], &[u8], &mut [u8]) -> Answer;

const CALLS: [Call; 2] = [
    reference::present_encrypt_block,
    reference::present_decrypt_block,
];

/// 1 for a key that isn't 10 or 16 bytes, then 3, and a refusal changes nothing.
#[test]
fn the_block_calls_test_1_and_3() {
    let mut random = Random::new(424);
    let lengths = (0..=33).chain([64, 80, 128]);
    let mut met = [0; 4];
    for key_length in lengths {
        for block_length in [0, 1, 7, 8, 9, 10, 16] {
            for out_length in [0, 1, 7, 8, 9, 10, 16] {
                let number = if ![10, 16].contains(&key_length) {
                    1
                } else if block_length != 8 || out_length != 8 {
                    3
                } else {
                    0
                };
                let key = random.bytes(key_length);
                let block = random.bytes(block_length);
                let before = random.bytes(out_length);
                for call in CALLS {
                    let mut out = before.clone();
                    assert_eq!(call(&key, &block, &mut out), refused(number));
                    assert_eq!(out == before, number != 0);
                    met[usize::from(number)] += 1;
                }
            }
        }
    }
    assert_eq!(met, [4, 35 * 49 * 2, 0, 48 * 4]);
}

/// mCrypton's calls keep to their key lengths, and PRESENT's to theirs. Both have
/// 16 bytes, and then give other blocks.
#[test]
fn the_calls_of_the_two_ciphers_keep_apart() {
    let mut random = Random::new(425);
    for length in 0..=33 {
        let (key, block) = (random.bytes(length), random.block());
        let mcrypton = if [8, 12, 16].contains(&length) { 0 } else { 1 };
        let present = if [10, 16].contains(&length) { 0 } else { 1 };
        let mut out = [0; 8];
        for call in [reference::encrypt_block, reference::decrypt_block] {
            assert_eq!(call(&key, &block, &mut out), refused(mcrypton));
        }
        for call in CALLS {
            assert_eq!(call(&key, &block, &mut out), refused(present));
        }
        assert_eq!(reference::cmac(&key, &block, &mut out), refused(mcrypton));
        let bench = reference::bench_block(&key, 3, &block, &mut out);
        assert_eq!(bench, refused(mcrypton));
        let panel = reference::panel(&key, 7, &block, &mut out);
        assert_eq!(panel, refused(mcrypton));
    }
    let (key, block) = (random.bytes(16), random.block());
    assert_ne!(sealed(&key, block), encrypt(&key, block));
    assert_ne!(opened(&key, block), decrypt(&key, block));
}
