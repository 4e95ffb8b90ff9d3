//! CBC, CTR and CMAC, with DES-EDE3 where the standards or other programs give
//! vectors, with plain functions, and with mCrypton.

use crate::des::{ede_decrypt, ede_encrypt};
use crate::random::Random;
use crate::support::{cmac, decrypt, encrypt, hex, hex_block, CLASSES};
use crate::vectors::numbered_text;
use reference::modes::{cbc_decrypt, cbc_encrypt, cmac_subkeys, cmac_with, ctr};
use std::cell::RefCell;

pub fn xor(a: [u8; 8], b: [u8; 8]) -> [u8; 8] {
    std::array::from_fn(|i| a[i] ^ b[i])
}

/// What SP 800-38B, appendix D, prints of one key: L, K1, K2, and for each
/// example the bytes of the message and the CMAC.
pub struct Printed {
    pub keys: [u64; 3],
    pub l: &'static str,
    pub k1: &'static str,
    pub k2: &'static str,
    pub examples: [(usize, &'static str); 4],
}

/// Three-key TDEA of SP 800-38B, appendix D.
const THREE_KEY_TDEA: Printed = Printed {
    keys: [0x8aa83bf8cbda1062, 0x0bc1bf19fbb6cd58, 0xbc313d4a371ca8b5],
    l: "c8cc74e9 8a7329a2",
    k1: "9198e9d3 14e6535f",
    k2: "2331d3a6 29cca6a5",
    examples: [
        (0, "b7a688e1 22ffaf95"),
        (8, "8e8f2931 36283797"),
        (20, "743ddbe0 ce2dc2ed"),
        (32, "33e6b109 2400eae5"),
    ],
};

/// Two-key TDEA of SP 800-38B, appendix D.
const TWO_KEY_TDEA: Printed = Printed {
    keys: [0x4cf15134a2850dd5, 0x8a3d10ba80570d38, 0x4cf15134a2850dd5],
    l: "c7679b9f 6b8d7d7a",
    k1: "8ecf373e d71afaef",
    k2: "1d9e6e7d ae35f5c5",
    examples: [
        (0, "bd2ebf9a 3ba00361"),
        (8, "4ff2ab81 3c53ce83"),
        (20, "62dd1b47 1902bd4e"),
        (32, "31b1e431 dabc4eb8"),
    ],
};

pub const PRINTED: [Printed; 2] = [THREE_KEY_TDEA, TWO_KEY_TDEA];

/// The message of SP 800-38B, appendix D.
pub const MESSAGE: &str = "6bc1bee2 2e409f96 e93d7e11 7393172a ae2d8a57 1e03ac9c 9eb76fac 45af8e51";

#[test]
fn cmac_subkeys_of_sp_800_38b_with_des_ede() {
    for printed in PRINTED {
        let ciph = |block| ede_encrypt(printed.keys, block);
        assert_eq!(ciph([0; 8]), hex_block(printed.l));
        let (k1, k2) = cmac_subkeys(&ciph);
        assert_eq!(k1, hex_block(printed.k1));
        assert_eq!(k2, hex_block(printed.k2));
    }
}

#[test]
fn cmac_examples_of_sp_800_38b_with_des_ede() {
    let message = hex(MESSAGE);
    for printed in PRINTED {
        let ciph = |block| ede_encrypt(printed.keys, block);
        for (length, mac) in printed.examples {
            assert_eq!(cmac_with(&ciph, &message[..length]), hex_block(mac));
        }
    }
}

/// The CBC example of FIPS 81; DES-EDE3 with three equal keys is DES.
#[test]
fn cbc_example_of_fips_81() {
    let keys = [0x0123456789abcdef; 3];
    let start = hex_block("12345678 90abcdef");
    let plain = [*b"Now is t", *b"he time ", *b"for all "];
    let sealed = [
        hex_block("e5c7cdde 872bf27c"),
        hex_block("43e93400 8c389c0f"),
        hex_block("68378849 9a7c05f6"),
    ];
    let seal = |block| ede_encrypt(keys, block);
    let open = |block| ede_decrypt(keys, block);
    assert_eq!(cbc_encrypt(&seal, start, &plain), sealed);
    assert_eq!(cbc_decrypt(&open, start, &sealed), plain);
}

#[test]
fn cbc_with_the_identity_is_a_running_exclusive_or() {
    let mut random = Random::new(20);
    let start = random.block();
    let text: Vec<[u8; 8]> = (0..9).map(|_| random.block()).collect();
    let sealed = cbc_encrypt(&|block| block, start, &text);
    let opened = cbc_decrypt(&|block| block, start, &text);
    for j in 0..9 {
        let sum = text[..=j].iter().fold(start, |sum, p| xor(sum, *p));
        assert_eq!(sealed[j], sum);
        let before = if j == 0 { start } else { text[j - 1] };
        assert_eq!(opened[j], xor(text[j], before));
    }
}

#[test]
fn cbc_with_mcrypton_block_by_block_and_back() {
    let mut random = Random::new(21);
    for t in CLASSES {
        for count in [0, 1, 2, 3, 24, 40] {
            let key = random.bytes(2 * t);
            let start = random.block();
            let plain: Vec<[u8; 8]> = (0..count).map(|_| random.block()).collect();
            let sealed = cbc_encrypt(&|block| encrypt(&key, block), start, &plain);
            assert_eq!(sealed.len(), count);
            for j in 0..count {
                let before = if j == 0 { start } else { sealed[j - 1] };
                assert_eq!(sealed[j], encrypt(&key, xor(plain[j], before)));
            }
            let opened = cbc_decrypt(&|block| decrypt(&key, block), start, &sealed);
            assert_eq!(opened, plain);
        }
    }
}

/// Lines of `ctr_des.py`, which pycryptodome seals, and of `ctr_des.c`, which
/// libgcrypt and nettle seal alike: first counter, length, sealed text.
const CTR_DES: &str = include_str!("../ctr_des.txt");

const CTR_FIRSTS: [&str; 8] = [
    "0000000000000000",
    "0000000000000001",
    "00000000ffffffff",
    "00ffffffffffffff",
    "ffffffffffffe000",
    "fffffffffffffffb",
    "fffffffffffffffe",
    "ffffffffffffffff",
];

const CTR_LENGTHS: [usize; 14] = [0, 1, 7, 8, 9, 15, 16, 17, 24, 31, 63, 64, 65, 100];

#[test]
fn ctr_with_des_as_other_programs_do_it() {
    let seal = |block| ede_encrypt([0x0123456789abcdef; 3], block);
    let mut lines = CTR_DES.lines();
    for first in CTR_FIRSTS {
        let counter = u64::from_str_radix(first, 16).unwrap();
        for length in CTR_LENGTHS {
            let line = lines.next().unwrap();
            let start = format!("{first} {length} ");
            let sealed = hex(line.strip_prefix(&start).unwrap());
            assert_eq!(sealed.len(), length);
            let text = numbered_text(length, length);
            assert_eq!(ctr(&seal, counter, &text), sealed);
            assert_eq!(ctr(&seal, counter, &sealed), text);
        }
    }
    assert_eq!(lines.next(), None);
}

/// First counters, and what three blocks of zeros and a part are sealed as with
/// the identity: the counter blocks, with each carry that there is.
#[test]
fn ctr_of_zeros_with_the_identity_gives_the_counter_blocks() {
    for (first, counters) in [
        (
            0,
            "0000000000000000 0000000000000001 0000000000000002 000000",
        ),
        (
            0xfe,
            "00000000000000fe 00000000000000ff 0000000000000100 000000",
        ),
        (
            0xffff,
            "000000000000ffff 0000000000010000 0000000000010001 000000",
        ),
        (
            0xffffffff,
            "00000000ffffffff 0000000100000000 0000000100000001 000000",
        ),
        (
            u64::MAX >> 1,
            "7fffffffffffffff 8000000000000000 8000000000000001 800000",
        ),
        (
            u64::MAX - 2,
            "fffffffffffffffd fffffffffffffffe ffffffffffffffff 000000",
        ),
        (
            u64::MAX - 1,
            "fffffffffffffffe ffffffffffffffff 0000000000000000 000000",
        ),
        (
            u64::MAX,
            "ffffffffffffffff 0000000000000000 0000000000000001 000000",
        ),
    ] {
        assert_eq!(ctr(&|block| block, first, &[0; 27]), hex(counters));
    }
}

/// Every length of a last part block, with one key block for all counters.
#[test]
fn ctr_uses_the_leading_bytes_of_the_last_key_block() {
    let key_block = hex_block("0102030405060708");
    for length in 0..=24 {
        let sealed = ctr(&|_| key_block, 5, &vec![0xf0; length]);
        let leading: Vec<u8> = (0..length).map(|i| 0xf1 + (i % 8) as u8).collect();
        assert_eq!(sealed, leading);
    }
}

/// The forward function is asked once for each block, also for a part, and in
/// the order of the counters.
#[test]
fn ctr_calls_the_cipher_once_for_each_block() {
    let mut random = Random::new(26);
    for (length, n) in [
        (0, 0),
        (1, 1),
        (7, 1),
        (8, 1),
        (9, 2),
        (16, 2),
        (17, 3),
        (200, 25),
    ] {
        for first in [0, u64::MAX - 1, random.next()] {
            let inputs = RefCell::new(Vec::new());
            let ciph = |block| {
                inputs.borrow_mut().push(u64::from_be_bytes(block));
                block
            };
            ctr(&ciph, first, &random.bytes(length));
            let expected: Vec<u64> = (0..n).map(|i| first.wrapping_add(i)).collect();
            assert_eq!(inputs.into_inner(), expected);
        }
    }
}

#[test]
fn the_constant_of_cmac_is_1b_and_is_added_only_for_a_1_shifted_out() {
    let subkeys = |l: u64| {
        let (k1, k2) = cmac_subkeys(&|_| l.to_be_bytes());
        (u64::from_be_bytes(k1), u64::from_be_bytes(k2))
    };
    assert_eq!(subkeys(0), (0, 0));
    assert_eq!(subkeys(1), (2, 4));
    assert_eq!(subkeys(1 << 63), (0x1b, 0x36));
    assert_eq!(subkeys(1 << 62), (1 << 63, 0x1b));
    assert_eq!(subkeys(u64::MAX), (0xffffffffffffffe5, 0xffffffffffffffd1));
}

/// With the identity as the cipher both subkeys are 0, so the CMAC is the
/// exclusive or of the blocks, the last one padded if it isn't complete.
#[test]
fn cmac_with_the_identity_sums_the_padded_blocks() {
    let mut random = Random::new(22);
    for length in 0..70 {
        let message = random.bytes(length);
        let mut padded = message.clone();
        if length == 0 || !message.len().is_multiple_of(8) {
            padded.push(0x80);
        }
        while !padded.len().is_multiple_of(8) {
            padded.push(0);
        }
        let mut sum = [0; 8];
        for (i, byte) in padded.iter().enumerate() {
            sum[i % 8] ^= byte;
        }
        assert_eq!(cmac_with(&|block| block, &message), sum);
    }
}

#[test]
fn cmac_with_mcrypton_at_every_length_to_70_and_at_200() {
    let mut random = Random::new(23);
    for t in CLASSES {
        for length in (0..=70).chain([200, 632]) {
            let key = random.bytes(2 * t);
            let message = random.bytes(length);
            assert_eq!(cmac(&key, &message), cmac_spelt_out(&key, &message));
        }
    }
}

/// K1 of L and K2 of K1, without a condition.
pub fn double(x: u64) -> u64 {
    (x << 1) ^ (0x1b * (x >> 63))
}

/// CMAC by another road: CBC over the whole padded message, last block taken.
fn cmac_spelt_out(key: &[u8], message: &[u8]) -> [u8; 8] {
    let l = u64::from_be_bytes(encrypt(key, [0; 8]));
    let (k1, k2) = (double(l), double(double(l)));
    let mut padded = message.to_vec();
    let mut subkey = k1;
    if message.is_empty() || !message.len().is_multiple_of(8) {
        subkey = k2;
        padded.push(0x80);
        while !padded.len().is_multiple_of(8) {
            padded.push(0);
        }
    }
    let end = padded.len();
    for (i, byte) in subkey.to_be_bytes().iter().enumerate() {
        padded[end - 8 + i] ^= byte;
    }
    let mut c = [0; 8];
    for block in padded.chunks(8) {
        c = encrypt(key, xor(c, block.try_into().unwrap()));
    }
    c
}
