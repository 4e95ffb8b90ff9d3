//! CMAC in the printed order (document 02, request 2): every value that
//! SP 800-38B, 6, names, against the definition that it gives of it.

use crate::des::ede_encrypt;
use crate::modes::{double, xor, MESSAGE, PRINTED};
use crate::random::Random;
use crate::support::{cmac, encrypt, hex, hex_block, CLASSES};
use reference::modes::{cmac_steps, cmac_subkeys, cmac_with, BlockFunction, Steps};
use std::cell::RefCell;

/// Message lengths about the edges of a block, each with its n.
const LENGTHS: [(usize, usize); 10] = [
    (0, 1),
    (1, 1),
    (7, 1),
    (8, 1),
    (9, 2),
    (15, 2),
    (16, 2),
    (17, 3),
    (200, 25),
    (300, 38),
];

/// M_1 to M_n by way of bytes: the message, filled up with a byte 80 and zeros
/// unless it ends with a whole block, and K1 or K2 added to the last eight.
fn blocks_of(k1: [u8; 8], k2: [u8; 8], message: &[u8]) -> Vec<[u8; 8]> {
    let mut bytes = message.to_vec();
    let whole = !message.is_empty() && message.len().is_multiple_of(8);
    if !whole {
        bytes.push(0x80);
        bytes.resize(bytes.len().next_multiple_of(8), 0);
    }
    let subkey = if whole { k1 } else { k2 };
    let last_eight = bytes.iter_mut().rev().take(8);
    for (byte, of_subkey) in last_eight.zip(subkey.iter().rev()) {
        *byte ^= of_subkey;
    }
    bytes.chunks(8).map(|m| m.try_into().unwrap()).collect()
}

/// All that holds of the steps whatever the cipher, given n.
fn check_steps(ciph: BlockFunction, message: &[u8], n: usize) -> Steps {
    let steps = cmac_steps(ciph, message);
    assert_eq!(steps.l, ciph([0; 8]));
    let doubled = |block| double(u64::from_be_bytes(block)).to_be_bytes();
    assert_eq!(steps.k1, doubled(steps.l));
    assert_eq!(steps.k2, doubled(steps.k1));
    assert_eq!((steps.k1, steps.k2), cmac_subkeys(ciph));
    assert_eq!(steps.n, n);
    assert_eq!(steps.blocks, blocks_of(steps.k1, steps.k2, message));
    assert_eq!(steps.blocks.len(), n);
    assert_eq!(steps.chain.len(), n + 1);
    assert_eq!(steps.chain[0], [0; 8]);
    for i in 1..=n {
        let sum = xor(steps.chain[i - 1], steps.blocks[i - 1]);
        assert_eq!(steps.chain[i], ciph(sum));
    }
    assert_eq!(steps.t, steps.chain[n]);
    assert_eq!(steps.t, cmac_with(ciph, message));
    steps
}

#[test]
fn steps_of_the_tdea_examples_of_sp_800_38b() {
    let message = hex(MESSAGE);
    for printed in PRINTED {
        let ciph = |block| ede_encrypt(printed.keys, block);
        for ((length, mac), n) in printed.examples.into_iter().zip([1, 1, 3, 4]) {
            let steps = check_steps(&ciph, &message[..length], n);
            assert_eq!(steps.l, hex_block(printed.l));
            assert_eq!(steps.k1, hex_block(printed.k1));
            assert_eq!(steps.k2, hex_block(printed.k2));
            assert_eq!(steps.t, hex_block(mac));
        }
    }
}

#[test]
fn steps_with_mcrypton_about_every_edge() {
    let mut random = Random::new(24);
    for t in CLASSES {
        for (length, n) in LENGTHS {
            let key = random.bytes(2 * t);
            let message = random.bytes(length);
            let steps = check_steps(&|block| encrypt(&key, block), &message, n);
            assert_eq!(steps.t, cmac(&key, &message));
        }
    }
}

/// L, K1 and K2, worked by hand: the top bits of L and K1 are 0 0, 0 1, 1 0
/// and 1 1.
const WORKED: [[u64; 3]; 4] = [
    [0x0123456789abcdef, 0x02468acf13579bde, 0x048d159e26af37bc],
    [0x4123456789abcdef, 0x82468acf13579bde, 0x048d159e26af37a7],
    [0x8123456789abcdef, 0x02468acf13579bc5, 0x048d159e26af378a],
    [0xc123456789abcdef, 0x82468acf13579bc5, 0x048d159e26af3791],
];

/// With a cipher that adds L to its block, C_i is the sum of M_1 to M_i, and of
/// L if i is odd.
#[test]
fn steps_for_each_top_bit_of_l_and_of_k1() {
    for (case, worked) in WORKED.into_iter().enumerate() {
        let top_bits = (worked[0] >> 63, worked[1] >> 63);
        assert_eq!(top_bits, (case as u64 / 2, case as u64 % 2));
        let [l, k1, k2] = worked.map(u64::to_be_bytes);
        let ciph = |block| xor(block, l);
        for (length, n) in LENGTHS {
            let steps = check_steps(&ciph, &vec![0; length], n);
            assert_eq!([steps.l, steps.k1, steps.k2], [l, k1, k2]);
        }
        let one_bit = [0x80, 0, 0, 0, 0, 0, 0, 0];
        let chain = |length| cmac_steps(&ciph, &vec![0; length]).chain;
        assert_eq!(chain(0), [[0; 8], xor(l, xor(k2, one_bit))]);
        assert_eq!(chain(8), [[0; 8], xor(l, k1)]);
        assert_eq!(chain(16), [[0; 8], l, k1]);
        assert_eq!(chain(24), [[0; 8], l, [0; 8], xor(l, k1)]);
    }
}

/// The cipher is asked for L, then for C_1 to C_n, and for nothing else.
#[test]
fn the_cipher_is_called_in_the_printed_order() {
    let mut random = Random::new(25);
    for (length, n) in LENGTHS {
        let key = random.bytes(16);
        let message = random.bytes(length);
        let inputs = RefCell::new(Vec::new());
        let ciph = |block| {
            inputs.borrow_mut().push(block);
            encrypt(&key, block)
        };
        let steps = cmac_steps(&ciph, &message);
        let mut expected = vec![[0; 8]];
        for i in 1..=n {
            expected.push(xor(steps.chain[i - 1], steps.blocks[i - 1]));
        }
        assert_eq!(inputs.into_inner(), expected);
    }
}
