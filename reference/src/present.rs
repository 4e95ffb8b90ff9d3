//! The block cipher PRESENT, bit by bit (Bogdanov et al., CHES 2007; ISO/IEC
//! 29192-2). Bit i of a state or a key register is entry i of its list, so that
//! bit 0 is the rightmost one, as in the paper.

use crate::cipher::Block;
use crate::{refuse_if, Answer, WRONG_KEY, WRONG_SPAN};
use std::array::from_fn;

/// The state b_63 to b_0, or a round key.
pub type State = [bool; 64];

/// The number of rounds; a last key addition follows them.
pub const ROUNDS: usize = 31;

/// The round keys K_1 to K_32, so that K_i is entry i - 1.
pub type RoundKeys = [State; ROUNDS + 1];

/// The S-box.
pub const S: [u8; 16] = [12, 5, 6, 11, 9, 0, 10, 13, 3, 14, 15, 8, 4, 7, 1, 2];

// ---- Bits and bytes ----

/// The N bits of N / 8 bytes; the leftmost bit of the first byte is bit N - 1.
fn bits<const N: usize>(bytes: &[u8]) -> [bool; N] {
    from_fn(|i| bytes[(N - 1 - i) / 8] >> (i % 8) & 1 == 1)
}

/// The state of a block.
pub fn state_of_block(block: Block) -> State {
    bits(&block)
}

/// The block of a state.
pub fn block_of_state(b: State) -> Block {
    from_fn(|byte| (0..8).fold(0, |value, i| value << 1 | u8::from(b[63 - 8 * byte - i])))
}

// ---- The layers of a round ----

/// The S-box on a nibble.
fn s(x: u8) -> u8 {
    S[usize::from(x & 0xf)]
}

/// The S-box undone: the one nibble to which it gives y.
fn s_inverse(y: u8) -> u8 {
    (0..16).find(|x| s(*x) == y).unwrap_or(0)
}

/// An S-box on the four bits from bit `low` up.
fn substitute(bits: &mut [bool], low: usize, s_box: fn(u8) -> u8) {
    let x = (0..4).fold(0, |x, j| x | u8::from(bits[low + j]) << j);
    let y = s_box(x);
    for j in 0..4 {
        bits[low + j] = y >> j & 1 == 1;
    }
}

/// P(0) to P(63), the places to which pLayer moves the bits.
const P: [usize; 64] = {
    let mut p = [63; 64];
    let mut i = 0;
    while i < 63 {
        p[i] = 16 * i % 63;
        i += 1;
    }
    p
};

/// The places from which pLayer takes the bits: it moves bit FROM[j] to place j.
const FROM: [usize; 64] = {
    let mut from = [0; 64];
    let mut i = 0;
    while i < 64 {
        from[P[i]] = i;
        i += 1;
    }
    from
};

/// addRoundKey.
pub fn add_round_key(k: State, b: State) -> State {
    from_fn(|j| b[j] ^ k[j])
}

/// sBoxLayer: the S-box on each of the sixteen nibbles.
pub fn s_box_layer(mut b: State) -> State {
    for i in 0..16 {
        substitute(&mut b, 4 * i, s);
    }
    b
}

/// sBoxLayer undone.
pub fn s_box_layer_inverse(mut b: State) -> State {
    for i in 0..16 {
        substitute(&mut b, 4 * i, s_inverse);
    }
    b
}

/// pLayer: bit i moves to place P(i).
pub fn p_layer(b: State) -> State {
    from_fn(|j| b[FROM[j]])
}

/// pLayer undone.
pub fn p_layer_inverse(b: State) -> State {
    from_fn(|i| b[P[i]])
}

// ---- One block ----

/// A block sealed with a key.
pub fn encrypt(key: Register, block: Block) -> Block {
    encrypt_with(&round_keys(key), block)
}

/// A block opened with a key.
pub fn decrypt(key: Register, block: Block) -> Block {
    decrypt_with(&round_keys(key), block)
}

/// Rounds 1 to 31, each with its round key first, then round key 32.
pub fn encrypt_with(k: &RoundKeys, block: Block) -> Block {
    let mut b = state_of_block(block);
    for k_i in &k[..ROUNDS] {
        b = p_layer(s_box_layer(add_round_key(*k_i, b)));
    }
    block_of_state(add_round_key(k[ROUNDS], b))
}

/// The same undone from its end.
pub fn decrypt_with(k: &RoundKeys, block: Block) -> Block {
    let mut b = add_round_key(k[ROUNDS], state_of_block(block));
    for k_i in k[..ROUNDS].iter().rev() {
        b = add_round_key(*k_i, s_box_layer_inverse(p_layer_inverse(b)));
    }
    block_of_state(b)
}

// ---- The key schedule ----

/// The key register k_79 to k_0 or k_127 to k_0. The key itself is one.
#[derive(Clone, Copy, Debug, PartialEq, Eq)]
pub enum Register {
    Bits80([bool; 80]),
    Bits128([bool; 128]),
}

impl Register {
    /// The register of a key; none unless it is 10 or 16 bytes.
    pub fn of_key(key: &[u8]) -> Option<Register> {
        match key.len() {
            10 => Some(Register::Bits80(bits(key))),
            16 => Some(Register::Bits128(bits(key))),
            _ => None,
        }
    }

    /// The round key: the leftmost 64 bits.
    pub fn round_key(self) -> State {
        match self {
            Register::Bits80(k) => from_fn(|j| k[16 + j]),
            Register::Bits128(k) => from_fn(|j| k[64 + j]),
        }
    }

    /// The register that follows round i, of which the low five bits count:
    /// turned left by 61 bits, the S-box on the leftmost nibble (128 bits: on
    /// the two leftmost), i added to bits 19 to 15 (128 bits: 66 to 62).
    pub fn step(self, i: usize) -> Register {
        match self {
            Register::Bits80(mut k) => {
                k.rotate_right(61); // Bit 0 stands first.
                substitute(&mut k, 76, s);
                add_counter(&mut k, 15, i);
                Register::Bits80(k)
            }
            Register::Bits128(mut k) => {
                k.rotate_right(61);
                substitute(&mut k, 124, s);
                substitute(&mut k, 120, s);
                add_counter(&mut k, 62, i);
                Register::Bits128(k)
            }
        }
    }
}

/// Adds the round counter to the five bits from bit `low` up.
fn add_counter(k: &mut [bool], low: usize, i: usize) {
    for j in 0..5 {
        k[low + j] ^= i >> j & 1 == 1;
    }
}

/// The round keys: of the key itself, and of the register after each round but
/// the last.
pub fn round_keys(key: Register) -> RoundKeys {
    let mut register = key;
    from_fn(|i| {
        if i > 0 {
            register = register.step(i);
        }
        register.round_key()
    })
}

// ---- One block, with refusals (document 02, request 10) ----

/// Sealing one block with PRESENT. Refusals 1 (the key isn't 10 or 16 bytes) and 3.
pub fn encrypt_block(key: &[u8], block: &[u8], out: &mut [u8]) -> Answer {
    one_block(encrypt, key, block, out)
}

/// Opening one block with PRESENT. Refusals 1 and 3.
pub fn decrypt_block(key: &[u8], block: &[u8], out: &mut [u8]) -> Answer {
    one_block(decrypt, key, block, out)
}

/// The tests 1 and 3, then the block; a refusal leaves `out` as it was.
fn one_block(
    transformation: fn(Register, Block) -> Block,
    key: &[u8],
    block: &[u8],
    out: &mut [u8],
) -> Answer {
    match tested_block(key, block, out) {
        Ok((key, block)) => {
            out.copy_from_slice(&transformation(key, block));
            Answer::accepted(0)
        }
        Err(number) => Answer::refused(number),
    }
}

/// Test 1, then test 3.
fn tested_block(key: &[u8], block: &[u8], out: &[u8]) -> Result<(Register, Block), u8> {
    let key = Register::of_key(key).ok_or(WRONG_KEY)?;
    let block = Block::try_from(block).map_err(|_| WRONG_SPAN)?;
    refuse_if(out.len() != 8, WRONG_SPAN)?;
    Ok((key, block))
}
