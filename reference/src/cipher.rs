//! The block cipher mCrypton, nibble by nibble (document 000, 2; document 01,
//! "The cipher").

use crate::{refuse_if, Answer, WRONG_KEY, WRONG_SPAN};
use std::array::from_fn;

/// A block of 8 bytes.
pub type Block = [u8; 8];

/// The 4 by 4 array of nibbles, row by row (document 000, 1, "Notation").
/// Only the low four bits of each entry count.
pub type Array = [[u8; 4]; 4];

/// A round key, four words of 16 bits.
pub type RoundKey = [u16; 4];

/// The number of rounds.
pub const ROUNDS: usize = 12;

/// Round keys 0 to 12.
pub type RoundKeys = [RoundKey; ROUNDS + 1];

/// The S-boxes S0 to S3 (document 000, table 1).
pub const S: [[u8; 16]; 4] = [
    [4, 15, 3, 8, 13, 10, 12, 0, 11, 5, 7, 14, 2, 6, 1, 9],
    [1, 12, 7, 10, 6, 13, 5, 3, 15, 11, 2, 0, 8, 4, 9, 14],
    [7, 14, 12, 2, 0, 9, 13, 10, 3, 15, 5, 8, 6, 4, 11, 1],
    [11, 0, 10, 7, 13, 6, 4, 2, 12, 14, 3, 9, 1, 5, 15, 8],
];

/// The masking nibbles m0 to m3 (document 000, 2.1).
pub const M: [u8; 4] = [0b1110, 0b1101, 0b1011, 0b0111];

/// The round constants c_0 to c_12 (document 000, 2.3; document 01).
pub const C: [u16; ROUNDS + 1] = [1, 2, 4, 8, 3, 6, 12, 11, 5, 10, 7, 14, 15];

// ---- Nibbles, words, arrays, blocks (document 000, 1, "Notation") ----

/// The four nibbles of a word, from the left.
fn nibbles(word: u16) -> [u8; 4] {
    from_fn(|i| (word >> (12 - 4 * i)) as u8 & 0xf)
}

/// The word of four nibbles.
fn word(nibbles: [u8; 4]) -> u16 {
    nibbles
        .iter()
        .fold(0, |word, nibble| word << 4 | u16::from(nibble & 0xf))
}

/// The array whose row i is word i.
pub fn array_of_words(words: [u16; 4]) -> Array {
    words.map(nibbles)
}

/// The four rows of an array as words.
pub fn words_of_array(a: Array) -> [u16; 4] {
    a.map(word)
}

/// The array of a block: nibbles a0 to a15, high nibble first, row by row.
pub fn array_of_block(block: Block) -> Array {
    let a: [u8; 16] = from_fn(|k| {
        let byte = block[k / 2];
        if k % 2 == 0 {
            byte >> 4
        } else {
            byte & 0xf
        }
    });
    from_fn(|row| from_fn(|column| a[4 * row + column]))
}

/// The block of an array.
pub fn block_of_array(a: Array) -> Block {
    let nibble = |k: usize| a[k / 4][k % 4] & 0xf;
    from_fn(|byte| nibble(2 * byte) << 4 | nibble(2 * byte + 1))
}

// ---- Basic building blocks (document 000, 2.1) ----

/// S-box number `index` (modulo 4) on one nibble.
fn s_box(index: usize, nibble: u8) -> u8 {
    S[index % 4][usize::from(nibble & 0xf)]
}

/// γ: the nibble in row j, column i goes through S with index i + j.
pub fn gamma(a: Array) -> Array {
    from_fn(|j| from_fn(|i| s_box(i + j, a[j][i])))
}

/// γ inverse: the same with index i + j + 2.
pub fn gamma_inverse(a: Array) -> Array {
    from_fn(|j| from_fn(|i| s_box(i + j + 2, a[j][i])))
}

/// π: in column i, new nibble j is the exclusive or over k of nibble k masked
/// by m with index i + j + k.
pub fn pi(a: Array) -> Array {
    from_fn(|j| from_fn(|i| (0..4).fold(0, |b, k| b ^ (M[(i + j + k) % 4] & a[k][i]))))
}

/// τ: rows and columns exchanged.
pub fn tau(a: Array) -> Array {
    from_fn(|i| from_fn(|j| a[j][i]))
}

/// σ: round key word i added to row i.
pub fn sigma(k: RoundKey, a: Array) -> Array {
    let k = array_of_words(k);
    from_fn(|i| from_fn(|j| a[i][j] ^ k[i][j]))
}

/// φ is τ, π, τ (document 000, 2.2).
pub fn phi(a: Array) -> Array {
    tau(pi(tau(a)))
}

// ---- Rounds (document 000, 2.2) ----

/// ρ, the encryption round: γ, π, τ, σ.
pub fn rho(k: RoundKey, a: Array) -> Array {
    sigma(k, tau(pi(gamma(a))))
}

/// ρ inverse: the steps of ρ undone from its end, σ, τ, π, γ inverse. σ with
/// the same key, τ and π are their own inverses.
pub fn rho_inverse(k: RoundKey, a: Array) -> Array {
    gamma_inverse(pi(tau(sigma(k, a))))
}

/// ρ', the decryption round: γ inverse, π, τ, σ.
pub fn rho_prime(k: RoundKey, a: Array) -> Array {
    sigma(k, tau(pi(gamma_inverse(a))))
}

/// E_K.
pub fn encrypt(key: Register, block: Block) -> Block {
    encrypt_with(&sealing_keys(key), block)
}

/// D_K.
pub fn decrypt(key: Register, block: Block) -> Block {
    decrypt_with(&opening_keys(key), block)
}

/// E_K of the sealing keys: σ with round key 0, rounds 1 to 12, then φ.
pub fn encrypt_with(k: &RoundKeys, block: Block) -> Block {
    let mut a = sigma(k[0], array_of_block(block));
    for k_r in &k[1..] {
        a = rho(*k_r, a);
    }
    block_of_array(phi(a))
}

/// D_K of the opening keys: the same with ρ'.
pub fn decrypt_with(k: &RoundKeys, block: Block) -> Block {
    let mut a = sigma(k[0], array_of_block(block));
    for k_r in &k[1..] {
        a = rho_prime(*k_r, a);
    }
    block_of_array(phi(a))
}

// ---- Key scheduling (document 000, 2.3) ----

/// A key register of t words, t = 4, 6 or 8. The key itself is one.
#[derive(Clone, Copy, Debug, PartialEq, Eq)]
pub enum Register {
    Four([u16; 4]),
    Six([u16; 6]),
    Eight([u16; 8]),
}

impl Register {
    /// The key words of a key, high byte first; none unless it is 8, 12 or 16 bytes.
    pub fn of_key(key: &[u8]) -> Option<Register> {
        match key.len() {
            8 => Some(Register::Four(key_words(key))),
            12 => Some(Register::Six(key_words(key))),
            16 => Some(Register::Eight(key_words(key))),
            _ => None,
        }
    }

    /// The words as a list.
    pub fn words(&self) -> &[u16] {
        match self {
            Register::Four(u) => u,
            Register::Six(u) => u,
            Register::Eight(u) => u,
        }
    }

    /// t, the number of words.
    pub fn t(&self) -> usize {
        self.words().len()
    }

    /// One forward step.
    pub fn forward_step(self) -> Register {
        match self {
            Register::Four([u0, u1, u2, u3]) => Register::Four([u1, u2, u3, by(u0, 3)]),
            Register::Six([u0, u1, u2, u3, u4, u5]) => {
                Register::Six([u5, by(u0, 3), u1, u2, by(u3, 8), u4])
            }
            Register::Eight([u0, u1, u2, u3, u4, u5, u6, u7]) => {
                Register::Eight([u5, u6, u7, by(u0, 3), u1, u2, u3, by(u4, 8)])
            }
        }
    }

    /// One backward step, which undoes the forward step.
    pub fn backward_step(self) -> Register {
        match self {
            Register::Four([v0, v1, v2, v3]) => Register::Four([by(v3, 13), v0, v1, v2]),
            Register::Six([v0, v1, v2, v3, v4, v5]) => {
                Register::Six([by(v1, 13), v2, v3, by(v4, 8), v5, v0])
            }
            Register::Eight([v0, v1, v2, v3, v4, v5, v6, v7]) => {
                Register::Eight([by(v3, 13), v4, v5, v6, by(v7, 8), v0, v1, v2])
            }
        }
    }

    /// The start of the backward register, made from the key words.
    pub fn backward_start(self) -> Register {
        match self {
            Register::Four(k) => Register::Four(k.map(|k_i| by(k_i, 9))),
            Register::Six(k) => Register::Six(k.map(|k_i| by(k_i, 6))),
            Register::Eight([k0, k1, k2, k3, k4, k5, k6, k7]) => Register::Eight([
                by(k4, 3),
                by(k5, 14),
                by(k6, 3),
                by(k7, 14),
                by(k0, 14),
                by(k1, 3),
                by(k2, 14),
                by(k3, 3),
            ]),
        }
    }

    /// Word 0, from which T is made, then the four words to which T_0 to T_3
    /// are added: 1 to 4, except that for t = 4 the last one is word 0.
    fn round_key_words(self) -> (u16, [u16; 4]) {
        match self {
            Register::Four([u0, u1, u2, u3]) => (u0, [u1, u2, u3, u0]),
            Register::Six([u0, u1, u2, u3, u4, _]) => (u0, [u1, u2, u3, u4]),
            Register::Eight([u0, u1, u2, u3, u4, _, _, _]) => (u0, [u1, u2, u3, u4]),
        }
    }
}

/// Word i of the key is its bytes 2i and 2i + 1.
fn key_words<const T: usize>(key: &[u8]) -> [u16; T] {
    from_fn(|i| u16::from(key[2 * i]) << 8 | u16::from(key[2 * i + 1]))
}

/// Left rotation of a word ("U0 by 3").
fn by(word: u16, bits: u32) -> u16 {
    word.rotate_left(bits)
}

/// The S step of the key schedule: S0 alone, on each nibble of a word.
pub fn s_word(a: u16) -> u16 {
    word(nibbles(a).map(|a_i| s_box(0, a_i)))
}

/// The round key of a register under round constant c_r, without φ.
fn round_key(register: Register, r: usize) -> RoundKey {
    let (u0, [k0, k1, k2, k3]) = register.round_key_words();
    let t = s_word(u0) ^ (C[r] * 0x1111);
    [
        k0 ^ (t & 0xf000),
        k1 ^ (t & 0x0f00),
        k2 ^ (t & 0x00f0),
        k3 ^ (t & 0x000f),
    ]
}

/// A register and those after 1 to 12 steps.
fn registers(start: Register, step: fn(Register) -> Register) -> [Register; ROUNDS + 1] {
    let mut registers = [start; ROUNDS + 1];
    for r in 0..ROUNDS {
        registers[r + 1] = step(registers[r]);
    }
    registers
}

/// The forward registers at rounds 0 to 12: the key words after r steps.
pub fn forward_registers(key: Register) -> [Register; ROUNDS + 1] {
    registers(key, Register::forward_step)
}

/// The backward registers after 0 to 12 steps back.
pub fn backward_registers(key: Register) -> [Register; ROUNDS + 1] {
    registers(key.backward_start(), Register::backward_step)
}

/// The encryption round keys K_e^0 to K_e^12.
pub fn sealing_keys(key: Register) -> RoundKeys {
    let u = forward_registers(key);
    from_fn(|r| round_key(u[r], r))
}

/// The decryption round keys K_d^0 to K_d^12, by the decryption key schedule:
/// the constants run from c_12 down and φ_i is taken of each word i.
pub fn opening_keys(key: Register) -> RoundKeys {
    let v = backward_registers(key);
    from_fn(|r| phi_of_key(round_key(v[r], ROUNDS - r)))
}

/// φ of a round key, word i standing in row i.
pub fn phi_of_key(k: RoundKey) -> RoundKey {
    words_of_array(phi(array_of_words(k)))
}

// ---- The schedule over key bytes; none for a wrong key or r above 12 ----

/// Sealing key r.
pub fn sealing_key(key: &[u8], r: usize) -> Option<RoundKey> {
    sealing_keys(Register::of_key(key)?).get(r).copied()
}

/// Opening key r.
pub fn opening_key(key: &[u8], r: usize) -> Option<RoundKey> {
    opening_keys(Register::of_key(key)?).get(r).copied()
}

/// The forward register at round r.
pub fn forward_register(key: &[u8], r: usize) -> Option<Register> {
    forward_registers(Register::of_key(key)?).get(r).copied()
}

/// The backward register after r steps.
pub fn backward_register(key: &[u8], r: usize) -> Option<Register> {
    backward_registers(Register::of_key(key)?).get(r).copied()
}

// ---- One block, with refusals (document 01, the table) ----

/// Sealing one block. Refusals 1 and 3.
pub fn encrypt_block(key: &[u8], block: &[u8], out: &mut [u8]) -> Answer {
    one_block(encrypt, key, block, out)
}

/// Opening one block. Refusals 1 and 3.
pub fn decrypt_block(key: &[u8], block: &[u8], out: &mut [u8]) -> Answer {
    one_block(decrypt, key, block, out)
}

/// The tests 1 and 3, then the block; a refusal leaves `out` as it was.
fn one_block(
    transformation: fn(Register, Block) -> Block,
    key: &[u8],
    block: &[u8],
    out: &mut [u8],
) -> Answer {
    match tested_block(key, block, out) {
        Ok((key, block)) => {
            out.copy_from_slice(&transformation(key, block));
            Answer::accepted(0)
        }
        Err(number) => Answer::refused(number),
    }
}

/// Test 1, then test 3.
fn tested_block(key: &[u8], block: &[u8], out: &[u8]) -> Result<(Register, Block), u8> {
    let key = Register::of_key(key).ok_or(WRONG_KEY)?;
    let block = Block::try_from(block).map_err(|_| WRONG_SPAN)?;
    refuse_if(out.len() != 8, WRONG_SPAN)?;
    Ok((key, block))
}
