//! CBC and CTR (NIST SP 800-38A, 6.2 and 6.5) and CMAC (NIST SP 800-38B, 6)
//! over any 64-bit block function.

use crate::cipher::{encrypt_with, sealing_keys, Block, Register};
use crate::{refuse_if, Answer, WRONG_KEY, WRONG_SPAN};
use std::array::from_fn;

/// A forward or inverse cipher function on one block, its key inside.
pub type BlockFunction<'a> = &'a dyn Fn(Block) -> Block;

/// Exclusive or of two blocks.
fn xor(a: Block, b: Block) -> Block {
    from_fn(|i| a[i] ^ b[i])
}

/// CBC encryption: C_j = CIPH(P_j ⊕ C_(j-1)), C_0 being the start block.
pub fn cbc_encrypt(ciph: BlockFunction, start: Block, plaintext: &[Block]) -> Vec<Block> {
    let mut previous = start;
    let mut ciphertext = Vec::new();
    for p_j in plaintext {
        let c_j = ciph(xor(*p_j, previous));
        ciphertext.push(c_j);
        previous = c_j;
    }
    ciphertext
}

/// CBC decryption: P_j = CIPH⁻¹(C_j) ⊕ C_(j-1), C_0 being the start block.
pub fn cbc_decrypt(ciph_inverse: BlockFunction, start: Block, ciphertext: &[Block]) -> Vec<Block> {
    let mut previous = start;
    let mut plaintext = Vec::new();
    for c_j in ciphertext {
        plaintext.push(xor(ciph_inverse(*c_j), previous));
        previous = *c_j;
    }
    plaintext
}

/// CTR encryption, which is CTR decryption too: C_j = P_j ⊕ O_j, where O_j is
/// CIPH(T_j). T_1 is the first counter block and each further one the number
/// that follows, wrapping at 64 bits, high byte first. A last part block of u
/// bits uses MSB_u(O_n), the leading bytes.
pub fn ctr(ciph: BlockFunction, first: u64, text: &[u8]) -> Vec<u8> {
    let mut t_j = first;
    let mut output = Vec::new();
    for p_j in text.chunks(8) {
        let o_j = ciph(t_j.to_be_bytes());
        // Stops where a part block ends.
        output.extend(p_j.iter().zip(o_j).map(|(p, o)| p ^ o));
        t_j = t_j.wrapping_add(1);
    }
    output
}

/// The constant R_b of a 64-bit block, b = 64 (SP 800-38B, 5.3).
const R_B: u64 = 0x1b;

/// What SP 800-38B names on the way to a CMAC, in its order.
#[derive(Clone, Debug, PartialEq, Eq)]
pub struct Steps {
    /// L (6.1, step 1).
    pub l: Block,
    /// K1 (6.1, step 2).
    pub k1: Block,
    /// K2 (6.1, step 3).
    pub k2: Block,
    /// n, the number of blocks (6.2, step 2).
    pub n: usize,
    /// M_1 to M_n (6.2, steps 3 and 4).
    pub blocks: Vec<Block>,
    /// C_0 to C_n, so C_i is value i (6.2, steps 5 and 6).
    pub chain: Vec<Block>,
    /// T (6.2, step 7).
    pub t: Block,
}

/// K1 of L, and K2 of K1 (SP 800-38B, 6.1, steps 2 and 3): X << 1 if
/// MSB_1(X) = 0, else (X << 1) ⊕ R_b.
fn subkey_of(x: Block) -> Block {
    let x = u64::from_be_bytes(x);
    if x >> 63 == 0 {
        (x << 1).to_be_bytes()
    } else {
        ((x << 1) ^ R_B).to_be_bytes()
    }
}

/// Subkey generation (SP 800-38B, 6.1), with L handed back too.
fn l_and_subkeys(ciph: BlockFunction) -> (Block, Block, Block) {
    let l = ciph([0; 8]); // Step 1: L = CIPH_K(0^b).
    let k1 = subkey_of(l); // Step 2: K1, by the top bit of L.
    let k2 = subkey_of(k1); // Step 3: K2, by the top bit of K1.
    (l, k1, k2) // Step 4: return K1, K2.
}

/// The subkeys K1 and K2 (SP 800-38B, 6.1).
pub fn cmac_subkeys(ciph: BlockFunction) -> (Block, Block) {
    let (_, k1, k2) = l_and_subkeys(ciph);
    (k1, k2)
}

/// M_n* || 10^j, a last block that isn't complete filled up to b bits.
fn padded(m_n_star: &[u8]) -> Block {
    let one_bit = m_n_star.len();
    from_fn(|i| {
        if i < one_bit {
            m_n_star[i]
        } else if i == one_bit {
            0x80
        } else {
            0
        }
    })
}

/// M_n (SP 800-38B, 6.2, step 4).
fn last_block(k1: Block, k2: Block, m_n_star: &[u8]) -> Block {
    match Block::try_from(m_n_star) {
        Ok(complete) => xor(k1, complete),
        Err(_) => xor(k2, padded(m_n_star)),
    }
}

/// MAC generation of a message of any length, Tlen = 64 (SP 800-38B, 6.2).
pub fn cmac_steps(ciph: BlockFunction, message: &[u8]) -> Steps {
    // Step 1: the subkeys, by 6.1.
    let (l, k1, k2) = l_and_subkeys(ciph);
    // Step 2: n = 1 if Mlen = 0, else n = ⌈Mlen / b⌉.
    let n = match message.len() {
        0 => 1,
        bytes => bytes.div_ceil(8),
    };
    // Step 3: M = M_1 || … || M_(n-1) || M_n*, with M_1 to M_(n-1) complete.
    let (complete, m_n_star) = message.split_at(8 * (n - 1));
    let mut blocks = complete.as_chunks::<8>().0.to_vec();
    // Step 4: M_n = K1 ⊕ M_n* if M_n* is complete, else K2 ⊕ (M_n* || 10^j).
    blocks.push(last_block(k1, k2, m_n_star));
    // Step 5: C_0 = 0^b.
    let mut c_i = [0; 8];
    let mut chain = vec![c_i];
    // Step 6: C_i = CIPH_K(C_(i-1) ⊕ M_i) for i = 1 to n.
    for m_i in &blocks {
        c_i = ciph(xor(c_i, *m_i));
        chain.push(c_i);
    }
    // Step 7: T = MSB_Tlen(C_n), which is C_n.
    let t = c_i;
    // Step 8: return T.
    Steps {
        l,
        k1,
        k2,
        n,
        blocks,
        chain,
        t,
    }
}

/// CMAC of a message of any length, Tlen = 64 (SP 800-38B, 6.2).
pub fn cmac_with(ciph: BlockFunction, message: &[u8]) -> Block {
    cmac_steps(ciph, message).t
}

/// CMAC of a message with mCrypton. Refusals 1 and 3.
pub fn cmac(key: &[u8], message: &[u8], out: &mut [u8]) -> Answer {
    match tested_key(key, out) {
        Ok(key) => {
            let k = sealing_keys(key);
            out.copy_from_slice(&cmac_with(&|block| encrypt_with(&k, block), message));
            Answer::accepted(0)
        }
        Err(number) => Answer::refused(number),
    }
}

/// Test 1, then test 3.
fn tested_key(key: &[u8], out: &[u8]) -> Result<Register, u8> {
    let key = Register::of_key(key).ok_or(WRONG_KEY)?;
    refuse_if(out.len() != 8, WRONG_SPAN)?;
    Ok(key)
}
