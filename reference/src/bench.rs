//! The bench for tag chips (document 02, request 4): the array after a round
//! of sealing, and the one block that leads to a wanted array. An array is
//! eight bytes, row by row as a block is.

use crate::cipher::{array_of_block, block_of_array, rho, rho_inverse, sealing_keys, sigma};
use crate::cipher::{Array, Block, Register, RoundKey, ROUNDS};
use crate::{refuse_if, Answer, NO_SUCH_ROUND, WRONG_KEY, WRONG_SPAN};

/// The sealing keys 0 to 12.
type RoundKeys = [RoundKey; ROUNDS + 1];

/// The array after round r of sealing a block: r = 0 is after the first key
/// addition, r = 12 is before φ. None for a wrong key, a block that isn't 8
/// bytes or r above 12.
pub fn array_after(key: &[u8], block: &[u8], r: usize) -> Option<Block> {
    let key = Register::of_key(key)?;
    let block = Block::try_from(block).ok()?;
    let there = || block_of_array(way_there(&sealing_keys(key), array_of_block(block), r));
    (r <= ROUNDS).then(there)
}

/// The one block whose sealing has the wanted array after a round. Refusals 1,
/// 3 and 13, in that order; a refusal leaves `out` as it was.
pub fn bench_block(key: &[u8], round: usize, wanted: &[u8], out: &mut [u8]) -> Answer {
    match tested_bench(key, round, wanted, out) {
        Ok((key, wanted)) => {
            let block = way_back(&sealing_keys(key), array_of_block(wanted), round);
            out.copy_from_slice(&block_of_array(block));
            Answer::accepted(0)
        }
        Err(number) => Answer::refused(number),
    }
}

/// Test 1, then test 3, then test 13.
fn tested_bench(
    key: &[u8],
    round: usize,
    wanted: &[u8],
    out: &[u8],
) -> Result<(Register, Block), u8> {
    let key = Register::of_key(key).ok_or(WRONG_KEY)?;
    let wanted = Block::try_from(wanted).map_err(|_| WRONG_SPAN)?;
    refuse_if(out.len() != 8, WRONG_SPAN)?;
    refuse_if(round > ROUNDS, NO_SUCH_ROUND)?;
    Ok((key, wanted))
}

/// σ with round key 0, then rounds 1 to r, r at most 12 (document 000, 2.2:
/// E_K without what follows round r).
fn way_there(k: &RoundKeys, block: Array, r: usize) -> Array {
    let mut a = sigma(k[0], block);
    for k_r in &k[1..=r] {
        a = rho(*k_r, a);
    }
    a
}

/// The same undone from its end: ρ inverse for rounds r down to 1, then σ with
/// round key 0, which is its own inverse.
fn way_back(k: &RoundKeys, wanted: Array, r: usize) -> Array {
    let mut a = wanted;
    for k_r in k[1..=r].iter().rev() {
        a = rho_inverse(*k_r, a);
    }
    sigma(k[0], a)
}
