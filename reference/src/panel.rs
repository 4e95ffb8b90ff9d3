//! Wall panels in counter mode (document 02, request 8).

use crate::cipher::{encrypt_with, sealing_keys, Register};
use crate::modes::ctr;
use crate::{refuse_if, Answer, OVERLONG, WRONG_KEY, WRONG_SPAN};

/// The bytes of the longest panel.
pub const MOST_PANEL_BYTES: usize = 65536;

/// Seals a panel from the first counter on, or opens a sealed one, which is the
/// same. Refusals 1, 3 and 7, in that order; a refusal leaves `output` as it was.
pub fn panel(key: &[u8], first: u64, panel: &[u8], output: &mut [u8]) -> Answer {
    match tested_panel(key, panel, output) {
        Ok(key) => {
            let k = sealing_keys(key);
            output.copy_from_slice(&ctr(&|block| encrypt_with(&k, block), first, panel));
            Answer::accepted(0)
        }
        Err(number) => Answer::refused(number),
    }
}

/// Test 1, then test 3, then test 7.
fn tested_panel(key: &[u8], panel: &[u8], output: &[u8]) -> Result<Register, u8> {
    let key = Register::of_key(key).ok_or(WRONG_KEY)?;
    refuse_if(output.len() != panel.len(), WRONG_SPAN)?;
    refuse_if(panel.len() > MOST_PANEL_BYTES, OVERLONG)?;
    Ok(key)
}

/// How many counters a panel of a length uses, a part block's too. The next
/// panel under the same key may begin that many after the first.
pub fn panel_blocks(length: usize) -> u64 {
    length.div_ceil(8) as u64
}
