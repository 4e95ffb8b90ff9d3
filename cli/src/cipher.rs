//! The word CIPHER of the command line, and which lengths of keys there are.

use crate::failure::Failure;
use crate::shown::shown;
use captions::{Cipher, Class};
use std::ffi::OsStr;

/// The cipher of bits alone.
const MCRYPTON: &str = "mCrypton";

/// What CIPHER may be, in words.
const CHOICE: &str = "64, 96 or 128 for mCrypton, present-80 or present-128";

/// A cipher as it is asked for.
#[derive(Clone, Copy)]
pub enum Asked {
    Cipher(Cipher),
    /// Bits that mCrypton hasn't: for the library to refuse, in its turn.
    Bits(usize),
}

impl Asked {
    /// A cipher by its name, or mCrypton by its bits alone.
    pub fn of_word(word: &OsStr) -> Result<Asked, Failure> {
        let text = word.to_str().unwrap_or_default();
        if text.is_empty() || !text.bytes().all(|byte| byte.is_ascii_digit()) {
            let named = Cipher::ALL.into_iter().find(|cipher| name(*cipher) == text);
            let message = format!("CIPHER is {CHOICE}, not {}", shown(word));
            return named.map(Asked::Cipher).ok_or(Failure::Usage(message));
        }
        let bits = text.parse().unwrap_or(usize::MAX);
        Ok(match with_bits(bits) {
            Some(cipher) if cipher.name() == MCRYPTON => Asked::Cipher(cipher),
            _ => Asked::Bits(bits),
        })
    }

    /// What is wrong with it, if there is no such cipher.
    pub fn fault(self) -> Option<String> {
        let Asked::Bits(bits) = self else {
            return None;
        };
        let choice = match with_bits(bits) {
            Some(cipher) => name(cipher),
            None => CHOICE.to_string(),
        };
        Some(format!("CIPHER is {choice}, not {bits}"))
    }
}

impl Class for Asked {
    /// 0, which is no cipher's, where there is none.
    fn number(self) -> usize {
        match self {
            Asked::Cipher(cipher) => cipher.number(),
            Asked::Bits(_) => 0,
        }
    }
}

/// A cipher's word: mcrypton-64, present-80 and so on.
fn name(cipher: Cipher) -> String {
    let name = cipher.name().to_lowercase();
    format!("{name}-{}", cipher.key_bits())
}

/// The first cipher with keys of so many bits, mCrypton before PRESENT.
pub fn with_bits(bits: usize) -> Option<Cipher> {
    let mut ciphers = Cipher::ALL.into_iter();
    ciphers.find(|cipher| cipher.key_bits() == bits)
}
