//! The class of a sheet, which is its byte 2 (document 01, "The sheet"; document
//! 02, request 10): the key bytes it has and the cipher it means. The class alone
//! chooses the cipher; 16 key bytes are class 8 or class 24.

use crate::cipher::{self, Block};
use crate::modes::cmac_with;
use crate::present;

/// The key bytes of a class; none if there is no such class.
pub fn key_bytes(t: usize) -> Option<usize> {
    match t {
        4 | 6 | 8 => Some(2 * t),
        21 => Some(10),
        24 => Some(16),
        _ => None,
    }
}

/// A class's cipher with a key in it: its round keys, made once for all blocks.
#[derive(Clone, Debug, PartialEq, Eq)]
pub enum SheetCipher {
    MCrypton {
        sealing: cipher::RoundKeys,
        opening: cipher::RoundKeys,
    },
    Present(Box<present::RoundKeys>),
}

impl SheetCipher {
    /// None if there is no such class or the key has another length.
    pub fn of_class(t: usize, key: &[u8]) -> Option<SheetCipher> {
        if key_bytes(t) != Some(key.len()) {
            return None;
        }
        match t {
            21 | 24 => present::Register::of_key(key).map(SheetCipher::of_present),
            _ => cipher::Register::of_key(key).map(SheetCipher::of_mcrypton),
        }
    }

    fn of_mcrypton(key: cipher::Register) -> SheetCipher {
        SheetCipher::MCrypton {
            sealing: cipher::sealing_keys(key),
            opening: cipher::opening_keys(key),
        }
    }

    fn of_present(key: present::Register) -> SheetCipher {
        SheetCipher::Present(Box::new(present::round_keys(key)))
    }

    /// One block sealed.
    pub fn encrypt(&self, block: Block) -> Block {
        match self {
            SheetCipher::MCrypton { sealing, .. } => cipher::encrypt_with(sealing, block),
            SheetCipher::Present(k) => present::encrypt_with(k, block),
        }
    }

    /// One block opened.
    pub fn decrypt(&self, block: Block) -> Block {
        match self {
            SheetCipher::MCrypton { opening, .. } => cipher::decrypt_with(opening, block),
            SheetCipher::Present(k) => present::decrypt_with(k, block),
        }
    }

    /// CMAC of a message of any length.
    pub fn cmac(&self, message: &[u8]) -> Block {
        cmac_with(&|block| self.encrypt(block), message)
    }
}
