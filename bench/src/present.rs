//! PRESENT as optimised Rust, to lay the library's speed beside: the tables that the
//! library has, as statics, the key schedule on the fly for encryption, and for
//! decryption the round keys made once for a block, or for all blocks of a field, and
//! moved as the state is. It has one style: a round is a turn of a loop.

use crate::baseline::{load, Cipher, FIELD};
use reference::{Answer, WRONG_KEY, WRONG_SPAN};
use std::array::from_fn;
use std::hint::black_box;

// ---- Tables ----

const S: [u64; 16] = [12, 5, 6, 11, 9, 0, 10, 13, 3, 14, 15, 8, 4, 7, 1, 2];

static KEY_BOX: [u64; 16] = S;

/// The S-box, undone or not used at all.
#[derive(Clone, Copy)]
enum Boxes {
    Undone,
    None,
}

const fn undone(y: u64) -> u64 {
    let mut x = 0;
    while S[x as usize] != y {
        x += 1;
    }
    x
}

/// Each byte through the S-boxes, its bits where pLayer takes those of byte 0.
const fn spread_table() -> [u64; 256] {
    let mut table = [0; 256];
    let mut byte = 0;
    while byte < 256 {
        let y = S[byte >> 4] << 4 | S[byte & 15];
        let mut bit = 0;
        while bit < 8 {
            table[byte] |= (y >> bit & 1) << (16 * bit % 63);
            bit += 1;
        }
        byte += 1;
    }
    table
}

/// Each byte through the S-boxes, its bits where the inverse of pLayer takes those of
/// byte 0.
const fn gather_table(boxes: Boxes) -> [u32; 256] {
    let mut table = [0; 256];
    let mut byte = 0;
    while byte < 256 {
        let (high, low) = (byte as u64 >> 4, byte as u64 & 15);
        let y = match boxes {
            Boxes::Undone => undone(high) << 4 | undone(low),
            Boxes::None => byte as u64,
        };
        let mut bit = 0;
        while bit < 8 {
            table[byte] |= (y as u32 >> bit & 1) << (4 * bit);
            bit += 1;
        }
        byte += 1;
    }
    table
}

static SPREAD_BOX: [u64; 256] = spread_table();
static GATHER_BOX: [u32; 256] = gather_table(Boxes::Undone);
static GATHER: [u32; 256] = gather_table(Boxes::None);

/// sBoxLayer and pLayer.
#[inline(always)]
fn both_layers(s: u64) -> u64 {
    let entry = |i: usize| SPREAD_BOX[usize::from((s >> (8 * i)) as u8)] << (2 * i);
    (0..8).fold(0, |sum, i| sum | entry(i))
}

/// The S-boxes of a table, and the inverse of pLayer.
#[inline(always)]
fn gathered(table: &[u32; 256], s: u64) -> u64 {
    let entry = |i: usize| u64::from(table[usize::from((s >> (8 * i)) as u8)]);
    (0..8).fold(0, |sum, i| sum | entry(i) << (i / 2 + 32 * (i % 2)))
}

// ---- The key register ----

/// The round key, and the bits to its right.
pub trait Register: Copy {
    fn of_key(key: &[u8]) -> Self;
    fn round_key(self) -> u64;
    fn update(self, round: u64) -> Self;
}

#[derive(Clone, Copy)]
pub struct Eighty(u64, u64);
#[derive(Clone, Copy)]
pub struct Wide(u64, u64);

#[inline(always)]
fn key_box(x: u64) -> u64 {
    KEY_BOX[(x & 15) as usize]
}

impl Register for Eighty {
    #[inline(always)]
    fn of_key(key: &[u8]) -> Eighty {
        Eighty(load(key), u64::from(key[8]) << 8 | u64::from(key[9]))
    }

    #[inline(always)]
    fn round_key(self) -> u64 {
        self.0
    }

    #[inline(always)]
    fn update(self, round: u64) -> Eighty {
        let Eighty(high, low) = self;
        let first = key_box(high << 1 | low >> 15);
        let turned = first << 60 | (low & 0x7fff) << 45 | high >> 19;
        Eighty(turned ^ round >> 1, high >> 3 & 0xffff ^ (round & 1) << 15)
    }
}

impl Register for Wide {
    #[inline(always)]
    fn of_key(key: &[u8]) -> Wide {
        Wide(load(key), load(&key[8..]))
    }

    #[inline(always)]
    fn round_key(self) -> u64 {
        self.0
    }

    #[inline(always)]
    fn update(self, round: u64) -> Wide {
        let Wide(high, low) = self;
        let first = key_box(high << 1 | low >> 63);
        let second = key_box(low >> 59);
        let turned = first << 60 | second << 56 | low << 5 >> 8;
        Wide(turned ^ round >> 2, (low << 61 | high >> 3) ^ round << 62)
    }
}

// ---- Blocks ----

const ROUNDS: usize = 31;

/// The round keys as decryption takes them.
#[inline(always)]
fn moved_keys<R: Register>(mut register: R) -> [u64; ROUNDS + 1] {
    from_fn(|i| {
        let key = gathered(&GATHER, register.round_key());
        register = register.update(i as u64 + 1);
        key
    })
}

#[inline(always)]
fn decrypt<R: Register>(key: R, block: u64) -> u64 {
    let keys = moved_keys(key);
    let mut s = gathered(&GATHER, block) ^ keys[ROUNDS];
    for r in (0..ROUNDS).rev() {
        s = gathered(&GATHER_BOX, s) ^ keys[r];
    }
    p_layer(s)
}

/// pLayer: its inverse, twice.
#[inline(always)]
fn p_layer(s: u64) -> u64 {
    gathered(&GATHER, gathered(&GATHER, s))
}

impl<R: Register> Cipher for Present<R> {
    #[inline(always)]
    fn of_key(key: &[u8]) -> Present<R> {
        Present(R::of_key(key))
    }

    /// As in the baseline, the compiler mustn't know the register.
    #[inline(always)]
    fn encrypt(self, block: u64) -> u64 {
        let mut register = black_box(self.0);
        let mut s = block;
        for r in 1..=ROUNDS {
            s = both_layers(s ^ register.round_key());
            register = register.update(r as u64);
        }
        s ^ register.round_key()
    }

    #[inline(always)]
    fn decrypt_field(self, mut before: u64, field: &[u8], window: &mut [u8]) {
        let keys = moved_keys(self.0);
        let first = |i| gathered(&GATHER, load(&field[8 * i..])) ^ keys[ROUNDS];
        let mut states: [u64; FIELD / 8] = from_fn(first);
        for r in (0..ROUNDS).rev() {
            for s in &mut states {
                *s = gathered(&GATHER_BOX, *s) ^ keys[r];
            }
        }
        for (i, out) in window.chunks_exact_mut(8).enumerate() {
            out.copy_from_slice(&(p_layer(states[i]) ^ before).to_be_bytes());
            before = load(&field[8 * i..]);
        }
    }
}

/// PRESENT with a key in its register.
#[derive(Clone, Copy)]
pub struct Present<R>(R);

type Call = fn(&[u8], u64) -> u64;

#[inline(always)]
fn block_call(key: &[u8], block: &[u8], out: &mut [u8], calls: [Call; 2]) -> Answer {
    let call = match key.len() {
        10 => calls[0],
        16 => calls[1],
        _ => return Answer::refused(WRONG_KEY),
    };
    if block.len() != 8 || out.len() != 8 {
        return Answer::refused(WRONG_SPAN);
    }
    out.copy_from_slice(&call(key, load(block)).to_be_bytes());
    Answer::accepted(0)
}

pub fn encrypt_block(key: &[u8], block: &[u8], out: &mut [u8]) -> Answer {
    let calls: [Call; 2] = [
        |key, block| Present::<Eighty>::of_key(key).encrypt(block),
        |key, block| Present::<Wide>::of_key(key).encrypt(block),
    ];
    block_call(key, block, out, calls)
}

pub fn decrypt_block(key: &[u8], block: &[u8], out: &mut [u8]) -> Answer {
    let calls: [Call; 2] = [
        |key, block| decrypt(Eighty::of_key(key), block),
        |key, block| decrypt(Wide::of_key(key), block),
    ];
    block_call(key, block, out, calls)
}
