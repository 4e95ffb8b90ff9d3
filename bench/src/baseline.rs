//! The baseline: the same calls as optimised Rust, to lay the library's speed
//! beside. Word tables (document 000, 4.1), φ by rotations and masks, the
//! state in four words, and the key schedule on the fly: no round key is
//! stored. The round is written once for each key size by the compiler.
//!
//! Each call comes in two styles. `Looped` is the baseline: a round a turn, a
//! block at a time. `SameIdeas` has what the library's speed rests on besides:
//! the rounds written out, a field's and a panel's blocks in walks of the register,
//! and a written mark's last bytes compared as one number.
//!
//! A read, a dated read and a write test the key mark of edition 3 as the library
//! does, and a write tests its caption, here by Rust's own `from_utf8`, so that what is
//! compared does the same.
//!
//! Sheets of classes 21 and 24 go by PRESENT (`present.rs`), in either style alike.

use crate::present::{Eighty, Present, Wide};
use reference::{
    Answer, ALTERED, BLANK, BROKEN_TEXT, NOT_ON_SHOW, NO_SUCH_DATE, NO_SUCH_SLOT, OTHER_KEYS,
    OTHER_KEY_CLASS, OVERLONG, TWIN_KEYS, UNFIT_SHEET, WORN, WRONG_KEY, WRONG_SPAN,
};
use std::array::from_fn;
use std::hint::black_box;
use std::marker::PhantomData;
use std::str::from_utf8;

type Words = [u16; 4];

// ---- Tables ----

const S: [[u16; 16]; 4] = [
    [4, 15, 3, 8, 13, 10, 12, 0, 11, 5, 7, 14, 2, 6, 1, 9],
    [1, 12, 7, 10, 6, 13, 5, 3, 15, 11, 2, 0, 8, 4, 9, 14],
    [7, 14, 12, 2, 0, 9, 13, 10, 3, 15, 5, 8, 6, 4, 11, 1],
    [11, 0, 10, 7, 13, 6, 4, 2, 12, 14, 3, 9, 1, 5, 15, 8],
];

const M: [u16; 4] = [0xe, 0xd, 0xb, 0x7];

/// c_0 to c_12, each written four times.
const CONSTANTS: [u16; 13] = [
    0x1111, 0x2222, 0x4444, 0x8888, 0x3333, 0x6666, 0xcccc, 0xbbbb, 0x5555, 0xaaaa, 0x7777, 0xeeee,
    0xffff,
];

/// The tables SS_0 to SS_3, each entry turned by a number of bits.
const fn word_tables(turn: u32) -> [[u16; 16]; 4] {
    let mut tables = [[0; 16]; 4];
    let mut i = 0;
    while i < 4 {
        let mut j = 0;
        while j < 16 {
            let s = S[i][j];
            let entry = (s & M[i]) << 12
                | (s & M[(i + 1) % 4]) << 8
                | (s & M[(i + 2) % 4]) << 4
                | s & M[(i + 3) % 4];
            tables[i][j] = entry.rotate_left(turn);
            j += 1;
        }
        i += 1;
    }
    tables
}

static ENCRYPTING: [[u16; 16]; 4] = word_tables(0);
static DECRYPTING: [[u16; 16]; 4] = word_tables(8);

// ---- Rounds ----

#[inline(always)]
fn xor(a: Words, b: Words) -> Words {
    from_fn(|i| a[i] ^ b[i])
}

/// γ, π and τ: row i of the next array from the nibbles of column i. `first`
/// is the table of row 0, column 0.
#[inline(always)]
fn mixed(tables: &[[u16; 16]; 4], first: usize, a: Words) -> Words {
    from_fn(|i| {
        let entry = |k: usize| {
            let nibble = a[k] >> (12 - 4 * i) & 0xf;
            tables[(first + i + k) % 4][usize::from(nibble)]
        };
        entry(0) ^ entry(1) ^ entry(2) ^ entry(3)
    })
}

/// The masks of φ: the nibbles m_i and those that rotations bring there.
const TURNED_MASKS: Words = [0xebeb, 0xd7d7, 0xbebe, 0x7d7d];

#[inline(always)]
fn phi(a: Words) -> Words {
    from_fn(|i| {
        (0..4).fold(0, |word, k| {
            word ^ a[i].rotate_left(4 * k as u32) & TURNED_MASKS[(i + k) % 4]
        })
    })
}

#[inline(always)]
fn words(block: u64) -> Words {
    from_fn(|i| (block >> (48 - 16 * i)) as u16)
}

#[inline(always)]
fn number(a: Words) -> u64 {
    a.iter()
        .fold(0, |block, word| block << 16 | u64::from(*word))
}

// ---- The key register ----

/// A register of t words.
pub trait Register: Copy {
    fn of_key(key: &[u8]) -> Self;
    fn forward(self) -> Self;
    fn backward(self) -> Self;
    fn backward_start(self) -> Self;
    /// Word 0, and the four words that make the round key.
    fn parts(self) -> (u16, Words);
}

#[derive(Clone, Copy)]
struct Four([u16; 4]);
#[derive(Clone, Copy)]
struct Six([u16; 6]);
#[derive(Clone, Copy)]
struct Eight([u16; 8]);

#[inline(always)]
fn by(word: u16, bits: u32) -> u16 {
    word.rotate_left(bits)
}

#[inline(always)]
fn key_words<const T: usize>(key: &[u8]) -> [u16; T] {
    from_fn(|i| u16::from_be_bytes([key[2 * i], key[2 * i + 1]]))
}

impl Register for Four {
    #[inline(always)]
    fn of_key(key: &[u8]) -> Four {
        Four(key_words(key))
    }

    #[inline(always)]
    fn forward(self) -> Four {
        let [u0, u1, u2, u3] = self.0;
        Four([u1, u2, u3, by(u0, 3)])
    }

    #[inline(always)]
    fn backward(self) -> Four {
        let [v0, v1, v2, v3] = self.0;
        Four([by(v3, 13), v0, v1, v2])
    }

    #[inline(always)]
    fn backward_start(self) -> Four {
        Four(self.0.map(|word| by(word, 9)))
    }

    #[inline(always)]
    fn parts(self) -> (u16, Words) {
        let [u0, u1, u2, u3] = self.0;
        (u0, [u1, u2, u3, u0])
    }
}

impl Register for Six {
    #[inline(always)]
    fn of_key(key: &[u8]) -> Six {
        Six(key_words(key))
    }

    #[inline(always)]
    fn forward(self) -> Six {
        let [u0, u1, u2, u3, u4, u5] = self.0;
        Six([u5, by(u0, 3), u1, u2, by(u3, 8), u4])
    }

    #[inline(always)]
    fn backward(self) -> Six {
        let [v0, v1, v2, v3, v4, v5] = self.0;
        Six([by(v1, 13), v2, v3, by(v4, 8), v5, v0])
    }

    #[inline(always)]
    fn backward_start(self) -> Six {
        Six(self.0.map(|word| by(word, 6)))
    }

    #[inline(always)]
    fn parts(self) -> (u16, Words) {
        let [u0, u1, u2, u3, u4, _] = self.0;
        (u0, [u1, u2, u3, u4])
    }
}

impl Register for Eight {
    #[inline(always)]
    fn of_key(key: &[u8]) -> Eight {
        Eight(key_words(key))
    }

    #[inline(always)]
    fn forward(self) -> Eight {
        let [u0, u1, u2, u3, u4, u5, u6, u7] = self.0;
        Eight([u5, u6, u7, by(u0, 3), u1, u2, u3, by(u4, 8)])
    }

    #[inline(always)]
    fn backward(self) -> Eight {
        let [v0, v1, v2, v3, v4, v5, v6, v7] = self.0;
        Eight([by(v3, 13), v4, v5, v6, by(v7, 8), v0, v1, v2])
    }

    #[inline(always)]
    fn backward_start(self) -> Eight {
        let [k0, k1, k2, k3, k4, k5, k6, k7] = self.0;
        let (a, b) = (3, 14);
        Eight([
            by(k4, a),
            by(k5, b),
            by(k6, a),
            by(k7, b),
            by(k0, b),
            by(k1, a),
            by(k2, b),
            by(k3, a),
        ])
    }

    #[inline(always)]
    fn parts(self) -> (u16, Words) {
        let [u0, u1, u2, u3, u4, _, _, _] = self.0;
        (u0, [u1, u2, u3, u4])
    }
}

/// The round key of a register under a constant, without φ.
#[inline(always)]
fn round_key(register: impl Register, constant: u16) -> Words {
    let (u0, words) = register.parts();
    from_fn(|i| {
        let shift = 12 - 4 * i;
        let substituted = S[0][usize::from(u0 >> shift & 0xf)] << shift;
        words[i] ^ substituted ^ constant & 0xf << shift
    })
}

// ---- One block ----

/// Where a block is: the register, and the array.
type State<R> = (R, Words);

#[inline(always)]
fn encryption_start<R: Register>(key: R, block: u64) -> State<R> {
    (key, xor(words(block), round_key(key, CONSTANTS[0])))
}

#[inline(always)]
fn encryption_round<R: Register>((register, a): State<R>, r: usize) -> State<R> {
    let next = register.forward();
    let key = round_key(next, CONSTANTS[r]);
    (next, xor(mixed(&ENCRYPTING, 0, a), key))
}

#[inline(always)]
fn decryption_start<R: Register>(key: R, block: u64) -> State<R> {
    let start = key.backward_start();
    let key = phi(round_key(start, CONSTANTS[12]));
    (start, xor(words(block), key))
}

#[inline(always)]
fn decryption_round<R: Register>((register, a): State<R>, r: usize) -> State<R> {
    let next = register.backward();
    let key = phi(round_key(next, CONSTANTS[12 - r]));
    (next, xor(mixed(&DECRYPTING, 2, a), key))
}

/// The rounds written out, which the compiler doesn't do by itself.
macro_rules! unrolled {
    ($round:ident, $start:expr) => {{
        let state = $round($round($round($round($start, 1), 2), 3), 4);
        let state = $round($round($round($round(state, 5), 6), 7), 8);
        $round($round($round($round(state, 9), 10), 11), 12)
    }};
}

/// How the rounds and the blocks are gone through.
pub trait Style: Copy {
    fn encrypt<R: Register>(key: R, block: u64) -> u64;
    fn decrypt<R: Register>(key: R, block: u64) -> u64;
    /// CBC of a field, from the block that its first is chained to.
    fn decrypt_field<R: Register>(key: R, before: u64, field: &[u8], window: &mut [u8]);
    /// CTR of a panel, from its first counter.
    fn seal_panel<R: Register>(key: R, first: u64, panel: &[u8], out: &mut [u8]);
    /// Whether length and zeros of a written mark, its bytes 4 to 7, are fit.
    fn lengths_fit(rest: u32) -> bool;
}

#[derive(Clone, Copy)]
pub struct Looped;
#[derive(Clone, Copy)]
pub struct SameIdeas;

impl Style for Looped {
    #[inline(always)]
    fn encrypt<R: Register>(key: R, block: u64) -> u64 {
        let mut state = encryption_start(key, block);
        for r in 1..13 {
            state = encryption_round(state, r);
        }
        number(phi(state.1))
    }

    #[inline(always)]
    fn decrypt<R: Register>(key: R, block: u64) -> u64 {
        let mut state = decryption_start(key, block);
        for r in 1..13 {
            state = decryption_round(state, r);
        }
        number(phi(state.1))
    }

    #[inline(always)]
    fn decrypt_field<R: Register>(key: R, mut before: u64, field: &[u8], window: &mut [u8]) {
        for (block, out) in field.chunks_exact(8).zip(window.chunks_exact_mut(8)) {
            let sealed = load(block);
            out.copy_from_slice(&(Self::decrypt(key, sealed) ^ before).to_be_bytes());
            before = sealed;
        }
    }

    #[inline(always)]
    fn seal_panel<R: Register>(key: R, mut counter: u64, panel: &[u8], out: &mut [u8]) {
        for (block, out) in panel.chunks(8).zip(out.chunks_mut(8)) {
            add(block, Self::encrypt(key, counter), out);
            counter = counter.wrapping_add(1);
        }
    }

    #[inline(always)]
    fn lengths_fit(rest: u32) -> bool {
        (rest >> 16) as u16 <= FIELD as u16 && rest as u16 == 0
    }
}

impl Style for SameIdeas {
    /// The compiler mustn't know the register: with the rounds written out it would
    /// make the round keys once for all blocks of a message, and so remember them.
    #[inline(always)]
    fn encrypt<R: Register>(key: R, block: u64) -> u64 {
        let key = black_box(key);
        let state = unrolled!(encryption_round, encryption_start(key, block));
        number(phi(state.1))
    }

    #[inline(always)]
    fn decrypt<R: Register>(key: R, block: u64) -> u64 {
        let state = unrolled!(decryption_round, decryption_start(key, block));
        number(phi(state.1))
    }

    #[inline(always)]
    fn decrypt_field<R: Register>(key: R, mut before: u64, field: &[u8], window: &mut [u8]) {
        let mut states: [Words; FIELD / 8] = from_fn(|i| words(load(&field[8 * i..])));
        decrypt_all(key, &mut states);
        for (i, out) in window.chunks_exact_mut(8).enumerate() {
            out.copy_from_slice(&(number(states[i]) ^ before).to_be_bytes());
            before = load(&field[8 * i..]);
        }
    }

    #[inline(always)]
    fn seal_panel<R: Register>(key: R, mut counter: u64, panel: &[u8], out: &mut [u8]) {
        let mut states = [[0; 4]; WALK];
        for (part, out) in panel.chunks(8 * WALK).zip(out.chunks_mut(8 * WALK)) {
            let states = &mut states[..part.len().div_ceil(8)];
            for state in &mut *states {
                *state = words(counter);
                counter = counter.wrapping_add(1);
            }
            encrypt_all(black_box(key), states);
            for ((block, out), state) in part.chunks(8).zip(out.chunks_mut(8)).zip(states) {
                add(block, number(*state), out);
            }
        }
    }

    #[inline(always)]
    fn lengths_fit(rest: u32) -> bool {
        rest <= (FIELD as u32) << 16 && rest as u16 == 0
    }
}

/// Blocks decrypted in one walk of the register.
#[inline(always)]
fn decrypt_all<R: Register>(key: R, states: &mut [Words]) {
    let mut register = key.backward_start();
    let first = phi(round_key(register, CONSTANTS[12]));
    for a in &mut *states {
        *a = xor(*a, first);
    }
    for r in 1..13 {
        register = register.backward();
        let key = phi(round_key(register, CONSTANTS[12 - r]));
        for a in &mut *states {
            *a = xor(mixed(&DECRYPTING, 2, *a), key);
        }
    }
    for a in states {
        *a = phi(*a);
    }
}

/// Blocks of a panel that share a walk of the register.
const WALK: usize = 32;

/// Blocks encrypted in one walk of the register.
#[inline(always)]
fn encrypt_all<R: Register>(key: R, states: &mut [Words]) {
    let mut register = key;
    let first = round_key(register, CONSTANTS[0]);
    for a in &mut *states {
        *a = xor(*a, first);
    }
    for constant in &CONSTANTS[1..] {
        register = register.forward();
        let key = round_key(register, *constant);
        for a in &mut *states {
            *a = xor(mixed(&ENCRYPTING, 0, *a), key);
        }
    }
    for a in states {
        *a = phi(*a);
    }
}

/// A block, or the part of one, added to the leading bytes of a key block.
#[inline(always)]
fn add(block: &[u8], key_block: u64, out: &mut [u8]) {
    if block.len() == 8 {
        out.copy_from_slice(&(load(block) ^ key_block).to_be_bytes());
        return;
    }
    for ((out, byte), key_byte) in out.iter_mut().zip(block).zip(key_block.to_be_bytes()) {
        *out = byte ^ key_byte;
    }
}

/// The number of a block's 8 bytes.
#[inline(always)]
pub fn load(bytes: &[u8]) -> u64 {
    bytes
        .first_chunk()
        .map_or(0, |block| u64::from_be_bytes(*block))
}

/// What a sheet asks of a cipher with a key in it.
pub trait Cipher: Copy {
    fn of_key(key: &[u8]) -> Self;
    fn encrypt(self, block: u64) -> u64;
    /// CBC of a field, from the block that its first is chained to.
    fn decrypt_field(self, before: u64, field: &[u8], window: &mut [u8]);
}

/// mCrypton in a style.
#[derive(Clone, Copy)]
struct MCrypton<S, R>(R, PhantomData<S>);

impl<S: Style, R: Register> Cipher for MCrypton<S, R> {
    #[inline(always)]
    fn of_key(key: &[u8]) -> MCrypton<S, R> {
        MCrypton(R::of_key(key), PhantomData)
    }

    #[inline(always)]
    fn encrypt(self, block: u64) -> u64 {
        S::encrypt(self.0, block)
    }

    #[inline(always)]
    fn decrypt_field(self, before: u64, field: &[u8], window: &mut [u8]) {
        S::decrypt_field(self.0, before, field, window);
    }
}

/// One of the five instances of a function over ciphers, by a sheet's class; else
/// another value.
macro_rules! by_class {
    ($style:ident, $t:expr, $function:ident($($argument:expr),*), $none:expr) => {
        match $t {
            4 => $function::<MCrypton<$style, Four>>($($argument),*),
            6 => $function::<MCrypton<$style, Six>>($($argument),*),
            8 => $function::<MCrypton<$style, Eight>>($($argument),*),
            21 => $function::<Present<Eighty>>($($argument),*),
            24 => $function::<Present<Wide>>($($argument),*),
            _ => $none,
        }
    };
}

/// One of the three instances of a function over registers, by the key's
/// length; else the refusal.
macro_rules! by_key_length {
    ($style:ident, $length:expr, $function:ident($($argument:expr),*), $wrong:expr) => {
        match $length {
            8 => $function::<$style, Four>($($argument),*),
            12 => $function::<$style, Six>($($argument),*),
            16 => $function::<$style, Eight>($($argument),*),
            _ => $wrong,
        }
    };
}

/// A block call over one of a style's functions.
macro_rules! block_call {
    ($name:ident, $function:ident) => {
        pub fn $name<S: Style>(key: &[u8], block: &[u8], out: &mut [u8]) -> Answer {
            fn whole<S: Style, R: Register>(key: &[u8], block: &[u8], out: &mut [u8]) -> Answer {
                if block.len() != 8 || out.len() != 8 {
                    return Answer::refused(WRONG_SPAN);
                }
                let result = S::$function(R::of_key(key), load(block));
                out.copy_from_slice(&result.to_be_bytes());
                Answer::accepted(0)
            }
            let wrong = Answer::refused(WRONG_KEY);
            by_key_length!(S, key.len(), whole(key, block, out), wrong)
        }
    };
}

block_call!(encrypt_block, encrypt);
block_call!(decrypt_block, decrypt);

// ---- CMAC ----

#[inline(always)]
fn doubled(x: u64) -> u64 {
    (x << 1) ^ ((x >> 63) * 0x1b)
}

/// CMAC of a message, `c` being the chain before it.
#[inline(always)]
fn cmac_from<C: Cipher>(key: C, mut c: u64, message: &[u8]) -> u64 {
    let k1 = doubled(key.encrypt(0));
    // The last block has 1 to 8 bytes; only that of the empty message has 0.
    let (front, last) = message.split_at(message.len().saturating_sub(1) / 8 * 8);
    for block in front.chunks_exact(8) {
        c = key.encrypt(c ^ load(block));
    }
    let m_n = if last.len() == 8 {
        k1 ^ load(last)
    } else {
        let mut padded = [0; 8];
        padded[..last.len()].copy_from_slice(last);
        padded[last.len()] = 0x80;
        doubled(k1) ^ u64::from_be_bytes(padded)
    };
    key.encrypt(c ^ m_n)
}

pub fn cmac<S: Style>(key: &[u8], message: &[u8], out: &mut [u8]) -> Answer {
    fn whole<S: Style, R: Register>(key: &[u8], message: &[u8], out: &mut [u8]) -> Answer {
        if out.len() != 8 {
            return Answer::refused(WRONG_SPAN);
        }
        let mac = cmac_from(MCrypton::<S, R>::of_key(key), 0, message);
        out.copy_from_slice(&mac.to_be_bytes());
        Answer::accepted(0)
    }
    by_key_length!(
        S,
        key.len(),
        whole(key, message, out),
        Answer::refused(WRONG_KEY)
    )
}

// ---- A panel ----

const PANEL: usize = 65536;

pub fn panel<S: Style>(key: &[u8], first: u64, panel: &[u8], out: &mut [u8]) -> Answer {
    fn whole<S: Style, R: Register>(
        key: &[u8],
        first: u64,
        panel: &[u8],
        out: &mut [u8],
    ) -> Answer {
        if out.len() != panel.len() {
            return Answer::refused(WRONG_SPAN);
        }
        if panel.len() > PANEL {
            return Answer::refused(OVERLONG);
        }
        S::seal_panel(R::of_key(key), first, panel, out);
        Answer::accepted(0)
    }
    by_key_length!(
        S,
        key.len(),
        whole(key, first, panel, out),
        Answer::refused(WRONG_KEY)
    )
}

// ---- The sheet ----

pub const FIELD: usize = 192;

/// The sizes of a fit sheet, its last write number, and what its edition adds.
pub struct Header {
    pub n: usize,
    t: usize,
    w: u32,
    edition: Edition,
}

impl Header {
    /// Where a slot's mark starts.
    pub fn mark(&self, slot: usize) -> usize {
        self.edition.bytes + 16 * slot
    }

    /// Where a slot's field starts.
    fn field(&self, slot: usize) -> usize {
        self.mark(self.n) + FIELD * slot
    }
}

/// What byte 3 settles.
struct Edition {
    /// The bytes before the marks.
    bytes: usize,
    /// 0 in edition 1.
    serial: u16,
    /// The six bytes as a number; edition 3 alone has one.
    key_mark: Option<u64>,
}

/// None for an unknown edition, and where the six bytes after edition 2's serial
/// aren't zero.
fn edition(sheet: &[u8]) -> Option<Edition> {
    let number = *sheet.get(3)?;
    if number == 1 {
        return Some(Edition {
            bytes: 8,
            serial: 0,
            key_mark: None,
        });
    }
    let rest = load(sheet.get(8..16)?);
    let (serial, last_six) = ((rest >> 48) as u16, rest << 16 >> 16);
    let key_mark = match number {
        2 if last_six == 0 => None,
        3 => Some(last_six),
        _ => return None,
    };
    Some(Edition {
        bytes: 16,
        serial,
        key_mark,
    })
}

/// The bytes are gathered and tested once: a scan that stops early is slower.
fn all_zero(bytes: &[u8]) -> bool {
    bytes.iter().fold(0, |gathered, byte| gathered | byte) == 0
}

/// The layout test.
pub fn fit_header<S: Style>(sheet: &[u8]) -> Option<Header> {
    let head: &[u8; 8] = sheet.first_chunk()?;
    let n = usize::from(u16::from_be_bytes([head[0], head[1]]));
    let t = usize::from(head[2]);
    let w = u32::from_be_bytes([head[4], head[5], head[6], head[7]]);
    let edition = edition(sheet)?;
    let length = edition.bytes + 208 * n;
    let present = edition.key_mark.is_some() && matches!(t, 21 | 24);
    let class = matches!(t, 4 | 6 | 8) || present;
    let sized = (1..=256).contains(&n) && class && sheet.len() == length;
    if !sized {
        return None;
    }
    let (marks, fields) = sheet[edition.bytes..].split_at(16 * n);
    let mut slots = marks.chunks_exact(16).zip(fields.chunks_exact(FIELD));
    slots
        .all(|(mark, field)| slot_fits::<S>(w, mark, field))
        .then_some(Header { n, t, w, edition })
}

/// A write number of 0 leaves only a blank slot, any other only a written one.
#[inline(always)]
fn slot_fits<S: Style>(w: u32, mark: &[u8], field: &[u8]) -> bool {
    let numbers = load(mark);
    let write_number = (numbers >> 32) as u32;
    if write_number == 0 {
        all_zero(mark) && all_zero(field)
    } else {
        write_number <= w && S::lengths_fit(numbers as u32)
    }
}

pub fn fit<S: Style>(sheet: &[u8]) -> bool {
    fit_header::<S>(sheet).is_some()
}

pub fn clear<S: Style>(sheet: &mut [u8], slot: usize) -> Answer {
    let Some(header) = fit_header::<S>(sheet) else {
        return Answer::refused(UNFIT_SHEET);
    };
    if slot >= header.n {
        return Answer::refused(NO_SUCH_SLOT);
    }
    sheet[header.mark(slot)..][..16].fill(0);
    sheet[header.field(slot)..][..FIELD].fill(0);
    Answer::accepted(0)
}

/// Tests 1 and 2.
fn key_fault(sealing_key: &[u8], checking_key: &[u8]) -> Option<u8> {
    if !matches!(sealing_key.len(), 8 | 10 | 12 | 16) || checking_key.len() != sealing_key.len() {
        Some(WRONG_KEY)
    } else if sealing_key == checking_key {
        Some(TWIN_KEYS)
    } else {
        None
    }
}

/// The block of write number, slot and a third number.
#[inline(always)]
fn numbers(write_number: u32, slot: usize, last: u16) -> u64 {
    u64::from(write_number) << 32 | (slot as u64) << 16 | u64::from(last)
}

/// The check: CMAC of the numbers and the field, 25 blocks.
#[inline(always)]
fn check<C: Cipher>(key: C, numbers: u64, field: &[u8]) -> u64 {
    cmac_from(key, key.encrypt(numbers), field)
}

pub fn write<S: Style>(
    sealing_key: &[u8],
    checking_key: &[u8],
    sheet: &mut [u8],
    slot: usize,
    caption: &[u8],
) -> Answer {
    if let Some(number) = key_fault(sealing_key, checking_key) {
        return Answer::refused(number);
    }
    let Some(header) = fit_header::<S>(sheet) else {
        return Answer::refused(UNFIT_SHEET);
    };
    let keys = (sealing_key, checking_key);
    if let Err(number) = class_fits(keys, &header).and_then(|()| mark_fits::<S>(keys, &header)) {
        return Answer::refused(number);
    }
    if slot >= header.n {
        return Answer::refused(NO_SUCH_SLOT);
    }
    if caption.len() > FIELD {
        return Answer::refused(OVERLONG);
    }
    if from_utf8(caption).is_err() {
        return Answer::refused(BROKEN_TEXT);
    }
    let Some(write_number) = header.w.checked_add(1) else {
        return Answer::refused(WORN);
    };
    sheet[4..8].copy_from_slice(&write_number.to_be_bytes());
    let (head, fields) = sheet.split_at_mut(header.field(0));
    let mark = &mut head[header.mark(slot)..][..16];
    let field = &mut fields[FIELD * slot..][..FIELD];
    let mut plain = [0; FIELD];
    plain[..caption.len()].copy_from_slice(caption);
    let length = caption.len() as u16;
    let place = (write_number, slot, length);
    by_class!(
        S,
        header.t,
        put_slot(keys, place, header.edition.serial, &plain, mark, field),
        ()
    );
    Answer::accepted(0)
}

fn put_slot<C: Cipher>(
    (sealing_key, checking_key): (&[u8], &[u8]),
    (write_number, slot, length): (u32, usize, u16),
    serial: u16,
    plain: &[u8; FIELD],
    mark: &mut [u8],
    field: &mut [u8],
) {
    let key = C::of_key(sealing_key);
    let mut chain = key.encrypt(numbers(write_number, slot, serial));
    for (block, out) in plain.chunks_exact(8).zip(field.chunks_exact_mut(8)) {
        chain = key.encrypt(chain ^ load(block));
        out.copy_from_slice(&chain.to_be_bytes());
    }
    let checked = numbers(write_number, slot, length);
    let check = check(C::of_key(checking_key), checked, field);
    mark[0..4].copy_from_slice(&write_number.to_be_bytes());
    mark[4..8].copy_from_slice(&(u32::from(length) << 16).to_be_bytes());
    mark[8..16].copy_from_slice(&check.to_be_bytes());
}

pub fn read<S: Style>(
    sealing_key: &[u8],
    checking_key: &[u8],
    sheet: &[u8],
    slot: usize,
    window: &mut [u8],
) -> Answer {
    window.fill(0);
    let keys = (sealing_key, checking_key);
    let tested = read_header::<S>(keys, sheet, window).and_then(|header| {
        class_fits(keys, &header)?;
        mark_fits::<S>(keys, &header)?;
        written_slot(sheet, &header, slot)
    });
    match tested {
        Ok(written) => shown_slot::<S>(keys, slot, written, window),
        Err(number) => Answer::refused(number),
    }
}

type KeyPair<'a> = (&'a [u8], &'a [u8]);

/// The mark and the field of a slot, the sheet's serial and its class.
type Slot<'a> = (&'a [u8], &'a [u8], u16, usize);

/// Tests 1 to 4 of a read.
#[inline(always)]
fn read_header<S: Style>(keys: KeyPair, sheet: &[u8], window: &[u8]) -> Result<Header, u8> {
    if let Some(number) = key_fault(keys.0, keys.1) {
        return Err(number);
    }
    if window.len() != FIELD {
        return Err(WRONG_SPAN);
    }
    fit_header::<S>(sheet).ok_or(UNFIT_SHEET)
}

/// Test 5.
#[inline(always)]
fn class_fits(keys: KeyPair, header: &Header) -> Result<(), u8> {
    let bytes = match header.t {
        21 => 10,
        24 => 16,
        t => 2 * t,
    };
    if keys.0.len() != bytes {
        return Err(OTHER_KEY_CLASS);
    }
    Ok(())
}

/// Test 14.
#[inline(always)]
fn mark_fits<S: Style>(keys: KeyPair, header: &Header) -> Result<(), u8> {
    let Some(mark) = header.edition.key_mark else {
        return Ok(());
    };
    let own = by_class!(S, header.t, own_mark(keys, header), !mark);
    if own != mark {
        return Err(OTHER_KEYS);
    }
    Ok(())
}

/// The key mark of a pair: of n, t, edition 3, serial and two zero bytes, sealed,
/// the first six bytes of the CMAC.
fn own_mark<C: Cipher>((sealing_key, checking_key): KeyPair, header: &Header) -> u64 {
    let (n, t) = (header.n as u64, header.t as u64);
    let block = n << 48 | t << 40 | 3 << 32 | u64::from(header.edition.serial) << 16;
    let sealed = C::of_key(sealing_key).encrypt(block).to_be_bytes();
    cmac_from(C::of_key(checking_key), 0, &sealed) >> 16
}

/// Tests 6 and 9.
#[inline(always)]
fn written_slot<'a>(sheet: &'a [u8], header: &Header, slot: usize) -> Result<Slot<'a>, u8> {
    if slot >= header.n {
        return Err(NO_SUCH_SLOT);
    }
    let mark = &sheet[header.mark(slot)..][..16];
    if load(mark) >> 32 == 0 {
        return Err(BLANK);
    }
    let field = &sheet[header.field(slot)..][..FIELD];
    Ok((mark, field, header.edition.serial, header.t))
}

fn shown_slot<S: Style>(keys: KeyPair, slot: usize, written: Slot, window: &mut [u8]) -> Answer {
    by_class!(
        S,
        written.3,
        opened_slot(keys, slot, written, window),
        Answer::refused(WRONG_KEY)
    )
}

fn opened_slot<C: Cipher>(
    (sealing_key, checking_key): KeyPair,
    slot: usize,
    (mark, field, serial, _): Slot,
    window: &mut [u8],
) -> Answer {
    let write_number = (load(mark) >> 32) as u32;
    let length = (load(mark) >> 16) as u16;
    let checked = numbers(write_number, slot, length);
    if check(C::of_key(checking_key), checked, field) != load(&mark[8..]) {
        return Answer::refused(ALTERED);
    }
    let key = C::of_key(sealing_key);
    let before = key.encrypt(numbers(write_number, slot, serial));
    key.decrypt_field(before, field, window);
    if !all_zero(&window[usize::from(length)..]) {
        window.fill(0);
        return Answer::refused(ALTERED);
    }
    Answer::accepted(length)
}

// ---- The dated read ----

const LAST_DAY: u16 = 36_524;

/// The opening days, then the closing days of a term sheet that fits n slots.
pub fn fit_terms(terms: &[u8], n: usize) -> Option<&[[u8; 2]]> {
    let (count, days) = terms.split_first_chunk()?;
    if usize::from(u16::from_be_bytes(*count)) != n || days.len() != 4 * n {
        return None;
    }
    let (days, _) = days.as_chunks();
    // What days are late by is gathered, as the bytes of a blank slot are.
    let late = days.iter().fold(0, |gathered, day| {
        gathered | u16::from_be_bytes(*day).saturating_sub(LAST_DAY)
    });
    (late == 0).then_some(days)
}

fn on_show(days: &[[u8; 2]], n: usize, slot: usize, day: usize) -> bool {
    let number = |place: usize| usize::from(u16::from_be_bytes(days[place]));
    number(slot) <= day && day <= number(n + slot)
}

pub fn dated_read<S: Style>(
    sealing_key: &[u8],
    checking_key: &[u8],
    sheet: &[u8],
    terms: &[u8],
    slot: usize,
    day: usize,
    window: &mut [u8],
) -> Answer {
    window.fill(0);
    let keys = (sealing_key, checking_key);
    let tested = read_header::<S>(keys, sheet, window).and_then(|header| {
        let days = fit_terms(terms, header.n).ok_or(UNFIT_SHEET)?;
        class_fits(keys, &header)?;
        if day > usize::from(LAST_DAY) {
            return Err(NO_SUCH_DATE);
        }
        mark_fits::<S>(keys, &header)?;
        let written = written_slot(sheet, &header, slot)?;
        if !on_show(days, header.n, slot, day) {
            return Err(NOT_ON_SHOW);
        }
        Ok(written)
    });
    match tested {
        Ok(written) => shown_slot::<S>(keys, slot, written, window),
        Err(number) => Answer::refused(number),
    }
}
