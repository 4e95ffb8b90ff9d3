//! Caption sheets: safe functions over the proved library.
//!
//! A sheet is a buffer of bytes with up to 256 slots, each blank or holding a
//! caption of up to 192 bytes, sealed under one key and checked under another.
//! One pair of keys serves a sheet, the pair that it was blanked with ([`blank`]),
//! by mCrypton or by PRESENT ([`Cipher`]).
//! A term sheet beside it says when each slot is on show ([`dated_read`],
//! [`terms_set`]), and so what is on show on a day ([`showings`]). A wall panel of up to
//! 65536 bytes is sealed without a sheet ([`panel`]).
//! Everything that decides about a sheet is in the proved library; this crate lends
//! it slices and gives its answers Rust's types. Any length and any number may be given:
//! what the library can't use, it refuses. Nothing here panics.
//!
//! ```
//! use captions::{blank, list, read, sheet_len, write, Cipher, Refusal, FIELD};
//!
//! let sealing_key = *b"seal it.";
//! let checking_key = *b"check it";
//! let mut sheet = vec![0; sheet_len(2)];
//! blank(&mut sheet, 2, Cipher::Mcrypton64, 1, &sealing_key, &checking_key)?;
//! write(&sealing_key, &checking_key, &mut sheet, 1, b"Vase, 1751")?;
//!
//! let mut window = [0; FIELD];
//! let length = read(&sealing_key, &checking_key, &sheet, 1, &mut window)?;
//! assert_eq!(&window[..length], b"Vase, 1751");
//! assert_eq!(list(&sheet), b"slots 2 key 64 last 1\n0 blank\n1 written 1 10\n");
//!
//! let refusal = read(&sealing_key, &checking_key, &sheet, 2, &mut window).unwrap_err();
//! assert_eq!(refusal, Refusal::NoSuchSlot);
//! assert_eq!(refusal.number(), 6);
//! assert_eq!(refusal.to_string(), "no such slot");
//! # Ok::<(), Refusal>(())
//! ```
//!
//! The library is linked from `build/libcaptions_c.a`, which `make` makes in the
//! repository root. It is for Linux on x86-64.

#![warn(missing_docs)]

mod cipher;
mod date;
mod fault;
mod library;
mod order;
mod refusal;
mod terms;
mod text;

pub use cipher::{Cipher, Class};
pub use date::Date;
pub use fault::{Change, Fault};
use library::{Answer, Pointed};
pub use order::{running_order, showings, Showing};
pub use refusal::Refusal;
pub use terms::{terms_blank, terms_on_show, terms_set};
pub use text::{Break, BreakKind};

/// The bytes of a block or an array, and of an output.
pub const BLOCK: usize = 8;
/// The rounds of mCrypton, and the last of them.
pub const ROUNDS: usize = 12;
/// The bytes of a check (CMAC).
pub const CHECK: usize = 8;
/// The bytes of a sheet before its marks.
pub const HEADER: usize = 16;
/// The same of a sheet of edition 1.
pub const HEADER_1: usize = 8;
/// The bytes of a slot's mark.
pub const MARK: usize = 16;
/// The bytes of a sealed field, of a window and of the longest caption.
pub const FIELD: usize = 192;
/// The most slots of a sheet.
pub const SLOTS: usize = 256;
/// The bytes of the longest panel.
pub const PANEL: usize = 65536;
/// The bytes of the longest listing.
pub const LISTING: usize = 6836;
/// The bytes of the longest running order.
pub const RUNNING_ORDER: usize = 7570;
/// The last day, 2099-12-31; day 0 is 2000-01-01.
pub const LAST_DAY: u16 = 36524;

/// The bytes of a sheet with that many slots; `usize::MAX` where that is less.
/// Blanking makes such sheets, of edition 3; one of edition 2 has as many bytes.
///
/// ```
/// assert_eq!(captions::sheet_len(1), 224);
/// assert_eq!(captions::sheet_len(captions::SLOTS), 53264);
/// ```
pub const fn sheet_len(slots: usize) -> usize {
    slots.saturating_mul(MARK + FIELD).saturating_add(HEADER)
}

/// The bytes of a sheet of edition 1 with that many slots; `usize::MAX` where
/// that is less. Such a sheet has no serial and no key mark; it is still read,
/// written, cleared and listed, and no longer made.
///
/// ```
/// assert_eq!(captions::sheet_len_1(1), 216);
/// assert_eq!(captions::sheet_len_1(captions::SLOTS), 53256);
/// ```
pub const fn sheet_len_1(slots: usize) -> usize {
    slots.saturating_mul(MARK + FIELD).saturating_add(HEADER_1)
}

/// The bytes of a term sheet for a sheet with that many slots; `usize::MAX`
/// where that is less.
///
/// A term sheet is the slot count, the opening days of all slots, then the
/// closing days, each number 2 bytes, high byte first. A slot is on show from
/// its opening to its closing day, both included; where the opening is above
/// the closing day, never.
///
/// ```
/// assert_eq!(captions::terms_len(1), 6);
/// assert_eq!(captions::terms_len(captions::SLOTS), 1026);
/// ```
pub const fn terms_len(slots: usize) -> usize {
    slots.saturating_mul(2 + 2).saturating_add(2)
}

/// Seals (encrypts) one block of 8 bytes with mCrypton, under a key of 8, 12 or 16
/// bytes, into `out`, 8 bytes too.
///
/// Bit r - 1 of `path`, from the lowest, is 1 for the word path in round r and
/// 0 for the nibble path; the top four bits count for nothing. Every path gives
/// the same bytes, so 0xffff, the word path throughout, will do.
///
/// # Errors
///
/// [`Refusal::WrongKey`] and [`Refusal::WrongSpan`]; `out` is then as it was.
///
/// ```
/// use captions::{encrypt_block, Refusal};
///
/// let key = [0x0d, 0x2a, 0x47, 0x64, 0x81, 0x9e, 0xbb, 0xd8];
/// let block = [0x07, 0x3c, 0x71, 0xa6, 0xdb, 0x10, 0x45, 0x7a];
/// let mut out = [0; 8];
/// encrypt_block(&key, &block, 0xffff, &mut out)?;
/// assert_eq!(out, [0x6d, 0x36, 0xf5, 0x95, 0xbc, 0x53, 0x69, 0x58]);
/// assert_eq!(encrypt_block(&key[..7], &block, 0, &mut out), Err(Refusal::WrongKey));
/// # Ok::<(), Refusal>(())
/// ```
pub fn encrypt_block(key: &[u8], block: &[u8], path: u16, out: &mut [u8]) -> Result<(), Refusal> {
    done(library::encrypt_block(key, block, path, out))
}

/// Opens (decrypts) one block of 8 bytes with mCrypton into `out`, 8 bytes too; key
/// and `path` are as for [`encrypt_block`].
///
/// # Errors
///
/// [`Refusal::WrongKey`] and [`Refusal::WrongSpan`]; `out` is then as it was.
///
/// ```
/// use captions::{decrypt_block, encrypt_block, Refusal};
///
/// let (key, block) = ([7; 16], *b"8 bytes.");
/// let (mut sealed, mut opened) = ([0; 8], [0; 8]);
/// encrypt_block(&key, &block, 0xffff, &mut sealed)?;
/// decrypt_block(&key, &sealed, 0, &mut opened)?;
/// assert_eq!(opened, block);
/// assert_eq!(decrypt_block(&key, &sealed[..7], 0, &mut opened), Err(Refusal::WrongSpan));
/// # Ok::<(), Refusal>(())
/// ```
pub fn decrypt_block(key: &[u8], block: &[u8], path: u16, out: &mut [u8]) -> Result<(), Refusal> {
    done(library::decrypt_block(key, block, path, out))
}

/// Seals (encrypts) one block of 8 bytes with PRESENT, under a key of 10 or 16
/// bytes, into `out`, 8 bytes too.
///
/// # Errors
///
/// [`Refusal::WrongKey`] and [`Refusal::WrongSpan`]; `out` is then as it was.
///
/// ```
/// use captions::{present_encrypt_block, Refusal};
///
/// let mut out = [0; 8];
/// present_encrypt_block(&[0; 10], &[0; 8], &mut out)?;
/// assert_eq!(out, [0x55, 0x79, 0xc1, 0x38, 0x7b, 0x22, 0x84, 0x45]);
/// let answer = present_encrypt_block(&[0; 8], &[0; 8], &mut out);
/// assert_eq!(answer, Err(Refusal::WrongKey));
/// # Ok::<(), Refusal>(())
/// ```
pub fn present_encrypt_block(key: &[u8], block: &[u8], out: &mut [u8]) -> Result<(), Refusal> {
    done(library::present_encrypt_block(key, block, out))
}

/// Opens (decrypts) one block of 8 bytes with PRESENT, under a key of 10 or 16
/// bytes, into `out`, 8 bytes too.
///
/// # Errors
///
/// [`Refusal::WrongKey`] and [`Refusal::WrongSpan`]; `out` is then as it was.
///
/// ```
/// use captions::{present_decrypt_block, present_encrypt_block, Refusal};
///
/// let (key, block) = ([7; 16], *b"8 bytes.");
/// let (mut sealed, mut opened) = ([0; 8], [0; 8]);
/// present_encrypt_block(&key, &block, &mut sealed)?;
/// present_decrypt_block(&key, &sealed, &mut opened)?;
/// assert_eq!(opened, block);
/// let answer = present_decrypt_block(&key, &sealed[..7], &mut opened);
/// assert_eq!(answer, Err(Refusal::WrongSpan));
/// # Ok::<(), Refusal>(())
/// ```
pub fn present_decrypt_block(key: &[u8], block: &[u8], out: &mut [u8]) -> Result<(), Refusal> {
    done(library::present_decrypt_block(key, block, out))
}

/// For a bench that tests mCrypton chips by watching one round: puts into `out`, 8
/// bytes, the one block that leads to the `wanted` array after that round of sealing
/// it under the key, 8, 12 or 16 bytes. No other block leads there.
///
/// Round 0 is after the first key addition, round [`ROUNDS`] before the last
/// step, φ. The array is 8 bytes, 16 nibbles row by row, as a block is.
///
/// # Errors
///
/// In the order of the tests: [`Refusal::WrongKey`], [`Refusal::WrongSpan`] and
/// [`Refusal::NoSuchRound`]; `out` is then as it was.
///
/// ```
/// use captions::{bench_block, Refusal};
///
/// let key = [0x0d, 0x2a, 0x47, 0x64, 0x81, 0x9e, 0xbb, 0xd8];
/// // What the chip is to show after round 5.
/// let wanted = [0x49, 0x9e, 0xb9, 0x74, 0xeb, 0x56, 0x57, 0xdf];
/// let mut block = [0; 8];
/// bench_block(&key, 5, &wanted, &mut block)?;
/// assert_eq!(block, [0x07, 0x3c, 0x71, 0xa6, 0xdb, 0x10, 0x45, 0x7a]);
/// assert_eq!(bench_block(&key, 13, &wanted, &mut block), Err(Refusal::NoSuchRound));
/// # Ok::<(), Refusal>(())
/// ```
pub fn bench_block(key: &[u8], round: usize, wanted: &[u8], out: &mut [u8]) -> Result<(), Refusal> {
    done(library::bench_block(key, round, wanted, out))
}

/// Puts the check (CMAC) of a message of any length, with mCrypton and a key of 8, 12
/// or 16 bytes, into `out`, 8 bytes.
///
/// # Errors
///
/// [`Refusal::WrongKey`] and [`Refusal::WrongSpan`]; `out` is then as it was.
///
/// ```
/// use captions::{cmac, Refusal};
///
/// let key = [0x0d, 0x2a, 0x47, 0x64, 0x81, 0x9e, 0xbb, 0xd8];
/// let mut check = [0; 8];
/// cmac(&key, b"", &mut check)?;
/// assert_eq!(check, [0x45, 0x8c, 0x78, 0xc4, 0x09, 0xd6, 0x7d, 0xdb]);
/// assert_eq!(cmac(&key, b"", &mut check[..7]), Err(Refusal::WrongSpan));
/// # Ok::<(), Refusal>(())
/// ```
pub fn cmac(key: &[u8], message: &[u8], out: &mut [u8]) -> Result<(), Refusal> {
    done(library::cmac(key, message, out))
}

/// Seals a wall panel of 0 to [`PANEL`] bytes into `out`, as many bytes, by counter
/// mode (CTR of SP 800-38A) with mCrypton and a key of 8, 12 or 16 bytes. Called
/// again on the sealed bytes with the same key and the same `first`, it opens them.
/// Block i of 8 bytes, from 0, is added to the sealed number `first` + i, which wraps
/// at 64 bits.
///
/// **Never seal two panels under one key from the same numbers**: whoever has both
/// has their exclusive or, and with one of the two texts the other. Nothing is kept
/// between calls, so that nothing can see it. Note how far a key's numbers are used:
/// the next panel may begin at `first` + [`panel_blocks`]. A key that seals panels is
/// best kept for panels. Nothing shows that a sealed panel was changed: a bit that is
/// flipped in it is flipped in the panel, and nowhere else.
///
/// # Errors
///
/// In the order of the tests: [`Refusal::WrongKey`], [`Refusal::WrongSpan`] where
/// `out` hasn't the panel's length, and [`Refusal::Overlong`]; `out` is then as it
/// was.
///
/// ```
/// use captions::{panel, panel_blocks, Refusal};
///
/// let key = [0x0d, 0x2a, 0x47, 0x64, 0x81, 0x9e, 0xbb, 0xd8];
/// let (text, first) = (b"Bronze Age.", u64::MAX);
/// let mut sealed = [0; 11];
/// panel(&key, first, text, &mut sealed)?;
/// // The first block uses 2^64 - 1, the three bytes after it use 0.
/// assert_eq!(sealed, *b"\x3e\x5b\xf6\xb1\x9b\x65\xdd\x4e\xe9\xf6\xf7");
///
/// let mut opened = [0; 11];
/// panel(&key, first, &sealed, &mut opened)?;
/// assert_eq!(&opened, text);
/// assert_eq!(first.wrapping_add(panel_blocks(text.len())), 1);
/// assert_eq!(panel(&key, first, text, &mut opened[..10]), Err(Refusal::WrongSpan));
/// # Ok::<(), Refusal>(())
/// ```
pub fn panel(key: &[u8], first: u64, panel: &[u8], out: &mut [u8]) -> Result<(), Refusal> {
    done(library::panel(key, first, panel, out))
}

/// How many numbers a panel of that many bytes uses, that of a last part block too.
///
/// ```
/// use captions::{panel_blocks, PANEL};
///
/// assert_eq!([0, 1, 8, 9, PANEL].map(panel_blocks), [0, 1, 1, 2, 8192]);
/// ```
pub const fn panel_blocks(length: usize) -> u64 {
    length.div_ceil(BLOCK) as u64
}

/// Makes a buffer of [`sheet_len`]`(slots)` bytes a sheet of blank slots for this
/// pair of keys. `cipher` is a [`Cipher`], or its number in byte 2 of a sheet: 4, 6
/// or 8 for mCrypton with keys of 8, 12 or 16 bytes, 21 or 24 for PRESENT with keys
/// of 10 or 16. It seals, checks and marks the sheet. What the buffer held doesn't
/// matter.
///
/// That pair serves the sheet from then on. Bytes 10 to 15 are the key mark, made
/// from both keys, `slots`, `cipher` and `serial`; a read or write under a
/// pair with another mark is refused, [`Refusal::OtherKeys`], before anything is
/// opened. A mark has 48 bits: another pair can have the same one by chance.
///
/// Write numbers begin again at 1, so give every sheet that a pair of keys
/// serves a `serial` of its own, a sheet that is blanked again a new one: sheets
/// with unlike serials never seal from the same start. Any serial is taken; with
/// 0 a sheet seals as one of edition 1 does, so keys that served a sheet of
/// edition 1 have used 0.
///
/// # Errors
///
/// In the order of the tests: [`Refusal::WrongKey`] for a number that is no cipher's
/// or a wrong key, [`Refusal::TwinKeys`], [`Refusal::WrongSpan`] for `slots`
/// outside 1 to 256 or a buffer of another length, and
/// [`Refusal::OtherKeyClass`] for keys of another length than the cipher has;
/// `sheet` is then as it was.
///
/// ```
/// use captions::{blank, list, read, sheet_len, Cipher, Refusal, FIELD};
///
/// let (sealing_key, checking_key) = ([1; 8], [2; 8]);
/// let mut sheet = vec![0xff; sheet_len(2)];
/// blank(&mut sheet, 2, 4, 1, &sealing_key, &checking_key)?;
/// assert_eq!(list(&sheet), b"slots 2 key 64 last 0\n0 blank\n1 blank\n");
/// assert_eq!(sheet[8..10], [0, 1]);
/// let answer = blank(&mut sheet, 2, Cipher::Present80, 2, &sealing_key, &checking_key);
/// assert_eq!(answer, Err(Refusal::OtherKeyClass));
///
/// let mut window = [0; FIELD];
/// let answer = read(&sealing_key, &checking_key, &sheet, 0, &mut window);
/// assert_eq!(answer, Err(Refusal::Blank));
/// let answer = read(&sealing_key, &[3; 8], &sheet, 0, &mut window);
/// assert_eq!(answer, Err(Refusal::OtherKeys));
/// # Ok::<(), Refusal>(())
/// ```
pub fn blank(
    sheet: &mut [u8],
    slots: usize,
    cipher: impl Class,
    serial: u16,
    sealing_key: &[u8],
    checking_key: &[u8],
) -> Result<(), Refusal> {
    let class = cipher.number();
    let answer = library::blank(sheet, slots, class, serial, sealing_key, checking_key);
    done(answer)
}

/// Writes a caption of 0 to 192 bytes into a slot, counted from 0, in place of
/// what the slot held. One pair of keys serves a sheet: one of edition 3 refuses
/// every pair with another mark ([`blank`]). One of edition 1 or 2 has no key
/// mark: there another pair of the right length writes, and which pair a slot was
/// written with is for the caller to know.
///
/// A caption is UTF-8 of RFC 3629, of whole letters: no overlong forms, no
/// surrogates, nothing above U+10FFFF. The bytes of any `str` are, but a text that is
/// cut at 192 bytes can end inside a letter. No other function tests the text: what
/// an earlier version wrote is read as it is.
///
/// # Errors
///
/// In the order of the tests: [`Refusal::WrongKey`], [`Refusal::TwinKeys`],
/// [`Refusal::UnfitSheet`], [`Refusal::OtherKeyClass`], [`Refusal::OtherKeys`],
/// [`Refusal::NoSuchSlot`], [`Refusal::Overlong`], [`Refusal::BrokenText`] and
/// [`Refusal::Worn`]; `sheet` is then as it was.
///
/// ```
/// use captions::{blank, list, sheet_len, write, Refusal};
///
/// let (sealing_key, checking_key) = ([1; 12], [2; 12]);
/// let mut sheet = vec![0; sheet_len(1)];
/// blank(&mut sheet, 1, 6, 1, &sealing_key, &checking_key)?;
/// write(&sealing_key, &checking_key, &mut sheet, 0, b"Clock")?;
/// write(&sealing_key, &checking_key, &mut sheet, 0, b"Clock, 1790")?;
/// assert_eq!(list(&sheet), b"slots 1 key 96 last 2\n0 written 2 11\n");
/// let overlong = [b'x'; 193];
/// let answer = write(&sealing_key, &checking_key, &mut sheet, 0, &overlong);
/// assert_eq!(answer, Err(Refusal::Overlong));
/// let answer = write(&checking_key, &sealing_key, &mut sheet, 0, b"Clock");
/// assert_eq!(answer, Err(Refusal::OtherKeys));
/// # Ok::<(), Refusal>(())
/// ```
pub fn write(
    sealing_key: &[u8],
    checking_key: &[u8],
    sheet: &mut [u8],
    slot: usize,
    caption: &[u8],
) -> Result<(), Refusal> {
    let answer = library::write(sealing_key, checking_key, sheet, slot, caption);
    match pointed(answer, sheet) {
        Ok(_) => Ok(()),
        // The answer doesn't say where the text breaks, but the text is here.
        Err(Refusal::BrokenText(_)) => Err(Refusal::BrokenText(Break::of_broken(caption))),
        Err(refusal) => Err(refusal),
    }
}

/// Where a text of any length breaks: the first byte, from 0, at which no well-formed
/// text can go on, or the length where there is none. That is so of a well-formed
/// text, and also of one whose last letter is cut off.
///
/// ```
/// use captions::broken_at;
///
/// assert_eq!(broken_at("Café.".as_bytes()), 6);
/// assert_eq!(broken_at(b"Caf\xc3"), 4);
/// assert_eq!(broken_at(b"Caf\xc3."), 4);
/// assert_eq!(broken_at(b"Caf\xff"), 3);
/// ```
pub fn broken_at(text: &[u8]) -> usize {
    library::broken_at(text)
}

/// Makes a slot blank; a blank one stays blank. It takes no keys, so anybody's
/// clear is done.
///
/// # Errors
///
/// [`Refusal::UnfitSheet`] and [`Refusal::NoSuchSlot`]; `sheet` is then as it
/// was.
///
/// ```
/// use captions::{blank, clear, list, sheet_len, write, Refusal};
///
/// let mut sheet = vec![0; sheet_len(1)];
/// blank(&mut sheet, 1, 4, 1, &[1; 8], &[2; 8])?;
/// write(&[1; 8], &[2; 8], &mut sheet, 0, b"Clock")?;
/// clear(&mut sheet, 0)?;
/// assert_eq!(list(&sheet), b"slots 1 key 64 last 1\n0 blank\n");
/// assert_eq!(clear(&mut sheet, 1), Err(Refusal::NoSuchSlot));
/// # Ok::<(), Refusal>(())
/// ```
pub fn clear(sheet: &mut [u8], slot: usize) -> Result<(), Refusal> {
    // The answer to a clear names no rule, but the sheet is as it was.
    done(library::clear(sheet, slot)).map_err(|refusal| match refusal {
        Refusal::UnfitSheet(Fault::Unnamed) => {
            first_fault(sheet).map_or(refusal, Refusal::UnfitSheet)
        }
        other => other,
    })
}

/// The rule that a sheet breaks first; none if it is fit. It takes no keys: a
/// sheet is tested before the keys' length is held against it.
///
/// ```
/// use captions::{first_fault, Fault};
///
/// assert_eq!(first_fault(b"tag"), Some(Fault::Short { bytes: 3 }));
/// ```
pub fn first_fault(sheet: &[u8]) -> Option<Fault> {
    // Any two unlike keys will do.
    let answer = library::read(&[0; 8], &[1; 8], sheet, 0, &mut [0; FIELD]);
    match pointed(answer, sheet) {
        Err(Refusal::UnfitSheet(fault)) => Some(fault),
        _ => None,
    }
}

/// Reads a slot: the window, [`FIELD`] bytes, gets the caption and then zero
/// bytes. Gives the caption's length.
///
/// # Errors
///
/// In the order of the tests: [`Refusal::WrongKey`], [`Refusal::TwinKeys`],
/// [`Refusal::WrongSpan`], [`Refusal::UnfitSheet`], [`Refusal::OtherKeyClass`],
/// [`Refusal::OtherKeys`], [`Refusal::NoSuchSlot`], [`Refusal::Blank`] and
/// [`Refusal::Altered`]; every byte of the window is then zero, whatever its
/// length.
///
/// ```
/// use captions::{blank, read, sheet_len, write, Refusal, FIELD};
///
/// let mut sheet = vec![0; sheet_len(2)];
/// blank(&mut sheet, 2, 4, 1, &[1; 8], &[2; 8])?;
/// write(&[1; 8], &[2; 8], &mut sheet, 0, b"Clock")?;
/// let mut window = [0xff; FIELD];
/// let length = read(&[1; 8], &[2; 8], &sheet, 0, &mut window)?;
/// assert_eq!(&window[..length], b"Clock");
/// assert_eq!(read(&[1; 8], &[2; 8], &sheet, 1, &mut window), Err(Refusal::Blank));
/// assert_eq!(window, [0; FIELD]);
/// let refusal = read(&[1; 8], &[3; 8], &sheet, 0, &mut window).unwrap_err();
/// assert_eq!(refusal.to_string(), "other keys");
/// sheet[100] ^= 1;
/// let refusal = read(&[1; 8], &[2; 8], &sheet, 0, &mut window).unwrap_err();
/// assert_eq!(refusal.to_string(), "altered: the check differs");
/// # Ok::<(), Refusal>(())
/// ```
pub fn read(
    sealing_key: &[u8],
    checking_key: &[u8],
    sheet: &[u8],
    slot: usize,
    window: &mut [u8],
) -> Result<usize, Refusal> {
    let answer = library::read(sealing_key, checking_key, sheet, slot, window);
    pointed(answer, sheet).map(usize::from)
}

/// Reads a slot as [`read`] does, if the slot is on show on a day by the term
/// sheet, [`terms_len`] bytes for the sheet's slots. Gives the caption's length.
///
/// # Errors
///
/// In the order of the tests: [`Refusal::WrongKey`], [`Refusal::TwinKeys`],
/// [`Refusal::WrongSpan`], [`Refusal::UnfitSheet`] (the sheet, then the term
/// sheet), [`Refusal::OtherKeyClass`], [`Refusal::NoSuchDate`],
/// [`Refusal::OtherKeys`], [`Refusal::NoSuchSlot`], [`Refusal::Blank`],
/// [`Refusal::NotOnShow`] and [`Refusal::Altered`]; every byte of the window is
/// then zero, whatever its length.
///
/// ```
/// use captions::{blank, dated_read, day_of_date, sheet_len, write, Refusal, FIELD};
///
/// let mut sheet = vec![0; sheet_len(1)];
/// blank(&mut sheet, 1, 4, 1, &[1; 8], &[2; 8])?;
/// write(&[1; 8], &[2; 8], &mut sheet, 0, b"Clock")?;
/// let (opening, closing) = (day_of_date(2026, 5, 1)?, day_of_date(2026, 10, 31)?);
/// let terms = [1, opening, closing].map(u16::to_be_bytes).concat();
///
/// let mut window = [0xff; FIELD];
/// let mut on = |day: u16| {
///     dated_read(&[1; 8], &[2; 8], &sheet, &terms, 0, day.into(), &mut window)
/// };
/// assert_eq!(on(opening), Ok(5));
/// assert_eq!(on(closing), Ok(5));
/// assert_eq!(on(closing + 1), Err(Refusal::NotOnShow));
/// assert_eq!(window, [0; FIELD]);
/// # Ok::<(), Refusal>(())
/// ```
pub fn dated_read(
    sealing_key: &[u8],
    checking_key: &[u8],
    sheet: &[u8],
    terms: &[u8],
    slot: usize,
    day: usize,
    window: &mut [u8],
) -> Result<usize, Refusal> {
    let answer = library::dated_read(sealing_key, checking_key, sheet, terms, slot, day, window);
    pointed(answer, sheet).map(usize::from)
}

/// The day of a date of the Gregorian calendar, from 2000-01-01, day 0, to
/// 2099-12-31, [`LAST_DAY`].
///
/// # Errors
///
/// [`Refusal::NoSuchDate`].
///
/// ```
/// use captions::{day_of_date, Refusal, LAST_DAY};
///
/// assert_eq!(day_of_date(2000, 1, 1), Ok(0));
/// assert_eq!(day_of_date(2099, 12, 31), Ok(LAST_DAY));
/// assert_eq!(day_of_date(2026, 2, 29), Err(Refusal::NoSuchDate));
/// ```
pub fn day_of_date(year: usize, month: usize, day: usize) -> Result<u16, Refusal> {
    let answer = library::day_of_date(year, month, day);
    unless_refused(answer.number, answer.day)
}

/// The date of a day from 0 to [`LAST_DAY`].
///
/// # Errors
///
/// [`Refusal::NoSuchDate`].
///
/// ```
/// use captions::{date_of_day, Refusal};
///
/// assert_eq!(date_of_day(9800)?.to_string(), "2026-10-31");
/// assert_eq!(date_of_day(36525), Err(Refusal::NoSuchDate));
/// # Ok::<(), Refusal>(())
/// ```
pub fn date_of_day(day: usize) -> Result<Date, Refusal> {
    let answer = library::date_of_day(day);
    let date = Date {
        year: answer.year,
        month: answer.month,
        day: answer.day,
    };
    unless_refused(answer.number, date)
}

/// The listing of a sheet: slot count, key bits and last write number, then a
/// line for each slot. An unfit sheet is listed as `unfit`.
///
/// ```
/// use captions::list;
///
/// let mut sheet = vec![0; 424];
/// sheet[..4].copy_from_slice(&[0, 2, 4, 1]);
/// assert_eq!(list(&sheet), b"slots 2 key 64 last 0\n0 blank\n1 blank\n");
/// assert_eq!(list(b"no sheet"), b"unfit\n");
/// ```
pub fn list(sheet: &[u8]) -> Vec<u8> {
    let mut listing = vec![0; LISTING];
    let length = library::list(sheet, &mut listing);
    listing.truncate(length);
    listing
}

/// What a call answers beside its number, or the refusal.
fn unless_refused<T>(number: u8, value: T) -> Result<T, Refusal> {
    match Refusal::of_number(number) {
        None => Ok(value),
        Some(refusal) => Err(refusal),
    }
}

/// The length that an accepted call on a sheet answers, or the refusal and the
/// rule that gave it.
fn pointed(answer: Pointed, sheet: &[u8]) -> Result<u16, Refusal> {
    match Refusal::of_pointed(&answer, sheet) {
        None => Ok(answer.length),
        Some(refusal) => Err(refusal),
    }
}

/// An accepted call that has no length to give, or the refusal.
fn done(answer: Answer) -> Result<(), Refusal> {
    unless_refused(answer.number, ())
}

/// A `match` outside the crate wants an arm for refusals that are still to come.
/// With it one compiles, and without it none does:
///
/// ```
/// use captions::{Change, Fault, Refusal};
///
/// fn of_change(change: Change) -> u8 {
///     match change {
///         Change::Check { .. } => 10,
///         Change::Byte { .. } => 11,
///         Change::Unnamed => 0,
///         _ => 255,
///     }
/// }
/// # let _ = (of_change, Fault::Terms, Refusal::Worn);
/// ```
///
/// ```compile_fail,E0004
/// use captions::Change;
///
/// fn of_change(change: Change) -> u8 {
///     match change {
///         Change::Check { .. } => 10,
///         Change::Byte { .. } => 11,
///         Change::Unnamed => 0,
///     }
/// }
/// ```
///
/// ```compile_fail,E0004
/// use captions::Fault;
///
/// fn of_fault(fault: Fault) -> u8 {
///     match fault {
///         Fault::Short { .. } => 1,
///         Fault::SlotCount { .. } => 2,
///         Fault::KeyWords { .. } => 3,
///         Fault::Edition { .. } => 4,
///         Fault::HeaderByte { .. } => 5,
///         Fault::Length { .. } => 6,
///         Fault::WriteNumber { .. } => 7,
///         Fault::CaptionLength { .. } => 8,
///         Fault::MarkByte { .. } => 9,
///         Fault::Terms => 12,
///         Fault::Unnamed => 0,
///     }
/// }
/// ```
///
/// ```compile_fail,E0004
/// use captions::Refusal::{self, *};
///
/// fn of_refusal(refusal: Refusal) -> u8 {
///     match refusal {
///         WrongKey | TwinKeys | WrongSpan | UnfitSheet(_) | OtherKeyClass => 1,
///         NoSuchSlot | Overlong | Worn | Blank | Altered(_) | NoSuchDate => 2,
///         NotOnShow | NoSuchRound | OtherKeys | BrokenText(_) | Other(_) => 3,
///     }
/// }
/// ```
///
/// ```compile_fail,E0004
/// use captions::BreakKind::{self, *};
///
/// fn of_kind(kind: BreakKind) -> u8 {
///     match kind {
///         CutOffAtEnd | CutOff | Continuation | OverlongForm => 1,
///         Surrogate | TooHigh | NoLetter | Unnamed => 2,
///     }
/// }
/// ```
///
/// ```compile_fail,E0004
/// use captions::Cipher::{self, *};
///
/// fn of_cipher(cipher: Cipher) -> u8 {
///     match cipher {
///         Mcrypton64 | Mcrypton96 | Mcrypton128 => 1,
///         Present80 | Present128 => 2,
///     }
/// }
/// ```
#[cfg(doctest)]
struct MatchesWantOneArmMore;
