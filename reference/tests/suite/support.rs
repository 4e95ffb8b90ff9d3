//! Short ways of calling the program.

use crate::broken::Numbers;
use crate::edition::Edition;
use crate::random::Random;
use reference::modes::cmac_with;
use reference::{Answer, Pointed};
use std::io::Write;

/// The classes of mCrypton, which every edition has.
pub const CLASSES: [usize; 3] = [4, 6, 8];
/// The classes of PRESENT, which edition 3 alone has.
pub const PRESENT_CLASSES: [usize; 2] = [21, 24];
/// All classes, which are edition 3's.
pub const ALL_CLASSES: [usize; 5] = [4, 6, 8, 21, 24];

/// The classes of an edition.
pub fn classes_of(edition: Edition) -> &'static [usize] {
    match edition {
        Edition::One | Edition::Two(_) => &CLASSES,
        Edition::Three(_) => &ALL_CLASSES,
    }
}

/// Every edition with every class it has.
pub fn kinds() -> impl Iterator<Item = (Edition, usize)> {
    let with_classes = |edition| classes_of(edition).iter().map(move |t| (edition, *t));
    Edition::ALL.into_iter().flat_map(with_classes)
}

/// The key bytes of a class, or 0 if there is no such class.
pub fn key_bytes(t: usize) -> usize {
    match t {
        4 => 8,
        6 => 12,
        8 | 24 => 16,
        21 => 10,
        _ => 0,
    }
}

/// A class whose key bytes aren't these; `way` chooses.
pub fn class_without(bytes: usize, way: usize) -> usize {
    let mut classes = ALL_CLASSES.to_vec();
    classes.retain(|t| key_bytes(*t) != bytes);
    classes[way % classes.len()]
}

/// Prints a line also where the test harness keeps back what a passing test
/// prints.
pub fn report(line: &str) {
    let mut out = std::io::stdout().lock();
    writeln!(out, "{line}").unwrap();
}

/// A value of byte 3 that is no edition's.
pub const UNKNOWN_EDITION: u8 = Edition::BLANKED.number() + 1;

/// Bytes of hex digits; blanks don't count.
pub fn hex(digits: &str) -> Vec<u8> {
    let digits: Vec<u32> = digits.chars().filter_map(|c| c.to_digit(16)).collect();
    digits
        .chunks(2)
        .map(|pair| (16 * pair[0] + pair[1]) as u8)
        .collect()
}

pub fn hex_block(digits: &str) -> [u8; 8] {
    hex(digits).try_into().unwrap()
}

/// Key bytes of key words.
pub fn key_of_words(words: &[u16]) -> Vec<u8> {
    words.iter().flat_map(|word| word.to_be_bytes()).collect()
}

pub fn accepted(length: u16) -> Answer {
    Answer { number: 0, length }
}

pub fn refused(number: u8) -> Answer {
    Answer { number, length: 0 }
}

/// An answer with its rule, slot and place.
pub fn pointed(answer: Answer, (rule, slot, place): Numbers) -> Pointed {
    let Answer { number, length } = answer;
    Pointed {
        number,
        rule,
        length,
        slot,
        place,
    }
}

/// The number and length of an answer, of which 4 and 10 point and no other.
pub fn unpointed(pointed: Pointed) -> Answer {
    let points = [4, 10].contains(&pointed.number);
    assert_eq!(pointed.rule != 0, points, "{pointed:?}");
    assert!(points || (pointed.slot, pointed.place) == (0, 0));
    pointed.answer()
}

pub fn encrypt(key: &[u8], block: [u8; 8]) -> [u8; 8] {
    let mut out = [0; 8];
    assert_eq!(reference::encrypt_block(key, &block, &mut out), accepted(0));
    out
}

pub fn decrypt(key: &[u8], block: [u8; 8]) -> [u8; 8] {
    let mut out = [0; 8];
    assert_eq!(reference::decrypt_block(key, &block, &mut out), accepted(0));
    out
}

pub fn cmac(key: &[u8], message: &[u8]) -> [u8; 8] {
    let mut out = [0; 8];
    assert_eq!(reference::cmac(key, message, &mut out), accepted(0));
    out
}

/// One block sealed with the cipher of a class.
pub fn encrypt_in(t: usize, key: &[u8], block: [u8; 8]) -> [u8; 8] {
    if CLASSES.contains(&t) {
        return encrypt(key, block);
    }
    let mut out = [0; 8];
    let answer = reference::present_encrypt_block(key, &block, &mut out);
    assert_eq!(answer, accepted(0));
    out
}

/// One block opened with the cipher of a class.
pub fn decrypt_in(t: usize, key: &[u8], block: [u8; 8]) -> [u8; 8] {
    if CLASSES.contains(&t) {
        return decrypt(key, block);
    }
    let mut out = [0; 8];
    let answer = reference::present_decrypt_block(key, &block, &mut out);
    assert_eq!(answer, accepted(0));
    out
}

/// CMAC with the cipher of a class.
pub fn cmac_in(t: usize, key: &[u8], message: &[u8]) -> [u8; 8] {
    if CLASSES.contains(&t) {
        return cmac(key, message);
    }
    cmac_with(&|block| encrypt_in(t, key, block), message)
}

/// Two unlike keys of a class.
pub fn unlike(random: &mut Random, t: usize) -> (Vec<u8>, Vec<u8>) {
    let sealing = random.bytes(key_bytes(t));
    let mut checking = random.bytes(key_bytes(t));
    if checking == sealing {
        checking[0] ^= 1;
    }
    (sealing, checking)
}

/// The key mark by the paper: the block sealed, its CMAC, six bytes of that.
pub fn mark_of_block(t: usize, keys: &(Vec<u8>, Vec<u8>), block: [u8; 8]) -> [u8; 6] {
    let mac = cmac_in(t, &keys.1, &encrypt_in(t, &keys.0, block));
    mac[..6].try_into().unwrap()
}

/// Makes a sheet the keys' own: puts in their key mark where it is of edition 3
/// and they are of its class.
pub fn put_mark(sheet: &mut [u8], keys: &(Vec<u8>, Vec<u8>)) {
    let t = usize::from(sheet[2]);
    if sheet[3] == 3 && key_bytes(t) == keys.0.len() {
        let block = [sheet[0], sheet[1], sheet[2], 3, sheet[8], sheet[9], 0, 0];
        sheet[10..16].copy_from_slice(&mark_of_block(t, keys, block));
    }
}

/// A blank sheet that is the keys' own, if they are of its class.
pub fn blank_for(edition: Edition, keys: &(Vec<u8>, Vec<u8>), n: usize, t: usize) -> Vec<u8> {
    let mut sheet = edition.blank_sheet(n, t);
    put_mark(&mut sheet, keys);
    sheet
}

pub fn set_w(sheet: &mut [u8], w: u32) {
    sheet[4..8].copy_from_slice(&w.to_be_bytes());
}

pub fn w_of(sheet: &[u8]) -> u32 {
    u32::from_be_bytes(sheet[4..8].try_into().unwrap())
}

/// A read with a window of 192 bytes.
pub fn read(keys: &(Vec<u8>, Vec<u8>), sheet: &[u8], slot: usize) -> (Answer, [u8; 192]) {
    let mut window = [0x5a; 192];
    let answer = reference::read(&keys.0, &keys.1, sheet, slot, &mut window);
    (unpointed(answer), window)
}

/// A dated read with a window of 192 bytes.
pub fn dated_read(
    keys: &(Vec<u8>, Vec<u8>),
    sheet: &[u8],
    terms: &[u8],
    slot: usize,
    day: usize,
) -> (Answer, [u8; 192]) {
    let mut window = [0x5a; 192];
    let answer = reference::dated_read(&keys.0, &keys.1, sheet, terms, slot, day, &mut window);
    (unpointed(answer), window)
}

pub fn write(keys: &(Vec<u8>, Vec<u8>), sheet: &mut [u8], slot: usize, caption: &[u8]) -> Answer {
    unpointed(reference::write(&keys.0, &keys.1, sheet, slot, caption))
}

/// A window that shows a caption.
pub fn shown(caption: &[u8]) -> [u8; 192] {
    let mut window = [0; 192];
    window[..caption.len()].copy_from_slice(caption);
    window
}
