//! The vectors that the program prints, one function for each command.

use crate::bench::{array_after, bench_block};
use crate::cipher::{decrypt_block, encrypt, encrypt_block, opening_key, sealing_key};
use crate::cipher::{Block, Register};
use crate::class::{key_bytes, SheetCipher};
use crate::keys::mark_block;
use crate::modes::{cbc_decrypt, cbc_encrypt, cmac, cmac_steps};
use crate::panel::panel;
use crate::present;
use crate::sheet::Edition;
use crate::terms::dated_read;
use crate::text::{breaks_at, encode, well_formed};
use crate::{blank, cipher, clear, key_mark, listing, read, write, Answer, Pointed};

/// The values of t that mean mCrypton.
const CLASSES: [usize; 3] = [4, 6, 8];
/// The values of t that mean PRESENT, which edition 3 alone has.
const PRESENT_CLASSES: [usize; 2] = [21, 24];

/// Byte i is (step × i + start) modulo 256.
fn ramp(step: usize, start: usize, length: usize) -> Vec<u8> {
    (0..length)
        .map(|i| ((step * i + start) % 256) as u8)
        .collect()
}

/// The key of a class with number s.
fn key(t: usize, s: usize) -> Vec<u8> {
    key_of_length(key_bytes(t).unwrap_or(0), s)
}

/// The key of a length with number s, be it a wrong one.
fn key_of_length(length: usize, s: usize) -> Vec<u8> {
    ramp(29, 71 * s + 13, length)
}

/// The text of a length with number s.
fn text(s: usize, length: usize) -> Vec<u8> {
    ramp(53, 31 * s + 7, length)
}

/// The caption of a length with number s: characters from space to tilde, so
/// that it is well formed at every length.
fn caption(s: usize, length: usize) -> Vec<u8> {
    (0..length)
        .map(|i| (32 + (53 * i + 31 * s + 7) % 95) as u8)
        .collect()
}

/// Lower-case hex.
fn hex(bytes: &[u8]) -> String {
    bytes.iter().map(|byte| format!("{byte:02x}")).collect()
}

/// Lower-case hex, or "-" for no bytes.
fn hex_or_dash(bytes: &[u8]) -> String {
    if bytes.is_empty() {
        "-".to_string()
    } else {
        hex(bytes)
    }
}

/// The bytes of hex digits in either case; none where there is anything else
/// or half a byte.
fn bytes_of_hex(digits: &str) -> Option<Vec<u8>> {
    let nibble = |digit: char| digit.to_digit(16).map(|value| value as u8);
    let nibbles: Vec<u8> = digits.chars().map(nibble).collect::<Option<_>>()?;
    let (pairs, rest) = nibbles.as_chunks::<2>();
    let bytes = pairs.iter().map(|[high, low]| high << 4 | low);
    rest.is_empty().then(|| bytes.collect())
}

/// Key, block, encrypted block, decrypted block.
pub fn blocks() -> String {
    let mut lines = String::new();
    for t in CLASSES {
        for s in 0..16 {
            let key = key(t, s);
            let block = text(s, 8);
            let mut encrypted = [0; 8];
            let mut decrypted = [0; 8];
            encrypt_block(&key, &block, &mut encrypted);
            decrypt_block(&key, &block, &mut decrypted);
            lines += &format!(
                "{} {} {} {}\n",
                hex(&key),
                hex(&block),
                hex(&encrypted),
                hex(&decrypted)
            );
        }
    }
    lines
}

/// A call on one block: key, block, output.
type BlockCall = fn(&[u8], &[u8], &mut [u8]) -> Answer;

/// PRESENT's block calls.
const PRESENT_CALLS: [(&str, BlockCall); 2] = [
    ("seal", present::encrypt_block),
    ("open", present::decrypt_block),
];

/// "seal" or "open", key, block, length of the output, number, the output after
/// the call, which was ff in every byte before it.
pub fn present() -> String {
    let mut lines = String::new();
    for length in 7..=17 {
        // Most with the lengths that PRESENT has.
        let keys = if length == 10 || length == 16 { 32 } else { 2 };
        for s in 0..keys {
            let key = key_of_length(length, s);
            for block in [0, 7, 8, 9, 16].map(|length| text(s, length)) {
                for out_length in [0, 7, 8, 9, 16] {
                    for (name, call) in PRESENT_CALLS {
                        lines += &block_call_line(name, call, &key, &block, out_length);
                    }
                }
            }
        }
    }
    lines
}

fn block_call_line(
    name: &str,
    call: BlockCall,
    key: &[u8],
    block: &[u8],
    out_length: usize,
) -> String {
    let mut out = vec![0xff; out_length];
    let number = call(key, block, &mut out).number;
    let (key, block, out) = (hex(key), hex_or_dash(block), hex_or_dash(&out));
    format!("{name} {key} {block} {out_length} {number} {out}\n")
}

/// t, r, four sealing key words, four opening key words.
pub fn keys() -> String {
    let mut lines = String::new();
    for t in CLASSES {
        let key = key(t, 1);
        for r in 0..=cipher::ROUNDS {
            lines += &format!("{t} {r}");
            for word in sealing_key(&key, r).iter().flatten() {
                lines += &format!(" {word:04x}");
            }
            for word in opening_key(&key, r).iter().flatten() {
                lines += &format!(" {word:04x}");
            }
            lines += "\n";
        }
    }
    lines
}

/// t, r, key, wanted array after round r, the block that leads there.
pub fn bench() -> String {
    let mut lines = String::new();
    for t in CLASSES {
        for r in 0..=cipher::ROUNDS {
            let key = key(t, r);
            let wanted = text(r, 8);
            let mut block = [0; 8];
            bench_block(&key, r, &wanted, &mut block);
            lines += &format!("{t} {r} {} {} {}\n", hex(&key), hex(&wanted), hex(&block));
        }
    }
    lines
}

/// r and the array after round r, for a key and a block in hex digits; none
/// unless they are a key's and a block's.
pub fn rounds(key: &str, block: &str) -> Option<String> {
    let key = bytes_of_hex(key)?;
    let block = bytes_of_hex(block)?;
    let mut lines = String::new();
    for r in 0..=cipher::ROUNDS {
        lines += &format!("{r} {}\n", hex(&array_after(&key, &block, r)?));
    }
    Some(lines)
}

/// t, length, CMAC.
pub fn cmacs() -> String {
    let mut lines = String::new();
    for t in CLASSES {
        for length in [0, 1, 7, 8, 9, 15, 16, 17, 24, 200] {
            let mut mac = [0; 8];
            cmac(&key(t, length), &text(length, length), &mut mac);
            lines += &format!("{t} {length} {}\n", hex(&mac));
        }
    }
    lines
}

/// t, length, name, value, for each value that CMAC names.
pub fn steps() -> String {
    let mut lines = String::new();
    for t in CLASSES {
        for length in [0, 1, 7, 8, 9, 16, 200, 300] {
            for (name, value) in named_steps(&key(t, length), &text(length, length)) {
                lines += &format!("{t} {length} {name} {}\n", hex(&value));
            }
        }
    }
    lines
}

/// L, K1, K2, C0 to the last C, and T, which is the answer of the call `cmac`.
fn named_steps(key: &[u8], message: &[u8]) -> Vec<(String, Block)> {
    let mut mac = [0; 8];
    cmac(key, message, &mut mac);
    let Some(key) = Register::of_key(key) else {
        return Vec::new();
    };
    let steps = cmac_steps(&|block| encrypt(key, block), message);
    let mut named = vec![
        ("L".to_string(), steps.l),
        ("K1".to_string(), steps.k1),
        ("K2".to_string(), steps.k2),
    ];
    for (i, c_i) in steps.chain.iter().enumerate() {
        named.push((format!("C{i}"), *c_i));
    }
    named.push(("T".to_string(), mac));
    named
}

/// t, number of blocks, encrypted text, decrypted text.
pub fn cbc() -> String {
    let mut lines = String::new();
    for t in CLASSES {
        for n in [0, 1, 2, 3, 24] {
            let text = text(n, 8 * n);
            let (encrypted, decrypted) = cbc_both_ways(&key(t, n), n, &text);
            lines += &format!(
                "{t} {n} {} {}\n",
                hex_or_dash(&encrypted),
                hex_or_dash(&decrypted)
            );
        }
    }
    lines
}

/// A text encrypted, and the same text decrypted, from start block number n.
fn cbc_both_ways(key: &[u8], n: usize, text: &[u8]) -> (Vec<u8>, Vec<u8>) {
    let Some(key) = Register::of_key(key) else {
        return (Vec::new(), Vec::new());
    };
    let start = std::array::from_fn(|i| ((17 * i + n) % 256) as u8);
    let blocks = text.as_chunks::<8>().0;
    let encrypted = cbc_encrypt(&|block| encrypt(key, block), start, blocks);
    let decrypted = cbc_decrypt(&|block| cipher::decrypt(key, block), start, blocks);
    (encrypted.concat(), decrypted.concat())
}

/// The lengths of the panels.
const PANEL_LENGTHS: [usize; 18] = [
    0, 1, 7, 8, 9, 11, 16, 17, 31, 32, 33, 63, 64, 65, 191, 192, 193, 300,
];

/// t, first counter, length, sealed panel.
pub fn panels() -> String {
    let last = u64::MAX;
    let mut lines = String::new();
    for t in CLASSES {
        for first in [0, 1, (1 << 32) - 1, last - 8191, last - 1, last] {
            for length in PANEL_LENGTHS {
                let mut sealed = vec![0; length];
                panel(&key(t, t), first, &text(length, length), &mut sealed);
                lines += &format!("{t} {first:016x} {length} {}\n", hex_or_dash(&sealed));
            }
        }
    }
    lines
}

/// The key and the first counter in hex digits; none unless they are a key's
/// and a block's.
pub fn panel_operands(key: &str, first: &str) -> Option<(Vec<u8>, u64)> {
    let key = bytes_of_hex(key)?;
    let first = Block::try_from(bytes_of_hex(first)?).ok()?;
    Register::of_key(&key).map(|_| (key, u64::from_be_bytes(first)))
}

/// t, n, serial, sealing key, checking key, sealed block, CMAC of it, key mark.
pub fn marks() -> String {
    let mut lines = String::new();
    for t in CLASSES.into_iter().chain(PRESENT_CLASSES) {
        for n in [1, 2, 255, 256] {
            for serial in [0, 1, 256, list_serial(t), 65535] {
                lines += &mark_line(t, n, serial);
            }
        }
    }
    lines
}

/// The values of a key mark, with the cipher of the class.
fn mark_line(t: usize, n: usize, serial: u16) -> String {
    let (sealing, checking) = list_keys(t);
    let cipher = |key: &[u8]| SheetCipher::of_class(t, key);
    let (Some(sealer), Some(checker)) = (cipher(&sealing), cipher(&checking)) else {
        return String::new();
    };
    let sealed = sealer.encrypt(mark_block(n, t, serial.to_be_bytes()));
    let mac = checker.cmac(&sealed);
    let mark = key_mark(n, t, serial, &sealing, &checking).unwrap_or_default();
    let values = [&sealing[..], &checking, &sealed, &mac, &mark].map(hex);
    format!("{t} {n} {serial} {}\n", values.join(" "))
}

/// The pair of keys of a list of calls.
fn list_keys(t: usize) -> (Vec<u8>, Vec<u8>) {
    (key(t, t), key(t, t + 1))
}

/// The serial of a sheet of a list of calls, 0x5a00 + t.
fn list_serial(t: usize) -> u16 {
    0x5a00 + t as u16
}

/// A list of calls on a sheet of three slots, for each t of mCrypton: on a blanked
/// one, then on an edition 2 sheet, then on an edition 1 sheet. Then on a blanked
/// one for each t of PRESENT.
pub fn sheet() -> String {
    let mcrypton = CLASSES.map(|t| {
        on_blanked_sheet(t) + &on_old_sheet(Edition::Two, t) + &on_old_sheet(Edition::One, t)
    });
    mcrypton.concat() + &PRESENT_CLASSES.map(on_blanked_sheet).concat()
}

/// The list on a blanked sheet.
fn on_blanked_sheet(t: usize) -> String {
    let (answer, sheet) = blanked_sheet(t);
    list_of_calls(t, "blank", answer, sheet)
}

/// The list on a blank sheet of edition 1 or 2.
fn on_old_sheet(edition: Edition, t: usize) -> String {
    list_of_calls(t, "old", Answer::accepted(0), old_sheet(edition, t))
}

/// A sheet of three slots, blanked with the pair of the list.
fn blanked_sheet(t: usize) -> (Answer, Vec<u8>) {
    let (sealing, checking) = list_keys(t);
    let mut sheet = vec![0xff; Edition::BLANKED.sheet_length(3)];
    let answer = blank(&mut sheet, 3, t, list_serial(t), &sealing, &checking);
    (answer, sheet)
}

/// A blank sheet of three slots of edition 1 or 2, which no call makes.
fn old_sheet(edition: Edition, t: usize) -> Vec<u8> {
    let mut sheet = vec![0; edition.sheet_length(3)];
    sheet[0..4].copy_from_slice(&[0, 3, t as u8, edition.number()]);
    if let Edition::Two = edition {
        sheet[8..10].copy_from_slice(&list_serial(t).to_be_bytes());
    }
    sheet
}

/// The list, after a line that says where the sheet comes from.
fn list_of_calls(t: usize, origin: &str, answer: Answer, mut sheet: Vec<u8>) -> String {
    let (sealing, checking) = list_keys(t);
    let mut lines = call_line(origin, answer, &checking, &sheet);
    lines += &accepted_writes(&sealing, &checking, &mut sheet);
    let answer = clear(&mut sheet, 0);
    lines += &call_line("clear", answer, &checking, &sheet);
    lines += &read_line(&sealing, &checking, &sheet, 0);
    lines += &refused_writes(&sealing, &checking, &mut sheet);
    lines += &twin_writes(&sealing, &checking, &mut sheet);
    for slot in 0..=3 {
        lines += &read_line(&sealing, &checking, &sheet, slot);
    }
    lines += &read_line(&sealing, &sealing, &sheet, 1);
    lines + &listing::text(&sheet)
}

/// Writes of the empty caption, two long ones and one in a written slot.
fn accepted_writes(sealing_key: &[u8], checking_key: &[u8], sheet: &mut [u8]) -> String {
    let seventeen = caption(0, 17);
    let longest = caption(1, 192);
    let writes: [(usize, &[u8]); 4] = [(0, b""), (1, &seventeen), (2, &longest), (1, b"abc")];
    write_lines(sealing_key, checking_key, sheet, &writes)
}

/// A write past the last slot and one of an overlong caption.
fn refused_writes(sealing_key: &[u8], checking_key: &[u8], sheet: &mut [u8]) -> String {
    let overlong = caption(1, 193);
    let writes: [(usize, &[u8]); 2] = [(3, b"abc"), (2, &overlong)];
    write_lines(sealing_key, checking_key, sheet, &writes)
}

/// Writes with a pair of keys.
fn write_lines(
    sealing_key: &[u8],
    checking_key: &[u8],
    sheet: &mut [u8],
    writes: &[(usize, &[u8])],
) -> String {
    let mut lines = String::new();
    for (slot, caption) in writes {
        let answer = write(sealing_key, checking_key, sheet, *slot, caption).answer();
        lines += &call_line("write", answer, checking_key, sheet);
    }
    lines
}

/// A write with the sealing key for both keys, which is refused, and one with a
/// near twin of it for the checking key, which edition 3 refuses and the older
/// editions accept. The lines keep to the list's own checking key.
fn twin_writes(sealing_key: &[u8], checking_key: &[u8], sheet: &mut [u8]) -> String {
    let mut lines = String::new();
    for second_key in [sealing_key.to_vec(), near_twin(sealing_key)] {
        let answer = write(sealing_key, &second_key, sheet, 0, b"abc").answer();
        lines += &call_line("write", answer, checking_key, sheet);
    }
    lines
}

/// The key with the lowest bit of its first byte flipped.
fn near_twin(key: &[u8]) -> Vec<u8> {
    let mut twin = key.to_vec();
    if let Some(first) = twin.first_mut() {
        *first ^= 1;
    }
    twin
}

/// "read", slot, number, length, window.
fn read_line(sealing_key: &[u8], checking_key: &[u8], sheet: &[u8], slot: usize) -> String {
    let mut window = [0xff; 192];
    let answer = read(sealing_key, checking_key, sheet, slot, &mut window);
    let Answer { number, length } = answer.answer();
    format!("read {slot} {number} {length} {}\n", hex(&window))
}

/// Call, number, length, CMAC of the whole sheet under the checking key. The call
/// `cmac` is mCrypton's, so of a PRESENT key it gets the first eight bytes.
fn call_line(call: &str, answer: Answer, checking_key: &[u8], sheet: &[u8]) -> String {
    let mut mac = [0; 8];
    let key = match sheet.get(2) {
        Some(21 | 24) => &checking_key[..8],
        _ => checking_key,
    };
    cmac(key, sheet, &mut mac);
    let Answer { number, length } = answer;
    format!("{call} {number} {length} {}\n", hex(&mac))
}

/// Every edition with every t it has, PRESENT's last.
fn kinds() -> Vec<(Edition, usize)> {
    let editions = [Edition::One, Edition::Two, Edition::Three].into_iter();
    let mcrypton = editions.flat_map(|edition| CLASSES.map(|t| (edition, t)));
    let present = PRESENT_CLASSES.map(|t| (Edition::Three, t));
    mcrypton.chain(present).collect()
}

/// For each edition and each t a sheet of three slots, then a line for each of
/// its bits.
pub fn faults() -> String {
    let reads = |(edition, t)| flipped_reads(edition, t);
    kinds().into_iter().map(reads).collect()
}

/// A sheet of three slots with a short caption, a blank slot and a long caption.
fn mixed_sheet(edition: Edition, t: usize) -> Vec<u8> {
    let (sealing, checking) = list_keys(t);
    let mut sheet = match edition {
        Edition::One | Edition::Two => old_sheet(edition, t),
        Edition::Three => blanked_sheet(t).1,
    };
    for (slot, length) in [(0, 5), (1, 17), (2, 192)] {
        write(
            &sealing,
            &checking,
            &mut sheet,
            slot,
            &caption(slot, length),
        );
    }
    clear(&mut sheet, 1);
    sheet
}

/// "sheet", edition, t, sealing key, checking key, the sheet.
fn sheet_fields(edition: Edition, t: usize, sheet: &[u8]) -> String {
    let (sealing, checking) = list_keys(t);
    let bytes = [&sealing, &checking, sheet].map(hex);
    format!("sheet {} {t} {}", edition.number(), bytes.join(" "))
}

/// The sheet; then byte, bit, number, rule, slot, place of a read of it with that
/// bit flipped.
fn flipped_reads(edition: Edition, t: usize) -> String {
    let (sealing, checking) = list_keys(t);
    let sheet = mixed_sheet(edition, t);
    let mut lines = sheet_fields(edition, t, &sheet) + "\n";
    for byte in 0..sheet.len() {
        for bit in 0..8 {
            let mut flipped = sheet.clone();
            flipped[byte] ^= 1 << bit;
            let slot = slot_of_byte(edition, byte);
            let pointed = read(&sealing, &checking, &flipped, slot, &mut [0; 192]);
            lines += &format!("{byte} {bit} {}\n", pointed_fields(pointed));
        }
    }
    lines
}

/// The slot, of three, in whose mark or field a byte lies; 0 for the header.
fn slot_of_byte(edition: Edition, byte: usize) -> usize {
    let has_byte = |slot: &usize| {
        edition.mark_place(*slot).contains(&byte) || edition.field_place(3, *slot).contains(&byte)
    };
    (0..3).find(has_byte).unwrap_or(0)
}

/// Number, rule, slot, place.
fn pointed_fields(pointed: Pointed) -> String {
    format!(
        "{} {} {} {}",
        pointed.number, pointed.rule, pointed.slot, pointed.place
    )
}

/// The term sheet of three slots: n, opening days, closing days. Slot 0 is on
/// show from 100 to 200, slot 1 always, slot 2 from 36000 on.
fn list_terms() -> Vec<u8> {
    let numbers: [u16; 7] = [3, 100, 0, 36000, 200, 36524, 36524];
    numbers.map(u16::to_be_bytes).concat()
}

/// Days about the ends of the terms and of the calendar.
const DAYS: [usize; 10] = [0, 99, 100, 150, 200, 201, 35999, 36000, 36524, 36525];

/// For each edition and each t a sheet of three slots and a term sheet, then a
/// line for each slot up to 3 and each day.
pub fn dated() -> String {
    let reads = |(edition, t)| dated_reads(edition, t);
    kinds().into_iter().map(reads).collect()
}

/// The sheet and the term sheet; then slot, day, number, rule, length, window of
/// a dated read.
fn dated_reads(edition: Edition, t: usize) -> String {
    let (sealing, checking) = list_keys(t);
    let sheet = mixed_sheet(edition, t);
    let terms = list_terms();
    let mut lines = sheet_fields(edition, t, &sheet) + &format!(" {}\n", hex(&terms));
    for slot in 0..=3 {
        for day in DAYS {
            let mut window = [0xff; 192];
            let read = dated_read(&sealing, &checking, &sheet, &terms, slot, day, &mut window);
            let (number, rule, length) = (read.number, read.rule, read.length);
            lines += &format!("{slot} {day} {number} {rule} {length} {}\n", hex(&window));
        }
    }
    lines
}

/// Byte 3, byte 2, key bytes, then number and rule of a read, a dated read and a
/// write, the number of a clear and the number of blanking with byte 2 as t.
pub fn classes() -> String {
    let mut lines = String::new();
    for byte_3 in [0, 1, 2, 3, 4, 255] {
        for byte_2 in 0..=255 {
            for length in 7..=17 {
                lines += &class_line(byte_3, byte_2, length);
            }
        }
    }
    lines
}

/// The calls on a blank sheet of one slot with keys of a length.
fn class_line(byte_3: u8, byte_2: u8, length: usize) -> String {
    let t = usize::from(byte_2);
    let sealing = key_of_length(length, t);
    let checking = key_of_length(length, t + 1);
    let sheet = class_sheet(byte_3, byte_2, &sealing, &checking);
    let terms = [0, 1, 0, 0, 0, 0];
    let mut window = [0; 192];
    let answers = [
        read(&sealing, &checking, &sheet, 0, &mut window),
        dated_read(&sealing, &checking, &sheet, &terms, 0, 0, &mut window),
        write(&sealing, &checking, &mut sheet.clone(), 0, b"abc"),
    ];
    let pointed = answers.map(|answer| format!("{} {}", answer.number, answer.rule));
    let cleared = clear(&mut sheet.clone(), 0).number;
    let blanked = blank(&mut [0; 224], 1, t, list_serial(t), &sealing, &checking).number;
    let answers = pointed.join(" ");
    format!("{byte_3} {byte_2} {length} {answers} {cleared} {blanked}\n")
}

/// A blank sheet of one slot, edition 1's 216 bytes long and all others 224, with
/// the pair's key mark in edition 3 if it has one.
fn class_sheet(byte_3: u8, byte_2: u8, sealing: &[u8], checking: &[u8]) -> Vec<u8> {
    let t = usize::from(byte_2);
    let serial = list_serial(t);
    let mut sheet = vec![0; if byte_3 == 1 { 216 } else { 224 }];
    sheet[0..4].copy_from_slice(&[0, 1, byte_2, byte_3]);
    if byte_3 != 1 {
        sheet[8..10].copy_from_slice(&serial.to_be_bytes());
    }
    if byte_3 == 3 {
        let mark = key_mark(1, t, serial, sealing, checking);
        sheet[10..16].copy_from_slice(&mark.unwrap_or_default());
    }
    sheet
}

/// The examples of RFC 3629, section 7.
const SECTION_7: [&str; 4] = [
    "41e289a2ce912e",
    "ed959ceab5adec96b4",
    "e697a5e69cace8aa9e",
    "efbbbff0a38eb4",
];

/// Character numbers on each side of each edge, and U+FEFF, which is a letter
/// anywhere. U+FFFE, U+FFFF and so on are noncharacters, and well formed.
const EDGE_NUMBERS: [u32; 29] = [
    0x0, 0x1, 0x7f, 0x80, 0xbf, 0xc0, 0x7ff, 0x800, 0xfff, 0x1000, 0xcfff, 0xd000, 0xd7ff, 0xe000,
    0xfdd0, 0xfeff, 0xfffd, 0xfffe, 0xffff, 0x10000, 0x1fffe, 0x1ffff, 0x3ffff, 0x40000, 0xfffff,
    0x100000, 0x10fffd, 0x10fffe, 0x10ffff,
];

/// Overlong forms, surrogates, numbers above U+10FFFF, the forms of five and six
/// octets that RFC 2279 had, and bytes that begin nothing.
const REFUSED: [&str; 31] = [
    "c080",
    "c0af",
    "c1bf",
    "e08080",
    "e080af",
    "e081bf",
    "e09fbf",
    "f0808080",
    "f08080af",
    "f080dfbf",
    "f0808fbf",
    "f08fbfbf",
    "eda080",
    "edafbf",
    "edb080",
    "edbfbf",
    "eda080edb080",
    "edafbfedbfbf",
    "f4908080",
    "f4bfbfbf",
    "f5808080",
    "f7bfbfbf",
    "f888808080",
    "fbbfbfbfbf",
    "fc8480808080",
    "fdbfbfbfbfbf",
    "feff",
    "fffe",
    "bf80",
    "c3a9a9",
    "f09d849e80",
];

/// First octets on each side of each edge, with how many octets they call for.
const EDGE_LEADS: [(u8, usize); 19] = [
    (0xc0, 2),
    (0xc1, 2),
    (0xc2, 2),
    (0xdf, 2),
    (0xe0, 3),
    (0xe1, 3),
    (0xec, 3),
    (0xed, 3),
    (0xee, 3),
    (0xef, 3),
    (0xf0, 4),
    (0xf1, 4),
    (0xf3, 4),
    (0xf4, 4),
    (0xf5, 4),
    (0xf7, 4),
    (0xf8, 5),
    (0xfc, 6),
    (0xff, 6),
];

/// Second octets on each side of each edge.
const EDGE_SECONDS: [u8; 10] = [0x00, 0x7f, 0x80, 0x8f, 0x90, 0x9f, 0xa0, 0xbf, 0xc0, 0xff];

/// What stands behind good characters, to end a text about its 192nd byte.
const ENDS: [&str; 21] = [
    "", "80", "bf", "c0", "c3", "e2", "f0", "f5", "ff", "c3a9", "c328", "e282", "eda0", "f09d",
    "e282ac", "e28228", "eda080", "f09d84", "f09d849e", "f09d8428", "f4908080",
];

/// Text (hex or "-"), 1 if it is well formed and 0 if not, the place at which it
/// breaks.
pub fn texts() -> String {
    let line = |text: &Vec<u8>| {
        let well = u8::from(well_formed(text));
        format!("{} {well} {}\n", hex_or_dash(text), breaks_at(text))
    };
    list_of_texts().iter().map(line).collect()
}

fn list_of_texts() -> Vec<Vec<u8>> {
    let of_hex = |digits: &&str| bytes_of_hex(digits).unwrap_or_default();
    let mut texts = vec![Vec::new()];
    texts.extend(SECTION_7.iter().map(of_hex));
    texts.extend(EDGE_NUMBERS.into_iter().flat_map(letter_and_cuts));
    texts.extend(REFUSED.iter().map(of_hex).flat_map(beginnings));
    texts.extend((0..=255).map(|byte| vec![byte]));
    texts.extend(EDGE_LEADS.into_iter().flat_map(with_each_second));
    texts.extend(ENDS.iter().map(of_hex).flat_map(about_192_bytes));
    texts
}

/// A letter; it cut short anywhere, at the end of a text and before a character.
fn letter_and_cuts(number: u32) -> Vec<Vec<u8>> {
    let letter = encode(number).unwrap_or_default();
    let cuts = (1..letter.len()).map(|length| letter[..length].to_vec());
    let ends = cuts.flat_map(|cut| [cut.clone(), [&cut[..], b"a"].concat()]);
    let mut texts: Vec<Vec<u8>> = ends.collect();
    texts.insert(0, letter);
    texts
}

/// The beginnings of a text, the whole text last.
fn beginnings(text: Vec<u8>) -> Vec<Vec<u8>> {
    (1..=text.len())
        .map(|length| text[..length].to_vec())
        .collect()
}

/// A first octet with each second one, and as many following ones as it wants.
fn with_each_second((lead, octets): (u8, usize)) -> Vec<Vec<u8>> {
    let whole = |second| [&[lead, second][..], &vec![0x80; octets - 2]].concat();
    EDGE_SECONDS.map(whole).to_vec()
}

/// An end behind good characters, in a text of 191, 192 and 193 bytes, then one
/// of 192 bytes that begins with it and one that has it in its middle.
fn about_192_bytes(end: Vec<u8>) -> Vec<Vec<u8>> {
    let good = |length: usize| caption(2, length - end.len());
    let (before, after) = (caption(3, 90), caption(4, 102 - end.len()));
    vec![
        [&good(191)[..], &end].concat(),
        [&good(192)[..], &end].concat(),
        [&good(193)[..], &end].concat(),
        [&end[..], &good(192)].concat(),
        [&before[..], &end, &after].concat(),
    ]
}
