//! The printed vectors: their form, and that they agree with the library.

use crate::broken::{first_broken, NOWHERE};
use crate::edition::Edition;
use crate::panels::sealed_by_hand;
use crate::support::*;
use crate::term_sheet::{term_sheet, ALWAYS};
use reference::cipher::phi_of_key;
use reference::modes::cmac_steps;
use reference::{vectors, Pointed};

fn lines(text: &str) -> Vec<Vec<&str>> {
    assert!(text.ends_with('\n'));
    text.lines().map(|line| line.split(' ').collect()).collect()
}

/// The key of a class with number s.
fn numbered_key(t: usize, s: usize) -> Vec<u8> {
    key_of_length(key_bytes(t), s)
}

/// The key of a length with number s.
fn key_of_length(length: usize, s: usize) -> Vec<u8> {
    let byte = |i| (29 * i + 71 * s + 13) % 256;
    (0..length).map(|i| byte(i) as u8).collect()
}

/// The text of a length with number s.
pub fn numbered_text(s: usize, length: usize) -> Vec<u8> {
    let byte = |i| (53 * i + 31 * s + 7) % 256;
    (0..length).map(|i| byte(i) as u8).collect()
}

/// The caption of a length with number s.
pub fn numbered_caption(s: usize, length: usize) -> Vec<u8> {
    let byte = |i| 32 + (53 * i + 31 * s + 7) % 95;
    (0..length).map(|i| byte(i) as u8).collect()
}

#[test]
fn blocks() {
    let text = vectors::blocks();
    let lines = lines(&text);
    assert_eq!(lines.len(), 3 * 16);
    assert_eq!(lines[0][..2], ["0d2a4764819ebbd8", "073c71a6db10457a"]);
    assert_eq!(lines[47][0].len(), 32);
    for line in lines {
        let [key, block, encrypted, decrypted] = line[..] else {
            panic!("{line:?}");
        };
        let key = hex(key);
        assert_eq!(encrypt(&key, hex_block(block)), hex_block(encrypted));
        assert_eq!(decrypt(&key, hex_block(encrypted)), hex_block(block));
        assert_eq!(encrypt(&key, hex_block(decrypted)), hex_block(block));
    }
}

/// The lines of `vectors present`: which call, key, block, length of the output.
fn present_calls() -> Vec<(&'static str, Vec<u8>, Vec<u8>, usize)> {
    let mut calls = Vec::new();
    for length in 7..=17 {
        let keys = if [10, 16].contains(&length) { 32 } else { 2 };
        for s in 0..keys {
            for block in [0, 7, 8, 9, 16].map(|length| numbered_text(s, length)) {
                for out in [0, 7, 8, 9, 16] {
                    for call in ["seal", "open"] {
                        calls.push((call, key_of_length(length, s), block.clone(), out));
                    }
                }
            }
        }
    }
    calls
}

#[test]
fn present() {
    let text = vectors::present();
    let lines = lines(&text);
    let calls = present_calls();
    assert_eq!((lines.len(), calls.len()), (4100, 4100));
    let mut met = [0; 4];
    let digits = |line: &str| if line == "-" { Vec::new() } else { hex(line) };
    for (line, (call, key, block, out)) in lines.iter().zip(calls) {
        assert_eq!(line.len(), 6);
        assert_eq!((line[0], line[3]), (call, &out.to_string()[..]));
        assert_eq!(
            (digits(line[1]), digits(line[2])),
            (key.clone(), block.clone())
        );
        let t = if key.len() == 10 { 21 } else { 24 };
        let number = match (key.len(), block.len(), out) {
            (10 | 16, 8, 8) => 0,
            (10 | 16, _, _) => 3,
            _ => 1,
        };
        let expected = match (number, call) {
            (0, "seal") => encrypt_in(t, &key, hex_block(line[2])).to_vec(),
            (0, _) => decrypt_in(t, &key, hex_block(line[2])).to_vec(),
            _ => vec![0xff; out],
        };
        assert_eq!(line[4], number.to_string());
        assert_eq!(digits(line[5]), expected);
        met[number] += 1;
    }
    assert_eq!(met, [2 * 64, 9 * 2 * 50, 0, 2 * 64 * 24]);
}

#[test]
fn keys() {
    let text = vectors::keys();
    let lines = lines(&text);
    assert_eq!(lines.len(), 3 * 13);
    let word = |digits: &str| u16::from_str_radix(digits, 16).unwrap();
    for (place, line) in lines.iter().enumerate() {
        assert_eq!(line.len(), 10);
        assert_eq!(line[0], CLASSES[place / 13].to_string());
        assert_eq!(line[1], (place % 13).to_string());
        assert!(line[2..].iter().all(|word| word.len() == 4));
        let mirrored = &lines[place / 13 * 13 + 12 - place % 13];
        let sealing = std::array::from_fn(|i| word(mirrored[2 + i]));
        let opening = std::array::from_fn(|i| word(line[6 + i]));
        assert_eq!(phi_of_key(sealing), opening);
    }
}

/// Round 0 of key number 0, worked by hand: word 0 is 0d2a, whose S step is
/// 4637, so T is 5726, and sealing key 0 is 1764 869e bbf8, then 0d2a (t = 4) or
/// word 4, f512, each exclusive or 0006. The array is 073c 71a6 db10 457a.
#[test]
fn bench() {
    let text = vectors::bench();
    let lines = lines(&text);
    assert_eq!(lines.len(), 3 * 13);
    for (place, line) in lines.iter().enumerate() {
        let (t, r) = (CLASSES[place / 13], place % 13);
        let key = numbered_key(t, r);
        let wanted = numbered_text(r, 8);
        assert_eq!(line.len(), 5);
        assert_eq!(line[..2], [t.to_string(), r.to_string()]);
        assert_eq!(line[2].len(), 4 * t);
        assert_eq!(line[3].len(), 16);
        assert_eq!(line[4].len(), 16);
        assert_eq!((hex(line[2]), hex(line[3])), (key.clone(), wanted.clone()));
        let array = reference::array_after(&key, &hex_block(line[4]), r);
        assert_eq!(array.map(Vec::from), Some(wanted));
    }
    assert_eq!(lines[0][2..4], ["0d2a4764819ebbd8", "073c71a6db10457a"]);
    assert_eq!(lines[0][4], "1058f73860e84856");
    assert_eq!(lines[13][4], "1058f73860e8b06e");
    assert_eq!(lines[26][4], "1058f73860e8b06e");
}

#[test]
fn rounds_of_the_benched_blocks_have_the_wanted_arrays() {
    let text = vectors::bench();
    for line in lines(&text) {
        let [_, r, key, wanted, block] = line[..] else {
            panic!("{line:?}");
        };
        let printed = vectors::rounds(key, block).unwrap();
        let rounds = lines(&printed);
        assert_eq!(rounds.len(), 13);
        assert_eq!(rounds[r.parse::<usize>().unwrap()], [r, wanted]);
        for (r, round) in rounds.iter().enumerate() {
            let array = reference::array_after(&hex(key), &hex(block), r).unwrap();
            assert_eq!(round.len(), 2);
            assert_eq!(round[0], r.to_string());
            assert_eq!(hex_block(round[1]), array);
        }
        let upper_case = vectors::rounds(&key.to_uppercase(), &block.to_uppercase());
        assert_eq!(upper_case, Some(printed.clone()));
    }
}

#[test]
fn cmacs() {
    let text = vectors::cmacs();
    let lines = lines(&text);
    assert_eq!(lines.len(), 3 * 10);
    // t = 4, empty message: key byte i is 29 i + 13.
    let key: Vec<u8> = (0..8).map(|i| 29 * i + 13).collect();
    assert_eq!(lines[0][..2], ["4", "0"]);
    assert_eq!(hex_block(lines[0][2]), cmac(&key, b""));
    assert_eq!(lines[29][..2], ["8", "200"]);
}

/// Message lengths of `vectors steps`, and how many blocks CMAC cuts each into.
const STEPS_LENGTHS: [(usize, usize); 8] = [
    (0, 1),
    (1, 1),
    (7, 1),
    (8, 1),
    (9, 2),
    (16, 2),
    (200, 25),
    (300, 38),
];

/// The names of `vectors steps` for a message of n blocks.
fn step_names(n: usize) -> Vec<String> {
    let mut names = ["L", "K1", "K2"].map(String::from).to_vec();
    names.extend((0..=n).map(|i| format!("C{i}")));
    names.push("T".to_string());
    names
}

#[test]
fn steps() {
    let text = vectors::steps();
    let lines = lines(&text);
    let mut expected = Vec::new();
    for t in CLASSES {
        for (length, n) in STEPS_LENGTHS {
            expected.extend(step_names(n).into_iter().map(|name| (t, length, name)));
        }
    }
    assert_eq!(expected.len(), 333);
    assert_eq!(lines.len(), expected.len());
    for (line, (t, length, name)) in lines.iter().zip(expected) {
        assert_eq!(line[..3], [t.to_string(), length.to_string(), name]);
        assert_eq!(line.len(), 4);
        assert_eq!(line[3].len(), 16);
        let lower_case_hex = |digit| matches!(digit, b'0'..=b'9' | b'a'..=b'f');
        assert!(line[3].bytes().all(lower_case_hex));
    }
    // t = 4, empty message.
    let key = numbered_key(4, 0);
    assert_eq!(lines[0][..3], ["4", "0", "L"]);
    assert_eq!(hex_block(lines[0][3]), encrypt(&key, [0; 8]));
    assert_eq!(lines[3], ["4", "0", "C0", "0000000000000000"]);
    assert_eq!(hex_block(lines[5][3]), cmac(&key, b""));
}

#[test]
fn steps_agree_with_the_library_and_with_the_cmacs() {
    let text = vectors::steps();
    let mut rest = &lines(&text)[..];
    for t in CLASSES {
        for (length, n) in STEPS_LENGTHS {
            let lines;
            (lines, rest) = rest.split_at(n + 5);
            let values: Vec<[u8; 8]> = lines.iter().map(|line| hex_block(line[3])).collect();
            let key = numbered_key(t, length);
            let message = numbered_text(length, length);
            let steps = cmac_steps(&|block| encrypt(&key, block), &message);
            assert_eq!(values[..3], [steps.l, steps.k1, steps.k2]);
            assert_eq!(values[3..n + 4], steps.chain);
            assert_eq!(values[n + 4], cmac(&key, &message));
            assert_eq!(values[n + 4], values[n + 3]);
        }
    }
    assert!(rest.is_empty());
    let printed_cmacs = vectors::cmacs();
    for line in text.lines().filter(|line| line.contains(" T ")) {
        if !line.contains(" 300 ") {
            let line = format!("{}\n", line.replace(" T ", " "));
            assert!(printed_cmacs.contains(&line));
        }
    }
}

#[test]
fn cbc() {
    let text = vectors::cbc();
    let lines = lines(&text);
    assert_eq!(lines.len(), 3 * 5);
    assert_eq!(lines[0], ["4", "0", "-", "-"]);
    for line in &lines[1..] {
        let digits = 16 * line[1].parse::<usize>().unwrap();
        assert_eq!(line[2].len(), if digits == 0 { 1 } else { digits });
        assert_eq!(line[3].len(), if digits == 0 { 1 } else { digits });
    }
}

const PANEL_LENGTHS: [usize; 18] = [
    0, 1, 7, 8, 9, 11, 16, 17, 31, 32, 33, 63, 64, 65, 191, 192, 193, 300,
];

/// First counters of `vectors panel` as printed.
const PANEL_FIRSTS: [&str; 6] = [
    "0000000000000000",
    "0000000000000001",
    "00000000ffffffff",
    "ffffffffffffe000",
    "fffffffffffffffe",
    "ffffffffffffffff",
];

#[test]
fn panels() {
    let text = vectors::panels();
    let mut lines = lines(&text).into_iter();
    for t in CLASSES {
        let key = numbered_key(t, t);
        for first in PANEL_FIRSTS {
            for length in PANEL_LENGTHS {
                let line = lines.next().unwrap();
                assert_eq!(line.len(), 4);
                assert_eq!(line[..3], [&t.to_string(), first, &length.to_string()]);
                assert_eq!(line[3].len(), if length == 0 { 1 } else { 2 * length });
                let first = u64::from_str_radix(first, 16).unwrap();
                let sealed = sealed_by_hand(&key, first, &numbered_text(length, length));
                assert_eq!(hex(line[3]), sealed);
            }
        }
    }
    assert_eq!(lines.next(), None);
    assert_eq!(text.lines().count(), 324);
    assert!(text.starts_with("4 0000000000000000 0 -\n"));
}

#[test]
fn panel_operands_are_a_key_and_a_counter() {
    let operands = vectors::panel_operands("0d2a4764819eBBD8", "fedcBA9876543210");
    let key = hex("0d2a4764819ebbd8");
    assert_eq!(operands, Some((key, 0xfedcba9876543210)));
    for digits in 0..40 {
        let zeros = "0".repeat(digits);
        let key = vectors::panel_operands(&zeros, "0000000000000001");
        let key_fits = [16, 24, 32].contains(&digits);
        assert_eq!(key, key_fits.then(|| (vec![0; digits / 2], 1)));
        let first = vectors::panel_operands("0000000000000000", &zeros);
        assert_eq!(first, (digits == 16).then(|| (vec![0; 8], 0)));
    }
}

/// The serial of the sheets of t in `vectors sheet` and `vectors faults`.
fn serial_of(t: usize) -> u16 {
    23040 + t as u16
}

/// The keys of the sheets of t.
fn keys_of(t: usize) -> (Vec<u8>, Vec<u8>) {
    (numbered_key(t, t), numbered_key(t, t + 1))
}

#[test]
fn marks() {
    let text = vectors::marks();
    let mut lines = lines(&text).into_iter();
    for t in ALL_CLASSES {
        let keys = keys_of(t);
        for n in [1, 2, 255, 256usize] {
            for serial in [0, 1, 256, serial_of(t), 65535] {
                let line = lines.next().unwrap();
                assert_eq!(line.len(), 8);
                let numbers = [t.to_string(), n.to_string(), serial.to_string()];
                assert_eq!(line[..3], numbers);
                assert_eq!((hex(line[3]), hex(line[4])), keys);
                let [n1, n2] = (n as u16).to_be_bytes();
                let [s1, s2] = serial.to_be_bytes();
                let block = [n1, n2, t as u8, 3, s1, s2, 0, 0];
                assert_eq!(hex_block(line[5]), encrypt_in(t, &keys.0, block));
                assert_eq!(hex_block(line[6]), cmac_in(t, &keys.1, &hex(line[5])));
                assert_eq!(line[7], &line[6][..12]);
                let mut sheet = vec![0; 16 + 208 * n];
                let answer = reference::blank(&mut sheet, n, t, serial, &keys.0, &keys.1);
                assert_eq!(answer, accepted(0));
                assert_eq!(sheet[10..16], hex(line[7]));
            }
        }
    }
    assert_eq!(lines.next(), None);
    assert_eq!(text.lines().count(), 100);
}

/// Lines of `vectors sheet` for one sheet: calls, reads, listing.
const SHEET_LINES: usize = 10 + 6 + 4;

/// The sheets of `vectors sheet`: first word, edition, t.
fn listed_sheets() -> impl Iterator<Item = (&'static str, Edition, usize)> {
    let three = |t| ("blank", Edition::Three(serial_of(t)), t);
    let mcrypton = CLASSES.into_iter().flat_map(move |t| {
        let two = ("old", Edition::Two(serial_of(t)), t);
        [three(t), two, ("old", Edition::One, t)]
    });
    mcrypton.chain(PRESENT_CLASSES.map(three))
}

/// The CMAC of a line, by the call that is mCrypton's alone: a PRESENT key gives
/// its first eight bytes for it.
fn line_mac(t: usize, key: &[u8], sheet: &[u8]) -> [u8; 8] {
    let present = PRESENT_CLASSES.contains(&t);
    cmac(if present { &key[..8] } else { key }, sheet)
}

#[test]
fn sheet() {
    let text = vectors::sheet();
    let lines = lines(&text);
    assert_eq!(lines.len(), 11 * SHEET_LINES);
    for (lines, (origin, edition, t)) in lines.chunks(SHEET_LINES).zip(listed_sheets()) {
        let marked = edition.number() == 3;
        let starts = [
            [origin, "0", "0"],
            ["write", "0", "0"],
            ["write", "0", "0"],
            ["write", "0", "0"],
            ["write", "0", "0"],
            ["clear", "0", "0"],
            ["write", "6", "0"],
            ["write", "7", "0"],
            ["write", "2", "0"],
            ["write", if marked { "14" } else { "0" }, "0"],
        ];
        let calls = lines[..6].iter().chain(&lines[7..11]);
        for (line, start) in calls.zip(starts) {
            assert_eq!(line[..3], start);
            assert_eq!(line[3].len(), 16);
        }
        let reads = [
            ["read", "0", "9", "0"],
            ["read", "0", if marked { "9" } else { "10" }, "0"],
            ["read", "1", "0", "3"],
            ["read", "2", "0", "192"],
            ["read", "3", "6", "0"],
            ["read", "1", "2", "0"],
        ];
        let read_lines = lines[6..7].iter().chain(&lines[11..16]);
        for (line, start) in read_lines.zip(reads) {
            assert_eq!(line[..4], start);
            assert_eq!(line[4].len(), 384);
        }
        let bits = (8 * key_bytes(t)).to_string();
        let last = if marked { "4" } else { "5" };
        assert_eq!(lines[16], ["slots", "3", "key", &bits, "last", last]);
        if marked {
            assert_eq!(lines[17], ["0", "blank"]);
        } else {
            assert_eq!(lines[17], ["0", "written", "5", "3"]);
        }
        assert_eq!(lines[18], ["1", "written", "4", "3"]);
        assert_eq!(lines[19], ["2", "written", "3", "192"]);
    }
}

/// A sheet of `vectors sheet` after its clear.
fn cleared_sheet(keys: &(Vec<u8>, Vec<u8>), mut sheet: Vec<u8>) -> Vec<u8> {
    let seventeen = numbered_caption(0, 17);
    let longest = numbered_caption(1, 192);
    let writes: [(usize, &[u8]); 4] = [(0, b""), (1, &seventeen), (2, &longest), (1, b"abc")];
    for (slot, caption) in writes {
        assert_eq!(write(keys, &mut sheet, slot, caption), accepted(0));
    }
    assert_eq!(reference::clear(&mut sheet, 0), accepted(0));
    sheet
}

#[test]
fn sheet_with_twin_keys_and_near_twins() {
    let text = vectors::sheet();
    let lines = lines(&text);
    for (lines, (_, edition, t)) in lines.chunks(SHEET_LINES).zip(listed_sheets()) {
        let keys = keys_of(t);
        let printed_mac = |line: usize| hex_block(lines[line][3]);
        let blank = blank_for(edition, &keys, 3, t);
        assert_eq!(printed_mac(0), line_mac(t, &keys.1, &blank));
        let mut sheet = cleared_sheet(&keys, blank);
        let before = sheet.clone();
        assert_eq!(printed_mac(8), line_mac(t, &keys.1, &before));

        let twins = (keys.0.clone(), keys.0.clone());
        assert_eq!(write(&twins, &mut sheet, 0, b"abc"), refused(2));
        assert_eq!(sheet, before);
        assert_eq!(printed_mac(9), printed_mac(8));

        let mut near_twins = twins.clone();
        near_twins.1[0] ^= 1;
        let marked = edition.number() == 3;
        let number = if marked { 14 } else { 0 };
        let answer = write(&near_twins, &mut sheet, 0, b"abc");
        assert_eq!(answer, refused(number));
        assert_eq!(sheet == before, marked);
        assert_eq!(printed_mac(10), line_mac(t, &keys.1, &sheet));

        if marked {
            assert_eq!(read(&near_twins, &sheet, 0), (refused(14), [0; 192]));
            assert_eq!(read(&keys, &sheet, 0), (refused(9), [0; 192]));
        } else {
            assert_eq!(read(&near_twins, &sheet, 0), (accepted(3), shown(b"abc")));
            assert_eq!(read(&keys, &sheet, 0), (refused(10), [0; 192]));
        }
        assert_eq!(read(&twins, &sheet, 1), (refused(2), [0; 192]));
        assert_eq!(hex(lines[11][4]), [0; 192]);
        assert_eq!(hex(lines[15][4]), [0; 192]);
    }
}

/// The sheets of `vectors faults` and `vectors dated`: edition, t.
fn faulted_sheets() -> impl Iterator<Item = (Edition, usize)> {
    let one = CLASSES.map(|t| (Edition::One, t));
    let two = CLASSES.map(|t| (Edition::Two(serial_of(t)), t));
    let three = ALL_CLASSES.map(|t| (Edition::Three(serial_of(t)), t));
    one.into_iter().chain(two).chain(three)
}

/// A sheet of `vectors faults` and `vectors dated`.
fn faulted_sheet(keys: &(Vec<u8>, Vec<u8>), edition: Edition, t: usize) -> Vec<u8> {
    let mut sheet = blank_for(edition, keys, 3, t);
    for (slot, length) in [(0, 5), (1, 17), (2, 192)] {
        let caption = numbered_caption(slot, length);
        assert_eq!(write(keys, &mut sheet, slot, &caption), accepted(0));
    }
    assert_eq!(reference::clear(&mut sheet, 1), accepted(0));
    sheet
}

/// The slot that is read with a bit of this byte flipped.
fn slot_read(edition: Edition, byte: usize) -> usize {
    let fields = edition.field_place(3, 0).start;
    if byte >= fields {
        (byte - fields) / 192
    } else {
        byte.saturating_sub(edition.header()) / 16
    }
}

#[test]
fn faults() {
    let text = vectors::faults();
    let mut rest = &lines(&text)[..];
    for (edition, t) in faulted_sheets() {
        let keys = keys_of(t);
        let sheet = faulted_sheet(&keys, edition, t);
        let lines;
        (lines, rest) = rest.split_at(1 + 8 * sheet.len());
        let (number, t) = (edition.number().to_string(), t.to_string());
        assert_eq!(lines[0].len(), 6);
        assert_eq!(lines[0][..3], ["sheet", &number, &t]);
        let bytes = [&keys.0, &keys.1, &sheet].map(Vec::clone);
        assert_eq!([3, 4, 5].map(|field| hex(lines[0][field])), bytes);
        for (place, line) in lines[1..].iter().enumerate() {
            let (byte, bit) = (place / 8, place % 8);
            let mut flipped = sheet.clone();
            flipped[byte] ^= 1 << bit;
            let slot = slot_read(edition, byte);
            let answer = reference::read(&keys.0, &keys.1, &flipped, slot, &mut [1; 192]);
            let broken = first_broken(&flipped);
            if broken != NOWHERE {
                assert_eq!(answer, pointed(refused(4), broken));
            }
            let Pointed {
                number,
                rule,
                slot,
                place,
                ..
            } = answer;
            let expected = format!("{byte} {bit} {number} {rule} {slot} {place}");
            assert_eq!(line.join(" "), expected);
        }
    }
    assert!(rest.is_empty());
}

#[test]
fn dated() {
    let text = vectors::dated();
    let terms = term_sheet(&[(100, 200), ALWAYS, (36000, 36524)]);
    let mut rest = &lines(&text)[..];
    let mut met = [0; 15];
    for (edition, t) in faulted_sheets() {
        let keys = keys_of(t);
        let sheet = faulted_sheet(&keys, edition, t);
        let lines;
        (lines, rest) = rest.split_at(1 + 40);
        let (number, t) = (edition.number().to_string(), t.to_string());
        assert_eq!(lines[0].len(), 7);
        assert_eq!(lines[0][..3], ["sheet", &number, &t]);
        let bytes = [&keys.0, &keys.1, &sheet, &terms].map(Vec::clone);
        assert_eq!([3, 4, 5, 6].map(|field| hex(lines[0][field])), bytes);
        let days = [0, 99, 100, 150, 200, 201, 35999, 36000, 36524, 36525];
        let calls = (0..4).flat_map(|slot| days.map(|day| (slot, day)));
        for (line, (slot, day)) in lines[1..].iter().zip(calls) {
            let (answer, window) = dated_read(&keys, &sheet, &terms, slot, day);
            let reference::Answer { number, length } = answer;
            assert_eq!(line.len(), 6);
            let start = format!("{slot} {day} {number} 0 {length}");
            assert_eq!(line[..5].join(" "), start);
            assert_eq!(hex(line[5]), window);
            met[usize::from(number)] += 1;
        }
    }
    assert!(rest.is_empty());
    // Slot 0 is shown on 3 days and slot 2 on 2; each slot meets one false day.
    let [shown, hidden, blank] = [11 * (3 + 2), 11 * (6 + 7), 11 * 9];
    let expected = [
        (0, shown),
        (6, 11 * 9),
        (9, blank),
        (11, 11 * 4),
        (12, hidden),
    ];
    for (number, times) in expected {
        assert_eq!(met[number], times, "{number}");
    }
}

#[test]
fn classes() {
    let text = vectors::classes();
    let mut lines = text.lines();
    for byte_3 in [0, 1, 2, 3, 4, 255u8] {
        for byte_2 in 0..=255u8 {
            for length in 7..=17 {
                let line = lines.next().unwrap();
                let is_class = [4, 6, 8].contains(&byte_2);
                let present = [21, 24].contains(&byte_2);
                let rule = match (byte_3, is_class, present) {
                    (1..=3, true, _) | (3, _, true) => 0,
                    (_, true, _) => 4,
                    _ => 3,
                };
                let fits = key_bytes(byte_2.into()) == length;
                let is_key = [8, 10, 12, 16].contains(&length);
                let (read, write) = match (is_key, rule, fits) {
                    (false, _, _) => ("1 0", "1 0"),
                    (_, 3, _) => ("4 3", "4 3"),
                    (_, 4, _) => ("4 4", "4 4"),
                    (_, _, false) => ("5 0", "5 0"),
                    _ => ("9 0", "0 0"),
                };
                let clear = if rule == 0 { 0 } else { 4 };
                let blank = match (is_class || present, is_key, fits) {
                    (false, _, _) | (_, false, _) => 1,
                    (_, _, false) => 5,
                    _ => 0,
                };
                let calls = format!("{read} {read} {write} {clear} {blank}");
                assert_eq!(line, format!("{byte_3} {byte_2} {length} {calls}"));
            }
        }
    }
    assert_eq!(lines.next(), None);
    assert_eq!(text.lines().count(), 16896);
}
