//! The bytes of the calls that are exhibited in proofs, made again by the second
//! program: what `crates/exhibits/specs/Values.antt` and the records of blocks,
//! round keys, rounds, CMAC, the bench, panels and PRESENT call its values are its
//! values.

use differential::report;
use reference::cipher::sealing_key;
use reference::panel::panel;
use reference::{
    bench_block, blank, cmac, decrypt_block, encrypt_block, key_mark, present_decrypt_block,
    present_encrypt_block, read, store_field, write, Answer,
};

const SEALING: [u8; 8] = [0x0d, 0x2a, 0x47, 0x64, 0x81, 0x9e, 0xbb, 0xd8];
const CHECKING: [u8; 8] = [0x54, 0x71, 0x8e, 0xab, 0xc8, 0xe5, 0x02, 0x1f];
const ABC: &[u8] = b"abc";

/// A file of a crate's specs.
struct Specs {
    path: String,
    text: String,
}

impl Specs {
    fn of(path: &str) -> Specs {
        let path = format!("{}/../../crates/{path}", env!("CARGO_MANIFEST_DIR"));
        let text = std::fs::read_to_string(&path).expect("a file of specs");
        Specs { path, text }
    }

    /// What stands behind the text `from`.
    fn behind(&self, from: &str) -> &str {
        let start = self
            .text
            .find(from)
            .unwrap_or_else(|| panic!("{}: no {from}", self.path));
        &self.text[start + from.len()..]
    }

    /// The numbers in hex that stand between the text `from` and the next `to`.
    fn numbers(&self, from: &str, to: &str) -> Vec<u64> {
        let rest = self.behind(from);
        let end = rest.find(to).unwrap_or(rest.len());
        rest[..end]
            .split("0x")
            .skip(1)
            .map(|word| {
                let digits: String = word.chars().take_while(char::is_ascii_hexdigit).collect();
                u64::from_str_radix(&digits, 16).expect("a number in hex")
            })
            .collect()
    }

    /// The bytes of a definition `NAME = ...`.
    fn bytes(&self, name: &str) -> Vec<u8> {
        let numbers = self.numbers(&format!("\n{name} ="), "\n\n");
        numbers.into_iter().map(|number| number as u8).collect()
    }

    /// The bytes at the end of a field `NAME : ... ≡ ...`.
    fn made(&self, field: &str) -> Vec<u8> {
        let numbers = self.numbers(&format!("pub {field} :"), "}");
        numbers.into_iter().map(|number| number as u8).collect()
    }

    /// A number of the answer in a field `NAME : ... ≡ record { number = ...; ... }`.
    fn of_answer(&self, field: &str, name: &str) -> u8 {
        let rest = self.behind(&format!("pub {field} :"));
        let number = rest
            .split(&format!("{name} = "))
            .nth(1)
            .and_then(|rest| rest.split(';').next());
        number.expect("a number").parse().expect("a number")
    }

    fn answered(&self, field: &str) -> u8 {
        self.of_answer(field, "number")
    }
}

/// A sheet of edition 1 with one blank slot, t = 4 and the last number w.
fn one_slot(w: u32) -> Vec<u8> {
    let mut sheet = vec![0, 1, 4, 1];
    sheet.extend(w.to_be_bytes());
    sheet.resize(216, 0);
    sheet
}

fn key(size: usize) -> Vec<u8> {
    (0..size).map(|i| (13 + 29 * i) as u8).collect()
}

#[test]
fn sheets() {
    let values = Specs::of("exhibits/specs/Values.antt");
    assert_eq!(values.bytes("sealing_key"), SEALING);
    assert_eq!(values.bytes("checking_key"), CHECKING);

    let mut written = one_slot(0);
    assert_eq!(write(&SEALING, &CHECKING, &mut written, 0, ABC).number, 0);
    assert_eq!(values.bytes("abc_mark"), written[16..24]);
    assert_eq!(values.bytes("abc_field"), written[24..]);

    let mut plain = [0; 192];
    plain[..3].copy_from_slice(ABC);
    let mut two = one_slot(0);
    assert_eq!(
        store_field(&SEALING, &CHECKING, &mut two, 0, 2, &plain).number,
        0
    );
    assert_eq!(values.bytes("two_mark"), two[16..24]);
    assert_eq!(two[24..], written[24..]);

    let mut changed = written.clone();
    changed[23] ^= 1;
    assert_eq!(values.bytes("check_changed"), changed[16..24]);
    let mut window = [7; 192];
    let pointed = |sheet: &[u8], window: &mut [u8]| {
        let answer = read(&SEALING, &CHECKING, sheet, 0, window);
        (answer.number, answer.rule, answer.slot, answer.place)
    };
    assert_eq!(pointed(&changed, &mut window), (10, 10, 0, 0));
    assert_eq!(pointed(&two, &mut window), (10, 11, 0, 2));

    let mut worn = one_slot(u32::MAX - 1);
    assert_eq!(write(&SEALING, &CHECKING, &mut worn, 0, ABC).number, 0);
    assert_eq!(values.bytes("last_mark"), worn[16..24]);
    assert_eq!(values.bytes("last_field"), worn[24..]);
    assert_eq!(write(&SEALING, &CHECKING, &mut worn, 0, ABC).number, 8);
    broken_captions(&worn);

    let mut blanked = vec![7; 224];
    assert_eq!(
        blank(&mut blanked, 1, 4, 258, &SEALING, &CHECKING).number,
        0
    );
    assert_eq!(values.bytes("new_sheet"), blanked[10..16]);

    let mut out = [0; 8];
    assert_eq!(cmac(&SEALING, ABC, &mut out).number, 0);
    assert_eq!(values.bytes("abc_check"), out);
    assert_eq!(
        bench_block(&CHECKING, 1, &values.bytes("wanted"), &mut out).number,
        0
    );
    assert_eq!(values.bytes("leading"), out);
    report("exhibits: sheets, a check and a bench");
}

/// The exhibited writes of broken text: a letter that is cut off, in a slot, in one
/// that there isn't, among 193 bytes, and on a worn sheet. None changes a byte.
fn broken_captions(worn: &[u8]) {
    let exhibits = Specs::of("exhibits/specs/Exhibits.antt");
    let (blank, overlong) = (&one_slot(0)[..], &[0xc3; 193][..]);
    for (field, sheet, slot, caption, number) in [
        ("broken", blank, 0, &[0xc3][..], 15),
        ("broken_nowhere", blank, 1, &[0xc3], 6),
        ("broken_long", blank, 0, overlong, 7),
        ("broken_worn", worn, 0, &[0xc3], 15),
    ] {
        assert_eq!(exhibits.made(field), [0xc3], "{field}");
        assert_eq!(exhibits.answered(field), number, "{field}");
        let mut after = sheet.to_vec();
        let answer = write(&SEALING, &CHECKING, &mut after, slot, caption);
        assert_eq!(answer.answer(), Answer::refused(number), "{field}");
        assert_eq!(
            (answer.rule, answer.slot, answer.place),
            (0, 0, 0),
            "{field}"
        );
        assert!(after == sheet, "{field}");
    }
    report("exhibits: 4 writes of broken text");
}

/// Writes under keys of 10 bytes on three bytes and on a sheet for mCrypton, and a read
/// of a sheet of edition 1 whose byte 2 is 21.
#[test]
fn keys_of_10_bytes() {
    let exhibits = Specs::of("exhibits/specs/Exhibits.antt");
    let (sealing, checking) = ([0; 10], [1; 10]);
    let mut old = one_slot(0);
    old[2] = 21;
    let mut window = [7; 192];
    for (field, sheet, number, rule) in [
        ("ten_short", &[1, 2, 3][..], 4, 1),
        ("ten_bytes_lem", &one_slot(0), 5, 0),
        ("present_old", &old, 4, 3),
    ] {
        let mut after = sheet.to_vec();
        let answer = match field {
            "present_old" => read(&sealing, &checking, sheet, 0, &mut window),
            _ => write(&sealing, &checking, &mut after, 0, ABC),
        };
        let rules = [number, rule];
        assert_eq!([answer.number, answer.rule], rules, "{field}");
        assert_eq!(
            ["number", "rule"].map(|name| exhibits.of_answer(field, name)),
            rules,
            "{field}"
        );
        assert!(after == sheet, "{field}");
    }
    assert_eq!(window, [0; 192]);
    report("exhibits: 3 calls with keys of 10 bytes");
}

/// The authors' vectors, the exhibited calls on one block, and the key marks of pairs
/// of bytes that all differ.
#[test]
fn present() {
    let vectors = Specs::of("present/specs/Vectors.antt");
    let calls = Specs::of("present/specs/Refusals.antt");
    let witnesses = Specs::of("demands/specs/Witnesses.antt");
    let bytes = |specs: &Specs, field: &str, end: &str| -> Vec<u8> {
        let numbers = specs.numbers(&format!("pub {field} :"), end);
        numbers.into_iter().map(|number| number as u8).collect()
    };
    for (t, bits, size) in [(21, 80, 10), (24, 128, 16)] {
        for (name, key, block) in [
            ("zero_zero", 0, 0),
            ("ones_zero", 0xff, 0),
            ("zero_ones", 0, 0xff),
            ("ones_ones", 0xff, 0xff),
        ] {
            let (key, block) = (vec![key; size], [block; 8]);
            let (mut sealed, mut opened) = ([0; 8], [0; 8]);
            assert_eq!(present_encrypt_block(&key, &block, &mut sealed).number, 0);
            assert_eq!(present_decrypt_block(&key, &sealed, &mut opened).number, 0);
            assert_eq!(bytes(&vectors, &format!("{name}_{bits}"), "\n"), sealed);
            assert_eq!(opened, block);
        }
        let key = vec![if bits == 80 { 0 } else { 0xff }; size];
        let mut out = [0; 8];
        assert_eq!(present_encrypt_block(&key, &[0; 8], &mut out).number, 0);
        assert_eq!(calls.made(&format!("encrypt_{bits}")), out);
        let made = calls.made(&format!("decrypt_{bits}"));
        let zeros = vec![0; size];
        assert_eq!(
            present_decrypt_block(&zeros, &made[..8], &mut out).number,
            0
        );
        assert_eq!(made[8..], out);

        let [sealing, checking] = [0, 16].map(|first| (first..).take(size).collect::<Vec<u8>>());
        let mark = key_mark(2, t, 0x5a04, &sealing, &checking).expect("a mark");
        assert_eq!(bytes(&witnesses, &format!("present_{bits}"), "\n"), mark);
    }
    report("exhibits: PRESENT's 8 vectors, 4 calls on one block and 2 key marks");
}

#[test]
fn calls_with_a_key_of_each_size() {
    let blocks = Specs::of("mcrypton/specs/Vectors.antt");
    let calls = Specs::of("mcrypton/specs/Refusals.antt");
    let macs = Specs::of("modes/specs/Refusals.antt");
    let block = blocks.bytes("block");
    for (t, size) in [(4, 8), (6, 12), (8, 16)] {
        let key = key(size);
        assert_eq!(blocks.bytes(&format!("key{t}")), key);
        let mut out = [0; 8];
        assert_eq!(encrypt_block(&key, &block, &mut out).number, 0);
        assert_eq!(calls.made(&format!("encrypt_{t}")), out);
        assert_eq!(decrypt_block(&key, &block, &mut out).number, 0);
        assert_eq!(calls.made(&format!("decrypt_{t}")), out);
        assert_eq!(cmac(&key, &[1, 2, 3, 4, 5, 6, 7, 8, 9], &mut out).number, 0);
        assert_eq!(macs.made(&format!("mac_{t}")), out);
    }
    let mut out = [0; 8];
    assert_eq!(cmac(&key(8), &[], &mut out).number, 0);
    assert_eq!(macs.made("empty"), out);

    let bench = Specs::of("chip_bench/specs/Laws.antt");
    for (size, round) in [(8, 0), (12, 5), (16, 12)] {
        assert_eq!(bench_block(&key(size), round, &block, &mut out).number, 0);
        assert_eq!(bench.made(&format!("round_{round}")), out);
    }

    // The first number stands in each field too, before the bytes.
    let panels = Specs::of("panels/specs/Laws.antt");
    for (size, name, text) in [
        (8, "wraps_4", "bronze_age"),
        (12, "carries_6", "rome"),
        (16, "counts_8", "rome"),
    ] {
        let numbers = panels.numbers(&format!("pub {name} :"), "}");
        let (first, bytes) = numbers.split_first().expect("a first number");
        let text = panels.bytes(text);
        let mut out = vec![0; text.len()];
        assert_eq!(panel(&key(size), *first, &text, &mut out).number, 0);
        let out: Vec<u64> = out.into_iter().map(u64::from).collect();
        assert_eq!(bytes, out, "{name}");
    }
    assert_eq!(panels.bytes("bronze_age"), b"Bronze Age.");
    assert_eq!(panels.bytes("rome"), b"Bronze Age. Rome.");
    report("exhibits: blocks, CMAC, the bench and panels with keys of 8, 12 and 16 bytes");
}

#[test]
fn round_keys_and_rounds() {
    let keys: Vec<u64> = (0..=12)
        .flat_map(|r| sealing_key(&CHECKING, r).expect("a round"))
        .map(u64::from)
        .collect();
    let schedule = Specs::of("schedule/specs/Vectors.antt");
    assert_eq!(schedule.numbers("\n      ≡ ", "\n      ∷ []"), keys);

    let block = [0x63, 0x98, 0xcd, 0x02, 0x37, 0x6c, 0xa1, 0xd6];
    let after = |r| {
        let array = reference::bench::array_after(&CHECKING, &block, r).expect("an array");
        array
            .as_chunks::<2>()
            .0
            .iter()
            .map(|&pair| u64::from(u16::from_be_bytes(pair)))
            .collect::<Vec<u64>>()
    };
    let rounds = Specs::of("rounds/specs/Vectors.antt");
    let all: Vec<u64> = [&keys[4..], &after(0), &after(12)].concat();
    assert_eq!(rounds.numbers("rounds_with\n", "the end"), all);

    // On the way every entry of every S-box is looked up: that of row j, column i
    // is in the box with index (i + j) mod 4.
    let mut looked_up = [[false; 16]; 4];
    for r in 0..12 {
        for (j, row) in after(r).iter().enumerate() {
            for i in 0..4 {
                looked_up[(i + j) % 4][(row >> (12 - 4 * i) & 15) as usize] = true;
            }
        }
    }
    assert_eq!(looked_up, [[true; 16]; 4]);
    report("exhibits: 13 round keys and 12 rounds, with all 64 entries of the S-boxes");
}
