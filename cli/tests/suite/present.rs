//! Sheets of PRESENT tags through every command, and keys that don't fit a cipher.

use crate::support::*;
use crate::words;
use std::fs;
use std::path::PathBuf;

/// Byte 2, the bytes of a key, the word for blanking, and the cipher in words.
const CIPHERS: [(usize, usize, &str, &str); 5] = [
    (4, 8, "mcrypton-64", "mCrypton with 64 bits"),
    (6, 12, "mcrypton-96", "mCrypton with 96 bits"),
    (8, 16, "mcrypton-128", "mCrypton with 128 bits"),
    (21, 10, "present-80", "PRESENT with 80 bits"),
    (24, 16, "present-128", "PRESENT with 128 bits"),
];

/// A blank sheet of three slots by the command, and its keys.
fn blanked(scratch: &Scratch, cipher: &str, key_len: usize) -> (PathBuf, PathBuf) {
    let (file, keys) = (scratch.join(cipher), scratch.keys(key_len));
    run(&words!["blank", file, "3", cipher, "1", keys]).done();
    (file, keys)
}

/// Each file and each output is the second program's, or says what it says.
#[test]
fn a_present_sheet_through_every_command() {
    for (class, key_len, cipher, _) in &CIPHERS[3..] {
        let scratch = Scratch::new();
        let (file, keys) = blanked(&scratch, cipher, *key_len);
        let bits = 8 * key_len;

        let sheet = blank_sheet(3, *class);
        assert_eq!(fs::read(&file).unwrap(), sheet);
        let write = words!["write", file, "1", keys, "--text", "Café"];
        run(&write).done();
        let sheet = written(&sheet, *key_len, 1, "Café".as_bytes());
        assert_eq!(fs::read(&file).unwrap(), sheet);
        run(&words!["read", file, "1", keys]).printed("Café".as_bytes());
        assert!(run(&write).stderr.contains("unchanged: slot 1 holds"));

        let table = "slot\ttext\twrite\tserial\tdigest\n2\tTable\t0\t1\n";
        run_with(&words!["import", file, keys], table.as_bytes()).done();
        let sheet = written(&sheet, *key_len, 2, b"Table");
        assert_eq!(fs::read(&file).unwrap(), sheet);
        let exported = format!(
            "slot\ttext\twrite\tserial\tdigest\n0\t\t0\t1\t\n1\tCafé\t1\t1\t{}\n2\tTable\t2\t1\t{}\n",
            digest("Café".as_bytes()),
            digest(b"Table")
        );
        run(&words!["export", file, keys]).printed(exported.as_bytes());

        let terms = scratch.join("terms");
        run(&words!["terms-blank", terms, "3"]).done();
        run(&words!["terms-set", terms, "1", "2026-05-01", "2026-10-31"]).done();
        let on = |date| words!["--terms", terms, "--on", date];
        let read = words!["read", file, "1", keys];
        run(&[&read[..], &on("2026-10-31")].concat()).printed("Café".as_bytes());
        run(&[&read[..], &on("2026-11-01")].concat()).refused(12, "not on show");
        run(&words!["map", file]).printed(b"  0 .oo\n. blank: 1\no written: 2\n");
        run(&[&words!["map", file][..], &on("2026-10-31")].concat())
            .printed(b"  0 .+-\n. blank: 1\n+ written, on show: 1\n- written, not on show: 1\n");

        run(&words!["verify", file, keys])
            .printed(b"0 blank\n1 sound 5\n2 sound 5\nslots 3 sound 2 blank 1 altered 0\n");
        run(&words!["clear", file, "2"]).done();
        let sheet = cleared(&sheet, 2);
        assert_eq!(fs::read(&file).unwrap(), sheet);
        let line = format!("slots 3 key {bits} last 2\n0 blank\n1 written 1 5\n2 blank\n");
        run(&words!["list", file]).printed(line.as_bytes());
        let mark = hex(&sheet[10..16]);
        for words in [
            words!["list", file, "--json"].to_vec(),
            words!["verify", file, keys, "--json"].to_vec(),
        ] {
            let json = String::from_utf8(run(&words).stdout).unwrap();
            let begins = format!(
                r#"{{"fit":true,"slots":3,"key":{bits},"last":2,"edition":3,"serial":1,"key_mark":"{mark}","cipher":"PRESENT","#
            );
            assert!(json.starts_with(&begins), "{json}");
        }
    }
}

/// Keys of every length from 7 bytes to 17 on a sheet of each cipher: those that no
/// cipher has are wrong, and of the others both lengths are named.
#[test]
fn keys_of_another_length_than_the_ciphers() {
    for (_, key_len, cipher, name) in CIPHERS {
        let scratch = Scratch::new();
        let (file, _) = blanked(&scratch, cipher, key_len);
        let (new, before) = (scratch.join("new"), fs::read(&file).unwrap());
        for length in (7..=17).filter(|length| *length != key_len) {
            let keys = scratch.key_file("others", &vec![1; length], &vec![2; length]);
            let (number, of_sheet, of_word) = match length {
                8 | 10 | 12 | 16 => {
                    let words = |whose| {
                        format!("other key class: keys of {length} bytes, where {whose}, {name}, has {key_len}")
                    };
                    (5, words("the sheet's cipher"), words("CIPHER"))
                }
                _ => {
                    let words = format!(
                        "wrong key: keys of {length} bytes, where there are 8, 10, 12 and 16"
                    );
                    (1, words.clone(), words)
                }
            };
            for words in [
                words!["read", file, "0", keys].to_vec(),
                words!["write", file, "0", keys, "--text", "Vase"].to_vec(),
                words!["verify", file, keys].to_vec(),
                words!["export", file, keys].to_vec(),
            ] {
                run(&words).refused(number, &of_sheet);
            }
            run(&words!["blank", new, "3", cipher, "1", keys]).refused(number, &of_word);
            assert!(!new.exists());
        }
        assert_eq!(fs::read(&file).unwrap(), before);
    }
}

/// A pair of 16 bytes that blanked a sheet of the other cipher is other keys; the
/// sheet's own pair is too where somebody changes byte 2.
#[test]
fn keys_of_sixteen_bytes_of_the_other_cipher() {
    let scratch = Scratch::new();
    let ciphers = [("mcrypton-128", 8), ("present-128", 24)];
    let made = ciphers.map(|(cipher, _)| {
        let (file, keys) = (scratch.join(cipher), scratch.join(format!("{cipher}.keys")));
        run(&words!["keys", keys, "128"]).done();
        run(&words!["blank", file, "1", cipher, "1", keys]).done();
        run(&words!["write", file, "0", keys, "--text", "Vase"]).done();
        (file, keys)
    });
    for (own, other) in [(0, 1), (1, 0)] {
        let (file, keys) = &made[own];
        run(&words!["read", file, "0", keys]).printed(b"Vase");
        let strange = &made[other].1;
        run(&words!["read", file, "0", strange]).refused(14, "other keys");
        run(&words!["verify", file, strange]).refused(14, "other keys");
        let write = words!["write", file, "0", strange, "--text", "Mine"];
        run(&write).refused(14, "other keys");
        let mut sheet = fs::read(file).unwrap();
        sheet[2] = ciphers[other].1;
        let changed = scratch.join("changed");
        fs::write(&changed, &sheet).unwrap();
        run(&words!["read", changed, "0", keys]).refused(14, "other keys");
    }
}

/// One pair may serve a sheet of each cipher.
#[test]
fn a_pair_of_128_bits_serves_either_cipher() {
    let scratch = Scratch::new();
    for cipher in ["128", "present-128"] {
        let (file, keys) = blanked(&scratch, cipher, 16);
        run(&words!["write", file, "0", keys, "--text", "Vase"]).done();
        run(&words!["read", file, "0", keys]).printed(b"Vase");
    }
}

/// A name is taken as it stands in the help; a number of bits that mCrypton hasn't
/// is a wrong key, and PRESENT's says what to write.
#[test]
fn what_is_no_cipher() {
    let scratch = Scratch::new();
    let (new, keys) = (scratch.join("new"), scratch.keys(10));
    let choice = "CIPHER is 64, 96 or 128 for mCrypton, present-80 or present-128";
    for word in [
        "present",
        "PRESENT-80",
        "present-64",
        "present-80 ",
        "mcrypton-80",
        "mcrypton",
        "aes-128",
        "present80",
        "21x",
        "",
    ] {
        let shown = if word.is_empty() { "\"\"" } else { word };
        run(&words!["blank", new, "3", word, "1", keys])
            .failed(64, &format!("{choice}, not {shown}\n"));
    }
    for (word, words) in [
        ("80", "CIPHER is present-80, not 80".to_string()),
        ("080", "CIPHER is present-80, not 80".to_string()),
        ("21", format!("{choice}, not 21")),
        ("4", format!("{choice}, not 4")),
    ] {
        run(&words!["blank", new, "3", word, "1", keys]).refused(1, &format!("wrong key: {words}"));
    }
    assert!(!new.exists());
    run(&words!["blank", new, "3", "064", "1", scratch.keys(8)]).done();
}

/// On a sheet of edition 1 or 2, or of none, byte 2 is mCrypton's.
#[test]
fn presents_numbers_are_fit_in_edition_3_alone() {
    let scratch = Scratch::new();
    for class in [21, 24] {
        for edition in [1, 2, 4] {
            let file = scratch.join("sheet");
            let mut sheet = blank_sheet(2, class);
            sheet[3] = edition;
            fs::write(&file, &sheet).unwrap();
            let words = format!(
                "unfit sheet: key class {class}, where there are 4, 6 and 8, in edition 3 also 21 and 24 (byte 2)"
            );
            run(&words!["read", file, "0", scratch.keys(10)]).refused(4, &words);
            run(&words!["clear", file, "0"]).refused(4, &words);
            // By its size it is a sheet all the same, and may be blanked.
            let keys = scratch.keys(16);
            run(&words![
                "blank",
                file,
                "2",
                "present-128",
                "9",
                keys,
                "--force"
            ])
            .done();
        }
    }
}

/// A torn PRESENT sheet is one, and is never taken for keys.
#[test]
fn a_torn_present_sheet_is_a_sheet() {
    let scratch = Scratch::new();
    let (file, keys) = blanked(&scratch, "present-80", 10);
    let torn = fs::read(&file).unwrap()[..300].to_vec();
    fs::write(&file, &torn).unwrap();
    run(&words!["read", file, "0", keys])
        .refused(4, "unfit sheet: 300 bytes, where 3 slots have 640");
    run(&words!["read", file, "0", file]).failed(65, "a caption sheet, not keys");
    run(&words![
        "blank",
        file,
        "3",
        "present-80",
        "1",
        keys,
        "--force"
    ])
    .failed(73, "has serial 1 already");
    run(&words![
        "blank",
        file,
        "3",
        "present-80",
        "2",
        keys,
        "--force"
    ])
    .done();
}

/// The same serial is the same start only under the same cipher.
#[test]
fn a_serial_is_used_once_for_each_cipher() {
    let scratch = Scratch::new();
    let (file, keys) = blanked(&scratch, "present-128", 16);
    let again = |cipher| words!["blank", file, "3", cipher, "1", keys, "--force"];
    run(&again("present-128")).failed(73, "has serial 1 already");
    run(&again("mcrypton-128")).done();
    run(&again("128")).failed(73, "has serial 1 already");
}

/// The bench and panels are mCrypton's, whose keys never have 80 bits.
#[test]
fn bench_and_panels_take_no_key_of_ten_bytes() {
    let scratch = Scratch::new();
    let key = scratch.join("key");
    fs::write(&key, format!("{}\n", hex(&SEALING[..10]))).unwrap();
    set_mode(&key, 0o600);
    let words = "wrong key: a key of 10 bytes, where there are 8, 12 and 16";
    run(&words!["bench", key, "1", "00".repeat(8)]).refused(1, words);
    run_with(&words!["panel", key, "1"], b"Bronze Age.").refused(1, words);
}
