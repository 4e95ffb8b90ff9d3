//! What the command says of a refusal beside its number and word.

use crate::support::*;
use crate::words;
use std::ffi::OsString;
use std::fs;
use std::path::PathBuf;

struct Place {
    scratch: Scratch,
    sheet: PathBuf,
    keys: PathBuf,
}

impl Place {
    fn new() -> Place {
        let scratch = Scratch::new();
        let (sheet, keys) = (scratch.join("sheet"), scratch.keys(8));
        fs::write(&sheet, written(&blank_sheet(4, 4), 8, 1, b"Clock")).unwrap();
        Place {
            scratch,
            sheet,
            keys,
        }
    }

    fn file(&self, name: &str, bytes: &[u8]) -> PathBuf {
        let path = self.scratch.join(name);
        fs::write(&path, bytes).unwrap();
        set_mode(&path, 0o644);
        path
    }
}

/// Length, range, values that are allowed, and both sizes.
#[test]
fn a_refusal_says_what_was_given_and_what_is_allowed() {
    let place = Place::new();
    let Place { sheet, keys, .. } = &place;
    let new = place.scratch.join("new");
    let slots = "no such slot: 4, where the sheet has 0 to 3";
    run(&words!["read", sheet, "4", keys]).refused(6, slots);
    run(&words!["clear", sheet, "4"]).refused(6, slots);
    run(&words!["write", sheet, "4", keys, "--text", "a"]).refused(6, slots);
    let terms = place.file("terms", &term_sheet(&[(1, 0); 3]));
    run(&words!["terms-set", terms, "3", "--never"])
        .refused(6, "no such slot: 3, where the term sheet has 0 to 2");

    let write = words!["write", sheet, "0", keys];
    for (length, over) in [(193, "1"), (200, "8"), (1 << 20, "1048384")] {
        let words =
            format!("overlong: {length} bytes, where a caption has at most 192: {over} too many");
        run_with(&write, &vec![b'x'; length]).refused(7, &words);
    }
    let endless = [&write[..], &words!["--file", "/dev/zero"]].concat();
    let words = "overlong: more than 1048576 bytes, where a caption has at most 192";
    run(&endless).refused(7, words);
    run(&[&write[..], &words!["--text", "é".repeat(97)]].concat()).refused(
        7,
        "overlong: 194 bytes, where a caption has at most 192: 2 too many",
    );

    let cipher = "wrong key: CIPHER is 64, 96 or 128 for mCrypton, present-80 or present-128";
    let words = format!("{cipher}, not 100");
    run(&words!["blank", new, "4", "100", "1", keys]).refused(1, &words);
    let words = "wrong key: CIPHER is present-80, not 80";
    run(&words!["blank", new, "4", "80", "1", keys]).refused(1, words);
    let words = "wrong key: BITS is 64, 80, 96 or 128, not 100";
    run(&words!["keys", new, "100"]).refused(1, words);
    let odd = place.scratch.key_file("odd", &[7; 9], &[8; 9]);
    let words = "wrong key: keys of 9 bytes, where there are 8, 10, 12 and 16";
    run(&words!["read", sheet, "0", odd]).refused(1, words);
    run(&words!["blank", new, "4", "64", "1", odd]).refused(1, words);
    let unlike = place.scratch.key_file("unlike", &[7; 8], &[8; 12]);
    let words = "wrong key: a sealing key of 8 bytes and a checking key of 12; \
                 both have 8, both 10, both 12 or both 16";
    run(&words!["verify", sheet, unlike]).refused(1, words);

    let words = "wrong span: SLOTS is 1 to 256, not 257";
    run(&words!["blank", new, "257", "64", "1", keys]).refused(3, words);
    run(&words!["terms-blank", new, "257"]).refused(3, words);

    let long = place.scratch.keys(16);
    let words = "other key class: keys of 16 bytes, where the sheet's cipher, \
                 mCrypton with 64 bits, has 8";
    run(&words!["read", sheet, "0", long]).refused(5, words);
    run(&words!["export", sheet, long]).refused(5, words);
    let words = "other key class: keys of 16 bytes, where CIPHER, mCrypton with 64 bits, has 8";
    run(&words!["blank", new, "4", "64", "1", long]).refused(5, words);
    let words = "other key class: keys of 16 bytes, where CIPHER, PRESENT with 80 bits, has 10";
    run(&words!["blank", new, "4", "present-80", "1", long]).refused(5, words);

    let key = place.scratch.join("key");
    fs::write(&key, "0d2a4764819ebbd8\n").unwrap();
    set_mode(&key, 0o600);
    run(&words!["bench", key, "13", "00".repeat(8)])
        .refused(13, "no such round: 13, where there are 0 to 12");
    run(&words!["bench", key, "1", "00".repeat(7)])
        .refused(3, "wrong span: ARRAY has 16 hex digits, not 14");
    fs::write(&key, "0d2a47\n").unwrap();
    run(&words!["bench", key, "1", "00".repeat(8)]).refused(
        1,
        "wrong key: a key of 3 bytes, where there are 8, 12 and 16",
    );
    assert!(!new.exists());
}

/// A term sheet of another count, another file, a day that there isn't.
#[test]
fn what_is_wrong_with_a_term_sheet() {
    let place = Place::new();
    let sheet = fs::read(&place.sheet).unwrap();
    let fit = term_sheet(&[(0, 36524); 4]);
    let cases: [(Vec<u8>, &str); 9] = [
        (
            term_sheet(&[(0, 36524); 6]),
            "it is for 6 slots, where the sheet has 4",
        ),
        (sheet, "it is a caption sheet"),
        (fs::read(&place.keys).unwrap(), "it is a file of keys"),
        (Vec::new(), "it is an empty file"),
        (
            term_sheet(&[(0, 1), (0, 1), (36525, 1), (0, 1)]),
            "slot 2: opening day 36525, where the last is 36524",
        ),
        (
            term_sheet(&[(0, 1), (0, 65535), (0, 1), (0, 1)]),
            "slot 1: closing day 65535, where the last is 36524",
        ),
        (
            fit[..11].to_vec(),
            "11 bytes, where a term sheet of 4 slots has 18",
        ),
        (vec![0, 0], "0 slots, where there are 1 to 256"),
        (vec![0], "1 byte, where it has at least 6"),
    ];
    for (bytes, words) in cases {
        let terms = place.file("terms", &bytes);
        let dated = words!["--terms", terms, "--on", "2026-05-01"];
        let read = words!["read", place.sheet, "1", place.keys];
        let whole = format!("unfit sheet: the term sheet does not fit: {words}");
        run(&[&read[..], &dated].concat()).refused(4, &whole);
        // Without a sheet there is no other count.
        if !words.contains("where the sheet has") {
            run(&words!["terms-set", terms, "0", "--never"]).refused(4, &whole);
            let run = run(&words!["terms", terms]);
            assert_eq!((run.status, run.stdout.as_slice()), (0, &b"unfit\n"[..]));
            assert_eq!(run.stderr, format!("captions: unfit term sheet: {words}\n"));
        }
    }
}

/// A file in another's place is told as what it is, and only keys get advice on
/// permissions.
#[test]
fn a_sheet_is_no_keys_and_keys_are_no_sheet() {
    let place = Place::new();
    let Place { sheet, keys, .. } = &place;
    let large = place.file("large", &blank_sheet(256, 8));
    let terms = place.file("terms", &term_sheet(&[(1, 0); 256]));
    set_mode(sheet, 0o644);
    for (file, name) in [
        (sheet, "a caption sheet"),
        (&large, "a caption sheet"),
        (&terms, "a term sheet"),
    ] {
        let message = |all: &str| format!("captions: {}: {name}, not {all}\n", file.display());
        let commands: [Vec<OsString>; 4] = [
            words!["read", keys, "0", file].to_vec(),
            words!["verify", sheet, file].to_vec(),
            words!["write", keys, "0", file, "--text", "a"].to_vec(),
            words!["blank", place.scratch.join("new"), "1", "64", "1", file].to_vec(),
        ];
        for words in commands.iter().filter(|words| words[1] != words[2]) {
            let run = run(words);
            assert_eq!((run.status, run.stderr), (65, message("keys")));
        }
        let run = run(&words!["bench", file, "1", "00".repeat(8)]);
        assert_eq!((run.status, run.stderr), (65, message("key")));
    }
    // Text that is no key gets no advice either.
    let letter = place.file("letter", b"A letter, by mistake\n");
    let read = run(&words!["read", sheet, "0", letter]);
    assert_eq!((read.status, read.stderr.lines().count()), (65, 1));

    let other = place.scratch.key_file("other", &[7; 8], &[8; 8]);
    let end = "slots, where a sheet has 1 to 256 (bytes 0 and 1); it is a file of keys";
    let words = format!("unfit sheet: 12339 {end}");
    fs::write(&other, b"03".repeat(8)).unwrap();
    assert_eq!(u16::from_be_bytes(*b"03"), 12339);
    run(&words!["read", other, "0", keys]).refused(4, &words);
    run(&words!["clear", other, "0"]).refused(4, &words);
    run(&words!["export", other, keys]).refused(4, &words);
    let read = run(&words!["read", terms, "0", keys]);
    assert!(
        read.stderr.contains("; it is a term sheet\n"),
        "{}",
        read.stderr
    );
}

// ---- Listings of what is unfit ----

#[test]
fn a_listing_of_an_unfit_sheet_says_why() {
    let place = Place::new();
    let sheet = fs::read(&place.sheet).unwrap();
    let key_text = fs::read(&place.keys).unwrap();
    for (bytes, reason) in [
        (&sheet[..700], "700 bytes, where 4 slots have 848"),
        (b"tag", "3 bytes, where a sheet has at least 8"),
        (
            &key_text,
            "12388 slots, where a sheet has 1 to 256 (bytes 0 and 1); it is a file of keys",
        ),
    ] {
        let file = place.file("unfit", bytes);
        let list = run(&words!["list", file]);
        assert_eq!((list.status, list.stdout.as_slice()), (0, &b"unfit\n"[..]));
        let line = format!("captions: unfit sheet: {reason}\n");
        assert_eq!(list.stderr, line);
        let none = "\"slots\":null,\"key\":null,\"last\":null,\
                    \"edition\":null,\"serial\":null,\"key_mark\":null,\"cipher\":null";
        let list = run(&words!["list", file, "--json"]);
        assert_eq!((list.status, list.stderr), (0, line.clone()));
        assert_eq!(
            String::from_utf8(list.stdout).unwrap(),
            format!("{{\"fit\":false,{none},\"reason\":\"{reason}\",\"list\":[\n\n]}}\n")
        );
        let verify = run(&words!["verify", file, place.keys, "--json"]);
        assert_eq!(
            (verify.status, verify.stderr),
            (4, line + "4 unfit sheet\n")
        );
        let counts = "\"sound\":null,\"blank\":null,\"altered\":null";
        assert_eq!(
            String::from_utf8(verify.stdout).unwrap(),
            format!(
                "{{\"fit\":false,{none},{counts},\"refusal\":4,\"word\":\"unfit sheet\",\
                 \"reason\":\"{reason}\",\"list\":[\n\n]}}\n"
            )
        );
    }
}

/// Whatever is refused, there is JSON.
#[test]
fn verify_prints_json_whatever_it_refuses() {
    let place = Place::new();
    let other = place.scratch.key_file("other", &[7; 8], &[8; 8]);
    let twins = place.scratch.key_file("twins", &[7; 8], &[7; 8]);
    let odd = place.scratch.key_file("odd", &[7; 9], &[8; 9]);
    for (keys, number, word) in [
        (&other, 14, "other keys"),
        (&twins, 2, "twin keys"),
        (&odd, 1, "wrong key"),
        (&place.scratch.keys(16), 5, "other key class"),
    ] {
        let run = run(&words!["verify", place.sheet, keys, "--json"]);
        let json = String::from_utf8(run.stdout).unwrap();
        assert_eq!(run.status, number);
        assert!(run.stderr.ends_with(&format!("{number} {word}\n")));
        let begin = "{\"fit\":true,\"slots\":4,\"key\":64,\"last\":1,\"edition\":3,\"serial\":1,";
        assert!(json.starts_with(begin), "{json}");
        let refusal = format!("\"refusal\":{number},\"word\":\"{word}\",\"reason\":");
        assert!(json.contains(&refusal), "{json}");
        assert!(json.ends_with(",\"list\":[\n\n]}\n"), "{json}");
    }
}
