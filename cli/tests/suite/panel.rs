//! Wall panels: sealed and opened, and the number that comes next.

use crate::support::*;
use crate::words;
use reference::panel::panel_blocks;
use std::fs;
use std::path::{Path, PathBuf};

const TEXT: &[u8] = b"Bronze Age.";

/// A file with the sealing key of this many bytes alone.
fn key_file(scratch: &Scratch, length: usize) -> PathBuf {
    let path = scratch.join(format!("key-{length}"));
    fs::write(&path, format!("{}\n", hex(&SEALING[..length]))).unwrap();
    set_mode(&path, 0o600);
    path
}

/// What the second program seals.
fn sealed(length: usize, first: u64, panel: &[u8]) -> Vec<u8> {
    let mut out = vec![0; panel.len()];
    let answer = reference::panel::panel(&SEALING[..length], first, panel, &mut out);
    assert_eq!(answer.number, 0);
    out
}

/// What standard error says after a panel.
fn free(next: impl std::fmt::Display) -> String {
    format!("captions: the first free number after this panel is {next}\n")
}

impl Run {
    /// Sealed, with this on standard output and that number free.
    #[track_caller]
    fn sealed(self, stdout: &[u8], next: impl std::fmt::Display) {
        assert_eq!((self.status, self.stderr), (0, free(next)));
        assert!(self.stdout == stdout);
    }
}

#[test]
fn sealed_as_the_second_program_seals_and_opened_again() {
    let scratch = Scratch::new();
    let mut random = Random(8);
    for key in [8, 12, 16] {
        let file = key_file(&scratch, key);
        let lengths = (1..=70).chain([191, 192, 193, 255, 256, 257, 65_535, 65_536]);
        for (length, first) in lengths.zip(
            [0, 1, u64::MAX - 8191, u64::MAX - 1, u64::MAX]
                .iter()
                .cycle(),
        ) {
            let panel: Vec<u8> = (0..length).map(|_| random.next() as u8).collect();
            let expected = sealed(key, *first, &panel);
            let next = first.wrapping_add(panel_blocks(length));
            let words = words!["panel", file, first.to_string()];
            run_with(&words, &panel).sealed(&expected, next);
            run_with(&words, &expected).sealed(&panel, next);
            let words = words!["panel", file, format!("{first:#x}")];
            run_with(&words, &panel).sealed(&expected, format!("{next:#018x}"));
        }
    }
}

/// The worked panel of the help, the tour and the format.
#[test]
fn eleven_bytes_across_the_wrap() {
    let scratch = Scratch::new();
    let key = key_file(&scratch, 8);
    let expected = b"\x3e\x5b\xf6\xb1\x9b\x65\xdd\x4e\xe9\xf6\xf7";
    for (first, next) in [
        ("18446744073709551615", "1"),
        ("0018446744073709551615", "1"),
        ("0xffffffffffffffff", "0x0000000000000001"),
        ("0XFFFFffffFFFFffff", "0x0000000000000001"),
        ("0x0000ffffffffffffffff", "0x0000000000000001"),
    ] {
        run_with(&words!["panel", key, first], TEXT).sealed(expected, next);
    }
}

#[test]
fn files_for_panel_and_output() {
    let scratch = Scratch::new();
    let key = key_file(&scratch, 12);
    let [text, out, back] = ["text", "out", "back"].map(|name| scratch.join(name));
    fs::write(&text, TEXT).unwrap();
    let seal = |from: &Path, to: &Path| words!["panel", key, "7", "--file", from, "--output", to];
    run(&seal(&text, &out)).sealed(b"", 9);
    assert_eq!(fs::read(&out).unwrap(), sealed(12, 7, TEXT));
    run(&seal(&out, &back)).sealed(b"", 9);
    assert_eq!(fs::read(&back).unwrap(), TEXT);
    run(&words!["panel", key, "7", "--file", text]).sealed(&sealed(12, 7, TEXT), 9);
    run_with(&words!["panel", key, "7", "--file", "-"], TEXT).sealed(&sealed(12, 7, TEXT), 9);
    let key_text = fs::read(&key).unwrap();
    let words = words!["panel", "-", "7", "--file", text];
    run_with(&words, &key_text).sealed(&sealed(12, 7, TEXT), 9);
    assert!(temporaries(scratch.path()).is_empty());
}

/// An output that exists, with and without --force, and what is never replaced.
#[test]
fn an_output_that_exists() {
    let scratch = Scratch::new();
    let key = key_file(&scratch, 16);
    let out = scratch.join("out");
    let seal = words!["panel", key, "7", "--output", out];
    let force = words!["panel", key, "7", "--output", out, "--force"];
    run_with(&force, TEXT).sealed(b"", 9);
    for old in [&b"an old panel, longer than the new one"[..], b"", b"x"] {
        fs::write(&out, old).unwrap();
        run_with(&seal, TEXT).failed(73, "exists; --force replaces it");
        assert_eq!(fs::read(&out).unwrap(), old);
        run_with(&force, TEXT).sealed(b"", 9);
        assert_eq!(fs::read(&out).unwrap(), sealed(16, 7, TEXT));
    }
    for (old, kind) in [
        (blank_sheet(2, 4), "a caption sheet"),
        (term_sheet(&[(0, 5)]), "a term sheet"),
        (b"0011\n2233\n".to_vec(), "a file of keys"),
    ] {
        fs::write(&out, &old).unwrap();
        run_with(&force, TEXT).failed(73, &format!("{kind}, which no panel replaces"));
        assert_eq!(fs::read(&out).unwrap(), old);
    }
    let nowhere = scratch.join("none/out");
    run_with(&words!["panel", key, "7", "--output", nowhere], TEXT).failed(73, "none/out");
    let words = words!["panel", key, "7", "--empty", "--output", "-"];
    run(&words).failed(64, "- is standard input");
}

/// A refusal prints nothing and leaves an output file alone. 3 can't be met here.
#[test]
fn refusals() {
    let scratch = Scratch::new();
    let out = scratch.join("out");
    let panel = vec![0x41; 65_537];
    for length in [7, 9, 13] {
        let key = key_file(&scratch, length);
        run_with(&words!["panel", key, "7"], TEXT).refused(1, "wrong key");
        run_with(&words!["panel", key, "7", "--output", out], &panel).refused(1, "wrong key");
    }
    for length in [8, 12, 16] {
        let key = key_file(&scratch, length);
        let words = "overlong: 65537 bytes, where a panel has at most 65536: 1 too many";
        run_with(&words!["panel", key, "7"], &panel).refused(7, words);
        run_with(&words!["panel", key, "7", "--output", out], &panel).refused(7, words);
        fs::write(&out, TEXT).unwrap();
        let force = words!["panel", key, "7", "--output", out, "--force"];
        run_with(&force, &panel).refused(7, words);
        assert_eq!(fs::read(&out).unwrap(), TEXT);
        fs::remove_file(&out).unwrap();
        let long = vec![0; (1 << 20) + 2];
        let words = "overlong: more than 1048576 bytes, where a panel has at most 65536";
        run_with(&words!["panel", key, "7"], &long).refused(7, words);
    }
}

/// No bytes are taken for a panel that was lost, unless they are asked for.
#[test]
fn an_empty_panel() {
    let scratch = Scratch::new();
    let (key, out) = (key_file(&scratch, 8), scratch.join("out"));
    run(&words!["panel", key, "7", "--empty"]).sealed(b"", 7);
    run(&words!["panel", key, "0xff", "--empty"]).sealed(b"", "0x00000000000000ff");
    run(&words!["panel", key, "7", "--empty", "--output", out]).sealed(b"", 7);
    assert_eq!(fs::read(&out).unwrap(), b"");
    let lost = "no panel; --empty gives one of no bytes";
    run(&words!["panel", key, "7"]).failed(66, lost);
    run(&words!["panel", key, "7", "--file", out]).failed(66, lost);
    let words = words!["panel", key, "7", "--empty", "--file", out];
    run(&words).failed(64, "one of --file and --empty at most");
}

#[test]
fn words_that_are_no_number_and_files_named_twice() {
    let scratch = Scratch::new();
    let key = key_file(&scratch, 8);
    for first in [
        "",
        "x",
        "-1",
        "+1",
        "1.0",
        "0x",
        "0x+1",
        "ff",
        "0xfg",
        "18446744073709551616",
        "0x10000000000000000",
        "1 ",
    ] {
        run(&words!["panel", key, "--", first]).failed(64, "FIRST is 0 to 18446744073709551615");
    }
    let text = scratch.join("text");
    fs::write(&text, TEXT).unwrap();
    let words = words!["panel", key, "7", "--file", text, "--output", text, "--force"];
    run(&words).failed(64, "--output and --file are the same file");
    let words = words!["panel", key, "7", "--file", text, "--output", key, "--force"];
    run(&words).failed(64, "--output and KEYFILE are the same file");
    run(&words!["panel", "-", "7"]).failed(64, "standard input can't be two things at once");
    run(&words!["panel", scratch.join("none"), "7"]).failed(66, "No such file");
    run(&words!["panel", scratch.keys(8), "7"]).failed(65, "this command takes one key");
    assert_eq!(fs::read(&text).unwrap(), TEXT);
}
