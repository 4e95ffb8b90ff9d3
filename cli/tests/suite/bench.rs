//! The bench for tag chips: the block that leads to an array after a round.

use crate::support::*;
use crate::words;
use std::fs;
use std::path::PathBuf;

const BLOCK: [u8; 8] = *b"\x07\x3c\x71\xa6\xdb\x10\x45\x7a";
const NO_ROUND: &str = "no such round";

/// A file with the sealing key of this many bytes alone.
fn key_file(scratch: &Scratch, length: usize) -> PathBuf {
    file_of(scratch, format!("{}\n", hex(&SEALING[..length])).as_bytes())
}

fn file_of(scratch: &Scratch, text: &[u8]) -> PathBuf {
    let path = scratch.join("key");
    fs::write(&path, text).unwrap();
    set_mode(&path, 0o600);
    path
}

/// The arrays are the second program's: from each of them back to the block.
#[test]
fn every_round_of_every_key_size_leads_back_to_the_block() {
    let scratch = Scratch::new();
    for length in [8, 12, 16] {
        let key = key_file(&scratch, length);
        for round in 0..=12 {
            let array = reference::array_after(&SEALING[..length], &BLOCK, round).unwrap();
            let words = words!["bench", key, round.to_string(), hex(&array)];
            run(&words).printed(b"073c71a6db10457a\n");
        }
    }
}

#[test]
fn key_and_array_as_people_type_them() {
    let scratch = Scratch::new();
    let digits = hex(&SEALING[..8]);
    for text in [
        format!("{digits}\n"),
        digits.clone(),
        format!("{digits}\r\n"),
        format!("{}\n", digits.to_uppercase()),
    ] {
        let key = file_of(&scratch, text.as_bytes());
        for array in ["499eb974eb5657df", "499EB974EB5657DF", "499eB974Eb5657dF"] {
            run(&words!["bench", key, "5", array]).printed(b"073c71a6db10457a\n");
            run(&words!["bench", key, "0005", array]).printed(b"073c71a6db10457a\n");
        }
        let words = ["bench", "-", "5", "499eb974eb5657df"];
        run_with(&words, text.as_bytes()).printed(b"073c71a6db10457a\n");
    }
}

/// 1, then 3, then 13, and nothing printed.
#[test]
fn refusals_in_their_order() {
    let scratch = Scratch::new();
    let (array, short, long) = ("499eb974eb5657df", "499eb974eb5657", "499eb974eb5657df00");
    for digits in [0, 1, 7, 9, 11, 13, 15] {
        let key = file_of(
            &scratch,
            format!("{}\n", hex(&SEALING[..digits])).as_bytes(),
        );
        run(&words!["bench", key, "5", array]).refused(1, "wrong key");
        run(&words!["bench", key, "13", short]).refused(1, "wrong key");
    }
    for length in [8, 12, 16] {
        let key = key_file(&scratch, length);
        for array in [short, long, "00"] {
            run(&words!["bench", key, "12", array]).refused(3, "wrong span");
            run(&words!["bench", key, "13", array]).refused(3, "wrong span");
        }
        for round in ["13", "255", "256", "65548", "18446744073709551615"] {
            run(&words!["bench", key, round, array]).refused(13, NO_ROUND);
        }
        // One that is too large for the machine isn't taken for a small one.
        run(&words!["bench", key, "18446744073709551628", array]).refused(13, NO_ROUND);
    }
}

#[test]
fn words_that_are_no_round_or_no_array() {
    let scratch = Scratch::new();
    let key = key_file(&scratch, 8);
    let array = "499eb974eb5657df";
    for round in ["", "x", "0x5", "+5", "5.0", "five"] {
        run(&words!["bench", key, round, array]).failed(64, "ROUND is a decimal number");
    }
    for array in [
        "",
        "499eb974eb5657d",
        "0x499eb974eb5657df",
        "499e b974 eb56 57df",
        "499eb974eb5657dg",
        "+99eb974eb5657df",
        "é9eb974eb5657df",
    ] {
        run(&words!["bench", key, "5", array]).failed(64, "ARRAY is 16 hex digits");
    }
    run(&words!["bench", scratch.join("none"), "5", array]).failed(66, "No such file");
    // The words are looked at before the file is.
    run(&words!["bench", scratch.join("none"), "x", array]).failed(64, "ROUND");
    run(&words!["bench", key, "5", array, "--wait", "1"]).failed(64, "no option --wait");
}

/// The line and what is wrong with it, and no digit of the key.
#[test]
fn what_is_wrong_with_the_key_is_said() {
    let scratch = Scratch::new();
    let digits = hex(&SEALING[..8]);
    let more = "line 2: more than one line; this command takes one key";
    for (text, expected) in [
        (String::new(), "it is empty"),
        (format!("{digits}\n{digits}\n"), more),
        (
            format!("{digits}\n\n"),
            "line 2: an empty line after the one key",
        ),
        (format!("0x{digits}\n"), "line 1: 0x before the digits"),
        (format!("{digits} \n"), "line 1: a blank in column 17"),
        (
            format!("{digits}0\n"),
            "line 1: an odd number of hex digits, 17",
        ),
        ("00".repeat(1 << 20), "too long for one key"),
    ] {
        let key = file_of(&scratch, text.as_bytes());
        let run = run(&words!["bench", key, "5", "499eb974eb5657df"]);
        assert!(!run.stderr.contains(&digits[2..8]));
        run.failed(65, expected);
    }
    let pair = scratch.keys(8);
    run(&words!["bench", pair, "5", "499eb974eb5657df"]).failed(65, more);
}

#[test]
fn a_key_that_everybody_can_read_is_warned_of() {
    let scratch = Scratch::new();
    let key = key_file(&scratch, 8);
    set_mode(&key, 0o644);
    let run = run(&words!["bench", key, "5", "499eb974eb5657df"]);
    assert_eq!(
        (run.status, run.stdout.as_slice()),
        (0, &b"073c71a6db10457a\n"[..])
    );
    let name = key.display();
    assert_eq!(
        run.stderr,
        format!("captions: {name}: the key can be read by every user: chmod 600 ends that\n")
    );
}
