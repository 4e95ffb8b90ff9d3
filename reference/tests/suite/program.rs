//! The program at a shell.

use crate::edition::Edition;
use crate::random::Random;
use std::ffi::OsStr;
use std::io::Write;
use std::process::{Command, Output, Stdio};

fn run(arguments: &[impl AsRef<OsStr>], input: &[u8]) -> Output {
    let mut child = Command::new(env!("CARGO_BIN_EXE_reference"))
        .args(arguments)
        .stdin(Stdio::piped())
        .stdout(Stdio::piped())
        .stderr(Stdio::piped())
        .spawn()
        .unwrap();
    // The program may stop reading before a long input ends.
    let _ = child.stdin.take().unwrap().write_all(input);
    child.wait_with_output().unwrap()
}

/// What the program prints when it ends well.
pub fn printed(arguments: &[impl AsRef<OsStr>], input: &[u8]) -> Vec<u8> {
    let output = run(arguments, input);
    assert!(output.status.success());
    assert!(output.stderr.is_empty());
    output.stdout
}

#[test]
fn the_program_prints_each_kind_of_vectors() {
    use reference::vectors::*;
    for (kind, text) in [
        ("blocks", blocks()),
        ("present", present()),
        ("keys", keys()),
        ("bench", bench()),
        ("cmac", cmacs()),
        ("steps", steps()),
        ("cbc", cbc()),
        ("panel", panels()),
        ("marks", marks()),
        ("sheet", sheet()),
        ("faults", faults()),
        ("dated", dated()),
        ("classes", classes()),
        ("texts", texts()),
    ] {
        assert_eq!(printed(&["vectors", kind], b""), text.as_bytes());
    }
}

/// The zero key and the block that is its round key 0: by cases F and I of
/// document 01 the arrays after rounds 0 and 1 are known.
#[test]
fn the_program_prints_the_array_after_each_round() {
    let block = "5000050000500005";
    for digits in [16, 24, 32] {
        let key = "0".repeat(digits);
        let rounds = printed(&["rounds", &key, block], b"");
        assert!(rounds.starts_with(b"0 0000000000000000\n1 38ea5eea588a58ec\n2 "));
        assert_eq!(rounds.iter().filter(|byte| **byte == b'\n').count(), 13);
        let text = reference::vectors::rounds(&key, block).unwrap();
        assert_eq!(rounds, text.as_bytes());
    }
}

#[test]
fn the_operands_of_rounds_are_taken_in_either_case() {
    let (key, block) = ("0d2a4764819ebbd8f5122f4c", "abcdef0123456789");
    let rounds = printed(&["rounds", key, block], b"");
    let (upper_key, upper_block) = (key.to_uppercase(), block.to_uppercase());
    assert_eq!(printed(&["rounds", &upper_key, &upper_block], b""), rounds);
    let mixed = "0D2a4764819eBBd8f5122F4c";
    assert_eq!(printed(&["rounds", mixed, "aBcDeF0123456789"], b""), rounds);
    let lower = |byte: &u8| !byte.is_ascii_uppercase();
    assert!(rounds.iter().all(lower));
}

/// What is neither a key nor eight bytes in hex digits.
fn wrong_operands() -> Vec<String> {
    let mut wrong = [
        "",
        "-",
        "0x23456789abcdef",
        "0x0123456789abcdef",
        "+123456789abcdef",
        "0123456789abcdeg",
        "0123456789abcde ",
        "01234567 89abcdef",
        "0123456789abcdef\n",
        "0123456789abcde\u{ff16}",
        "\u{fffd}123456789abcdef",
    ]
    .map(String::from)
    .to_vec();
    wrong.extend([1, 2, 14, 15, 17, 18, 22, 23, 25, 26, 30, 31, 33, 34, 528].map(digits));
    wrong
}

/// Each is tried as the key and as the block, with a fine other operand.
#[test]
fn wrong_operands_of_rounds_give_usage_and_status_64() {
    let fine = "0123456789abcdef";
    for wrong in &wrong_operands() {
        assert_wrong_usage(&["rounds", wrong, fine]);
        assert_wrong_usage(&["rounds", fine, wrong]);
    }
    // A key's lengths that no block has.
    assert_wrong_usage(&["rounds", fine, &digits(24)]);
    assert_wrong_usage(&["rounds", fine, &digits(32)]);
    assert_wrong_usage(&["rounds"]);
    assert_wrong_usage(&["rounds", fine]);
    assert_wrong_usage(&["rounds", fine, fine, fine]);
    assert_wrong_usage(&["rounds", fine, fine, ""]);
}

/// A number of hex digits.
fn digits(count: usize) -> String {
    "7".repeat(count)
}

#[test]
fn the_program_seals_a_panel_and_opens_it() {
    let (key, first) = ("0d2a4764819ebbd8f5122f4c", "fffffffffffffffe");
    let key_bytes = crate::support::hex(key);
    let mut random = Random::new(320);
    for length in [0, 1, 7, 8, 9, 300, 65535, 65536] {
        let text = random.bytes(length);
        let mut expected = vec![0; length];
        reference::panel(&key_bytes, u64::MAX - 1, &text, &mut expected);
        let sealed = printed(&["panel", key, first], &text);
        assert!(sealed == expected);
        assert!(printed(&["panel", key, first], &sealed) == text);
        let upper_case = [key.to_uppercase(), first.to_uppercase()];
        assert!(printed(&["panel", &upper_case[0], &upper_case[1]], &text) == sealed);
    }
}

#[test]
fn the_program_takes_each_length_of_a_key_for_a_panel() {
    for digits in [16, 24, 32] {
        let key = "0".repeat(digits);
        let mut block = [0; 8];
        reference::encrypt_block(&vec![0; digits / 2], &[0, 0, 0, 0, 0, 0, 0, 1], &mut block);
        let sealed = printed(&["panel", &key, "0000000000000001"], &[0; 8]);
        assert_eq!(sealed, block);
    }
}

#[test]
fn an_overlong_panel_gives_status_65() {
    for length in [65537, 65538, 131072, 1 << 20] {
        let operands = ["panel", "0123456789abcdef", "0000000000000000"];
        let output = run(&operands, &vec![0; length]);
        assert_eq!(output.status.code(), Some(65));
        assert!(output.stdout.is_empty());
        assert_eq!(output.stderr, b"reference: overlong\n");
    }
}

/// Each is tried as the key and as the first counter.
#[test]
fn wrong_operands_of_panel_give_usage_and_status_64() {
    let fine = "0123456789abcdef";
    for wrong in &wrong_operands() {
        assert_wrong_usage(&["panel", wrong, fine]);
        assert_wrong_usage(&["panel", fine, wrong]);
    }
    // A key's lengths that no counter has.
    assert_wrong_usage(&["panel", fine, &digits(24)]);
    assert_wrong_usage(&["panel", fine, &digits(32)]);
    assert_wrong_usage(&["panel"]);
    assert_wrong_usage(&["panel", fine]);
    assert_wrong_usage(&["panel", fine, fine, fine]);
}

#[test]
fn the_program_says_whether_a_text_is_well_formed() {
    for (text, line) in [
        (&b""[..], &b"well\n"[..]),
        (b"\0", b"well\n"),
        (b"caf\xc3\xa9", b"well\n"),
        (b"caf\xc3\xa9\n", b"well\n"),
        (b"caf\xc3", b"broken at 4\n"),
        (b"caf\xc3\n", b"broken at 4\n"),
        (b"\xe0\x80\x80", b"broken at 1\n"),
        (b"\xff", b"broken at 0\n"),
    ] {
        assert_eq!(printed(&["text"], text), line);
    }
    let mut long = vec![b'x'; 1 << 20];
    assert_eq!(printed(&["text"], &long), b"well\n");
    long.push(0x80);
    assert_eq!(printed(&["text"], &long), b"broken at 1048576\n");
}

#[test]
fn the_program_prints_the_date_of_every_day() {
    let dates = printed(&["dates"], b"");
    assert_eq!(dates, reference::calendar::all_dates().as_bytes());
    assert!(dates.starts_with(b"0 2000-01-01\n1 2000-01-02\n"));
    assert!(dates.ends_with(b"\n36524 2099-12-31\n"));
}

#[test]
fn the_program_lists_a_sheet() {
    let mut sheet = vec![0; 424];
    sheet[..4].copy_from_slice(&[0, 2, 4, 1]);
    let example = b"slots 2 key 64 last 0\n0 blank\n1 blank\n";
    assert_eq!(printed(&["list"], &sheet), example);
    for edition in Edition::ALL {
        for n in [1, 256] {
            let sheet = edition.blank_sheet(n, 8);
            assert_eq!(printed(&["list"], &sheet), reference::listing(&sheet));
        }
    }
    for (t, text) in [
        (21, &b"slots 1 key 80 last 0\n0 blank\n"[..]),
        (24, b"slots 1 key 128 last 0\n0 blank\n"),
    ] {
        let sheet = Edition::BLANKED.blank_sheet(1, t);
        assert_eq!(printed(&["list"], &sheet), text);
        let sheet = Edition::Two(1).blank_sheet(1, t);
        assert_eq!(printed(&["list"], &sheet), b"unfit\n");
        assert_eq!(printed(&["fault"], &sheet), b"3 0 0\n");
    }
}

#[test]
fn the_program_prints_unfit_for_an_unfit_sheet() {
    for edition in Edition::ALL {
        let mut longer = edition.blank_sheet(256, 4);
        longer.push(0);
        assert_eq!(printed(&["list"], &longer), b"unfit\n");
        longer.resize(1 << 20, 0);
        assert_eq!(printed(&["list"], &longer), b"unfit\n");
        assert_eq!(printed(&["list"], b""), b"unfit\n");
    }
}

#[test]
fn the_program_prints_the_first_fault_or_none() {
    for edition in Edition::ALL {
        let good = edition.blank_sheet(256, 8);
        assert_eq!(printed(&["fault"], &good), b"none\n");
        assert_eq!(printed(&["fault"], &good[..7]), b"1 0 0\n");
        assert_eq!(printed(&["fault"], &good[..8]), b"6 0 0\n");
        let mut wrong_n = good.clone();
        wrong_n[1] = 1;
        assert_eq!(printed(&["fault"], &wrong_n), b"2 0 0\n");
        let mut set = good.clone();
        *set.last_mut().unwrap() = 1;
        assert_eq!(printed(&["fault"], &set), b"7 255 0\n");
        let mark = edition.mark_place(13).start;
        set[4..8].copy_from_slice(&[1; 4]);
        set[mark] = 1;
        set[mark + 7] = 1;
        assert_eq!(printed(&["fault"], &set), b"9 13 7\n");
    }
    let mut edition_2 = Edition::Two(0xa53c).blank_sheet(1, 4);
    edition_2[15] = 1;
    assert_eq!(printed(&["fault"], &edition_2), b"5 0 15\n");
    assert_eq!(printed(&["fault"], &edition_2[..15]), b"6 0 0\n");
    // As edition 3, a key mark.
    edition_2[3] = 3;
    assert_eq!(printed(&["fault"], &edition_2), b"none\n");
    assert_eq!(printed(&["fault"], &edition_2[..15]), b"6 0 0\n");
    assert_eq!(printed(&["fault"], b""), b"1 0 0\n");
}

#[test]
fn the_program_finds_the_fault_of_a_sheet_that_is_far_too_long() {
    for edition in Edition::ALL {
        let mut longer = edition.blank_sheet(256, 4);
        for length in [longer.len() + 1, 53265, 53266, 1 << 20] {
            longer.resize(length, 0);
            assert_eq!(printed(&["fault"], &longer), b"6 0 0\n");
        }
        longer[2] = 9;
        assert_eq!(printed(&["fault"], &longer), b"3 0 0\n");
    }
}

#[test]
fn anything_else_gives_usage_and_status_64() {
    for arguments in [
        &[][..],
        &[""],
        &["vectors"],
        &["vectors", "all"],
        &["vectors", "blocks", "keys"],
        &["vectors", "steps", "4"],
        &["vectors", "bench", "4"],
        &["vectors", "rounds"],
        &["steps"],
        &["bench"],
        &["list", "file"],
        &["fault", "file"],
        &["faults"],
        &["vectors", "fault"],
        &["vectors", "faults", "4"],
        &["vectors", "panels"],
        &["vectors", "panel", "4"],
        &["panels"],
        &["marks"],
        &["vectors", "mark"],
        &["vectors", "marks", "4"],
        &["present"],
        &["vectors", "present", "21"],
        &["dated"],
        &["classes"],
        &["vectors", "class"],
        &["texts"],
        &["text", "file"],
        &["vectors", "text"],
        &["vectors", "texts", "4"],
        &["dates", "2000"],
        &["orders"],
        &["Order", "sheet", "terms", "2026-01-01"],
        &["vectors", "order"],
        &["Vectors", "blocks"],
        &["--help"],
    ] {
        assert_wrong_usage(arguments);
    }
}

fn assert_wrong_usage(arguments: &[&str]) {
    let output = run(arguments, b"");
    assert_eq!(output.status.code(), Some(64), "{arguments:?}");
    assert!(output.stdout.is_empty());
    assert!(output.stderr.starts_with(b"usage: reference "));
}
