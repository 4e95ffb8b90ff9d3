//! What is said to somebody who sits before a terminal, and what a file's name
//! can't do to one.

use crate::support::*;
use crate::words;
use std::ffi::{c_char, c_int, CStr, OsStr, OsString};
use std::fs::{self, File, OpenOptions};
use std::io::{Read, Write};
use std::os::fd::{FromRawFd, OwnedFd};
use std::os::unix::ffi::OsStrExt;
use std::process::{Command, Stdio};

extern "C" {
    fn posix_openpt(flags: c_int) -> c_int;
    fn grantpt(file: c_int) -> c_int;
    fn unlockpt(file: c_int) -> c_int;
    fn ptsname_r(file: c_int, name: *mut c_char, size: usize) -> c_int;
}

/// A terminal: the side of whoever sits there, and the command's.
fn terminal() -> (File, File) {
    const O_RDWR_NOCTTY: c_int = 0o402;
    let mut name: [c_char; 64] = [0; 64];
    // SAFETY: the descriptor is new and owned by nobody else; the name has room
    // and ends with a zero byte.
    let (user, name) = unsafe {
        let user = posix_openpt(O_RDWR_NOCTTY);
        assert!(user >= 0 && grantpt(user) == 0 && unlockpt(user) == 0);
        assert_eq!(ptsname_r(user, name.as_mut_ptr(), name.len()), 0);
        let path = CStr::from_ptr(name.as_ptr());
        (
            OwnedFd::from_raw_fd(user),
            OsStr::from_bytes(path.to_bytes()),
        )
    };
    let command = OpenOptions::new()
        .read(true)
        .write(true)
        .open(name)
        .unwrap();
    (File::from(user), command)
}

/// Runs a command at a terminal where this is typed, and gives its status and
/// all that the terminal shows.
fn at_a_terminal(words: &[OsString], typed: &[u8]) -> (i32, String) {
    let (mut user, command) = terminal();
    user.write_all(typed).unwrap();
    let status = {
        let side = || Stdio::from(command.try_clone().unwrap());
        let mut command = Command::new(PROGRAM);
        command.args(words).stdin(side()).stdout(side());
        command.stderr(side()).status().unwrap().code().unwrap()
    };
    // With nobody left on its other side, the terminal's end is an error.
    drop(command);
    let mut shown = Vec::new();
    let _ = user.read_to_end(&mut shown);
    (status, String::from_utf8(shown).unwrap())
}

const END: &str = "\u{4}";

#[test]
fn a_caption_typed_at_a_terminal() {
    let scratch = Scratch::new();
    let (file, keys) = (scratch.sheet("sheet", 1, 4), scratch.keys(8));
    let write = words!["write", file, "0", keys];
    let prompt = "captions: type the caption; Ctrl-D twice ends it, Enter is part of it";
    let hint = "the caption ends with a line feed, which is kept";

    let (status, shown) = at_a_terminal(&write, format!("Vase{END}{END}").as_bytes());
    assert_eq!(status, 0);
    assert!(shown.contains(prompt) && !shown.contains(hint), "{shown}");
    run(&words!["read", file, "0", keys]).printed(b"Vase");

    let (status, shown) = at_a_terminal(&write, format!("Clock\n{END}").as_bytes());
    assert_eq!(status, 0);
    assert!(shown.contains(prompt) && shown.contains(hint), "{shown}");
    run(&words!["read", file, "0", keys]).printed(b"Clock\n");

    let (status, shown) = at_a_terminal(&write, END.as_bytes());
    assert_eq!(status, 66);
    assert!(
        shown.contains("no caption; --empty gives one of no bytes"),
        "{shown}"
    );
    run(&words!["read", file, "0", keys]).printed(b"Clock\n");
}

#[test]
fn a_hint_is_for_a_terminal_alone() {
    let scratch = Scratch::new();
    let (file, keys) = (scratch.sheet("sheet", 1, 4), scratch.keys(8));
    let caption = scratch.join("caption");
    fs::write(&caption, "Vase\n").unwrap();
    let write = words!["write", file, "0", keys, "--file", caption];
    let (status, shown) = at_a_terminal(&write, b"");
    assert_eq!(status, 0);
    assert_eq!(
        shown.trim_end(),
        "captions: the caption ends with a line feed, which is kept; printf '%s' gives none"
    );
    run(&[&write[..], &words!["--again"]].concat()).done();
    // A refused caption gets no hint.
    let refused = words!["write", file, "1", keys, "--file", caption];
    let (status, shown) = at_a_terminal(&refused, b"");
    assert_eq!(
        (status, shown.trim_end()),
        (
            6,
            "captions: no such slot: 1, where the sheet has 0 alone\r\n6 no such slot"
        )
    );
}

/// Dates are written in many ways: which one is taken is told at a terminal.
#[test]
fn a_hint_at_a_dates_form() {
    let scratch = Scratch::new();
    let (file, keys) = (scratch.sheet("sheet", 1, 4), scratch.keys(8));
    let terms = scratch.join("terms");
    fs::write(&terms, term_sheet(&[(36524, 0)])).unwrap();
    let hint = "captions: a date is YYYY-MM-DD, from 2000-01-01 to 2099-12-31";
    for words in [
        words!["terms-set", terms, "0", "01.05.2026", "31.10.2026"].to_vec(),
        words!["read", file, "0", keys, "--terms", terms, "--on", "5/1/2026"].to_vec(),
    ] {
        let (status, shown) = at_a_terminal(&words, b"");
        let lines: Vec<&str> = shown.lines().collect();
        assert_eq!((status, lines), (11, vec![hint, "11 no such date"]));
        run(&words).refused(11, "no such date");
    }
}

/// An empty running order prints nothing, which at a terminal is told.
#[test]
fn a_hint_at_nothing_on_show() {
    let scratch = Scratch::new();
    let (file, terms) = (scratch.sheet("sheet", 1, 4), scratch.join("terms"));
    fs::write(&terms, term_sheet(&[(0, 36524)])).unwrap();
    let words = words!["order", file, terms, "2026-05-01"];
    let (status, shown) = at_a_terminal(&words, b"");
    let hint = "captions: nothing is on show on that day\r\n";
    assert_eq!((status, shown.as_str()), (0, hint));
    run(&words).done();
}

/// Which keys the sheet was blanked with, nobody can be told.
#[test]
fn a_hint_at_other_keys() {
    let scratch = Scratch::new();
    let file = scratch.sheet("sheet", 1, 4);
    let keys = scratch.key_file("other", &[1; 8], &[2; 8]);
    let hint = "captions: the sheet was blanked with other keys, or its cipher, serial or mark was changed";
    for words in [
        words!["read", file, "0", keys].to_vec(),
        words!["write", file, "0", keys, "--text", "Vase"].to_vec(),
        words!["verify", file, keys].to_vec(),
    ] {
        let (status, shown) = at_a_terminal(&words, b"");
        let lines: Vec<&str> = shown.lines().collect();
        assert_eq!((status, lines), (14, vec![hint, "14 other keys"]));
        run(&words).refused(14, "other keys");
    }
}

/// A text of which no letter beyond ASCII is whole may be another character set's.
#[test]
fn a_hint_at_another_character_set() {
    let scratch = Scratch::new();
    let (file, keys) = (scratch.sheet("sheet", 1, 4), scratch.keys(8));
    let hint = "captions: the text may be in another character set; \
                iconv -f LATIN1 -t UTF-8 makes UTF-8 of Latin-1";
    let cases: [(&[u8], &str, bool); 5] = [
        (
            b"Gen\xe8ve",
            "byte 4: the letter before it is cut off",
            true,
        ),
        (b"Mus\xe9", "byte 4: a letter is cut off at the end", true),
        (
            b"Gen\xe8ve, Mus\xe9e",
            "byte 4: the letter before it is cut off",
            true,
        ),
        (
            b"Gen\xc3\xa8ve, Mus\xe9e",
            "byte 13: the letter before it is cut off",
            false,
        ),
        (b"\xe2\x82", "byte 2: a letter is cut off at the end", false),
    ];
    for (text, words, is_hinted) in cases {
        let text = OsString::from(OsStr::from_bytes(text));
        let write = words!["write", file, "0", keys, "--text", text];
        let (status, shown) = at_a_terminal(&write, b"");
        let reason = format!("captions: broken text: {words}");
        let mut lines = vec![reason.as_str(), "15 broken text"];
        if is_hinted {
            lines.insert(0, hint);
        }
        assert_eq!((status, shown.lines().collect()), (15, lines));
        run(&write).refused(15, &format!("broken text: {words}"));
    }
}

#[test]
fn a_table_typed_at_a_terminal() {
    let scratch = Scratch::new();
    let (file, keys) = (scratch.sheet("sheet", 1, 4), scratch.keys(8));
    let typed = format!("slot\ttext\n0\tVase\n{END}");
    let (status, shown) = at_a_terminal(&words!["import", file, keys], typed.as_bytes());
    assert_eq!(status, 0, "{shown}");
    assert!(shown.contains("type or paste the table"), "{shown}");
    run(&words!["read", file, "0", keys]).printed(b"Vase");
}

/// A caption's line ends, so that the next prompt begins one; a pipe gets the bytes.
#[test]
fn a_caption_read_at_a_terminal_ends_its_line() {
    let scratch = Scratch::new();
    let (file, keys) = (scratch.sheet("sheet", 1, 4), scratch.keys(8));
    let read = words!["read", file, "0", keys];
    for (caption, shown) in [("Vase", "Vase\r\n"), ("Vase\n", "Vase\r\n")] {
        run_with(&words!["write", file, "0", keys], caption.as_bytes()).done();
        assert_eq!(at_a_terminal(&read, b""), (0, shown.to_string()));
        run(&read).printed(caption.as_bytes());
    }
}

/// Names of files, of commands and of options have their control characters
/// shown as escapes, wherever they are named.
#[test]
fn a_name_does_nothing_to_a_terminal() {
    let scratch = Scratch::new();
    let (file, keys) = (scratch.sheet("sheet", 1, 4), scratch.keys(8));
    let bad = "a\u{1b}[31mb\u{7}\n\u{9b}\u{202e}c\\d\r";
    let shown = "a\\x1b[31mb\\x07\\x0a\\xc2\\x9b\\xe2\\x80\\xaec\\\\d\\x0d";
    let missing = scratch.join(bad);
    let folder = scratch.join("folder\u{1b}c");
    fs::create_dir(&folder).unwrap();
    let not_text = OsString::from(OsStr::from_bytes(b"/none\xff\x1b"));
    let _locked = Locked::new(&folder);
    for (words, status, name) in [
        (words!["list", missing].to_vec(), 66, shown),
        (words!["clear", missing, "0"].to_vec(), 66, shown),
        (words!["read", file, "0", missing].to_vec(), 66, shown),
        (words!["read", file, bad, keys].to_vec(), 64, shown),
        (
            words!["write", file, "0", keys, "--file", missing].to_vec(),
            66,
            shown,
        ),
        (
            words!["blank", missing.join("sheet"), "1", "64", "1", keys].to_vec(),
            73,
            shown,
        ),
        (
            words![
                "blank",
                folder.join("new"),
                "1",
                "64",
                "1",
                keys,
                "--wait",
                "0"
            ]
            .to_vec(),
            75,
            "folder\\x1bc",
        ),
        (words![bad].to_vec(), 64, shown),
        (words!["list", format!("-{bad}")].to_vec(), 64, shown),
        (words!["list", not_text].to_vec(), 66, "/none\\xff\\x1b"),
    ] {
        let run = run_with(&words, b"Vase");
        assert_eq!(run.status, status, "{}", run.stderr);
        assert!(run.stderr.contains(name), "{}", run.stderr);
        let steers = |character: char| character.is_control() && character != '\n';
        assert!(!run.stderr.contains(steers), "{:?}", run.stderr);
        assert!(!run.stderr.contains('\u{202e}'), "{:?}", run.stderr);
    }
}
