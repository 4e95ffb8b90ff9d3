//! Files of keys: made, read, and what is wrong with them.

use crate::support::*;
use crate::words;
use std::collections::HashSet;
use std::fs;
use std::os::unix::fs::symlink;
use std::path::{Path, PathBuf};
use std::process::Command;

// ---- Made ----

#[test]
fn a_pair_of_keys_is_made() {
    let scratch = Scratch::new();
    let mut seen = HashSet::new();
    for (bits, cipher, digits) in [
        ("64", "64", 16),
        ("80", "present-80", 20),
        ("96", "96", 24),
        ("128", "128", 32),
        ("128", "present-128", 32),
    ] {
        for count in 0..20 {
            let keys = scratch.join(format!("{cipher}-{count}.keys"));
            run(&words!["keys", keys, bits]).done();
            assert_eq!(mode(&keys), 0o600);
            let text = fs::read_to_string(&keys).unwrap();
            let lines: Vec<&str> = text.lines().collect();
            assert!(lines.len() == 2 && text.ends_with('\n'));
            for line in lines {
                assert_eq!(line.len(), digits);
                assert!(line.bytes().all(|byte| byte.is_ascii_hexdigit()));
                assert!(seen.insert(line.to_string()), "a key that was there before");
            }
            let file = scratch.join("sheet");
            run(&words![
                "blank",
                file,
                "1",
                cipher,
                "1",
                keys,
                "--force",
                "--force-serial"
            ])
            .done();
            run(&words!["write", file, "0", keys, "--text", "Vase"]).done();
            run(&words!["read", file, "0", keys]).printed(b"Vase");
        }
    }
    assert!(temporaries(scratch.path()).is_empty());
}

#[test]
fn keys_have_the_lengths_that_the_library_takes() {
    let scratch = Scratch::new();
    let keys = scratch.join("keys");
    for bits in [
        "0",
        "8",
        "63",
        "65",
        "79",
        "81",
        "112",
        "256",
        "99999999999999999999999",
    ] {
        run(&words!["keys", keys, bits]).refused(1, "wrong key");
    }
    run(&words!["keys", keys, "x"]).failed(64, "BITS is a decimal number");
    assert!(scratch.names().is_empty());
}

/// With the old keys all captions would be lost.
#[test]
fn keys_are_never_overwritten() {
    let scratch = Scratch::new();
    let keys = scratch.keys(8);
    let before = fs::read(&keys).unwrap();
    let link = scratch.join("link");
    symlink("keys-8", &link).unwrap();
    let exists = "exists; it is never overwritten";
    run(&words!["keys", keys, "64"]).failed(73, exists);
    run(&words!["keys", link, "64"]).failed(73, exists);
    run(&words!["keys", keys, "64", "--force"]).failed(64, "no option --force");
    assert_eq!(fs::read(&keys).unwrap(), before);
    fs::write(scratch.join("empty"), "").unwrap();
    run(&words!["keys", scratch.join("empty"), "64"]).failed(73, exists);
    run(&words!["keys", scratch.path(), "64"]).failed(73, exists);
    let nowhere = scratch.join("nowhere");
    symlink("none", &nowhere).unwrap();
    run(&words!["keys", nowhere, "64"]).failed(73, "a symbolic link to nothing");
    assert!(!scratch.join("none").exists());
}

/// Whatever the shell's mask is: not more, and not less.
#[test]
fn keys_are_their_owners_alone() {
    let scratch = Scratch::new();
    for mask in ["000", "022", "077", "277", "777"] {
        let keys = scratch.join(mask);
        let line = format!("umask {mask}; exec \"$@\"");
        shell(&line, &words!["keys", keys, "64"], b"").done();
        assert_eq!(mode(&keys), 0o600);
    }
}

// ---- Open to all ----

#[test]
fn keys_that_everybody_can_read_are_warned_of() {
    let scratch = Scratch::new();
    let (file, keys) = (scratch.join("sheet"), scratch.keys(8));
    fs::write(&file, written(&blank_sheet(1, 4), 8, 0, b"Vase")).unwrap();
    let table = scratch.join("table");
    fs::write(&table, "slot\ttext\twrite\tserial\tdigest\n0\tVase\t1\t1\n").unwrap();
    for (bits, words) in [
        (0o600, None),
        (0o640, None),
        (0o660, None),
        (0o604, Some("read")),
        (0o644, Some("read")),
        (0o602, Some("written")),
        (0o666, Some("read and written")),
    ] {
        set_mode(&keys, bits);
        for command in [
            words!["read", file, "0", keys].to_vec(),
            words!["write", file, "0", keys, "--text", "Vase", "--again"].to_vec(),
            words!["verify", file, keys].to_vec(),
            words!["export", file, keys].to_vec(),
            words!["import", file, keys, "--file", table].to_vec(),
            words![
                "blank",
                scratch.join("new"),
                "1",
                "64",
                "1",
                keys,
                "--force",
                "--force-serial"
            ]
            .to_vec(),
        ] {
            let run = run(&command);
            assert_eq!(run.status, 0);
            let name = keys.display();
            let warning = words.map_or(String::new(), |words| {
                format!("captions: {name}: the keys can be {words} by every user: chmod 600 ends that\n")
            });
            assert_eq!(run.stderr, warning);
        }
    }
}

// ---- Read ----

/// Runs each command that reads keys, and gives what they all say of the file.
#[track_caller]
fn said_of(text: &[u8], file: &Path, keys: &Path) -> String {
    fs::write(keys, text).unwrap();
    set_mode(keys, 0o600);
    let messages: HashSet<String> = [
        words!["read", file, "0", keys].to_vec(),
        words!["write", file, "0", keys, "--text", "Clock"].to_vec(),
        words!["verify", file, keys].to_vec(),
        words!["export", file, keys].to_vec(),
        words!["import", file, keys, "--file", "/dev/null"].to_vec(),
        words![
            "blank",
            file,
            "1",
            "64",
            "1",
            keys,
            "--force",
            "--force-serial"
        ]
        .to_vec(),
    ]
    .iter()
    .map(|words| {
        let run = run(words);
        assert_eq!((run.status, run.stdout.as_slice()), (65, &b""[..]));
        run.stderr
    })
    .collect();
    assert_eq!(messages.len(), 1);
    let message = messages.into_iter().next().unwrap();
    let begins = format!("captions: {}: ", keys.display());
    message
        .strip_prefix(&begins)
        .unwrap()
        .trim_end()
        .to_string()
}

struct Place {
    scratch: Scratch,
    file: PathBuf,
    sealing: String,
    checking: String,
}

fn place() -> Place {
    let scratch = Scratch::new();
    let file = scratch.join("sheet");
    fs::write(&file, written(&blank_sheet(1, 4), 8, 0, b"Vase")).unwrap();
    Place {
        file,
        scratch,
        sealing: hex(&SEALING[..8]),
        checking: hex(&CHECKING[..8]),
    }
}

#[test]
fn keys_are_two_lines_of_hex_digits() {
    let place = place();
    let (s, c) = (&place.sealing, &place.checking);
    let keys = place.scratch.join("keys");
    for text in [
        format!("{s}\n{c}\n"),
        format!("{s}\n{c}"),
        format!("{s}\r\n{c}\r\n"),
        format!("{}\n{}\n", s.to_uppercase(), c.to_uppercase()),
    ] {
        fs::write(&keys, text).unwrap();
        set_mode(&keys, 0o600);
        run(&words!["read", place.file, "0", keys]).printed(b"Vase");
    }
    // Two empty lines are two keys of no bytes, which the library refuses.
    fs::write(&keys, "\n\n").unwrap();
    run(&words!["read", place.file, "0", keys]).refused(1, "wrong key");
}

/// The line and what is wrong with it, and no digit of a key.
#[test]
fn what_is_wrong_with_keys_is_said() {
    let place = place();
    let (s, c) = (&place.sealing, &place.checking);
    let comment = "a comment; only the keys can stand there";
    let digits = "0x before the digits; only the digits can stand there";
    let mark = "a byte order mark; save the file without one";
    let cases: [(String, String); 24] = [
        (String::new(), "it is empty".into()),
        ("\n".into(), "no line for the checking key".into()),
        (format!("{s}\n"), "no line for the checking key".into()),
        (format!("\u{feff}{s}\n{c}\n"), format!("line 1: {mark}")),
        (format!("{s} {c}\n"), "line 1: a blank in column 17".into()),
        (format!(" {s}\n{c}\n"), "line 1: a blank in column 1".into()),
        (
            format!("{s}\n{c} \n"),
            "line 2: a blank in column 17".into(),
        ),
        (
            format!("{s}\t\n{c}\n"),
            "line 1: a blank in column 17".into(),
        ),
        (
            format!("# the hall's\n{s}\n{c}\n"),
            format!("line 1: {comment}"),
        ),
        (
            format!("{s}\n; checking\n{c}\n"),
            format!("line 2: {comment}"),
        ),
        (
            format!("{s}\n// checking\n{c}\n"),
            format!("line 2: {comment}"),
        ),
        (
            format!("{s}#sealing\n{c}\n"),
            "line 1: a comment, which can't stand here, in column 17".into(),
        ),
        (format!("0x{s}\n0x{c}\n"), format!("line 1: {digits}")),
        (format!("{s}\n0X{c}\n"), format!("line 2: {digits}")),
        (
            format!("{s}0\n{c}\n"),
            "line 1: an odd number of hex digits, 17".into(),
        ),
        (
            format!("{s}\n{}\n", &c[1..]),
            "line 2: an odd number of hex digits, 15".into(),
        ),
        (
            format!("g{}\n{c}\n", &s[1..]),
            "line 1: what is no hex digit in column 1".into(),
        ),
        (
            format!("é{}\n{c}\n", &s[2..]),
            "line 1: what is no hex digit in column 1".into(),
        ),
        (
            format!("{s}\n+{}\n", &c[1..]),
            "line 2: what is no hex digit in column 1".into(),
        ),
        (
            format!("{s}\n{c}\n\n"),
            "line 3: an empty line after the two keys".into(),
        ),
        (
            format!("\n{s}\n{c}\n"),
            "line 1: an empty line; only the keys can stand there".into(),
        ),
        (
            format!("{s}\n\n{c}\n"),
            "line 2: an empty line; only the keys can stand there".into(),
        ),
        (
            format!("{s}\n{c}\n{c}\n"),
            "line 3: more than two lines".into(),
        ),
        ("00".repeat(1 << 20), "too long for two keys".into()),
    ];
    let keys = place.scratch.join("keys");
    for (text, expected) in cases {
        let said = said_of(text.as_bytes(), &place.file, &keys);
        assert_eq!(said, expected);
        assert!(!said.contains(&s[2..8]) && !said.contains(&c[2..8]));
    }
    let utf_16: Vec<u8> = "\u{feff}00\n11\n"
        .encode_utf16()
        .flat_map(u16::to_le_bytes)
        .collect();
    let said = said_of(&utf_16, &place.file, &keys);
    assert_eq!(said, "line 1: text in UTF-16; save the file as plain text");
    let said = said_of(&utf_16[2..], &place.file, &keys);
    assert_eq!(
        said,
        "line 1: a zero byte (text in UTF-16 has them) in column 2"
    );
    let said = said_of(b"\x80\x81\n\x82\x83\n", &place.file, &keys);
    assert_eq!(said, "line 1: what is no hex digit in column 1");
}

/// Whatever is put among the digits of two keys: a message, never a digit of
/// them, and never a panic.
#[test]
fn no_part_of_a_key_is_ever_shown() {
    let place = place();
    let keys = place.scratch.join("keys");
    let text = format!("{}\n{}\n", place.sealing, place.checking);
    let mut random = Random(1788);
    let mut refused = 0;
    for _ in 0..300 {
        let mut bytes = text.clone().into_bytes();
        for _ in 0..=random.below(3) {
            let at = random.below(bytes.len() as u64) as usize;
            match random.below(3) {
                0 => bytes[at] = random.next() as u8,
                1 => bytes.insert(at, random.next() as u8),
                _ => drop(bytes.remove(at)),
            }
        }
        fs::write(&keys, &bytes).unwrap();
        set_mode(&keys, 0o600);
        let mut command = Command::new(PROGRAM);
        command.args(words!["read", place.file, "0", keys]);
        let run = run_command(command, b"");
        assert!([0, 1, 5, 14, 65].contains(&run.status), "{}", run.status);
        for key in [&place.sealing, &place.checking] {
            let mut parts = key.as_bytes().windows(4);
            let message = run.stderr.rsplit("keys: ").next().unwrap();
            assert!(parts.all(|part| !message.contains(std::str::from_utf8(part).unwrap())));
        }
        refused += usize::from(run.status == 65);
    }
    println!("300 files of keys with changed bytes, of which {refused} were in no form");
    assert!(refused > 100);
}
