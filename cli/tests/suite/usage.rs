//! Wrong command lines (64), and command lines as people type them.

use crate::support::*;
use crate::words;
use std::fs;

/// Each command with the number of its operands.
const COMMANDS: [(&str, usize); 15] = [
    ("blank", 5),
    ("write", 3),
    ("read", 3),
    ("clear", 2),
    ("list", 1),
    ("map", 1),
    ("verify", 2),
    ("export", 2),
    ("import", 2),
    ("keys", 2),
    ("terms", 1),
    ("terms-blank", 2),
    ("terms-set", 4),
    ("order", 3),
    ("bench", 3),
];

#[test]
fn a_wrong_command_line_is_64() {
    run::<&str>(&[]).failed(64, "usage: captions COMMAND");
    run(&["open"]).failed(64, "no command open");
    run(&[""]).failed(64, "no command");
    run(&["--list"]).failed(64, "no command --list");
    run(&["-"]).failed(64, "no command -");
    run(&["--"]).failed(64, "no command --");
    for (name, operands) in COMMANDS {
        let usage = match name {
            "bench" => "usage: captions bench KEYFILE".to_string(),
            _ => format!("usage: captions {name} FILE"),
        };
        for count in (0..6).filter(|count| *count != operands) {
            let mut words = vec![name];
            words.resize(1 + count, "0");
            run(&words).failed(64, &usage);
        }
        for option in ["--quick", "-f", "-1", "--forc", "--", "--=", "--force=yes"] {
            let mut words = vec![name, option];
            words.resize(2 + operands, "0");
            let run = run(&words);
            if option != "--" {
                run.failed(64, "says more");
            }
        }
        if !["blank", "terms-blank", "import"].contains(&name) {
            let mut words = vec![name, "--force"];
            words.resize(2 + operands, "0");
            run(&words).failed(64, "no option --force");
        }
    }
}

#[test]
fn an_option_takes_its_word_or_none() {
    run(&["blank", "a", "1", "64", "1", "b", "--wait"]).failed(64, "--wait takes SECONDS");
    run(&["write", "a", "1", "b", "--text"]).failed(64, "--text takes TEXT");
    run(&["blank", "a", "1", "64", "1", "b", "--force=1"]).failed(64, "--force takes no word");
    run(&["blank", "--force", "a", "1", "64", "1", "b", "--force"])
        .failed(64, "--force is given twice");
    run(&["list", "a", "--wait", "1"]).failed(64, "no option --wait");
}

/// A name that an unset variable left empty is seen in the message.
#[test]
fn an_empty_name_is_shown() {
    for words in [
        &["list", ""][..],
        &["clear", "", "0"],
        &["blank", "/dev/null", "1", "64", "1", ""],
        &["read", "/dev/null", "0", ""],
    ] {
        run(words).failed(66, "captions: \"\": No such file");
    }
    run(&["keys", "", "64"]).failed(73, "captions: \"\": No such file");
    run(&words!["blank", "", "1", "64", "1", shared_keys(8)])
        .failed(73, "captions: \"\": No such file");
    run(&[""]).failed(64, "no command \"\"");
    run(&["clear", "", ""]).failed(64, "SLOT is a decimal number, not \"\"");
}

/// After `--` a name may begin with a dash.
#[test]
fn a_double_dash_ends_the_options() {
    let scratch = Scratch::new();
    let at = |words: &[&str]| {
        let mut command = std::process::Command::new(PROGRAM);
        command.args(words).current_dir(scratch.path());
        run_command(command, b"")
    };
    at(&["keys", "64", "--", "--keys"]).failed(64, "BITS is a decimal number, not --keys");
    at(&["keys", "--", "--", "64"]).done();
    at(&["blank", "--", "--sheet", "1", "64", "1", "--"]).done();
    at(&["blank", "--force", "--", "--sheet", "2", "64", "2", "--"]).done();
    at(&["list", "--", "--sheet"]).printed(b"slots 2 key 64 last 0\n0 blank\n1 blank\n");
    at(&["list", "--sheet"]).failed(64, "no option --sheet");
    assert_eq!(scratch.names(), ["--", "--sheet"]);
}

#[test]
fn a_number_is_decimal_digits() {
    let scratch = Scratch::new();
    let (file, keys) = (scratch.sheet("sheet", 2, 4), scratch.keys(8));
    for word in ["", "x", "1x", "0x1", "+1", " 1", "1.0", "٣"] {
        run(&words!["clear", file, word]).failed(64, "SLOT is a decimal number");
        run(&words!["read", file, word, keys]).failed(64, "SLOT is a decimal number");
        run(&words!["write", file, word, keys]).failed(64, "SLOT is a decimal number");
        run(&words!["blank", file, word, "64", "1", keys]).failed(64, "SLOTS is a decimal number");
        run(&words!["blank", file, "2", word, "1", keys]).failed(64, "CIPHER is 64, 96 or");
        run(&words!["keys", file, word]).failed(64, "BITS is a decimal number");
        run(&words!["blank", file, "2", "64", word, keys]).failed(64, "SERIAL is a decimal number");
    }
    run(&words!["clear", file, "-1"]).failed(64, "no option -1");
    run(&words!["clear", file, "0001"]).done();
    assert_eq!(fs::read(file).unwrap(), blank_sheet(2, 4));
}

/// The library takes every serial, so the command says which there are. There is
/// none that it would choose.
#[test]
fn a_serial_is_0_to_65535() {
    let scratch = Scratch::new();
    let (file, new) = (scratch.sheet("sheet", 2, 4), scratch.join("new"));
    let keys = shared_keys(8);
    for (serial, message) in [
        (&["65536"][..], "SERIAL is 0 to 65535, not 65536"),
        (&["65537"], "SERIAL is 0 to 65535"),
        (&["18446744073709551617"], "SERIAL is 0 to 65535"),
        (&["99999999999999999999999"], "SERIAL is 0 to 65535"),
        (&["-1"], "no option -1"),
        (&["--", "-1"], "SERIAL is a decimal number, not -1"),
        (&[], "usage: captions blank FILE SLOTS CIPHER SERIAL KEYS"),
    ] {
        let mut serial: Vec<_> = serial.iter().map(std::ffi::OsString::from).collect();
        serial.push(keys.clone().into());
        for blank in [
            words!["blank", "--force", file, "2", "64"],
            words!["blank", "--wait=0", new, "2", "64"],
        ] {
            run(&[&blank[..], &serial].concat()).failed(64, message);
        }
    }
    assert_eq!(fs::read(&file).unwrap(), blank_sheet(2, 4));
    assert_eq!(scratch.names(), ["sheet"]);
    run(&words!["blank", new, "2", "64", "00065535", keys]).done();
    assert_eq!(fs::read(&new).unwrap(), blank_sheet_with(2, 4, 65535));
}
