//! The help, from which the man page and the completions are made, and the
//! words that people type to get it.

use crate::support::*;
use crate::words;

const COMMANDS: [&str; 17] = [
    "blank",
    "write",
    "read",
    "clear",
    "list",
    "map",
    "verify",
    "export",
    "import",
    "keys",
    "terms",
    "terms-blank",
    "terms-set",
    "order",
    "bench",
    "panel",
    "help",
];

fn printed(words: &[&str]) -> String {
    let run = run(words);
    assert_eq!((run.status, run.stderr.as_str()), (0, ""));
    String::from_utf8(run.stdout).unwrap()
}

#[test]
fn help_as_people_ask_for_it() {
    let all = printed(&["--help"]);
    assert!(all.starts_with("usage: captions COMMAND ...\n\n"));
    assert_eq!(printed(&["-h"]), all);
    assert_eq!(printed(&["help"]), all);
    assert_eq!(printed(&["--help", "write"]), all);
    for name in COMMANDS {
        let help = printed(&["help", name]);
        assert!(help.starts_with(&format!("usage: captions {name} ")));
        assert_eq!(printed(&[name, "--help"]), help);
        assert_eq!(printed(&[name, "-h"]), help);
        assert_eq!(printed(&["help", name, "--help"]), help);
        if name != "help" {
            assert_eq!(printed(&[name, "nowhere", "--help"]), help);
        }
    }
    run(&["help", "open"]).failed(64, "no command open");
    run(&["help", "list", "read"]).failed(64, "help takes one command");
    run(&["list", "--", "--help"]).failed(66, "--help: No such file");
    assert_eq!(printed(&["--version"]), "captions 0.7.1\n");
    assert_eq!(printed(&["-V"]), "captions 0.7.1\n");
}

/// A section's items: terms, and texts with their lines joined.
fn items(help: &str, title: &str) -> Vec<(String, String)> {
    let mut items: Vec<(String, String)> = Vec::new();
    let lines = help.lines().skip_while(|line| *line != format!("{title}:"));
    for line in lines.skip(1).take_while(|line| !line.is_empty()) {
        let text = line.strip_prefix("  ").unwrap();
        match (text.trim_start().split_once("  "), items.last_mut()) {
            (Some((term, text)), _) => items.push((term.into(), text.trim_start().into())),
            (None, Some(last)) => last.1 += &format!(" {}", text.trim_start()),
            (None, None) => panic!("{line}"),
        }
    }
    items
}

/// The form that is described in `help.rs`.
#[test]
fn help_has_one_form() {
    let all = printed(&["help"]);
    let listed = items(&all, "Commands");
    assert_eq!(listed.len(), COMMANDS.len());
    for (name, (term, _)) in COMMANDS.iter().zip(&listed) {
        let help = printed(&["help", name]);
        let usage = help.split("\n\n").next().unwrap();
        let (command, words) = (term.split(' ').next().unwrap(), term.split(' ').skip(1));
        assert_eq!(command, *name);
        // The usage has each operand and each option of the list, and no more.
        let options = items(&help, "Options");
        let mut expected: Vec<String> = words.map(String::from).collect();
        for (option, _) in &options {
            expected.extend(option.split(' ').map(String::from));
        }
        let given = usage.split_whitespace().skip(3);
        let given = given
            .map(|word| word.trim_matches(['[', ']', '(', ')']))
            .filter(|word| *word != "|");
        assert_eq!(given.collect::<Vec<_>>(), expected);
        let statuses = items(&help, "Exit status");
        for status in &statuses {
            assert!(items(&all, "Exit status").contains(status));
        }
        assert!(help.lines().chain(all.lines()).all(|line| line.len() <= 80));
        assert!(help.ends_with('\n') && !help.ends_with("\n\n") && !help.contains("\n\n\n"));
    }
}

/// Nothing to do is a wrong command line, and the commands are what is wanted then.
#[test]
fn without_a_word_the_commands_are_named() {
    let run = run::<&str>(&[]);
    assert_eq!((run.status, run.stdout.as_slice()), (64, &b""[..]));
    let listed = items(
        &run.stderr.replace("\n(captions", "\n\n(captions"),
        "Commands",
    );
    let all = items(&printed(&["help"]), "Commands");
    let names: Vec<&str> = listed.iter().map(|(name, _)| name.as_str()).collect();
    assert_eq!(names, COMMANDS);
    let texts = |items: &[(String, String)]| -> Vec<String> {
        items.iter().map(|(_, text)| text.clone()).collect()
    };
    assert_eq!(texts(&listed), texts(&all));
}

#[test]
fn help_has_every_status_and_what_a_sheet_cannot_tell() {
    let all = printed(&["help"]);
    let statuses = items(&all, "Exit status");
    for number in 1..=15 {
        let refusal = captions::Refusal::of_number(number).unwrap();
        let (term, text) = &statuses[usize::from(number)];
        assert_eq!(*term, number.to_string());
        assert!(text.starts_with(&format!("{refusal}: ")));
    }
    let others: Vec<&str> = statuses[16..]
        .iter()
        .map(|(term, _)| term.as_str())
        .collect();
    assert_eq!(others, ["64", "65", "66", "73", "74", "75", "79"]);
    for words in [
        TEMPORARY,
        "An old sheet put back in the place of a newer one is a sound sheet",
        "two changes at once can lose one of the two",
        "after a day where another machine made it",
        "neither sealed nor checked",
        "its serial was changed",
        "One pair of keys serves a sheet, the pair\nthat it was blanked with",
        "nothing stops a write under another pair",
    ] {
        assert!(all.contains(words), "{words}");
    }
    assert!(printed(&["help", "verify"]).contains("verifies as sound"));
    assert!(printed(&["help", "write"]).contains("30 if not given"));
    for name in ["blank", "read", "write", "verify"] {
        let help = printed(&["help", name]);
        assert!(help.contains("(exit status 14)"), "{name}");
    }
    for name in ["read", "write", "verify", "export", "import"] {
        let help = printed(&["help", name]);
        let mut statuses = items(&help, "Exit status").into_iter();
        assert!(statuses.any(|(term, _)| term == "14"), "{name}");
    }
    for name in ["write", "import"] {
        let help = printed(&["help", name]);
        let mut statuses = items(&help, "Exit status").into_iter();
        assert!(statuses.any(|(term, _)| term == "15"), "{name}");
    }
    let write = printed(&["help", "write"]);
    assert!(write.contains("| wc -c\n") && write.contains("(exit status 15)"));
}

/// What the help says is so: a sheet put back is sound.
#[test]
fn an_old_sheet_put_back_verifies_as_sound() {
    let scratch = Scratch::new();
    let (file, keys) = (scratch.sheet("sheet", 1, 4), scratch.keys(8));
    run(&words!["write", file, "0", keys, "--text", "Vase, 1752"]).done();
    let old = std::fs::read(&file).unwrap();
    run(&words!["write", file, "0", keys, "--text", "Vase, 1751"]).done();
    std::fs::write(&file, old).unwrap();
    run(&words!["verify", file, keys]).printed(b"0 sound 10\nslots 1 sound 1 blank 0 altered 0\n");
}

/// The same of a serial that was changed on a sheet of edition 2: the first eight
/// bytes are others, and a caption is altered if it ends among them.
#[test]
fn a_changed_serial_changes_eight_bytes_or_the_mark() {
    let scratch = Scratch::new();
    let (file, keys) = (scratch.join("sheet"), scratch.keys(8));
    std::fs::write(&file, blank_sheet_2(2, 4)).unwrap();
    run(&words!["write", file, "0", keys, "--text", "Vase, 1751"]).done();
    run(&words!["write", file, "1", keys, "--text", "Vase"]).done();
    let mut sheet = std::fs::read(&file).unwrap();
    sheet[9] ^= 1;
    std::fs::write(&file, sheet).unwrap();
    let read = run(&words!["read", file, "0", keys]);
    assert_eq!((read.status, &read.stdout[8..]), (0, &b"51"[..]));
    assert_ne!(read.stdout[..8], *b"Vase, 17");
    run(&words!["read", file, "1", keys]).refused(10, "altered");

    let mut sheet = blank_sheet(2, 4);
    sheet[9] ^= 1;
    std::fs::write(&file, sheet).unwrap();
    run(&words!["read", file, "1", keys]).refused(14, "other keys");
}
