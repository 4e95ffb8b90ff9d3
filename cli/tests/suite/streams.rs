//! Standard input and output: closed, full, empty, a pipe without a reader; and
//! where the caption of a write comes from.

use crate::support::*;
use crate::words;
use std::fs;
use std::os::unix::fs::MetadataExt;
use std::process::{Command, Stdio};

/// A sheet with a caption, and keys.
fn sheet(scratch: &Scratch) -> (std::path::PathBuf, std::path::PathBuf) {
    let file = scratch.join("sheet");
    fs::write(&file, written(&blank_sheet(2, 4), 8, 0, b"Vase")).unwrap();
    (file, scratch.keys(8))
}

fn every_printing_command(scratch: &Scratch) -> Vec<Vec<std::ffi::OsString>> {
    let (file, keys) = sheet(scratch);
    let (table, terms) = (scratch.join("table"), scratch.join("terms"));
    fs::write(
        &table,
        "slot\ttext\twrite\tserial\tdigest\n0\tClock\t1\t1\n",
    )
    .unwrap();
    fs::write(&terms, term_sheet(&[(0, 36524), (36524, 0)])).unwrap();
    vec![
        words!["list", file].to_vec(),
        words!["list", file, "--json"].to_vec(),
        words!["map", file].to_vec(),
        words!["map", file, "--terms", terms, "--on", "2026-05-01"].to_vec(),
        words!["order", file, terms, "2026-05-01"].to_vec(),
        words!["order", file, terms, "2026-05-01", "--table"].to_vec(),
        words!["terms", terms].to_vec(),
        words!["terms", terms, "--json"].to_vec(),
        words!["read", file, "0", keys].to_vec(),
        words![
            "read",
            file,
            "0",
            keys,
            "--terms",
            terms,
            "--on",
            "2026-05-01"
        ]
        .to_vec(),
        words!["verify", file, keys].to_vec(),
        words!["verify", file, keys, "--json"].to_vec(),
        words!["export", file, keys].to_vec(),
        words!["import", file, keys, "--dry-run", "--file", table].to_vec(),
        words!["--help"].to_vec(),
        words!["help", "list"].to_vec(),
        words!["list", "--help"].to_vec(),
        words!["--version"].to_vec(),
    ]
}

// ---- Output ----

#[test]
fn a_full_standard_output_is_74() {
    let scratch = Scratch::new();
    for words in every_printing_command(&scratch) {
        shell("exec \"$@\" >/dev/full", &words, b"")
            .failed(74, "standard output: No space left on device");
    }
}

#[test]
fn a_closed_standard_output_is_74() {
    let scratch = Scratch::new();
    for words in every_printing_command(&scratch) {
        shell("exec \"$@\" >&-", &words, b"").failed(74, "standard output: it is closed");
        // One that can only be read is as good as closed.
        shell("exec \"$@\" 1</dev/null", &words, b"").failed(74, "standard output: Bad file");
    }
    // What prints nothing needs no standard output, nor does it write a file
    // where standard output would be.
    let (file, keys) = sheet(&scratch);
    shell(
        "exec \"$@\" >&-",
        &words!["write", file, "1", keys],
        b"Clock",
    )
    .done();
    run(&words!["read", file, "1", keys]).printed(b"Clock");
    assert_eq!(shell("exec \"$@\" 2>&-", &words!["open"], b"").status, 64);
}

/// A reader that has what it wanted, as head has, isn't a failure.
#[test]
fn a_closed_pipe_is_no_error() {
    let scratch = Scratch::new();
    for words in every_printing_command(&scratch) {
        let mut child = Command::new(PROGRAM)
            .args(words)
            .stdin(Stdio::null())
            .stdout(no_reader())
            .stderr(Stdio::piped())
            .spawn()
            .unwrap();
        child.stdin.take();
        Run::of(child.wait_with_output().unwrap()).done();
    }
    // What the sheet's slots are is told by the status all the same.
    let (file, keys) = sheet(&scratch);
    let mut altered = fs::read(&file).unwrap();
    altered[60] ^= 1;
    fs::write(&file, &altered).unwrap();
    for command in ["verify", "export"] {
        let mut child = Command::new(PROGRAM);
        child.args(words![command, file, keys]).stdout(no_reader());
        assert_eq!(
            child.stderr(Stdio::null()).status().unwrap().code(),
            Some(10)
        );
    }
}

/// A pipe's end for writing whose other end is closed.
fn no_reader() -> std::io::PipeWriter {
    let (reader, writer) = std::io::pipe().unwrap();
    drop(reader);
    writer
}

/// Nothing can be said then, but the exit status tells.
#[test]
fn a_full_standard_error_keeps_the_exit_status() {
    let keys = shared_keys(8);
    for (words, status) in [
        (words!["list"].to_vec(), 64),
        (words!["list", "/nowhere"].to_vec(), 66),
        (words!["clear", "/nowhere", "0"].to_vec(), 66),
        (
            words!["blank", "/nowhere/sheet", "0", "64", "1", keys].to_vec(),
            3,
        ),
        (words!["--help"].to_vec(), 74),
    ] {
        let run = shell("exec \"$@\" >/dev/full 2>/dev/full", &words, b"");
        assert_eq!(run.status, status);
    }
}

// ---- Input ----

/// Input that was lost on its way leaves the caption alone.
#[test]
fn no_input_is_no_caption() {
    let scratch = Scratch::new();
    let (file, keys) = sheet(&scratch);
    let state = || (fs::read(&file).unwrap(), fs::metadata(&file).unwrap().ino());
    let (before, write) = (state(), words!["write", file, "0", keys]);
    let lost = "no caption; --empty gives one of no bytes";
    run(&write).failed(66, lost);
    shell("exec \"$@\" </dev/null", &write, b"").failed(66, lost);
    shell("false | \"$@\"", &write, b"").failed(66, lost);
    shell("exec \"$@\" <&-", &write, b"").failed(66, "standard input: it is closed");
    shell("exec \"$@\" 0>/dev/null", &write, b"").failed(66, "standard input: Bad file");
    run(&[&write[..], &words!["--text", ""]].concat()).failed(66, lost);
    run(&[&write[..], &words!["--file", "/dev/null"]].concat()).failed(66, lost);
    assert_eq!(state(), before);

    // Asked for, it is written, whatever standard input is.
    for line in ["exec \"$@\"", "exec \"$@\" <&-", "exec \"$@\" </dev/null"] {
        fs::write(&file, &before.0).unwrap();
        let words = [&write[..], &words!["--empty"]].concat();
        shell(line, &words, b"").done();
        assert_eq!(fs::read(&file).unwrap(), written(&before.0, 8, 0, b""));
    }
}

#[test]
fn a_caption_from_the_command_line() {
    let scratch = Scratch::new();
    let (file, keys) = sheet(&scratch);
    for text in ["Clock", "--help", "-", "--", "=1", "Émile\n", "a b"] {
        for words in [
            words!["write", file, "1", keys, "--text", text].to_vec(),
            words!["write", "--text", text, file, "1", keys].to_vec(),
            words!["write", format!("--text={text}"), file, "1", keys].to_vec(),
        ] {
            run(&words!["clear", file, "1"]).done();
            run_with(&words, b"not this").done();
            run(&words!["read", file, "1", keys]).printed(text.as_bytes());
        }
    }
    let overlong = "x".repeat(193);
    run(&words!["write", file, "1", keys, "--text", overlong]).refused(7, "overlong");
}

#[test]
fn a_caption_from_a_file() {
    let scratch = Scratch::new();
    let (file, keys) = sheet(&scratch);
    let name = scratch.join("caption");
    for caption in [&b"Clock\n"[..], b"\0\xc3\xbf", &[b'x'; 192]] {
        fs::write(&name, caption).unwrap();
        run_with(
            &words!["write", file, "1", keys, "--file", name],
            b"not this",
        )
        .done();
        run(&words!["read", file, "1", keys]).printed(caption);
    }
    fs::write(&name, [b'x'; 193]).unwrap();
    run(&words!["write", file, "1", keys, "--file", name]).refused(7, "overlong");
    run(&words!["write", file, "1", keys, "--file", "/none"]).failed(66, "/none: No such file");
    run(&words!["write", file, "1", keys, "--file", "/"]).failed(66, "/: Is a directory");
    run_with(&words!["write", file, "1", keys, "--file", "-"], b"Table").done();
    run(&words!["read", file, "1", keys]).printed(b"Table");
}

#[test]
fn a_caption_has_one_source() {
    let scratch = Scratch::new();
    let (file, keys) = sheet(&scratch);
    let write = words!["write", file, "1", keys];
    for options in [
        &["--text", "a", "--file", "b"][..],
        &["--text", "a", "--empty"],
        &["--file", "a", "--empty"],
    ] {
        let words: Vec<_> = write
            .iter()
            .cloned()
            .chain(options.iter().map(Into::into))
            .collect();
        run(&words).failed(64, "one of --text, --file and --empty at most");
    }
    let words = [&write[..], &words!["--text", "a", "--text", "b"]].concat();
    run(&words).failed(64, "--text is given twice");
}

/// `-` is standard input for what is only read.
#[test]
fn a_dash_is_standard_input() {
    let scratch = Scratch::new();
    let (file, keys) = sheet(&scratch);
    let (sheet, key_text) = (fs::read(&file).unwrap(), fs::read(&keys).unwrap());
    run_with(&["list", "-"], &sheet).printed(&run(&words!["list", file]).stdout);
    run_with(&words!["read", "-", "0", keys], &sheet).printed(b"Vase");
    run_with(&words!["read", file, "0", "-"], &key_text).printed(b"Vase");
    let verified = run(&words!["verify", file, keys]).stdout;
    run_with(&words!["verify", "-", keys], &sheet).printed(&verified);
    run_with(&words!["verify", file, "-"], &key_text).printed(&verified);
    let table = run(&words!["export", file, keys]).stdout;
    run_with(&words!["export", "-", keys], &sheet).printed(&table);
    run_with(
        &words!["write", file, "1", "-", "--text", "Clock"],
        &key_text,
    )
    .done();
    let new = scratch.join("new");
    run_with(&words!["blank", new, "2", "64", "1", "-"], &key_text).done();
    assert_eq!(fs::read(&new).unwrap(), blank_sheet(2, 4));
    for words in [
        words!["read", "-", "0", "-"].to_vec(),
        words!["verify", "-", "-"].to_vec(),
        words!["export", "-", "-"].to_vec(),
        words!["write", file, "0", "-"].to_vec(),
        words!["import", file, "-"].to_vec(),
        words!["import", "-", keys, "--dry-run"].to_vec(),
    ] {
        run(&words).failed(64, "standard input can't be two things at once");
    }
    for words in [
        words!["blank", "-", "1", "64", "1", keys].to_vec(),
        words!["write", "-", "0", keys, "--text", "a"].to_vec(),
        words!["clear", "-", "0"].to_vec(),
        words!["keys", "-", "64"].to_vec(),
    ] {
        run(&words).failed(64, "a file of that name is ./-");
    }
    let at = |words: &[&str]| {
        let mut command = Command::new(PROGRAM);
        command.args(words).current_dir(scratch.path());
        run_command(command, b"")
    };
    at(&["blank", "./-", "1", "64", "1", "keys-8"]).done();
    at(&["list", "./-"]).printed(b"slots 1 key 64 last 0\n0 blank\n");
}
