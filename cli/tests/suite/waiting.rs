//! A folder that somebody else has locked, and what happens there meanwhile.

use crate::support::*;
use crate::words;
use std::ffi::OsString;
use std::fs;
use std::io::{BufRead, BufReader, Read};
use std::os::unix::fs::{symlink, MetadataExt};
use std::process::{Child, Command, Stdio};
use std::time::{Duration, Instant};

/// What is said of a folder that stays locked.
const LOCKED: &str = "the folder is locked by another, and nothing was changed; \
                      --wait SECONDS waits longer";

/// A command that has come to the folder's lock and waits for it.
fn waiting(words: &[OsString]) -> Child {
    let child = Command::new(PROGRAM)
        .args(words)
        .stdin(Stdio::null())
        .stdout(Stdio::piped())
        .stderr(Stdio::piped())
        .spawn()
        .unwrap();
    until_it_waits(&child);
    child
}

/// The system's list of locks has those who wait for one, too.
fn until_it_waits(child: &Child) {
    let process = child.id().to_string();
    until("a command that waits for a lock", || {
        let locks = fs::read_to_string("/proc/locks").unwrap();
        let mut lines = locks.lines().map(|line| line.split_whitespace());
        lines.any(|line| {
            let words: Vec<&str> = line.collect();
            words.contains(&"->") && words.contains(&process.as_str())
        })
    });
}

fn finished(child: Child) -> Run {
    Run::of(child.wait_with_output().unwrap())
}

/// Every command that changes something, each of which has something to change.
fn changes(scratch: &Scratch) -> Vec<Vec<OsString>> {
    let (file, keys) = (scratch.join("sheet"), scratch.keys(8));
    let (table, terms) = (scratch.join("table"), scratch.join("terms"));
    fs::write(
        &table,
        "slot\ttext\twrite\tserial\tdigest\n0\tClock\t1\t1\n",
    )
    .unwrap();
    fs::write(&terms, term_sheet(&[(36524, 0); 2])).unwrap();
    fs::write(&file, written(&blank_sheet(1, 4), 8, 0, b"Vase")).unwrap();
    vec![
        words!["blank", scratch.join("new"), "1", "64", "1", keys].to_vec(),
        words![
            "blank",
            file,
            "1",
            "64",
            "1",
            keys,
            "--force",
            "--force-serial"
        ]
        .to_vec(),
        words!["write", file, "0", keys, "--text", "Clock"].to_vec(),
        words!["clear", file, "0"].to_vec(),
        words!["import", file, keys, "--file", table].to_vec(),
        words!["keys", scratch.join("new.keys"), "64"].to_vec(),
        words!["terms-blank", scratch.join("new.terms"), "1"].to_vec(),
        words!["terms-set", terms, "0", "2026-05-01", "2026-10-31"].to_vec(),
        words!["terms-set", terms, "0", "--never"].to_vec(),
        words!["terms-blank", terms, "1", "--force"].to_vec(),
    ]
}

#[test]
fn a_wait_has_an_end_and_a_status_of_its_own() {
    let scratch = Scratch::new();
    let changes = changes(&scratch);
    let names = scratch.names();
    let sheet = fs::read(scratch.join("sheet")).unwrap();
    let folder = Locked::new(scratch.path());
    for change in &changes {
        let began = Instant::now();
        let words = [&change[..], &words!["--wait", "0"]].concat();
        let run = run(&words);
        assert!(began.elapsed() < Duration::from_secs(10));
        assert_eq!(run.stderr.lines().count(), 1);
        run.failed(
            75,
            &format!("{}: the folder is locked", scratch.path().display()),
        );
        assert_eq!(scratch.names(), names);
        assert_eq!(fs::read(scratch.join("sheet")).unwrap(), sheet);
    }
    // What only reads waits for nothing.
    let (file, keys) = (scratch.join("sheet"), scratch.keys(8));
    run(&words!["read", file, "0", keys]).printed(b"Vase");
    drop(folder);
    for change in &changes {
        run(&[&change[..], &words!["--wait=0"]].concat()).done();
        fs::write(scratch.join("sheet"), &sheet).unwrap();
    }
}

/// Silent for a second, then a line, then an end.
#[test]
fn a_wait_is_told_after_a_second() {
    let scratch = Scratch::new();
    let file = scratch.join("sheet");
    fs::write(&file, written(&blank_sheet(1, 4), 8, 0, b"Vase")).unwrap();
    let folder = Locked::new(scratch.path());
    let began = Instant::now();
    let given_up = run(&words!["clear", file, "0", "--wait", "2"]);
    let took = began.elapsed();
    assert!(took >= Duration::from_secs(2) && took < Duration::from_secs(20));
    let lines: Vec<&str> = given_up.stderr.lines().collect();
    let place = scratch.path().display();
    assert_eq!(
        lines,
        [
            format!("captions: {place}: waiting for another to unlock the folder"),
            format!("captions: {place}: {LOCKED}"),
        ]
    );
    given_up.failed(75, "the folder is locked");

    // By default it waits longer than that, and is done when it may.
    let began = Instant::now();
    let mut child = waiting(&words!["clear", file, "0"]);
    let mut stderr = BufReader::new(child.stderr.take().unwrap());
    let mut line = String::new();
    stderr.read_line(&mut line).unwrap();
    assert!(began.elapsed() >= Duration::from_secs(1));
    assert!(line.contains("waiting for another to unlock the folder"));
    drop(folder);
    assert!(child.wait().unwrap().success());
    let mut rest = String::new();
    stderr.read_to_string(&mut rest).unwrap();
    assert_eq!(rest, "");
}

#[test]
fn seconds_are_a_decimal_number() {
    let scratch = Scratch::new();
    let file = scratch.sheet("sheet", 1, 4);
    for word in ["", "x", "1.5", "+1", "1s", "-1"] {
        run(&words!["clear", file, "0", "--wait", word]).failed(64, "SECONDS is a decimal number");
    }
    for word in [
        "0",
        "4294967296",
        "18446744073709551615",
        "99999999999999999999999",
    ] {
        run(&words!["clear", file, "0", "--wait", word]).done();
        // Nothing overflows where it has to wait, either.
        let folder = Locked::new(scratch.path());
        if word != "0" {
            let child = waiting(&words!["clear", file, "0", "--wait", word]);
            drop(folder);
            finished(child).done();
        }
    }
}

// ---- What happens meanwhile ----

/// The change is made where the link leads when it is made.
#[test]
fn a_symbolic_link_that_is_turned_elsewhere() {
    let scratch = Scratch::new();
    let keys = scratch.keys(8);
    let (one, other, link) = (
        scratch.join("one"),
        scratch.join("other"),
        scratch.join("link"),
    );
    let old = written(&blank_sheet(1, 4), 8, 0, b"Vase");
    for folder in [&one, &other] {
        fs::create_dir(folder).unwrap();
        fs::write(folder.join("sheet"), &old).unwrap();
    }
    for change in [
        words!["write", link, "0", keys, "--text", "Clock"].to_vec(),
        words!["clear", link, "0"].to_vec(),
        words![
            "blank",
            link,
            "1",
            "64",
            "1",
            keys,
            "--force",
            "--force-serial"
        ]
        .to_vec(),
    ] {
        symlink("one/sheet", &link).unwrap();
        let (first, second) = (Locked::new(&one), Locked::new(&other));
        let child = waiting(&change);
        fs::remove_file(&link).unwrap();
        symlink("other/sheet", &link).unwrap();
        drop(first);
        // It goes on to the other folder's lock.
        until_it_waits(&child);
        drop(second);
        finished(child).done();
        assert_eq!(fs::read(one.join("sheet")).unwrap(), old);
        assert_ne!(fs::read(other.join("sheet")).unwrap(), old);
        fs::write(other.join("sheet"), &old).unwrap();
        fs::remove_file(&link).unwrap();
    }
}

/// Another folder has the name by now: it is that one's lock that counts.
#[test]
fn a_folder_that_is_moved_away() {
    let scratch = Scratch::new();
    let (folder, moved) = (scratch.join("folder"), scratch.join("moved"));
    let old = written(&blank_sheet(1, 4), 8, 0, b"Vase");
    fs::create_dir(&folder).unwrap();
    fs::write(folder.join("sheet"), &old).unwrap();
    let first = Locked::new(&folder);
    let child = waiting(&words!["clear", folder.join("sheet"), "0"]);
    fs::rename(&folder, &moved).unwrap();
    fs::create_dir(&folder).unwrap();
    fs::write(folder.join("sheet"), &old).unwrap();
    let second = Locked::new(&folder);
    drop(first);
    until_it_waits(&child);
    drop(second);
    finished(child).done();
    assert_eq!(fs::read(moved.join("sheet")).unwrap(), old);
    assert_eq!(fs::read(folder.join("sheet")).unwrap(), cleared(&old, 0));
}

/// The change is made of the sheet that is there when the wait is over.
#[test]
fn a_file_that_is_replaced() {
    let scratch = Scratch::new();
    let (file, keys) = (scratch.sheet("sheet", 2, 4), scratch.keys(8));
    let folder = Locked::new(scratch.path());
    let child = waiting(&words!["write", file, "0", keys, "--text", "Clock"]);
    let other = written(&blank_sheet(2, 4), 8, 1, b"Vase");
    fs::write(scratch.join("other"), &other).unwrap();
    fs::rename(scratch.join("other"), &file).unwrap();
    drop(folder);
    finished(child).done();
    assert_eq!(fs::read(&file).unwrap(), written(&other, 8, 0, b"Clock"));
}

#[test]
fn a_file_that_vanishes_is_not_made_again() {
    let scratch = Scratch::new();
    let (file, keys) = (scratch.sheet("sheet", 1, 4), scratch.keys(8));
    let folder = Locked::new(scratch.path());
    let child = waiting(&words!["write", file, "0", keys, "--text", "Vase"]);
    fs::remove_file(&file).unwrap();
    drop(folder);
    finished(child).failed(66, "No such file or directory");
    assert_eq!(scratch.names(), ["keys-8"]);
}

#[test]
fn a_folder_that_vanishes() {
    let scratch = Scratch::new();
    let keys = scratch.keys(8);
    let folder = scratch.join("folder");
    for change in [
        words!["write", folder.join("sheet"), "0", keys, "--text", "Vase"].to_vec(),
        words!["clear", folder.join("sheet"), "0"].to_vec(),
        words!["blank", folder.join("new"), "1", "64", "1", keys].to_vec(),
    ] {
        fs::create_dir(&folder).unwrap();
        fs::write(folder.join("sheet"), blank_sheet(1, 4)).unwrap();
        let handle = Locked::new(&folder);
        let child = waiting(&change);
        fs::remove_dir_all(&folder).unwrap();
        drop(handle);
        let status = if change[0] == "blank" { 73 } else { 66 };
        finished(child).failed(status, "No such file or directory");
        assert_eq!(scratch.names(), ["keys-8"]);
    }
}

/// A file that appears meanwhile isn't blanked without --force.
#[test]
fn a_file_that_appears() {
    let scratch = Scratch::new();
    let file = scratch.join("sheet");
    let folder = Locked::new(scratch.path());
    let child = waiting(&words!["blank", file, "1", "64", "1", shared_keys(8)]);
    fs::write(&file, "another's").unwrap();
    drop(folder);
    finished(child).failed(73, "exists");
    assert_eq!(fs::read(&file).unwrap(), b"another's");
}

/// A refusal or a failure lets the lock go as well: the next command isn't kept
/// waiting, and neither is one after a kill.
#[test]
fn the_lock_ends_with_the_command() {
    let scratch = Scratch::new();
    let (file, keys) = (scratch.sheet("sheet", 1, 4), scratch.keys(8));
    run(&words!["clear", file, "1"]).refused(6, "no such slot");
    let folder = Locked::new(scratch.path());
    let mut first = waiting(&words!["clear", file, "0"]);
    first.kill().unwrap();
    first.wait().unwrap();
    drop(folder);
    run_with(&words!["write", file, "0", keys, "--wait", "0"], b"Vase").done();
}

/// What changes nothing replaces nothing.
#[test]
fn a_blank_slot_that_is_cleared_is_left_alone() {
    let scratch = Scratch::new();
    let file = scratch.sheet("sheet", 2, 4);
    let before = fs::metadata(&file).unwrap().ino();
    run(&words!["clear", file, "1"]).done();
    assert_eq!(fs::metadata(&file).unwrap().ino(), before);
}
