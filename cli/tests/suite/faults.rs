//! A kill, an error or half a write at each system call of a change in turn.
//!
//! `fault.c` is preloaded into the command and stands before its calls, so the
//! command has no part in this and nothing in it that could be misused.

use crate::support::*;
use crate::words;
use std::collections::HashSet;
use std::ffi::OsString;
use std::fs;
use std::path::{Path, PathBuf};

const EPERM: i32 = 1;
const ENOENT: i32 = 2;
const EIO: i32 = 5;
const EINVAL: i32 = 22;
const ENOSPC: i32 = 28;
const ENOLCK: i32 = 37;
const ENOSYS: i32 = 38;
const EOPNOTSUPP: i32 = 95;
const SIGKILL: i32 = 9;

/// A change of a sheet, with the sheets before and after it.
struct Change {
    words: Vec<OsString>,
    old: Option<Vec<u8>>,
    new: Vec<u8>,
}

/// A folder with a file that is changed in each of the ways there are.
struct Place {
    scratch: Scratch,
    folder: PathBuf,
    file: PathBuf,
    locks: Locks,
    log: PathBuf,
}

impl Place {
    fn new(locks: Locks) -> Place {
        let scratch = Scratch::new();
        let folder = scratch.join("folder");
        fs::create_dir(&folder).unwrap();
        Place {
            file: folder.join("sheet"),
            folder,
            locks,
            log: scratch.join("log"),
            scratch,
        }
    }

    fn changes(&self) -> Vec<Change> {
        let (file, keys) = (&self.file, self.scratch.keys(8));
        let old = written(&blank_sheet(256, 4), 8, 7, b"Vase, 1752");
        let table = self.scratch.join("table");
        fs::write(
            &table,
            "slot\ttext\twrite\tserial\tdigest\n7\t\t1\t1\n0\tVase, 1751\t0\t1\n",
        )
        .unwrap();
        let never = [(36524, 0); 256];
        let mut terms = never;
        terms[7] = (9617, 9800);
        vec![
            Change {
                words: words!["write", file, "7", keys].to_vec(),
                new: written(&old, 8, 7, b"Vase, 1751"),
                old: Some(old.clone()),
            },
            Change {
                words: words!["clear", file, "7"].to_vec(),
                new: cleared(&old, 7),
                old: Some(old.clone()),
            },
            Change {
                words: words!["import", file, keys, "--clear", "--file", table].to_vec(),
                new: cleared(&written(&old, 8, 0, b"Vase, 1751"), 7),
                old: Some(old.clone()),
            },
            Change {
                words: words!["blank", file, "20", "96", "1", shared_keys(12), "--force"].to_vec(),
                new: blank_sheet(20, 6),
                old: Some(old),
            },
            Change {
                words: words!["blank", file, "20", "96", "1", shared_keys(12)].to_vec(),
                new: blank_sheet(20, 6),
                old: None,
            },
            Change {
                words: words!["terms-set", file, "7", "2026-05-01", "2026-10-31"].to_vec(),
                new: term_sheet(&terms),
                old: Some(term_sheet(&never)),
            },
            Change {
                words: words!["terms-blank", file, "256"].to_vec(),
                new: term_sheet(&never),
                old: None,
            },
        ]
    }

    /// Puts the old sheet of a change in place.
    fn lay(&self, change: &Change) {
        let _ = fs::remove_file(&self.file);
        let _ = fs::remove_file(&self.log);
        if let Some(old) = &change.old {
            fs::write(&self.file, old).unwrap();
            set_mode(&self.file, 0o600);
        }
    }

    /// Runs a change from its old state, with a fault or without one.
    fn run(&self, change: &Change, fault: Option<(usize, &str)>) -> Run {
        self.lay(change);
        let mut command = command_with(self.locks);
        command.args(&change.words).env("FAULT_LOG", &self.log);
        if let Some((at, how)) = fault {
            command
                .env("FAULT_AT", at.to_string())
                .env("FAULT_HOW", how);
        }
        run_command(command, b"Vase, 1751")
    }

    /// The calls that the last run made, as name and path.
    fn calls(&self) -> Vec<(String, PathBuf)> {
        let log = fs::read_to_string(&self.log).unwrap();
        let call = |line: &str| {
            line.split_once(' ')
                .map(|(name, path)| (name.into(), path.into()))
        };
        log.lines().map(|line| call(line).unwrap()).collect()
    }

    /// Whether the file is the new sheet. It is whole, or no file as at first.
    #[track_caller]
    fn is_new(&self, change: &Change) -> bool {
        match fs::read(&self.file) {
            Ok(sheet) if sheet == change.new => true,
            Ok(sheet) => {
                assert!(
                    Some(sheet) == change.old,
                    "neither the old sheet nor the new one"
                );
                false
            }
            Err(_) => {
                assert!(change.old.is_none(), "the old sheet is gone");
                false
            }
        }
    }

    fn has_leftover(&self) -> bool {
        !temporaries(&self.folder).is_empty()
    }
}

/// A path with every temporary file's name as one.
fn named(path: &Path) -> PathBuf {
    match path.file_name().and_then(|name| name.to_str()) {
        Some(name) if name.starts_with(TEMPORARY) => path.with_file_name(TEMPORARY),
        _ => path.to_path_buf(),
    }
}

/// No command ever has a temporary name that another had.
#[test]
fn temporary_names_are_unique() {
    let place = Place::new(Locks::Kept);
    let mut names = HashSet::new();
    for change in place.changes().iter().cycle().take(50) {
        place.run(change, None).done();
        let calls = place.calls();
        let (_, path) = calls
            .iter()
            .find(|call| call.0 == "flock" && call.1 != place.folder)
            .unwrap();
        assert!(path.starts_with(&place.folder));
        assert!(names.insert(path.clone()), "{path:?}");
    }
}

/// The new bytes are flushed before they are put in place, and the folder after.
#[test]
fn flushed_then_put_in_place_then_flushed() {
    for locks in BOTH_LOCKS {
        let place = Place::new(locks);
        let new = place.folder.join(TEMPORARY);
        for change in place.changes() {
            place.run(&change, None).done();
            assert!(place.is_new(&change));
            let calls = place.calls();
            let calls: Vec<(&str, PathBuf)> = calls
                .iter()
                .map(|(name, path)| (name.as_str(), named(path)))
                .collect();
            let opened = calls.iter().position(|call| *call == ("open", new.clone()));
            let mut rest = calls[opened.unwrap()..].to_vec();
            rest.retain(|(name, _)| !name.contains("xattr"));
            rest.dedup();
            let expected: &[&str] = match change.old {
                Some(_) => &["open", "flock", "write", "fchmod", "fsync", "rename"],
                None => &["open", "flock", "write", "fsync", "link", "unlink"],
            };
            let mut expected: Vec<(&str, PathBuf)> =
                expected.iter().map(|name| (*name, new.clone())).collect();
            expected.push(("fsync", place.folder.clone()));
            assert_eq!(rest, expected);
        }
    }
}

#[test]
fn a_kill_at_each_step() {
    let (mut old, mut new) = (0, 0);
    for locks in BOTH_LOCKS {
        let place = Place::new(locks);
        for change in place.changes() {
            place.run(&change, None).done();
            for at in 0..place.calls().len() {
                let killed = place.run(&change, Some((at, "kill")));
                assert_eq!(killed.status, -SIGKILL);
                let calls = place.calls();
                let mut before = calls.iter().rev().skip(1);
                let put = before.any(|call| ["rename", "link"].contains(&call.0.as_str()));
                assert_eq!(place.is_new(&change), put);
                *(if put { &mut new } else { &mut old }) += 1;
                // Nor is what is left open to more people than the sheet is.
                for name in temporaries(&place.folder) {
                    let bits = mode(&place.folder.join(name));
                    assert!(change.old.is_none() || bits == 0o600, "{bits:o}");
                }
                // What is left behind isn't in the next command's way.
                place.run(&change, None).done();
                assert!(place.is_new(&change) && !place.has_leftover());
            }
        }
    }
    let kills = old + new;
    println!("{kills} kills: {old} left the old sheet, {new} the new one");
    assert!(old > 0 && new > 0);
}

/// What a failed call comes to.
#[derive(Clone, Copy, PartialEq, Eq)]
enum Outcome {
    /// The change isn't done, and nothing is left.
    Failed,
    /// It is done, but the folder isn't flushed.
    NotFlushed,
    /// It is done as if nothing had been.
    Done,
}

/// What is to come of an error at a call.
fn outcome(place: &Place, name: &str, path: &Path) -> Outcome {
    let temporary = place.folder.join(TEMPORARY);
    match name {
        "fsync" if path == place.folder => Outcome::NotFlushed,
        // The number of the running system, the lock on the temporary file and
        // its removal are for leftovers: without them one may be left a day.
        "open" | "read" if path.starts_with("/proc") => Outcome::Done,
        "flock" | "unlink" if named(path) == temporary => Outcome::Done,
        _ => Outcome::Failed,
    }
}

/// The status of an error at a call: 66 where keys or a table can't be read, 73
/// where the new file can't be begun, get the old one's attributes or come into
/// its place, 74 where it fails midway.
fn status(place: &Place, calls: &[(String, PathBuf)], at: usize) -> i32 {
    let (name, path) = &calls[at];
    let is_input = !path.starts_with(&place.folder);
    match name.as_str() {
        "open" if is_input => 66,
        "read" if is_input && !calls[..at].contains(&calls[at]) => 66,
        "read" | "write" | "fsync" | "flock" => 74,
        _ => 73,
    }
}

#[test]
fn an_error_at_each_step() {
    let mut errors = 0;
    for locks in BOTH_LOCKS {
        let place = Place::new(locks);
        for change in place.changes() {
            place.run(&change, None).done();
            let calls = place.calls();
            for (at, (name, path)) in calls.iter().enumerate() {
                for (errno, words) in [(EIO, "Input/output"), (ENOSPC, "No space left")] {
                    let run = place.run(&change, Some((at, &errno.to_string())));
                    errors += 1;
                    let outcome = outcome(&place, name, path);
                    let is_new = outcome != Outcome::Failed;
                    assert_eq!(place.is_new(&change), is_new, "{name} {path:?}");
                    match outcome {
                        Outcome::Failed => run.failed(status(&place, &calls, at), words),
                        Outcome::NotFlushed => run.failed(79, "done, the new file is in place"),
                        Outcome::Done => run.done(),
                    }
                    assert!(!place.has_leftover() || name == "unlink");
                    for name in temporaries(&place.folder) {
                        fs::remove_file(place.folder.join(name)).unwrap();
                    }
                }
            }
        }
    }
    println!("{errors} errors");
}

/// A folder that can't be flushed at all is told apart from a write that isn't
/// done, by the status and in words.
#[test]
fn a_folder_that_cannot_be_flushed() {
    for locks in BOTH_LOCKS {
        let place = Place::new(locks);
        for change in place.changes() {
            place.run(&change, None).done();
            let calls = place.calls();
            let flushed = ("fsync".to_string(), place.folder.clone());
            let at = calls.iter().position(|call| *call == flushed).unwrap();
            let run = place.run(&change, Some((at, &EINVAL.to_string())));
            assert!(place.is_new(&change) && !place.has_leftover());
            run.failed(79, "may not outlast a power cut: Invalid argument");
        }
    }
}

/// A system of files without hard links gets its new file by a rename.
#[test]
fn a_new_file_where_there_are_no_links() {
    for locks in BOTH_LOCKS {
        let place = Place::new(locks);
        let change = &place.changes()[4];
        for errno in [EPERM, EOPNOTSUPP] {
            place.run(change, None).done();
            let calls = place.calls();
            let at = calls.iter().position(|call| call.0 == "link").unwrap();
            place.run(change, Some((at, &errno.to_string()))).done();
            assert!(place.is_new(change) && !place.has_leftover());
        }
    }
}

/// A system of files without locks: the change is made, with a warning.
#[test]
fn a_folder_that_has_no_locks() {
    let place = Place::new(Locks::Kept);
    for change in place.changes() {
        for errno in [ENOLCK, ENOSYS, EOPNOTSUPP] {
            let mut command = command_with(Locks::Kept);
            place.lay(&change);
            command.args(&change.words).env("FAULT_CALL", "flock");
            command.env("FAULT_HOW", errno.to_string());
            let run = run_command(command, b"Vase, 1751");
            assert_eq!(run.status, 0, "{}", run.stderr);
            assert!(
                run.stderr.contains("the folder has no lock"),
                "{}",
                run.stderr
            );
            assert!(place.is_new(&change) && !place.has_leftover());
        }
    }
}

/// A write that takes only a part of the bytes is gone on with.
#[test]
fn half_a_write_at_each_step() {
    for locks in BOTH_LOCKS {
        let place = Place::new(locks);
        for change in place.changes() {
            place.run(&change, None).done();
            let calls = place.calls();
            for at in (0..calls.len()).filter(|at| calls[*at].0 == "write") {
                place.run(&change, Some((at, "short"))).done();
                assert!(place.is_new(&change));
                assert!(place.calls().len() > calls.len());
            }
        }
    }
}

/// The file is gone at the very moment at which it is opened.
#[test]
fn a_file_that_vanishes_at_each_step() {
    for locks in BOTH_LOCKS {
        let place = Place::new(locks);
        let change = &place.changes()[0];
        place.run(change, None).done();
        let calls = place.calls();
        for at in (0..calls.len()).filter(|at| calls[*at].0 == "open" && calls[*at].1 == place.file)
        {
            place
                .run(change, Some((at, &ENOENT.to_string())))
                .failed(66, "No such file");
            assert!(!place.is_new(change));
        }
    }
}

/// Another command has removed the temporary file, as one on a machine with
/// another clock could: a failure, and the sheet is as it was.
#[test]
fn a_temporary_file_that_vanishes() {
    for locks in BOTH_LOCKS {
        let place = Place::new(locks);
        for change in place.changes() {
            place.run(&change, None).done();
            let calls = place.calls();
            let put = |call: &(String, PathBuf)| call.0 == "rename" || call.0 == "link";
            let at = calls.iter().position(put).unwrap();
            place
                .run(&change, Some((at, &ENOENT.to_string())))
                .failed(73, "the new file can't be put there: No such file");
            assert!(!place.is_new(&change));
        }
    }
}
