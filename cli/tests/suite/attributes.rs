//! What a replaced file keeps: its access control list and other attributes.

use crate::support::*;
use crate::words;
use std::ffi::{c_char, c_int, c_void, CString, OsString};
use std::fs;
use std::os::unix::ffi::OsStrExt;
use std::os::unix::fs::{chown, MetadataExt};
use std::os::unix::process::CommandExt;
use std::path::Path;
use std::process::Command;

const ACCESS: &str = "system.posix_acl_access";
const DEFAULT: &str = "system.posix_acl_default";

extern "C" {
    fn setxattr(
        path: *const c_char,
        name: *const c_char,
        value: *const c_void,
        size: usize,
        flags: c_int,
    ) -> c_int;
    fn getxattr(path: *const c_char, name: *const c_char, value: *mut c_void, size: usize)
        -> isize;
}

fn c_string(bytes: &[u8]) -> CString {
    CString::new(bytes).unwrap()
}

/// Whether the system of files takes the attribute.
fn set(path: &Path, name: &str, value: &[u8]) -> bool {
    let (path, name) = (
        c_string(path.as_os_str().as_bytes()),
        c_string(name.as_bytes()),
    );
    // SAFETY: both names end with a zero byte; the value is as long as it says.
    let answer = unsafe {
        let start = value.as_ptr().cast();
        setxattr(path.as_ptr(), name.as_ptr(), start, value.len(), 0)
    };
    answer == 0
}

fn get(path: &Path, name: &str) -> Option<Vec<u8>> {
    let (path, name) = (
        c_string(path.as_os_str().as_bytes()),
        c_string(name.as_bytes()),
    );
    let mut value = vec![0; 70_000];
    // SAFETY: both names end with a zero byte; the buffer is as long as it says.
    let length = unsafe {
        let start = value.as_mut_ptr().cast();
        getxattr(path.as_ptr(), name.as_ptr(), start, value.len())
    };
    value.truncate(usize::try_from(length).ok()?);
    Some(value)
}

/// An access control list: owner, one more user, group, mask and others.
fn access_list(owner: u16, user: u16, group: u16, mask: u16, others: u16) -> Vec<u8> {
    const NOBODY: u32 = u32::MAX;
    let entries = [
        (0x01, owner, NOBODY),
        (0x02, user, 12345),
        (0x04, group, NOBODY),
        (0x10, mask, NOBODY),
        (0x20, others, NOBODY),
    ];
    let mut list = 2_u32.to_le_bytes().to_vec();
    for (tag, permissions, id) in entries {
        list.extend(u16::to_le_bytes(tag));
        list.extend(u16::to_le_bytes(permissions));
        list.extend(u32::to_le_bytes(id));
    }
    list
}

/// A sheet, and every command that replaces it.
fn sheet_and_changes(scratch: &Scratch) -> (std::path::PathBuf, Vec<Vec<OsString>>) {
    let (file, keys) = (scratch.join("sheet"), scratch.keys(8));
    let table = scratch.join("table");
    fs::write(
        &table,
        "slot\ttext\twrite\tserial\tdigest\n0\tClock\t0\t1\n",
    )
    .unwrap();
    fs::write(&file, written(&blank_sheet(1, 4), 8, 0, b"Vase")).unwrap();
    let changes = vec![
        words!["write", file, "0", keys, "--text", "Table"].to_vec(),
        words!["import", file, keys, "--force", "--file", table].to_vec(),
        words!["clear", file, "0"].to_vec(),
        words![
            "blank",
            file,
            "2",
            "64",
            "1",
            keys,
            "--force",
            "--force-serial"
        ]
        .to_vec(),
    ];
    (file, changes)
}

/// Runs a change, by which the file becomes another.
#[track_caller]
fn replace(change: &[OsString], file: &Path) {
    let before = fs::metadata(file).unwrap().ino();
    run(change).done();
    assert_ne!(fs::metadata(file).unwrap().ino(), before);
}

#[test]
fn extended_attributes_are_kept() {
    let scratch = Scratch::new();
    let (file, changes) = sheet_and_changes(&scratch);
    let long = vec![b'x'; 2000];
    let mut attributes: Vec<(&str, &[u8])> = vec![
        ("user.curator", b"M. Gallet"),
        ("user.empty", b""),
        ("user.bytes", b"\0\xff\n"),
        ("user.long", &long),
    ];
    if is_root() {
        attributes.push(("trusted.captions", b"root's"));
    }
    for (name, value) in &attributes {
        if !set(&file, name, value) {
            println!("skipped: no extended attributes here");
            return;
        }
    }
    for change in &changes {
        replace(change, &file);
        for (name, value) in &attributes {
            assert_eq!(get(&file, name).as_deref(), Some(*value), "{name}");
        }
    }
}

/// Without the list, the mask's bits in the mode would be the group's.
#[test]
fn an_access_control_list_is_kept() {
    let scratch = Scratch::new();
    let (file, changes) = sheet_and_changes(&scratch);
    for (list, bits) in [
        (access_list(6, 4, 0, 4, 0), 0o640),
        (access_list(6, 6, 0, 6, 0), 0o660),
        (access_list(6, 7, 4, 0, 4), 0o604),
    ] {
        let (file, changes) = (&file, &changes);
        if !set(file, ACCESS, &list) {
            println!("skipped: no access control lists here");
            return;
        }
        assert_eq!(mode(file), bits);
        for change in changes {
            replace(change, file);
            assert_eq!(get(file, ACCESS), Some(list.clone()));
            assert_eq!(mode(file), bits);
        }
        fs::write(file, written(&blank_sheet(1, 4), 8, 0, b"Vase")).unwrap();
    }
}

/// With the mode set before the list, the file would for a moment be open to its
/// group by the mask's bits.
#[test]
fn the_list_is_set_before_the_mode() {
    let scratch = Scratch::new();
    let (file, changes) = sheet_and_changes(&scratch);
    if !set(&file, ACCESS, &access_list(6, 4, 0, 4, 0)) {
        println!("skipped: no access control lists here");
        return;
    }
    let log = scratch.join("log");
    for change in &changes {
        let _ = fs::remove_file(&log);
        let mut command = command_with(Locks::Kept);
        command.args(change).env("FAULT_LOG", &log);
        run_command(command, b"").done();
        let calls = fs::read_to_string(&log).unwrap();
        let place = |name: &str| calls.lines().position(|line| line.starts_with(name));
        let (list, mode) = (place("fsetxattr "), place("fchmod "));
        assert!(list.is_some() && list < mode, "{calls}");
    }
}

/// A folder's default list would open the new file to whom the old one was
/// closed.
#[test]
fn a_folders_default_list_is_not_taken_on() {
    let scratch = Scratch::new();
    let (file, changes) = sheet_and_changes(&scratch);
    set_mode(&file, 0o660);
    if !set(scratch.path(), DEFAULT, &access_list(7, 7, 7, 7, 7)) {
        println!("skipped: no access control lists here");
        return;
    }
    for change in &changes {
        replace(change, &file);
        assert_eq!(get(&file, ACCESS), None);
        assert_eq!(mode(&file), 0o660);
    }
    // A new sheet has what the folder gives, and new keys are the owner's alone.
    let (new, keys) = (scratch.join("new"), shared_keys(8));
    run(&words!["blank", new, "1", "64", "1", keys]).done();
    assert!(get(&new, ACCESS).is_some());
    run(&words!["keys", scratch.join("new.keys"), "64"]).done();
    assert_eq!(mode(&scratch.join("new.keys")), 0o600);
}

/// Where the group can't be kept, another group gets no more than all others
/// had, and a list, which is about the group too, is refused.
#[test]
fn a_group_that_cannot_be_kept_opens_nothing() {
    let scratch = Scratch::new();
    if !is_root() {
        return; // Only root can make a file another group's.
    }
    let (file, changes) = sheet_and_changes(&scratch);
    unprivileged(&scratch);
    let run = |change: &[OsString]| {
        let mut command = Command::new(scratch.join("captions"));
        command.uid(65534).gid(65534).args(change);
        run_command(command, b"")
    };
    let sheet = fs::read(&file).unwrap();
    for (before, after) in [
        (0o660, 0o600),
        (0o664, 0o644),
        (0o666, 0o666),
        (0o677, 0o677),
        (0o2670, 0o600),
    ] {
        for change in &changes {
            fs::write(&file, &sheet).unwrap();
            chown(&file, Some(65534), Some(54321)).unwrap();
            set_mode(&file, before);
            run(change).done();
            assert_eq!(fs::metadata(&file).unwrap().gid(), 65534);
            assert_eq!(mode(&file), after);
        }
    }
    fs::write(&file, &sheet).unwrap();
    chown(&file, Some(65534), Some(54321)).unwrap();
    if set(&file, ACCESS, &access_list(6, 4, 4, 4, 0)) {
        for change in &changes {
            run(change).failed(73, "it is about a group that can't be kept");
            assert_eq!(fs::read(&file).unwrap(), sheet);
        }
    }
}

/// What can't be kept isn't lost in silence.
#[test]
fn an_attribute_that_cannot_be_kept_is_refused() {
    let scratch = Scratch::new();
    let (file, changes) = sheet_and_changes(&scratch);
    if !set(&file, "user.curator", b"M. Gallet") {
        println!("skipped: no extended attributes here");
        return;
    }
    let before = (fs::read(&file).unwrap(), fs::metadata(&file).unwrap().ino());
    for change in &changes {
        for (call, errno) in [("fsetxattr", 1), ("fsetxattr", 95), ("fsetxattr", 28)] {
            let mut command = command_with(Locks::Kept);
            command.args(change).env("FAULT_CALL", call);
            command.env("FAULT_HOW", errno.to_string());
            run_command(command, b"")
                .failed(73, "the old file's attribute user.curator can't be kept");
            let after = (fs::read(&file).unwrap(), fs::metadata(&file).unwrap().ino());
            assert!(after == before);
            assert!(temporaries(scratch.path()).is_empty());
        }
    }
    // A system of files that has no attributes has none to keep.
    let mut command = command_with(Locks::Kept);
    command.args(&changes[0]).env("FAULT_CALL", "flistxattr");
    run_command(command, b"").done();
    let mut command = command_with(Locks::Kept);
    command.args(&changes[2]).env("FAULT_CALL", "flistxattr");
    command.env("FAULT_HOW", "95");
    run_command(command, b"").done();
    assert_eq!(get(&file, "user.curator"), None);
}
