//! The temporary files that killed commands leave, and what only looks like one.

use crate::support::*;
use crate::words;
use std::fs::{self, File};
use std::os::unix::fs::{chown, symlink};
use std::os::unix::process::CommandExt;
use std::path::Path;
use std::process::Command;
use std::time::{Duration, SystemTime};

const A_DAY: Duration = Duration::from_secs(24 * 60 * 60);

/// The name of a temporary file that the system of this run makes.
fn own_name(count: u64) -> String {
    let system = fs::read_to_string("/proc/sys/kernel/random/boot_id").unwrap();
    let digits: String = system
        .chars()
        .filter(char::is_ascii_hexdigit)
        .take(16)
        .collect();
    format!("{TEMPORARY}{digits}{count:016x}")
}

/// The name of one that another machine made.
fn foreign_name(count: u64) -> String {
    format!("{TEMPORARY}{:016x}{count:016x}", 0x5eed)
}

fn make_old(path: &Path) {
    let file = File::options().write(true).open(path).unwrap();
    file.set_modified(SystemTime::now() - A_DAY - Duration::from_secs(60))
        .unwrap();
}

fn changes(scratch: &Scratch) -> [Vec<std::ffi::OsString>; 4] {
    let (file, keys) = (scratch.sheet("sheet", 1, 4), scratch.keys(8));
    [
        words!["write", file, "0", keys, "--again"].to_vec(),
        words!["clear", file, "0"].to_vec(),
        words!["clear", file, "0"].to_vec(),
        words![
            "blank",
            file,
            "1",
            "64",
            "1",
            keys,
            "--force",
            "--force-serial"
        ]
        .to_vec(),
    ]
}

#[test]
fn what_a_killed_command_of_this_machine_left_is_removed() {
    let scratch = Scratch::new();
    for change in changes(&scratch) {
        for count in 0..3 {
            let leftover = scratch.join(own_name(count));
            fs::write(&leftover, vec![7; 100_000]).unwrap();
            set_mode(&leftover, 0o600);
        }
        run_with(&change, b"Vase").done();
        assert_eq!(scratch.names(), ["keys-8", "sheet"]);
    }
}

/// The lock on it shows that its maker is still there, though the folder's lock
/// didn't keep this command out.
#[test]
fn what_is_in_use_is_left_alone() {
    let scratch = Scratch::new();
    for change in changes(&scratch) {
        let path = scratch.join(own_name(1));
        fs::write(&path, "half a sheet").unwrap();
        let locked = Locked::new(&path);
        make_sure_it_stays(&change, &path);
        drop(locked);
        run_with(&change, b"Vase").done();
        assert!(!path.exists());
    }
}

#[track_caller]
fn make_sure_it_stays(change: &[std::ffi::OsString], path: &Path) {
    run_with(change, b"Vase").done();
    assert!(path.symlink_metadata().is_ok());
}

/// Another machine's locks can't be seen from here. Its files, and those of the
/// version that had one name for all, are left for a day.
#[test]
fn what_another_machine_left_is_removed_after_a_day() {
    let scratch = Scratch::new();
    for change in changes(&scratch) {
        for name in [foreign_name(1), ".captions-new".to_string()] {
            let path = scratch.join(name);
            fs::write(&path, "half a sheet").unwrap();
            make_sure_it_stays(&change, &path);
            make_old(&path);
            run_with(&change, b"Vase").done();
            assert_eq!(scratch.names(), ["keys-8", "sheet"]);
        }
    }
}

/// Only the command's own names are its own, and only files.
#[test]
fn what_only_looks_like_a_leftover_is_left_alone() {
    let scratch = Scratch::new();
    let elsewhere = scratch.join("elsewhere");
    fs::write(&elsewhere, "untouched").unwrap();
    let name = own_name(1);
    let others = [
        format!("{name}0"),
        name[..name.len() - 1].to_string(),
        name.to_uppercase(),
        format!("{}g", &name[..name.len() - 1]),
        format!("{TEMPORARY}sheet"),
        "captions-new".to_string(),
        format!("x{name}"),
    ];
    for name in &others {
        fs::write(scratch.join(name), "a user's own").unwrap();
        make_old(&scratch.join(name));
    }
    let (link, folder, pipe) = (own_name(2), own_name(3), own_name(4));
    symlink(&elsewhere, scratch.join(&link)).unwrap();
    fs::create_dir(scratch.join(&folder)).unwrap();
    let made = Command::new("mkfifo").arg(scratch.join(&pipe)).status();
    assert!(made.unwrap().success());
    let names = {
        changes(&scratch);
        scratch.names()
    };
    for change in changes(&scratch) {
        run_with(&change, b"Vase").done();
        assert_eq!(scratch.names(), names);
        assert_eq!(fs::read(&elsewhere).unwrap(), b"untouched");
    }
}

/// In a folder such as /tmp nobody can remove another's file, and none has to.
#[test]
fn another_users_leftover_in_a_sticky_folder() {
    let scratch = Scratch::new();
    if !is_root() {
        return; // Only root can make a file another's.
    }
    const ANOTHER: u32 = 12345;
    let changes = changes(&scratch);
    unprivileged(&scratch);
    let earlier = ".captions-new".to_string();
    let others = [
        own_name(1),
        own_name(2),
        foreign_name(1),
        foreign_name(2),
        earlier,
    ];
    for (name, mode) in others.iter().zip([0o600, 0o666].into_iter().cycle()) {
        let path = scratch.join(name);
        fs::write(&path, "half a sheet").unwrap();
        make_old(&path);
        chown(&path, Some(ANOTHER), Some(ANOTHER)).unwrap();
        set_mode(&path, mode);
    }
    chown(scratch.path(), Some(ANOTHER), Some(ANOTHER)).unwrap();
    set_mode(scratch.path(), 0o1777);
    for change in changes {
        let mut command = Command::new(scratch.join("captions"));
        command.uid(65534).gid(65534).args(change);
        run_command(command, b"Vase").done();
        let names = scratch.names();
        assert!(others.iter().all(|name| names.contains(name)));
    }
}

#[test]
fn a_temporary_files_name_is_no_sheets() {
    let scratch = Scratch::new();
    let keys = scratch.keys(8);
    for name in [own_name(1), foreign_name(1), ".captions-new".to_string()] {
        let file = scratch.sheet(&name, 1, 4);
        let message = "a temporary file's name";
        run(&words!["clear", file, "0"]).failed(73, message);
        run(&words!["write", file, "0", keys, "--text", "Vase"]).failed(73, message);
        run(&words![
            "blank",
            file,
            "1",
            "64",
            "1",
            keys,
            "--force",
            "--force-serial"
        ])
        .failed(73, message);
        run(&words!["keys", file, "64"]).failed(73, message);
        assert_eq!(fs::read(&file).unwrap(), blank_sheet(1, 4));
        fs::remove_file(file).unwrap();
    }
}
