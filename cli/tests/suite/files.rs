//! Files that are missing, protected, linked or no files at all (66, 73), and what
//! a changed file keeps.

use crate::support::*;
use crate::words;
use std::fs;
use std::os::unix::fs::{chown, symlink, MetadataExt};
use std::path::Path;
use std::process::Command;

/// Every command on this file fails with these words: with 66 where it isn't
/// there or can't be read, with 73 where it can't be replaced.
#[track_caller]
fn all_fail(file: &Path, keys: &Path, reading: &str, changing: &str) {
    run(&words!["list", file]).failed(66, reading);
    run(&words!["read", file, "0", keys]).failed(66, reading);
    run(&words!["verify", file, keys]).failed(66, reading);
    let status = if changing == reading { 66 } else { 73 };
    run(&words!["clear", file, "0"]).failed(status, changing);
    run_with(&words!["write", file, "0", keys], b"Vase").failed(status, changing);
}

#[test]
fn a_file_that_is_not_there_stays_so() {
    let scratch = Scratch::new();
    let keys = scratch.keys(8);
    let missing = "No such file or directory";
    all_fail(&scratch.join("sheet"), &keys, missing, missing);
    all_fail(&scratch.join("folder/sheet"), &keys, missing, missing);
    run(&words![
        "blank",
        scratch.join("folder/sheet"),
        "1",
        "64",
        "1",
        keys
    ])
    .failed(73, missing);
    assert_eq!(scratch.names(), ["keys-8"]);
}

#[test]
fn keys_that_are_not_there() {
    let scratch = Scratch::new();
    let (file, keys) = (scratch.sheet("sheet", 1, 4), scratch.join("keys"));
    run(&words!["read", file, "0", keys]).failed(66, "keys: No such file");
    run(&words!["write", file, "0", keys]).failed(66, "keys: No such file");
    run(&words!["verify", file, keys]).failed(66, "keys: No such file");
    run(&words!["read", file, "0", scratch.path()]).failed(66, "Is a directory");
}

#[test]
fn a_path_under_a_file() {
    let scratch = Scratch::new();
    let (file, keys) = (scratch.sheet("sheet", 1, 4), scratch.keys(8));
    let under = file.join("sheet");
    let message = "Not a directory";
    all_fail(&under, &keys, message, message);
    run(&words!["blank", under, "1", "64", "1", keys]).failed(73, message);
    run(&words![
        "blank",
        under,
        "1",
        "64",
        "1",
        keys,
        "--force",
        "--force-serial"
    ])
    .failed(73, message);
    assert_eq!(fs::read(file).unwrap(), blank_sheet(1, 4));
}

#[test]
fn a_folder_is_no_sheet() {
    let scratch = Scratch::new();
    let (folder, keys) = (scratch.join("folder"), scratch.keys(8));
    fs::create_dir(&folder).unwrap();
    all_fail(&folder, &keys, "Is a directory", "not a regular file");
    run(&words!["blank", folder, "1", "64", "1", keys]).failed(73, "not a regular file");
    run(&words![
        "blank",
        folder,
        "1",
        "64",
        "1",
        keys,
        "--force",
        "--force-serial"
    ])
    .failed(73, "not a regular file");
    run(&words![
        "blank",
        "/",
        "1",
        "64",
        "1",
        keys,
        "--force",
        "--force-serial"
    ])
    .failed(73, "not a regular file");
    assert!(folder.is_dir());
}

/// A pipe or a device can be listed, but a rename would put a file in its place.
#[test]
fn a_pipe_is_listed_and_not_replaced() {
    let scratch = Scratch::new();
    let keys = shared_keys(8);
    let pipe = scratch.join("pipe");
    assert!(Command::new("mkfifo")
        .arg(&pipe)
        .status()
        .unwrap()
        .success());
    run(&words!["clear", pipe, "0"]).failed(73, "not a regular file");
    run(&words![
        "blank",
        pipe,
        "1",
        "64",
        "1",
        keys,
        "--force",
        "--force-serial"
    ])
    .failed(73, "not a regular file");
    let writer = {
        let pipe = pipe.clone();
        std::thread::spawn(move || fs::write(pipe, blank_sheet(1, 4)).unwrap())
    };
    run(&words!["list", pipe]).printed(b"slots 1 key 64 last 0\n0 blank\n");
    writer.join().unwrap();
    run_with(&["list", "/dev/stdin"], &blank_sheet(1, 4))
        .printed(b"slots 1 key 64 last 0\n0 blank\n");
}

// ---- Permissions, as a user whom they bind ----

fn unprivileged_run(scratch: &Scratch, words: &[std::ffi::OsString], stdin: &[u8]) -> Run {
    let mut command = unprivileged(scratch);
    command.args(words);
    run_command(command, stdin)
}

#[test]
fn a_read_only_folder() {
    let scratch = Scratch::new();
    let (file, keys) = (scratch.join("sheet"), scratch.keys(8));
    let sheet = written(&blank_sheet(1, 4), 8, 0, b"Clock");
    fs::write(&file, &sheet).unwrap();
    let denied = format!("{}: no file can be made", scratch.path().display());
    let denied = denied.as_str();
    unprivileged(&scratch);
    set_mode(scratch.path(), 0o555);
    let run = |words: &[std::ffi::OsString]| unprivileged_run(&scratch, words, b"Vase");
    run(&words!["write", file, "0", keys]).failed(73, denied);
    run(&words!["clear", file, "0"]).failed(73, denied);
    run(&words![
        "blank",
        file,
        "1",
        "64",
        "1",
        keys,
        "--force",
        "--force-serial"
    ])
    .failed(73, denied);
    run(&words!["blank", scratch.join("new"), "1", "64", "1", keys]).failed(73, denied);
    run(&words!["keys", scratch.join("new"), "64"]).failed(73, denied);
    run(&words!["list", file]).printed(b"slots 1 key 64 last 1\n0 written 1 5\n");
    assert_eq!(fs::read(&file).unwrap(), sheet);
    assert!(temporaries(scratch.path()).is_empty());
    set_mode(scratch.path(), 0o755);
    run(&words!["write", file, "0", keys]).done();
}

/// A rename would pass over the file's own protection; the command doesn't.
#[test]
fn a_write_protected_file_in_a_folder_that_can_be_written() {
    let scratch = Scratch::new();
    let (file, keys) = (scratch.sheet("sheet", 1, 4), scratch.keys(8));
    set_mode(&file, 0o444);
    let run = |words: &[std::ffi::OsString]| unprivileged_run(&scratch, words, b"Vase");
    run(&words!["write", file, "0", keys]).failed(73, "Permission denied");
    run(&words!["clear", file, "0"]).failed(73, "Permission denied");
    run(&words![
        "blank",
        file,
        "1",
        "64",
        "1",
        keys,
        "--force",
        "--force-serial"
    ])
    .failed(73, "Permission denied");
    assert_eq!(fs::read(&file).unwrap(), blank_sheet(1, 4));
}

#[test]
fn files_that_cannot_be_read() {
    let scratch = Scratch::new();
    let (file, keys) = (scratch.sheet("sheet", 1, 4), scratch.keys(8));
    let run = |words: &[std::ffi::OsString]| unprivileged_run(&scratch, words, b"Vase");
    set_mode(&keys, 0o000);
    run(&words!["read", file, "0", keys]).failed(66, "keys-8: Permission denied");
    set_mode(&file, 0o000);
    run(&words!["list", file]).failed(66, "sheet: Permission denied");
    run(&words!["clear", file, "0"]).failed(73, "sheet: Permission denied");
}

/// One curator may change the sheet of another who lets them, and it becomes
/// theirs where they may not give it away.
#[test]
fn another_curators_sheet() {
    let scratch = Scratch::new();
    let (file, keys) = (scratch.sheet("sheet", 1, 4), scratch.keys(8));
    if !is_root() {
        return; // Only root can make a file another's.
    }
    unprivileged(&scratch);
    chown(&file, Some(12345), Some(12345)).unwrap();
    set_mode(&file, 0o666);
    let mut command = Command::new(scratch.join("captions"));
    std::os::unix::process::CommandExt::uid(&mut command, 65534);
    command.args(words!["write", file, "0", keys]);
    run_command(command, b"Vase").done();
    let metadata = fs::metadata(&file).unwrap();
    assert_eq!((metadata.uid(), mode(&file)), (65534, 0o666));
    // Root keeps owner, group and mode.
    chown(&file, Some(12345), Some(54321)).unwrap();
    set_mode(&file, 0o640);
    run(&words!["clear", file, "0"]).done();
    let metadata = fs::metadata(&file).unwrap();
    assert_eq!(
        (metadata.uid(), metadata.gid(), mode(&file)),
        (12345, 54321, 0o640)
    );
}

// ---- What is kept ----

#[test]
fn the_mode_is_kept() {
    let scratch = Scratch::new();
    let (file, keys) = (scratch.sheet("sheet", 1, 4), scratch.keys(8));
    for bits in [0o600, 0o640, 0o644, 0o664, 0o666, 0o755] {
        set_mode(&file, bits);
        run_with(&words!["write", file, "0", keys], b"Vase").done();
        assert_eq!(mode(&file), bits);
        run(&words!["clear", file, "0"]).done();
        assert_eq!(mode(&file), bits);
        run(&words![
            "blank",
            file,
            "2",
            "64",
            "1",
            keys,
            "--force",
            "--force-serial"
        ])
        .done();
        assert_eq!(mode(&file), bits);
        run(&words![
            "blank",
            file,
            "1",
            "64",
            "1",
            keys,
            "--force",
            "--force-serial"
        ])
        .done();
    }
}

#[test]
fn a_new_sheet_has_the_mode_that_the_shell_sets() {
    let scratch = Scratch::new();
    for (umask, bits) in [("000", 0o666), ("022", 0o644), ("077", 0o600)] {
        let file = scratch.join(format!("sheet-{umask}"));
        let mut command = Command::new("sh");
        let line = format!("umask {umask}; exec \"$0\" blank \"$1\" 1 64 1 \"$2\"");
        command.args(["-c", &line, PROGRAM]);
        command.args([&file, &shared_keys(8)]);
        run_command(command, b"").done();
        assert_eq!(mode(&file), bits);
    }
}

#[test]
fn blank_leaves_an_existing_file_alone_unless_forced() {
    let scratch = Scratch::new();
    let keys = shared_keys(8);
    let file = scratch.join("sheet");
    let sheet = written(&blank_sheet(2, 4), 8, 1, b"Clock");
    for content in [&sheet[..], b""] {
        fs::write(&file, content).unwrap();
        run(&words!["blank", file, "2", "64", "1", keys]).failed(73, "exists; --force blanks it");
        assert_eq!(fs::read(&file).unwrap(), content);
        run(&words!["blank", file, "--force", "2", "64", "2", keys]).done();
        assert_eq!(fs::read(&file).unwrap(), blank_sheet_with(2, 4, 2));
    }
    // Where nothing is, --force changes nothing.
    run(&words![
        "blank",
        "--force",
        scratch.join("new"),
        "2",
        "64",
        "1",
        keys
    ])
    .done();
    assert_eq!(fs::read(scratch.join("new")).unwrap(), blank_sheet(2, 4));
}

// ---- Links ----

#[test]
fn a_symbolic_link_is_followed_and_stays() {
    let scratch = Scratch::new();
    let keys = scratch.keys(8);
    let folder = scratch.join("folder");
    fs::create_dir(&folder).unwrap();
    let (file, link, second) = (
        folder.join("sheet"),
        scratch.join("link"),
        scratch.join("second"),
    );
    fs::write(&file, blank_sheet(1, 4)).unwrap();
    symlink("folder/sheet", &link).unwrap();
    symlink(&link, &second).unwrap();
    run_with(&words!["write", second, "0", keys], b"Vase").done();
    let sheet = written(&blank_sheet(1, 4), 8, 0, b"Vase");
    assert_eq!(fs::read(&file).unwrap(), sheet);
    run(&words!["read", link, "0", keys]).printed(b"Vase");
    run(&words!["blank", link, "1", "64", "1", keys]).failed(73, "exists");
    let longer = shared_keys(12);
    run(&words!["blank", link, "1", "96", "1", longer, "--force"]).done();
    assert_eq!(fs::read(&file).unwrap(), blank_sheet(1, 6));
    assert_eq!(fs::read_link(&link).unwrap(), Path::new("folder/sheet"));
    assert_eq!(fs::read_link(&second).unwrap(), link);
    assert_eq!(names_in(&folder), ["sheet"]);
    assert_eq!(scratch.names(), ["folder", "keys-8", "link", "second"]);
}

#[test]
fn a_symbolic_link_to_nothing_is_left_alone() {
    let scratch = Scratch::new();
    let (link, keys) = (scratch.join("link"), scratch.keys(8));
    symlink("nowhere", &link).unwrap();
    let missing = "link: a symbolic link to nothing";
    all_fail(&link, &keys, missing, missing);
    run(&words!["blank", link, "1", "64", "1", keys]).failed(73, missing);
    run(&words![
        "blank",
        link,
        "1",
        "64",
        "1",
        keys,
        "--force",
        "--force-serial"
    ])
    .failed(73, missing);
    assert_eq!(scratch.names(), ["keys-8", "link"]);
    let around = scratch.join("around");
    symlink("around", &around).unwrap();
    run(&words!["blank", around, "1", "64", "1", keys]).failed(73, "symbolic links");
}

/// As the help text says: the other name keeps the old sheet.
#[test]
fn a_hard_link_stays_with_the_old_sheet() {
    let scratch = Scratch::new();
    let (file, keys) = (scratch.sheet("sheet", 1, 4), scratch.keys(8));
    let other = scratch.join("other");
    fs::hard_link(&file, &other).unwrap();
    run_with(&words!["write", file, "0", keys], b"Vase").done();
    assert_eq!(
        fs::read(&file).unwrap(),
        written(&blank_sheet(1, 4), 8, 0, b"Vase")
    );
    assert_eq!(fs::read(&other).unwrap(), blank_sheet(1, 4));
}

// ---- Names ----

#[test]
fn the_longest_name_will_do() {
    let scratch = Scratch::new();
    let (file, keys) = (scratch.join("s".repeat(255)), scratch.keys(8));
    run(&words!["blank", file, "1", "64", "1", keys]).done();
    run_with(&words!["write", file, "0", keys], b"Vase").done();
    run(&words!["read", file, "0", keys]).printed(b"Vase");
    run(&words![
        "blank",
        scratch.join("s".repeat(256)),
        "1",
        "64",
        "1",
        keys
    ])
    .failed(73, "too long");
}

/// A name that ends as a folder's does isn't made a file's.
#[test]
fn a_folders_name_is_no_new_sheets() {
    let scratch = Scratch::new();
    let keys = shared_keys(8);
    for end in ["/", "//", "/."] {
        let mut name = scratch.join("new").into_os_string();
        name.push(end);
        let message = "a folder's name, not a file's";
        run(&words!["blank", name, "1", "64", "1", keys]).failed(73, message);
        run(&words![
            "blank",
            name,
            "1",
            "64",
            "1",
            keys,
            "--force",
            "--force-serial"
        ])
        .failed(73, message);
        run(&words!["keys", name, "64"]).failed(73, message);
    }
    let folder = scratch.join("new/..");
    run(&words!["blank", folder, "1", "64", "1", keys]).failed(73, "No such file");
    assert!(scratch.names().is_empty());
}

/// What is wrong with the folder is said of the folder.
#[test]
fn a_message_names_the_folder_if_it_is_the_folders_fault() {
    let scratch = Scratch::new();
    let (folder, keys) = (scratch.join("folder"), scratch.keys(8));
    fs::create_dir(&folder).unwrap();
    let file = folder.join("sheet");
    fs::write(&file, blank_sheet(1, 4)).unwrap();
    let new = scratch.join("none/sheet");
    run(&words!["blank", new, "1", "64", "1", keys])
        .failed(73, "none/sheet: its folder: No such file");
    unprivileged(&scratch);
    let run = |words: &[std::ffi::OsString]| unprivileged_run(&scratch, words, b"Vase");
    set_mode(&folder, 0o333);
    let message = format!("captions: {}: the folder can't be opened", folder.display());
    run(&words!["write", file, "0", keys]).failed(73, &message);
    run(&words!["blank", folder.join("new"), "1", "64", "1", keys]).failed(73, &message);
    set_mode(&folder, 0o755);
}
