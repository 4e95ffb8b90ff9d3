//! Each command, its file and its output against the second program's.

use crate::edition::Edition;
use crate::support::*;
use crate::words;
use std::fs;
use std::path::Path;
use std::process::Command;

/// Byte 2, the bytes of a key, and the word for blanking.
const CLASSES: [(usize, usize, &str); 8] = [
    (4, 8, "64"),
    (6, 12, "96"),
    (8, 16, "128"),
    (4, 8, "mcrypton-64"),
    (6, 12, "mcrypton-96"),
    (8, 16, "mcrypton-128"),
    (21, 10, "present-80"),
    (24, 16, "present-128"),
];

#[test]
fn blank_makes_the_second_programs_sheet() {
    let scratch = Scratch::new();
    for (class, key_len, cipher) in CLASSES {
        for (slots, serial) in [1, 2, 17, 255, 256].into_iter().zip(Edition::SERIALS) {
            let file = scratch.join(format!("{slots}-{cipher}.sheet"));
            let [n, number] = [slots.to_string(), serial.to_string()];
            let keys = shared_keys(key_len);
            run(&words!["blank", file, n, cipher, number, keys]).done();
            let expected = blank_sheet_with(slots, class, serial);
            assert_eq!(fs::read(file).unwrap(), expected);
        }
    }
    assert!(temporaries(scratch.path()).is_empty());
}

/// Writes a caption, which may be empty.
#[track_caller]
fn write(file: &Path, slot: usize, keys: &Path, caption: &[u8]) {
    let mut words = words!["write", file, slot.to_string(), keys].to_vec();
    if caption.is_empty() {
        words.push("--empty".into());
    }
    run_with(&words, caption).done();
}

#[test]
fn write_stores_what_the_second_program_stores() {
    let scratch = Scratch::new();
    for (class, key_len, _) in CLASSES {
        let file = scratch.sheet("sheet", 3, class);
        let keys = scratch.keys(key_len);
        let mut sheet = blank_sheet(3, class);
        let longest: String = ('\u{80}'..'\u{e0}').collect();
        let captions: [(usize, &[u8]); 5] = [
            (0, b"Vase, 1752"),
            (2, longest.as_bytes()),
            (0, b"Vase, 1751\n"),
            (1, b""),
            (2, b"\0\0\0"),
        ];
        for (slot, caption) in captions {
            write(&file, slot, &keys, caption);
            sheet = written(&sheet, key_len, slot, caption);
            assert_eq!(fs::read(&file).unwrap(), sheet);
            run(&words!["read", file, slot.to_string(), keys]).printed(caption);
        }
    }
}

/// Sheets of editions 1 and 2 are there from before; no command makes one.
#[test]
fn a_sheet_of_an_older_edition_is_read_written_cleared_and_listed() {
    for edition in [Edition::One, Edition::Two(1)] {
        read_written_cleared_and_listed(edition);
    }
}

fn read_written_cleared_and_listed(edition: Edition) {
    let scratch = Scratch::new();
    let (file, keys, terms) = (
        scratch.join("sheet"),
        scratch.keys(8),
        scratch.join("terms"),
    );
    let sheet = written(&edition.blank_sheet(3, 4), 8, 1, b"Clock");
    fs::write(&file, &sheet).unwrap();
    fs::write(&terms, term_sheet(&[(1, 0), (9617, 9800), (1, 0)])).unwrap();
    run(&words!["read", file, "1", keys]).printed(b"Clock");
    let on = |date: &str| {
        run(&words![
            "read", file, "1", keys, "--terms", terms, "--on", date
        ])
    };
    on("2026-10-31").printed(b"Clock");
    on("2026-11-01").refused(12, "not on show");

    write(&file, 0, &keys, b"Vase, 1751");
    let sheet = written(&sheet, 8, 0, b"Vase, 1751");
    assert_eq!(fs::read(&file).unwrap(), sheet);
    let serial = match edition {
        Edition::One => 0,
        Edition::Two(serial) | Edition::Three(serial) => serial,
    };
    let table = format!("slot\ttext\twrite\tserial\tdigest\n2\tTable\t0\t{serial}\n");
    run_with(&words!["import", file, keys], table.as_bytes()).done();
    let sheet = written(&sheet, 8, 2, b"Table");
    assert_eq!(fs::read(&file).unwrap(), sheet);
    run(&words!["clear", file, "1"]).done();
    assert_eq!(fs::read(&file).unwrap(), cleared(&sheet, 1));
    run(&words!["list", file])
        .printed(b"slots 3 key 64 last 3\n0 written 2 10\n1 blank\n2 written 3 5\n");
    run(&words!["verify", file, keys])
        .printed(b"0 sound 10\n1 blank\n2 sound 5\nslots 3 sound 2 blank 1 altered 0\n");
    let table = format!(
        "slot\ttext\twrite\tserial\tdigest\n0\t\\&Vase, 1751\t2\t{serial}\t{}\n1\t\t0\t{serial}\t\n2\tTable\t3\t{serial}\t{}\n",
        digest(b"Vase, 1751"),
        digest(b"Table")
    );
    run(&words!["export", file, keys]).printed(table.as_bytes());
}

#[test]
fn read_prints_the_bytes_and_no_line_feed() {
    let scratch = Scratch::new();
    let (file, keys) = (scratch.sheet("sheet", 1, 4), scratch.keys(8));
    for length in [0, 1, 8, 191, 192] {
        let caption: Vec<u8> = (0..length).map(|i| 127 - i as u8 % 128).collect();
        write(&file, 0, &keys, &caption);
        run(&words!["read", file, "0", keys]).printed(&caption);
        // Of a caption from before, any bytes.
        let caption: Vec<u8> = (0..length).map(|i| 255 - i as u8).collect();
        let sheet = fs::read(&file).unwrap();
        fs::write(&file, stored(&sheet, 8, 0, &caption)).unwrap();
        run(&words!["read", file, "0", keys]).printed(&caption);
    }
}

#[test]
fn clear_makes_a_slot_blank() {
    let scratch = Scratch::new();
    let file = scratch.join("sheet");
    let sheet = written(&blank_sheet(2, 4), 8, 1, b"Clock");
    fs::write(&file, &sheet).unwrap();
    run(&words!["clear", file, "1"]).done();
    assert_eq!(fs::read(&file).unwrap(), cleared(&sheet, 1));
    run(&words!["clear", file, "1"]).done();
    run(&words!["clear", file, "0"]).done();
    assert_eq!(fs::read(&file).unwrap(), cleared(&sheet, 1));
}

#[test]
fn list_prints_the_second_programs_listing() {
    let scratch = Scratch::new();
    let file = scratch.join("sheet");
    let sheet = written(&blank_sheet(3, 8), 16, 1, b"Clock");
    let [oldest, old, full] = Edition::ALL.map(|edition| edition.blank_sheet(256, 6));
    let longer = [&full[..], b"\0"].concat();
    for sheet in [
        &sheet[..],
        &oldest,
        &old,
        &full,
        &longer,
        &sheet[1..],
        b"",
        &[0; 1 << 20],
    ] {
        fs::write(&file, sheet).unwrap();
        let list = run(&words!["list", file]);
        assert_eq!((list.status, list.stdout), (0, reference::listing(sheet)));
    }
    let list = run(&["list", "/dev/zero"]);
    assert_eq!((list.status, list.stdout.as_slice()), (0, &b"unfit\n"[..]));
}

#[test]
fn list_prints_the_example_of_the_paper() {
    let scratch = Scratch::new();
    let mut sheet = vec![0; 424];
    sheet[..4].copy_from_slice(&[0, 2, 4, 1]);
    let file = scratch.join("sheet");
    fs::write(&file, sheet).unwrap();
    run(&words!["list", file]).printed(b"slots 2 key 64 last 0\n0 blank\n1 blank\n");
}

#[test]
fn verify_tells_sound_blank_and_altered_slots() {
    let scratch = Scratch::new();
    let (file, keys) = (scratch.join("sheet"), scratch.keys(8));
    let sheet = written(&blank_sheet(4, 4), 8, 1, b"Clock");
    let mut sheet = written(&sheet, 8, 3, &[b'x'; 192]);
    fs::write(&file, &sheet).unwrap();
    run(&words!["verify", file, keys])
        .printed(b"0 blank\n1 sound 5\n2 blank\n3 sound 192\nslots 4 sound 2 blank 2 altered 0\n");

    sheet[EDITION.field_place(4, 1)][0] ^= 0x40;
    fs::write(&file, &sheet).unwrap();
    let verified = run(&words!["verify", file, keys]);
    assert_eq!(verified.status, 10);
    assert_eq!(verified.stderr, "10 altered\n");
    assert_eq!(
        String::from_utf8(verified.stdout).unwrap(),
        "0 blank\n1 altered: the check differs\n2 blank\n3 sound 192\nslots 4 sound 1 blank 2 altered 1\n",
    );
}

#[test]
fn verify_tries_every_slot_of_the_largest_sheet() {
    let scratch = Scratch::new();
    let (file, keys) = (scratch.join("sheet"), scratch.keys(16));
    fs::write(&file, written(&blank_sheet(256, 8), 16, 255, b"last")).unwrap();
    let verified = run(&words!["verify", file, keys]);
    let report = String::from_utf8(verified.stdout).unwrap();
    let lines: Vec<&str> = report.lines().collect();
    assert_eq!(lines.len(), 257);
    assert_eq!(
        lines[254..],
        [
            "254 blank",
            "255 sound 4",
            "slots 256 sound 1 blank 255 altered 0"
        ]
    );
}

#[test]
fn names_are_taken_from_the_working_folder() {
    let scratch = Scratch::new();
    scratch.keys(8);
    let at = |words: &[&str], stdin: &[u8]| {
        let mut command = Command::new(PROGRAM);
        command.args(words).current_dir(scratch.path());
        run_command(command, stdin)
    };
    at(&["blank", "sheet", "1", "64", "1", "./keys-8"], b"").done();
    at(&["write", "./sheet", "0", "keys-8"], b"Vase").done();
    at(&["read", "sheet", "0", "../x/../keys-8"], b"").failed(66, "../x/../keys-8");
    at(&["read", "sheet", "0", "keys-8"], b"").printed(b"Vase");
    assert_eq!(scratch.names(), ["keys-8", "sheet"]);
}

#[test]
fn a_name_that_is_not_text_will_do() {
    use std::os::unix::ffi::OsStrExt;
    let scratch = Scratch::new();
    let keys = scratch.keys(8);
    let file = scratch.join(std::ffi::OsStr::from_bytes(b"sheet-\xff"));
    run(&words!["blank", file, "1", "64", "1", keys]).done();
    run_with(&words!["write", file, "0", keys], b"Vase").done();
    run(&words!["read", file, "0", keys]).printed(b"Vase");
}
