//! Each refusal by each command that can meet it: number, word, exit status,
//! and a file that is left alone. Those of term sheets are in `terms`.

use crate::support::*;
use crate::words;
use std::ffi::OsString;
use std::fs;
use std::os::unix::fs::MetadataExt;
use std::path::Path;

/// Runs a command that is to be refused and sees that the file is the same one
/// as before, byte for byte and not merely equal.
#[track_caller]
pub fn refused(words: &[OsString], stdin: &[u8], file: &Path, number: i32, word: &str) {
    let state = |file: &Path| {
        let metadata = fs::metadata(file).unwrap();
        let modified = (metadata.mtime(), metadata.mtime_nsec());
        (fs::read(file).unwrap(), metadata.ino(), modified)
    };
    let before = state(file);
    run_with(words, stdin).refused(number, word);
    assert_eq!(state(file), before);
    assert!(temporaries(file.parent().unwrap()).is_empty());
}

#[test]
fn wrong_key() {
    let scratch = Scratch::new();
    let file = scratch.sheet("sheet", 2, 4);
    for bits in [
        "0",
        "63",
        "65",
        "72",
        "80",
        "112",
        "256",
        "18446744073709551616",
    ] {
        refused(
            &words!["blank", file, "2", bits, "1", shared_keys(8), "--force"],
            b"",
            &file,
            1,
            "wrong key",
        );
    }
    let wrong = [
        (7, 7),
        (9, 9),
        (11, 11),
        (8, 10),
        (8, 12),
        (16, 8),
        (0, 0),
        (13, 13),
        (17, 17),
    ];
    for (sealing, checking) in wrong {
        let keys = scratch.key_file("keys", &vec![1; sealing], &vec![2; checking]);
        let blank = words!["blank", file, "2", "64", "1", keys, "--force"];
        refused(&blank, b"", &file, 1, "wrong key");
        refused(
            &words!["write", file, "0", keys],
            b"Vase",
            &file,
            1,
            "wrong key",
        );
        refused(&words!["read", file, "0", keys], b"", &file, 1, "wrong key");
        refused(&words!["verify", file, keys], b"", &file, 1, "wrong key");
    }
}

#[test]
fn twin_keys() {
    let scratch = Scratch::new();
    let file = scratch.sheet("sheet", 2, 4);
    let keys = scratch.key_file("keys", &[7; 8], &[7; 8]);
    let blank = words!["blank", file, "2", "64", "1", keys, "--force"];
    refused(&blank, b"", &file, 2, "twin keys");
    refused(
        &words!["write", file, "0", keys],
        b"Vase",
        &file,
        2,
        "twin keys",
    );
    refused(&words!["read", file, "0", keys], b"", &file, 2, "twin keys");
    refused(&words!["verify", file, keys], b"", &file, 2, "twin keys");
}

#[test]
fn wrong_span() {
    let scratch = Scratch::new();
    let file = scratch.sheet("sheet", 2, 4);
    for slots in [
        "0",
        "257",
        "65537",
        "18446744073709551615",
        "99999999999999999999999",
    ] {
        refused(
            &words!["blank", file, slots, "64", "1", shared_keys(8), "--force"],
            b"",
            &file,
            3,
            "wrong span",
        );
        let new = scratch.join("new");
        run(&words!["blank", new, slots, "64", "1", shared_keys(8)]).refused(3, "wrong span");
        assert!(!new.exists());
    }
}

#[test]
fn unfit_sheet() {
    let scratch = Scratch::new();
    let (file, keys) = (scratch.join("sheet"), scratch.keys(8));
    let sheet = blank_sheet(2, 4);
    let largest = blank_sheet(256, 4);
    let mut unfit = vec![
        Vec::new(),
        sheet[..7].to_vec(),
        sheet[..15].to_vec(),
        sheet[..sheet.len() - 1].to_vec(),
        [&largest[..], b"\0"].concat(),
        vec![0; 1 << 20],
    ];
    // Another edition or an unknown one, and each of edition 2's six zero bytes.
    for edition in [0, 1, 2, 4] {
        let mut sheet = sheet.clone();
        sheet[3] = edition;
        unfit.push(sheet);
    }
    for place in 10..16 {
        let mut sheet = blank_sheet_2(2, 4);
        sheet[place] = 1;
        unfit.push(sheet);
    }
    for sheet in unfit {
        fs::write(&file, sheet).unwrap();
        refused(
            &words!["write", file, "0", keys],
            b"Vase",
            &file,
            4,
            "unfit sheet",
        );
        refused(
            &words!["read", file, "0", keys],
            b"",
            &file,
            4,
            "unfit sheet",
        );
        refused(&words!["clear", file, "0"], b"", &file, 4, "unfit sheet");
        refused(&words!["verify", file, keys], b"", &file, 4, "unfit sheet");
    }
}

#[test]
fn other_key_class() {
    let scratch = Scratch::new();
    let (file, keys) = (scratch.sheet("sheet", 2, 4), scratch.keys(12));
    let blank = words!["blank", file, "2", "64", "1", keys, "--force"];
    refused(&blank, b"", &file, 5, "other key class");
    refused(
        &words!["write", file, "0", keys],
        b"Vase",
        &file,
        5,
        "other key class",
    );
    refused(
        &words!["read", file, "0", keys],
        b"",
        &file,
        5,
        "other key class",
    );
    refused(
        &words!["verify", file, keys],
        b"",
        &file,
        5,
        "other key class",
    );
}

#[test]
fn no_such_slot() {
    let scratch = Scratch::new();
    let (file, keys) = (scratch.sheet("sheet", 2, 4), scratch.keys(8));
    for slot in [
        "2",
        "256",
        "65536",
        "18446744073709551615",
        "99999999999999999999999",
    ] {
        refused(
            &words!["write", file, slot, keys],
            b"Vase",
            &file,
            6,
            "no such slot",
        );
        refused(
            &words!["read", file, slot, keys],
            b"",
            &file,
            6,
            "no such slot",
        );
        refused(&words!["clear", file, slot], b"", &file, 6, "no such slot");
    }
}

#[test]
fn overlong() {
    let scratch = Scratch::new();
    let (file, keys) = (scratch.sheet("sheet", 2, 4), scratch.keys(8));
    for length in [193, 194, 1000, 1 << 20] {
        let caption = vec![b'x'; length];
        refused(
            &words!["write", file, "0", keys],
            &caption,
            &file,
            7,
            "overlong",
        );
    }
    run_with(&words!["write", file, "0", keys], &[b'x'; 192]).done();
}

#[test]
fn worn() {
    let scratch = Scratch::new();
    let (file, keys) = (scratch.join("sheet"), scratch.keys(8));
    let mut sheet = blank_sheet(2, 4);
    sheet[4..8].copy_from_slice(&4294967294_u32.to_be_bytes());
    fs::write(&file, &sheet).unwrap();
    run_with(&words!["write", file, "0", keys], b"Vase").done();
    run(&words!["list", file])
        .printed(b"slots 2 key 64 last 4294967295\n0 written 4294967295 4\n1 blank\n");
    refused(
        &words!["write", file, "1", keys],
        b"Clock",
        &file,
        8,
        "worn",
    );
    run(&words!["clear", file, "0"]).done();
    run(&words!["read", file, "0", keys]).refused(9, "blank");
}

/// A torn tag and a wrong file look different.
#[test]
fn an_unfit_sheet_points_at_its_first_fault() {
    let scratch = Scratch::new();
    let (file, keys) = (scratch.join("sheet"), scratch.keys(8));
    let sheet = written(&blank_sheet(4, 4), 8, 3, b"Clock");
    let mut length = sheet.clone();
    length[EDITION.mark_place(3).start + 4] = 1;
    let cases = [
        (
            sheet[..212].to_vec(),
            "unfit sheet: 212 bytes, where 4 slots have 848",
        ),
        (
            b"Lender,Bronze\n".to_vec(),
            "unfit sheet: 19557 slots, where a sheet has 1 to 256 (bytes 0 and 1)",
        ),
        (
            length,
            "unfit sheet: slot 3: length above 192 (bytes 68 and 69)",
        ),
        (
            vec![0; 5],
            "unfit sheet: 5 bytes, where a sheet has at least 8",
        ),
    ];
    for (sheet, words) in cases {
        fs::write(&file, sheet).unwrap();
        let read = words!["read", file, "0", keys];
        refused(&read, b"", &file, 4, words);
        refused(&words!["write", file, "0", keys], b"Vase", &file, 4, words);
        refused(&words!["clear", file, "0"], b"", &file, 4, words);
        refused(&words!["verify", file, keys], b"", &file, 4, words);
        refused(&words!["export", file, keys], b"", &file, 4, words);
    }
}

#[test]
fn blank() {
    let scratch = Scratch::new();
    let (file, keys) = (scratch.sheet("sheet", 2, 4), scratch.keys(8));
    refused(&words!["read", file, "0", keys], b"", &file, 9, "blank");
}

#[test]
fn altered() {
    for blank in [blank_sheet(2, 4), blank_sheet_2(2, 4)] {
        altered_in(&blank);
    }
}

fn altered_in(blank: &[u8]) {
    let scratch = Scratch::new();
    let (file, keys) = (scratch.join("sheet"), scratch.keys(8));
    let sheet = written(blank, 8, 1, b"Clock");
    let mark = EDITION.mark_place(1).start;
    let field = EDITION.field_place(2, 1).start;
    for place in [mark + 5, mark + 8, mark + 15, field, field + 191] {
        let mut sheet = sheet.clone();
        sheet[place] ^= 2;
        fs::write(&file, &sheet).unwrap();
        let words = "altered: the check differs";
        refused(&words!["read", file, "1", keys], b"", &file, 10, words);
    }
    // A slot moved to another place.
    let mut moved = blank.to_vec();
    moved[4..8].copy_from_slice(&sheet[4..8]);
    moved[EDITION.mark_place(0)].copy_from_slice(&sheet[EDITION.mark_place(1)]);
    moved[EDITION.field_place(2, 0)].copy_from_slice(&sheet[EDITION.field_place(2, 1)]);
    fs::write(&file, &moved).unwrap();
    refused(&words!["read", file, "0", keys], b"", &file, 10, "altered");
}
