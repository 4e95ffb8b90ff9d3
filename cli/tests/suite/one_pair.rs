//! One pair of keys serves a sheet: whoever comes with another is refused before
//! anything is opened or written.

use crate::edition::Edition;
use crate::refusals::refused;
use crate::support::*;
use crate::words;
use std::ffi::OsString;
use std::fs;
use std::path::{Path, PathBuf};

/// A sheet of two slots with a caption in slot 1, and terms by which it is shown.
struct Place {
    scratch: Scratch,
    file: PathBuf,
    keys: PathBuf,
    terms: PathBuf,
    table: PathBuf,
}

impl Place {
    fn new(blank: &[u8]) -> Place {
        let scratch = Scratch::new();
        let place = Place {
            file: scratch.join("sheet"),
            keys: scratch.keys(8),
            terms: scratch.join("terms"),
            table: scratch.join("table"),
            scratch,
        };
        fs::write(&place.file, written(blank, 8, 1, b"Clock")).unwrap();
        fs::write(&place.terms, term_sheet(&[(0, 36524), (0, 36524)])).unwrap();
        fs::write(
            &place.table,
            "slot\ttext\twrite\tserial\tdigest\n0\tVase\t0\t1\n1\tClock\t1\t1\n",
        )
        .unwrap();
        place
    }

    /// Files of other keys of the same length: another pair, the keys the wrong
    /// way round, one of them another, and one bit of either flipped.
    fn strangers(&self) -> Vec<PathBuf> {
        let [sealing, checking] = [&SEALING, &CHECKING].map(|key| key[..8].to_vec());
        let flipped = |key: &[u8], bit: u8| [&[key[0] ^ bit], &key[1..]].concat();
        let pairs = [
            (vec![1; 8], vec![2; 8]),
            (checking.clone(), sealing.clone()),
            (sealing.clone(), vec![2; 8]),
            (vec![1; 8], checking.clone()),
            (flipped(&sealing, 1), checking.clone()),
            (sealing.clone(), flipped(&checking, 0x80)),
        ];
        let files = pairs.iter().enumerate().map(|(number, (first, second))| {
            self.scratch
                .key_file(&format!("stranger-{number}"), first, second)
        });
        files.collect()
    }

    /// Every command that takes keys and a sheet that exists, at slots that there
    /// are and that there aren't.
    fn commands(&self, keys: &Path) -> Vec<Vec<OsString>> {
        let Place {
            file, terms, table, ..
        } = self;
        let mut commands = vec![
            words!["verify", file, keys].to_vec(),
            words!["export", file, keys].to_vec(),
            words!["import", file, keys, "--file", table].to_vec(),
            words!["import", file, keys, "--file", table, "--dry-run"].to_vec(),
        ];
        for slot in ["0", "1", "2", "18446744073709551615"] {
            commands.extend([
                words!["read", file, slot, keys].to_vec(),
                words![
                    "read",
                    file,
                    slot,
                    keys,
                    "--terms",
                    terms,
                    "--on",
                    "2026-05-01"
                ]
                .to_vec(),
                words!["write", file, slot, keys, "--text", "Vase"].to_vec(),
                words!["write", file, slot, keys, "--text", "x".repeat(193)].to_vec(),
            ]);
        }
        commands
    }
}

#[test]
fn other_keys_are_refused_by_every_command() {
    let place = Place::new(&blank_sheet(2, 4));
    let mut count = 0;
    for stranger in place.strangers() {
        for command in place.commands(&stranger) {
            refused(&command, b"", &place.file, 14, "other keys");
            count += 1;
        }
    }
    println!("{count} commands with other keys");
    // The pair is served as before, and anybody may clear.
    run(&words!["read", place.file, "1", place.keys]).printed(b"Clock");
    run(&words!["clear", place.file, "1"]).done();
    run(&words!["read", place.file, "1", place.keys]).refused(9, "blank");
}

/// Never 4: a sheet with another mark is fit, and nobody's.
#[test]
fn every_bit_of_a_mark() {
    let place = Place::new(&blank_sheet(2, 4));
    let sheet = fs::read(&place.file).unwrap();
    for bit in 0..48 {
        let mut changed = sheet.clone();
        changed[10 + bit / 8] ^= 1 << (bit % 8);
        fs::write(&place.file, &changed).unwrap();
        for command in [
            words!["read", place.file, "1", place.keys].to_vec(),
            words!["write", place.file, "0", place.keys, "--text", "Vase"].to_vec(),
        ] {
            refused(&command, b"", &place.file, 14, "other keys");
        }
        run(&words!["list", place.file])
            .printed(b"slots 2 key 64 last 1\n0 blank\n1 written 1 5\n");
    }
}

/// 14 comes after 5 and 11 and before 6.
#[test]
fn where_other_keys_stand_among_the_refusals() {
    let place = Place::new(&blank_sheet(2, 4));
    let stranger = &place.strangers()[0];
    let longer = place.scratch.keys(12);
    refused(
        &words!["read", place.file, "2", longer],
        b"",
        &place.file,
        5,
        "other key class",
    );
    let Place { file, terms, .. } = &place;
    let on = |date: &str| words!["read", file, "2", stranger, "--terms", terms, "--on", date];
    refused(&on("2026-02-29"), b"", file, 11, "no such date");
    refused(&on("2026-02-28"), b"", file, 14, "other keys");
    fs::write(terms, b"").unwrap();
    let unfit = "unfit sheet: the term sheet does not fit: it is an empty file";
    refused(&on("2026-02-28"), b"", file, 4, unfit);
}

/// A sheet that is blanked for another pair is that pair's from then on.
#[test]
fn blanking_gives_a_sheet_to_another_pair() {
    let place = Place::new(&blank_sheet(2, 4));
    let Place { file, keys, .. } = &place;
    let stranger = &place.strangers()[0];
    run(&words!["blank", file, "2", "64", "2", stranger, "--force"]).done();
    let write = words!["write", file, "0", keys, "--text", "Vase"];
    refused(&write, b"", file, 14, "other keys");
    run(&words!["write", file, "0", stranger, "--text", "Vase"]).done();
    run(&words!["read", file, "0", stranger]).printed(b"Vase");
}

/// Blanking is refused in the order 1, 2, 3, 5, and no file is made or changed.
#[test]
fn the_order_of_blankings_refusals() {
    let scratch = Scratch::new();
    let (file, new) = (scratch.sheet("sheet", 2, 4), scratch.join("new"));
    let twins = scratch.key_file("twins", &[7; 12], &[7; 12]);
    let wrong = scratch.key_file("wrong", &[7; 9], &[8; 9]);
    let (right, longer) = (scratch.keys(8), scratch.keys(12));
    for (slots, bits, keys, number, word) in [
        ("2", "80", &right, 1, "wrong key"),
        ("0", "80", &twins, 1, "wrong key"),
        ("0", "64", &wrong, 1, "wrong key"),
        ("0", "64", &twins, 2, "twin keys"),
        ("2", "64", &twins, 2, "twin keys"),
        ("0", "64", &longer, 3, "wrong span"),
        ("257", "64", &right, 3, "wrong span"),
        ("2", "64", &longer, 5, "other key class"),
        ("2", "128", &longer, 5, "other key class"),
        ("2", "128", &right, 5, "other key class"),
    ] {
        let blank = words!["blank", file, slots, bits, "1", keys, "--force"];
        refused(&blank, b"", &file, number, word);
        run(&words!["blank", new, slots, bits, "1", keys]).refused(number, word);
        assert!(!new.exists());
    }
}

/// Sheets of editions 1 and 2 have no mark: another pair writes there as before,
/// and what it wrote is altered to the first.
#[test]
fn older_editions_take_any_keys_of_their_length() {
    for edition in [Edition::One, Edition::Two(7)] {
        let place = Place::new(&edition.blank_sheet(2, 4));
        let Place { file, keys, .. } = &place;
        for stranger in place.strangers() {
            refused(
                &words!["read", file, "1", stranger],
                b"",
                file,
                10,
                "altered",
            );
            run(&words!["write", file, "0", stranger, "--text", "Vase"]).done();
            run(&words!["read", file, "0", stranger]).printed(b"Vase");
            refused(&words!["read", file, "0", keys], b"", file, 10, "altered");
        }
        let verified = run(&words!["verify", file, keys]);
        assert_eq!(verified.status, 10);
        let report = String::from_utf8(verified.stdout).unwrap();
        assert!(
            report.ends_with("slots 2 sound 1 blank 0 altered 1\n"),
            "{report}"
        );
    }
}
