//! What one curator wrote isn't lost to another, to a slip or to a stale file.

use crate::edition::Edition;
use crate::support::*;
use crate::words;
use std::ffi::OsString;
use std::fs;
use std::os::unix::fs::{symlink, MetadataExt};
use std::path::{Path, PathBuf};

/// A folder with a sheet of three slots, two of them written, and its keys.
struct Place {
    scratch: Scratch,
    file: PathBuf,
    keys: PathBuf,
}

impl Place {
    fn new() -> Place {
        Place::with(&written(
            &written(&blank_sheet(3, 4), 8, 0, b"Vase, 1960"),
            8,
            1,
            b"Clock, 1688",
        ))
    }

    fn with(sheet: &[u8]) -> Place {
        let scratch = Scratch::new();
        let (file, keys) = (scratch.join("sheet"), scratch.keys(8));
        fs::write(&file, sheet).unwrap();
        Place {
            scratch,
            file,
            keys,
        }
    }

    fn export(&self) -> String {
        let run = run(&words!["export", self.file, self.keys]);
        assert_eq!((run.status, run.stderr.as_str()), (0, ""));
        String::from_utf8(run.stdout).unwrap()
    }

    fn import(&self, options: &[&str], table: &str) -> Run {
        let name = self.scratch.join("table.tsv");
        fs::write(&name, table).unwrap();
        let mut words = words!["import", self.file, self.keys, "--file", name].to_vec();
        words.extend(options.iter().map(OsString::from));
        run(&words)
    }

    #[track_caller]
    fn reads(&self, slot: &str, caption: &str) {
        run(&words!["read", self.file, slot, self.keys]).printed(caption.as_bytes());
    }

    #[track_caller]
    fn clears(&self, slot: &str) {
        run(&words!["clear", self.file, slot]).done();
    }

    #[track_caller]
    fn writes(&self, slot: &str, text: &str) {
        run(&words!["write", self.file, slot, self.keys, "--text", text]).done();
    }
}

/// The file that was there, byte for byte and not merely equal.
fn state(file: &Path) -> (Vec<u8>, u64) {
    (fs::read(file).unwrap(), fs::metadata(file).unwrap().ino())
}

// ---- Imports of stale tables ----

/// Two curators export, each corrects another slot, each imports: both corrections
/// stand, and the second curator hears of the first one's.
#[test]
fn a_stale_import_reverts_nobodys_correction() {
    let place = Place::new();
    let table = place.export();
    let first = table.replace("1960", "1690");
    let second = table.replace("1688", "1788");
    place.import(&[], &first).done();
    let name = place.scratch.join("table.tsv");
    let note = format!(
        "captions: {}: line 2: slot 0: written since: write number 3, where the table has 1; \
         the table doesn't change it, so it stays\n",
        name.display()
    );
    let run = place.import(&["--dry-run"], &second);
    assert_eq!((run.status, &run.stderr), (0, &note));
    let report =
        "1\twrite\t11 of 192\t\\&Clock, 1688\t\\&Clock, 1788\nwrites 1 clears 0 unchanged 2\n";
    assert_eq!(String::from_utf8(run.stdout).unwrap(), report);
    let run = place.import(&[], &second);
    assert_eq!((run.status, run.stdout.as_slice()), (0, &b""[..]));
    assert_eq!(run.stderr, note);
    place.reads("0", "Vase, 1690");
    place.reads("1", "Clock, 1788");
    // Not even --force takes a text for a change that was only left as it was. A
    // table without what it was taken from is a typed one: all of it is meant.
    let forced = place.import(&["--force"], &table);
    assert_eq!((forced.status, forced.stderr.lines().count()), (0, 2));
    place.reads("0", "Vase, 1690");
    place.reads("1", "Clock, 1788");
    let cut = |line: &str| line.splitn(3, '\t').take(2).collect::<Vec<_>>().join("\t") + "\n";
    let typed: String = table.lines().map(cut).collect();
    assert_eq!(place.import(&["--force"], &typed).status, 0);
    place.reads("0", "Vase, 1960");
    place.reads("1", "Clock, 1688");
}

/// Both correct the same slot: the second is refused, with the line, and the first
/// one's correction stands.
#[test]
fn two_corrections_of_one_slot_are_told() {
    let place = Place::new();
    let table = place.export();
    place.import(&[], &table.replace("1960", "1690")).done();
    let second = table.replace("1960", "1670").replace("1688", "1788");
    let before = state(&place.file);
    for options in [&[][..], &["--dry-run"], &["--clear"]] {
        let run = place.import(options, &second);
        assert_eq!((run.status, run.stdout.as_slice()), (65, &b""[..]));
        let name = place.scratch.join("table.tsv");
        let name = name.display();
        assert_eq!(
            run.stderr,
            format!(
                "captions: {name}: line 2: slot 0: written since: write number 3, \
                 where the table has 1\n\
                 captions: {name}: export the sheet again, or take those lines out and \
                 their slots stay; --force writes them all the same\n"
            )
        );
        assert_eq!(state(&place.file), before);
    }
    // Whoever means it says so.
    let sheet = fs::read(&place.file).unwrap();
    place.import(&["--force"], &second).done();
    place.reads("0", "Vase, 1670");
    fs::write(&place.file, sheet).unwrap();
    // Without that line the other correction is imported.
    let lines = second.lines().filter(|line| !line.starts_with("0\t"));
    let kept: String = lines.map(|line| format!("{line}\n")).collect();
    place.import(&[], &kept).done();
    place.reads("0", "Vase, 1690");
    place.reads("1", "Clock, 1788");
}

/// A blank slot that somebody filled, and a caption that somebody withdrew, stay
/// so; a table whose digests were lost can't tell, and is refused.
#[test]
fn what_the_table_does_not_change_stays() {
    let place = Place::new();
    let table = place.export();
    place.clears("0");
    place.writes("2", "Fan, 1768");
    for options in [&[][..], &["--clear"]] {
        let run = place.import(options, &table);
        assert_eq!(run.status, 0, "{}", run.stderr);
        for line in [
            "line 2: slot 0: cleared since: the table has write number 1; the table doesn't",
            "line 4: slot 2: written since: write number 3, where the table has 0; the table",
        ] {
            assert!(run.stderr.contains(line), "{}", run.stderr);
        }
        assert_eq!(run.stderr.lines().count(), 2);
        run_blank(&place, "0");
        place.reads("2", "Fan, 1768");
    }
    let lost = table.replace(&digest(b"Vase, 1960"), "");
    let run = place.import(&[], &lost);
    assert_eq!(run.status, 65);
    assert!(
        run.stderr.contains("line 2: slot 0: cleared since"),
        "{}",
        run.stderr
    );
    run_blank(&place, "0");
}

#[track_caller]
fn run_blank(place: &Place, slot: &str) {
    run(&words!["read", place.file, slot, place.keys]).refused(9, "blank");
}

/// Every line is named: written, cleared and blank slots, and a line of another
/// sheet.
#[test]
fn every_stale_line_is_named() {
    let place = Place::new();
    let table = place.export();
    place.writes("0", "Vase, 1690");
    place.clears("1");
    place.writes("2", "Fan, 1768");
    let other = "slot\ttext\twrite\tserial\tdigest\n0\tA\t1\t1\n1\tB\t2\t1\n2\tC\t0\t1\n";
    assert!(table.contains("0\t\\&Vase, 1960\t1\t1\t") && table.contains("2\t\t0\t1\t"));
    let run = place.import(&[], other);
    assert_eq!(run.status, 65);
    for line in [
        "line 2: slot 0: written since: write number 3, where the table has 1\n",
        "line 3: slot 1: cleared since: the table has write number 2\n",
        "line 4: slot 2: written since: write number 4, where the table has 0\n",
    ] {
        assert!(run.stderr.contains(line), "{}", run.stderr);
    }
    assert_eq!(run.stderr.lines().count(), 4);
    // The numbers agree by chance, but the sheet is another.
    let run = place.import(&[], "slot\ttext\twrite\tserial\tdigest\n0\tA\t3\t7\n");
    let words = "line 2: slot 0: of another sheet, with serial 7; this one has 1\n";
    assert!(run.stderr.contains(words), "{}", run.stderr);
    assert_eq!(run.status, 65);
    // A line that somebody typed into the table.
    let run = place.import(&[], "slot\ttext\twrite\tserial\tdigest\n0\tA\n1\tB\n");
    let words = "line 2: slot 0: no write number, and the slot is written\n";
    assert!(run.stderr.contains(words), "{}", run.stderr);
    assert_eq!((run.status, run.stderr.lines().count()), (65, 2));
    place
        .import(&[], "slot\ttext\twrite\tserial\tdigest\n1\tB\n")
        .done();
    place.reads("1", "B");
}

/// A slot that the table doesn't change is left alone, whoever wrote it since.
#[test]
fn a_slot_with_the_tables_text_is_left_alone() {
    let place = Place::new();
    let table = place.export();
    place.writes("0", "Vase, 1690");
    place.writes("0", "Vase, 1960");
    place.writes("2", "Fan");
    place.clears("2");
    let before = state(&place.file);
    place.import(&[], &table).done();
    assert_eq!(state(&place.file), before);
    place
        .import(&["--dry-run"], &table)
        .printed(b"writes 0 clears 0 unchanged 3\n");
}

/// As spreadsheets save it: sorted, in quotation marks, with empty columns.
#[test]
fn a_spreadsheet_keeps_what_a_line_was_taken_from() {
    let place = Place::new();
    let table = "\"slot\"\t\"text\"\t\"write\"\t\"serial\"\t\"digest\"\t\r\n\
                 2\t\"\"\t 0\t1\t\r\n\
                 \"1\"\tB\t\"2\"\t\"1\"\r\n\
                 0\tA\t01\t1\t\t\r\n";
    place.import(&[], table).done();
    place.reads("0", "A");
    place.reads("1", "B");
    let before = state(&place.file);
    let run = place.import(&[], &table.replace("\tA\t", "\tC\t"));
    assert_eq!((run.status, state(&place.file)), (65, before));
    for (cells, words) in [
        (
            "1.0\t1",
            "line 2: the write number isn't a number as it was",
        ),
        ("4294967296\t1", "line 2: the write number isn't a number"),
        (
            "1\tx",
            "line 2: the serial isn't a number as it was exported",
        ),
        ("1\t65536", "line 2: the serial isn't a number"),
        ("1", "line 2: the serial isn't a number"),
        ("\t1", "line 2: the write number isn't a number"),
        (
            "1\t1\tx\ty",
            "line 2: a sixth column; a tab in a text is written",
        ),
    ] {
        let table = format!("slot\ttext\twrite\tserial\tdigest\n0\tC\t{cells}\n");
        place.import(&[], &table).failed(65, words);
        place.import(&["--force"], &table).failed(65, words);
    }
}

/// A table that was typed is taken as ever, and a line says what isn't known.
#[test]
fn a_typed_table_is_taken_with_a_notice() {
    let place = Place::new();
    let run = place.import(&[], "slot\ttext\n0\tA\n");
    let name = place.scratch.join("table.tsv");
    let notice = format!(
        "captions: {}: no write numbers, so that nothing tells what was written since\n",
        name.display()
    );
    assert_eq!((run.status, run.stdout.as_slice()), (0, &b""[..]));
    assert_eq!(run.stderr, notice);
    place.reads("0", "A");
}

/// Into a sheet that was never written, any table goes: for the next venue, or
/// from a backup.
#[test]
fn a_new_sheet_takes_any_table() {
    let place = Place::new();
    let table = place.export();
    for sheet in [
        blank_sheet_with(3, 4, 2),
        blank_sheet(3, 4),
        Edition::One.blank_sheet(3, 4),
    ] {
        fs::write(&place.file, sheet).unwrap();
        place.import(&[], &table).done();
        place.reads("1", "Clock, 1688");
    }
}

// ---- What --force replaces ----

/// Refused with this status and these words, and the file is the same one.
#[track_caller]
fn left_alone(words: &[OsString], file: &Path, status: i32, message: &str) {
    let before = state(file);
    run(words).failed(status, message);
    assert_eq!(state(file), before);
}

/// A file is replaced only by its own kind, as far as its first bytes tell.
#[test]
fn force_replaces_its_own_kind_alone() {
    let place = Place::new();
    let (file, keys) = (place.scratch.join("file"), shared_keys(8));
    let sheet = written(&blank_sheet(3, 4), 8, 1, b"Clock");
    let terms = term_sheet(&[(1, 0), (9617, 9800), (1, 0)]);
    // A term sheet whose first opening day looks like a sheet's bytes 2 and 3.
    let alike = term_sheet(&[(0x0403, 36524), (1, 0)]);
    let mut edition = sheet.clone();
    edition[3] = 255;
    let mut mark = sheet.clone();
    mark[EDITION.mark_place(1).start + 6] = 1;
    let key_text = fs::read(&keys).unwrap();
    let blank = |force: &str| words!["blank", file, "3", "64", "9", keys, force];
    let terms_blank = |force: &str| words!["terms-blank", file, "3", force];
    let sheets = [&sheet[..], &sheet[..300], &sheet[..4], &edition, &mark];
    let term_sheets = [&terms[..], &terms[..7], &terms[..3], &alike];
    let others: [(&[u8], &str); 5] = [
        (&key_text, "a file of keys"),
        (b"a letter, by mistake", "a file of another kind"),
        (b"slot\ttext\n0\tVase\n", "a file of another kind"),
        (b"\0", "a file of another kind"),
        (&[0; 600], "a file of another kind"),
    ];
    for content in sheets {
        fs::write(&file, content).unwrap();
        let words = "file: a caption sheet, and --force replaces a term sheet alone";
        left_alone(&terms_blank("--force"), &file, 73, words);
        run(&blank("--force")).done();
        assert_eq!(fs::read(&file).unwrap(), blank_sheet_with(3, 4, 9));
    }
    for content in term_sheets {
        fs::write(&file, content).unwrap();
        let words = "file: a term sheet, and --force replaces a caption sheet alone";
        left_alone(&blank("--force"), &file, 73, words);
        run(&terms_blank("--force")).done();
        assert_eq!(fs::read(&file).unwrap(), term_sheet(&[(36524, 0); 3]));
    }
    for (content, name) in others {
        fs::write(&file, content).unwrap();
        let words = |kind: &str| format!("file: {name}, and --force replaces {kind} alone");
        left_alone(&blank("--force"), &file, 73, &words("a caption sheet"));
        left_alone(&terms_blank("--force"), &file, 73, &words("a term sheet"));
    }
    // In an empty file nothing is lost.
    fs::write(&file, "").unwrap();
    left_alone(&blank("--wait=1"), &file, 73, "exists; --force blanks it");
    run(&blank("--force")).done();
    fs::write(&file, "").unwrap();
    run(&terms_blank("--force")).done();
}

/// The only pair of keys isn't made a sheet, under whatever name it is given.
#[test]
fn a_file_is_never_replaced_by_what_is_made_from_it() {
    let place = Place::new();
    let (scratch, keys) = (&place.scratch, &place.keys);
    let (link, hard) = (scratch.join("link"), scratch.join("hard"));
    symlink(keys, &link).unwrap();
    fs::hard_link(keys, &hard).unwrap();
    let same = "FILE and KEYS are the same file";
    for file in [keys, &link, &hard] {
        for key in [keys, &link, &hard] {
            let blank = words!["blank", file, "3", "64", "9", key];
            left_alone(&blank, keys, 64, same);
            let forced = words!["blank", file, "3", "64", "9", key, "--force"];
            left_alone(&forced, keys, 64, same);
        }
    }
    let line = format!("exec \"$@\" <'{}'", keys.display());
    let blank = words!["blank", hard, "3", "64", "9", "-", "--force"];
    shell(&line, &blank, b"").failed(64, same);
    let (file, other) = (&place.file, scratch.join("other"));
    fs::hard_link(file, &other).unwrap();
    let before = state(file);
    run(&words!["write", file, "0", keys, "--file", other]).failed(64, "FILE and NAME are");
    run(&words!["write", file, "0", other, "--text", "a"]).failed(64, same);
    run(&words!["import", file, keys, "--file", other]).failed(64, "FILE and NAME are");
    run(&words!["import", file, file, "--file", other]).failed(64, same);
    assert_eq!(state(file), before);
}

// ---- Serials that were used ----

/// The sheet there has the serial, and the keys are its own.
#[test]
fn a_serial_is_not_used_twice_on_one_file() {
    let place = Place::new();
    let (file, keys) = (&place.file, &place.keys);
    let blank = |slots: &str, serial: &str, keys: &Path| {
        words!["blank", file, slots, "64", serial, keys, "--force"].to_vec()
    };
    let reason = "the sheet there has serial 1 already, under these keys";
    let sheet = fs::read(file).unwrap();
    // Torn or not, and with another slot count, the starts would be the same.
    let mut edition = sheet.clone();
    edition[3] = 255;
    let new = blank_sheet(3, 4);
    for old in [&sheet[..], &sheet[..20], &sheet[..12], &edition, &new] {
        fs::write(file, old).unwrap();
        for slots in ["3", "5"] {
            left_alone(&blank(slots, "1", keys), file, 73, reason);
        }
    }
    // With other keys, or another serial, they are others.
    let other = place.scratch.key_file("other", &[7; 8], &[8; 8]);
    for words in [blank("3", "1", &other), blank("3", "2", keys)] {
        fs::write(file, &sheet).unwrap();
        run(&words).done();
    }
    fs::write(file, &sheet).unwrap();
    let meant = [&blank("3", "1", keys)[..], &words!["--force-serial"]].concat();
    run(&meant).done();
    assert_eq!(fs::read(file).unwrap(), blank_sheet(3, 4));
    // It is no --force.
    let words = words!["blank", file, "3", "64", "1", keys, "--force-serial"];
    left_alone(&words, file, 73, "exists; --force blanks it");
}

/// An older sheet has no key mark: its captions tell, if it has any.
#[test]
fn a_serial_of_an_older_sheet() {
    let place = Place::new();
    let (file, keys) = (&place.file, &place.keys);
    let other = place.scratch.key_file("other", &[7; 8], &[8; 8]);
    for (edition, serial, unused) in [(Edition::One, "0", "1"), (Edition::Two(1), "1", "0")] {
        let blank = |keys: &Path, serial: &str| {
            words!["blank", file, "2", "64", serial, keys, "--force"].to_vec()
        };
        let reason = format!("the sheet there has serial {serial} already");
        let old = written(&edition.blank_sheet(2, 4), 8, 1, b"Clock");
        fs::write(file, &old).unwrap();
        left_alone(&blank(keys, serial), file, 73, &reason);
        run(&blank(&other, serial)).done();
        fs::write(file, &old).unwrap();
        run(&blank(keys, unused)).done();
        fs::write(file, edition.blank_sheet(2, 4)).unwrap();
        left_alone(&blank(&other, serial), file, 73, &reason);
    }
}

// ---- Writes of what is there ----

#[test]
fn a_caption_that_is_there_is_not_written_again() {
    let place = Place::new();
    let (file, keys) = (&place.file, &place.keys);
    let before = state(file);
    let write = words!["write", file, "0", keys, "--text", "Vase, 1960"];
    let unchanged =
        "captions: unchanged: slot 0 holds that caption; --again writes it all the same\n";
    for words in [&write[..], &words!["write", file, "0", keys]] {
        let run = run_with(words, b"Vase, 1960");
        assert_eq!((run.status, run.stdout.as_slice()), (0, &b""[..]));
        assert_eq!(
            (run.stderr.as_str(), state(file)),
            (unchanged, before.clone())
        );
    }
    run(&[&write[..], &words!["--again"]].concat()).done();
    assert_eq!(
        fs::read(file).unwrap(),
        written(&before.0, 8, 0, b"Vase, 1960")
    );
    // A caption of no bytes isn't a blank slot, and one byte more is another.
    run(&words!["write", file, "2", keys, "--empty"]).done();
    let empty = run(&words!["write", file, "2", keys, "--empty"]);
    assert!(
        empty.stderr.contains("unchanged: slot 2"),
        "{}",
        empty.stderr
    );
    run_with(&words!["write", file, "0", keys], b"Vase, 1960\n").done();
    // An altered slot is written, as before.
    let mut altered = fs::read(file).unwrap();
    altered[EDITION.field_place(3, 1)][0] ^= 1;
    fs::write(file, &altered).unwrap();
    place.writes("1", "Clock, 1688");
    place.reads("1", "Clock, 1688");
}
