//! A sheet as a table, and back.

use crate::edition::Edition;
use crate::support::*;
use crate::words;
use std::ffi::OsString;
use std::fs;
use std::os::unix::fs::MetadataExt;
use std::path::{Path, PathBuf};

/// What is said of a table without write numbers.
const NOTICE: &str = "captions: standard input: no write numbers, \
                      so that nothing tells what was written since\n";

/// A folder with a sheet and its keys.
struct Place {
    scratch: Scratch,
    file: PathBuf,
    keys: PathBuf,
}

impl Place {
    fn new(sheet: &[u8]) -> Place {
        let scratch = Scratch::new();
        let (file, keys) = (scratch.join("sheet"), scratch.keys(8));
        fs::write(&file, sheet).unwrap();
        Place {
            scratch,
            file,
            keys,
        }
    }

    fn sheet(&self) -> Vec<u8> {
        fs::read(&self.file).unwrap()
    }

    fn export(&self) -> String {
        let run = run(&words!["export", self.file, self.keys]);
        assert_eq!((run.status, run.stderr.as_str()), (0, ""));
        String::from_utf8(run.stdout).unwrap()
    }

    /// Without the notice that a typed table gets.
    fn import_with(&self, options: &[&str], table: impl AsRef<[u8]>) -> Run {
        let mut run = self.import_noticed(options, table);
        run.stderr = run.stderr.replacen(NOTICE, "", 1);
        run
    }

    fn import_noticed(&self, options: &[&str], table: impl AsRef<[u8]>) -> Run {
        let mut words = words!["import", self.file, self.keys].to_vec();
        words.extend(options.iter().map(OsString::from));
        run_with(&words, table.as_ref())
    }

    fn import(&self, table: impl AsRef<[u8]>) -> Run {
        self.import_with(&[], table)
    }

    /// Refused with this status and these words; the file is the same one.
    #[track_caller]
    fn refuses(&self, table: impl AsRef<[u8]>, status: i32, words: &str) {
        let state = |file: &Path| (fs::read(file).unwrap(), fs::metadata(file).unwrap().ino());
        let before = state(&self.file);
        for options in [&[][..], &["--dry-run"]] {
            let run = self.import_with(options, &table);
            assert_eq!(run.status, status, "{}", run.stderr);
            assert!(run.stderr.contains(words), "{}", run.stderr);
            assert!(run.stdout.is_empty());
            assert!(state(&self.file) == before);
        }
        assert!(temporaries(self.scratch.path()).is_empty());
    }
}

/// A sheet of three slots: a caption, a blank one, a caption of no bytes.
fn three_slots() -> Vec<u8> {
    let sheet = written(&blank_sheet(3, 4), 8, 0, b"Vase with cranes");
    written(&sheet, 8, 2, b"")
}

// ---- The form ----

#[test]
fn a_sheet_as_a_table() {
    let place = Place::new(&three_slots());
    let (vase, empty) = (digest(b"Vase with cranes"), digest(b""));
    let lines = format!("0\tVase with cranes\t1\t1\t{vase}\n1\t\t0\t1\t\n2\t\\&\t2\t1\t{empty}\n");
    assert_eq!(
        place.export(),
        format!("slot\ttext\twrite\tserial\tdigest\n{lines}")
    );
    assert_eq!(empty, "mlpcjmoeiecccdcf");
    // A sheet of edition 1 has no serial.
    let place = Place::new(&Edition::One.blank_sheet(1, 4));
    assert_eq!(
        place.export(),
        "slot\ttext\twrite\tserial\tdigest\n0\t\t0\t0\t\n"
    );
}

#[test]
fn texts_of_captions() {
    let cases: [(&[u8], &str); 33] = [
        (b"Vase", "Vase"),
        ("Émile Gallet, Genève".as_bytes(), "Émile Gallet, Genève"),
        (b"Vase \"Cranes\"", "Vase \"Cranes\""),
        (b"a\tb\nc\rd\\e", "a\\tb\\nc\\rd\\\\e"),
        (b"Vase\n", "Vase\\n"),
        (b"\n", "\\n"),
        (b"Vase ", "Vase\\x20"),
        (b" ", "\\x20"),
        (b" Vase", "\\& Vase"),
        (b"\0\x1b[31m\x7f", "\\x00\\x1b[31m\\x7f"),
        ("\u{85}".as_bytes(), "\\xc2\\x85"),
        (
            "a\u{feff}\u{202e}\u{2028}".as_bytes(),
            "a\\xef\\xbb\\xbf\\xe2\\x80\\xae\\xe2\\x80\\xa8",
        ),
        ("\u{ffff}".as_bytes(), "\\xef\\xbf\\xbf"),
        (b"", "\\&"),
        (b"\\&", "\\\\&"),
        (b"=1+1", "\\&=1+1"),
        (b"@a", "\\&@a"),
        (b"\"a\"", "\\&\"a\""),
        (b"'a", "\\&'a"),
        (b"007", "\\&007"),
        (b"1/2", "\\&1/2"),
        (b"March 2006", "\\&March 2006"),
        (b"TRUE", "\\&TRUE"),
        (b"Vase, 1751", "\\&Vase, 1751"),
        (
            b"Sunday, May 3, 2026 1:00 PM",
            "\\&Sunday, May 3, 2026 1:00 PM",
        ),
        (
            b"Vase with cranes, about 1690",
            "Vase with cranes, about 1690",
        ),
        ("½ cup".as_bytes(), "\\&½ cup"),
        // What begins with a digit or a mark, and is a text to any spreadsheet.
        (
            b"12 plates with birds, Delft",
            "12 plates with birds, Delft",
        ),
        ("«Vase»".as_bytes(), "«Vase»"),
        (b"(Lent by the Friends)", "(Lent by the Friends)"),
        (b"(5)", "\\&(5)"),
        ("＝A1".as_bytes(), "\\&＝A1"),
        (b"#N/A", "\\&#N/A"),
    ];
    for (caption, text) in cases {
        let place = Place::new(&written(&blank_sheet(1, 4), 8, 0, caption));
        let line = format!("0\t{text}\t1\t1\t{}\n", digest(caption));
        assert_eq!(
            place.export(),
            format!("slot\ttext\twrite\tserial\tdigest\n{line}")
        );
        let place = Place::new(&blank_sheet(1, 4));
        place.import(format!("slot\ttext\n0\t{text}\n")).done();
        run(&words!["read", place.file, "0", place.keys]).printed(caption);
    }
}

/// A caption of any letters, of the kinds that are hard on a table.
fn any_caption(random: &mut Random) -> Vec<u8> {
    let length = random.below(193) as usize;
    let kind = random.below(4);
    let mut caption = String::new();
    loop {
        let letter = match kind {
            0 => char::from(random.next() as u8),
            1 => char::from(b"\\&tnrx\"\t\n\r 0=-+@',;"[random.below(19) as usize]),
            2 => char::from(b' ' + random.below(95) as u8),
            _ => char::from_u32(random.below(0x11_0000) as u32).unwrap_or('\u{fffd}'),
        };
        if caption.len() + letter.len_utf8() > length {
            return caption.into_bytes();
        }
        caption.push(letter);
    }
}

/// What spreadsheets do when they save a table.
fn as_a_spreadsheet_saves_it(table: &str, quoted: bool, random: &mut Random) -> Vec<u8> {
    let mut lines: Vec<String> = table
        .lines()
        .map(|line| {
            let fields = line
                .split('\t')
                .map(|field| match quoted || field.contains('"') {
                    true => format!("\"{}\"", field.replace('"', "\"\"")),
                    false => field.to_string(),
                });
            fields.collect::<Vec<_>>().join("\t")
        })
        .collect();
    // Sorted in another way, with empty rows and columns after them.
    for place in (2..lines.len()).rev() {
        lines.swap(place, 1 + random.below(place as u64) as usize);
    }
    let end = ["\n", "\r\n", "\t\t\r\n"][random.below(3) as usize];
    let text = lines.join(end) + end + ["", "\t\r\n", "\n\n"][random.below(3) as usize];
    let little: Vec<u8> = text.encode_utf16().flat_map(u16::to_le_bytes).collect();
    let big: Vec<u8> = text.encode_utf16().flat_map(u16::to_be_bytes).collect();
    match random.below(4) {
        0 => text.into_bytes(),
        1 => [b"\xef\xbb\xbf", text.as_bytes()].concat(),
        2 => [b"\xff\xfe", &little[..]].concat(),
        _ => [b"\xfe\xff", &big[..]].concat(),
    }
}

/// Any letters go to the table and come back, also by way of a spreadsheet.
#[test]
fn any_letters_survive_the_round_trip() {
    let mut random = Random(1690);
    let mut captions = 0;
    for round in 0..12 {
        let mut sheet = blank_sheet(256, 4);
        for slot in (0..256).filter(|slot| slot % 5 != round % 5) {
            sheet = written(&sheet, 8, slot, &any_caption(&mut random));
            captions += 1;
        }
        let place = Place::new(&sheet);
        let table = place.export();
        for line in table.lines().skip(1) {
            let text = line.split('\t').nth(1).unwrap();
            let first = text.chars().next().unwrap_or('a');
            assert!(!"=+-@'\"# ".contains(first), "{text:?}");
            // What has a number and few words is no number for an escape.
            let words = text.split(|character: char| !character.is_alphabetic());
            let words = words.filter(|word| !word.is_empty()).count();
            let is_number = text.contains(char::is_numeric) && words <= 3;
            assert!(!is_number || text.contains('\\'), "{text:?}");
            assert!(
                !text.contains(char::is_control) && !text.ends_with(' '),
                "{text:?}"
            );
        }
        for quoted in [false, true] {
            let saved = as_a_spreadsheet_saves_it(&table, quoted, &mut random);
            place
                .import_with(&["--dry-run"], &saved)
                .printed(b"writes 0 clears 0 unchanged 256\n");
            let copy = Place::new(&blank_sheet(256, 4));
            copy.import(&saved).done();
            // In the order of the slots, while the first sheet's writes may have
            // had any.
            let texts = |table: &str| {
                let lines = table
                    .lines()
                    .map(|line| line.rsplitn(4, '\t').nth(3).unwrap().to_string());
                lines.collect::<Vec<_>>()
            };
            assert_eq!(texts(&copy.export()), texts(&table));
            assert_same_captions(&copy.sheet(), &sheet);
        }
    }
    println!("{captions} captions of any letters through 24 spreadsheets");
}

/// By the second program's readings.
fn assert_same_captions(sheet: &[u8], other: &[u8]) {
    let (sealing, checking) = (&SEALING[..8], &CHECKING[..8]);
    for slot in 0..256 {
        let (mut one, mut two) = ([0; 192], [0; 192]);
        let first = reference::read(sealing, checking, sheet, slot, &mut one);
        let second = reference::read(sealing, checking, other, slot, &mut two);
        assert_eq!((first.number, first.length), (second.number, second.length));
        assert_eq!(one, two);
    }
}

/// A line break that was typed into a cell.
#[test]
fn a_line_break_in_a_quoted_text() {
    let place = Place::new(&three_slots());
    place
        .import("slot\ttext\r\n1\t\"Clock,\nabout \"\"1788\"\"\"\r\n")
        .done();
    run(&words!["read", place.file, "1", place.keys]).printed(b"Clock,\nabout \"1788\"");
    // Lines are counted by line feeds, so that an editor finds them.
    place.refuses(
        "slot\ttext\n1\t\"a\nb\nc\"\nx\tClock\n",
        65,
        "line 5: the slot isn't",
    );
}

// ---- What an import does ----

#[test]
fn an_import_writes_what_differs_and_no_more() {
    let old = three_slots();
    let place = Place::new(&old);
    let table = "slot\ttext\n0\tVase with cranes\n1\tClock, Geneva\n2\tTable\n";
    let report = "1\twrite\t13 of 192\t\tClock, Geneva\n2\twrite\t5 of 192\t\\&\tTable\nwrites 2 clears 0 unchanged 1\n";
    place
        .import_with(&["--dry-run"], table)
        .printed(report.as_bytes());
    assert_eq!(place.sheet(), old);
    place.import(table).done();
    let new = written(&written(&old, 8, 1, b"Clock, Geneva"), 8, 2, b"Table");
    assert_eq!(place.sheet(), new);

    // A second time there is nothing to do, and the file isn't even replaced.
    let inode = fs::metadata(&place.file).unwrap().ino();
    place.import(table).done();
    assert_eq!(fs::metadata(&place.file).unwrap().ino(), inode);
    place
        .import_with(&["--dry-run"], table)
        .printed(b"writes 0 clears 0 unchanged 3\n");
}

/// The order of the lines doesn't matter: writes are in the order of the slots.
#[test]
fn lines_may_stand_in_any_order() {
    let one = Place::new(&three_slots());
    let other = Place::new(&three_slots());
    one.import("slot\ttext\n0\tA\n1\tB\n2\tC\n").done();
    other.import("SLOT\tText\n 2\tC\n00\tA\n1 \tB").done();
    assert_eq!(one.sheet(), other.sheet());
}

/// A line that isn't there says nothing; an empty text says what it means only
/// where it is asked for.
#[test]
fn absent_lines_and_empty_texts() {
    let old = three_slots();
    let place = Place::new(&old);
    place.import("slot\ttext\n").done();
    place.import("slot\ttext\n1\t\n").done();
    place.import("slot\ttext\n1\n").done();
    place.import_with(&["--clear"], "slot\ttext\n1\t\n").done();
    assert_eq!(place.sheet(), old);

    let message =
        "line 2: slot 0: no text, but it has a caption; --clear makes it blank, \\& empty";
    place.refuses("slot\ttext\n0\t\n1\tClock\n", 65, message);
    place.refuses(
        "slot\ttext\n2\n",
        65,
        "line 2: slot 2: no text, but it has a caption",
    );
    let table = "slot\ttext\n0\t\n1\t\n2\t\"\"\n";
    place.import_with(&["--clear", "--dry-run"], table).printed(
        b"0\tclear\t\tVase with cranes\t\n2\tclear\t\t\\&\t\nwrites 0 clears 2 unchanged 1\n",
    );
    place.import_with(&["--clear"], table).done();
    assert_eq!(place.sheet(), cleared(&cleared(&old, 0), 2));

    place.import("slot\ttext\n0\t\\&\n").done();
    run(&words!["read", place.file, "0", place.keys]).printed(b"");
}

#[test]
fn a_table_in_a_file() {
    let place = Place::new(&three_slots());
    let table = place.scratch.join("table.tsv");
    fs::write(&table, "slot\ttext\n1\tClock\n").unwrap();
    let import = run(&words!["import", place.file, place.keys, "--file", table]);
    assert_eq!((import.status, import.stdout.as_slice()), (0, &b""[..]));
    run(&words!["read", place.file, "1", place.keys]).printed(b"Clock");
    let missing = words!["import", place.file, place.keys, "--file", "/none"];
    run(&missing).failed(66, "/none: No such file");
}

// ---- All or nothing ----

/// A refusal of the library at the last line: nothing of the lines before it.
#[test]
fn a_refused_line_is_named_and_nothing_is_written() {
    let place = Place::new(&three_slots());
    let table = |last: &str| format!("slot\ttext\n0\tA\n1\tB\n{last}\n");
    place.refuses(
        table("3\tC"),
        6,
        "captions: standard input: line 4: slot 3: no such slot: 3, where the sheet has 0 to 2\n6 no such slot\n",
    );
    let far = "99999999999999999999999\tC";
    place.refuses(table(far), 6, "\n6 no such slot\n");
    let overlong = format!("2\t{}", "x".repeat(193));
    place.refuses(
        table(&overlong),
        7,
        "captions: standard input: line 4: slot 2: overlong: 193 bytes, where a caption has at most 192: 1 too many\n7 overlong\n",
    );
    place
        .import(table(&format!("2\t{}", "é".repeat(96))))
        .done();

    let mut worn = three_slots();
    worn[4..8].copy_from_slice(&4294967294_u32.to_be_bytes());
    let place = Place::new(&worn);
    place.refuses(
        table(""),
        8,
        "captions: standard input: line 3: slot 1: worn\n8 worn\n",
    );
    place.import("slot\ttext\n0\tA\n").done();
}

#[test]
fn keys_and_sheets_that_are_refused() {
    let place = Place::new(&three_slots());
    let table = "slot\ttext\n1\tClock\n";
    let long = place.scratch.keys(12);
    let other = place.scratch.key_file("other", &[7; 8], &[8; 8]);
    let twins = place.scratch.key_file("twins", &[7; 8], &[7; 8]);
    let wrong = place.scratch.key_file("wrong", &[7; 9], &[8; 9]);
    for (keys, number, word) in [
        (&wrong, 1, "wrong key"),
        (&twins, 2, "twin keys"),
        (&long, 5, "other key class"),
        (&other, 14, "other keys"),
    ] {
        run(&words!["export", place.file, keys]).refused(number, word);
        let mut run = run_with(&words!["import", place.file, keys], table.as_bytes());
        run.stderr = run.stderr.replacen(NOTICE, "", 1);
        run.refused(number, word);
    }
    fs::write(&place.file, "not a sheet").unwrap();
    run(&words!["export", place.file, place.keys]).refused(4, "unfit sheet");
    place.import(table).refused(4, "unfit sheet");
    fs::write(&place.file, "").unwrap();
    run(&words!["export", place.file, place.keys]).refused(4, "unfit sheet");
    place.import(table).refused(4, "unfit sheet");
}

/// An altered slot isn't in the table, and an import doesn't touch it: on a sheet
/// of edition 2 every slot is altered to another pair of keys.
#[test]
fn altered_slots() {
    let mut sheet = written(&three_slots(), 8, 1, b"Clock");
    sheet[EDITION.field_place(3, 1)][0] ^= 1;
    let place = Place::new(&sheet);
    let run = run(&words!["export", place.file, place.keys]);
    assert_eq!(run.status, 10);
    assert_eq!(
        run.stderr,
        "captions: slot 1 is altered and not in the table: the check differs\n10 altered\n"
    );
    let (vase, empty) = (digest(b"Vase with cranes"), digest(b""));
    let lines = format!("0\tVase with cranes\t1\t1\t{vase}\n2\t\\&\t2\t1\t{empty}\n");
    let table = format!("slot\ttext\twrite\tserial\tdigest\n{lines}");
    assert_eq!(String::from_utf8(run.stdout).unwrap(), table);
    place.import(&table).done();
    assert_eq!(place.sheet(), sheet);
    place.refuses(
        "slot\ttext\n0\tA\n1\tB\n",
        10,
        "captions: standard input: line 3: slot 1: altered: the check differs\n10 altered\n",
    );
    place.refuses(
        "slot\ttext\n0\tA\n1\t\n",
        10,
        "captions: standard input: line 3: slot 1: altered: the check differs\n10 altered\n",
    );
    let sheet = written(&blank_sheet_2(1, 4), 8, 0, b"Clock");
    let place = Place::new(&sheet);
    let other = place.scratch.key_file("other", &[7; 8], &[8; 8]);
    let import = words!["import", place.file, other, "--clear"];
    assert_eq!(run_with(&import, b"slot\ttext\n0\tA\n").status, 10);
    assert_eq!(place.sheet(), sheet);
}

#[test]
fn tables_that_are_not_in_their_form() {
    let place = Place::new(&three_slots());
    let begin = "not slot, a tab and text, as it should begin";
    let escape = "a backslash that begins none of";
    let cases: [(&[u8], &str); 24] = [
        (b"\n\n", "it has no lines"),
        (b"0\tVase\n", begin),
        (b"slot\ttext\twrite\n0\tVase\t1\n", begin),
        (b"slot\n0\n", begin),
        (b"slot\ttext\tnotes\n0\tVase\tx\n", begin),
        (b"text\tslot\nVase\t0\n", begin),
        (
            b"slot\ttext\n0\tVase\n0\tClock\n",
            "line 3: slot 0 stands in line 2 too",
        ),
        (
            b"slot\ttext\n1\tA\n0\tVase\n01\tA\n",
            "line 4: slot 1 stands in line 2 too",
        ),
        (
            b"slot\ttext\nx\tVase\n",
            "line 2: the slot isn't a decimal number",
        ),
        (
            b"slot\ttext\n\tVase\n",
            "line 2: the slot isn't a decimal number",
        ),
        (
            b"slot\ttext\n-1\tVase\n",
            "line 2: the slot isn't a decimal number",
        ),
        (
            b"slot\ttext\n1.0\tVase\n",
            "line 2: the slot isn't a decimal number",
        ),
        (
            b"slot\ttext\n0\tVase\tcranes\n",
            "line 2: a third column; a tab in a text is",
        ),
        (b"slot\ttext\n0\t\tcranes\n", "line 2: a third column"),
        (
            b"slot\ttext\n1\t  \n",
            "line 2: nothing but blanks; a blank is written \\x20",
        ),
        (b"slot\ttext\n1\t\"\n\"\n", "line 2: nothing but blanks"),
        (b"slot\ttext\n0\ta\\qb\n", escape),
        (b"slot\ttext\n0\ta\\\n", escape),
        (b"slot\ttext\n0\ta\\x0\n", escape),
        (b"slot\ttext\n0\ta\\xg0\n", escape),
        (
            b"slot\ttext\n0\t\"Vase\n",
            "line 2: a quotation mark that isn't closed",
        ),
        (
            b"slot\ttext\n0\t\"Vase\" b\n",
            "line 2: text after a closing quotation mark",
        ),
        (
            b"slot\ttext\n0\tA\n1\tG\xe9n\n",
            "line 3: not UTF-8; save the table as UTF-8",
        ),
        (b"\xff\xfes\0l\0o", "it begins as UTF-16 and isn't"),
    ];
    for (table, message) in cases {
        place.refuses(table, 65, message);
    }
    place.refuses(b"", 66, "standard input: no table");
    place.refuses(vec![b'\n'; (1 << 24) + 1], 65, "too long for a table");
    // A carriage return at the end of a line is the line's, elsewhere a text's.
    place.import("slot\ttext\r\n0\ta\rb\r\n").done();
    run(&words!["read", place.file, "0", place.keys]).printed(b"a\rb");
}

/// All of them in one run, whatever is wrong with each, and nothing is imported.
#[test]
fn every_bad_line_is_named_in_one_run() {
    let mut sheet = written(&three_slots(), 8, 1, b"Clock");
    sheet[EDITION.field_place(3, 1)][0] ^= 1;
    let place = Place::new(&sheet);
    let overlong = "x".repeat(200);
    let table = format!(
        "slot\ttext\n\
         0\tA\n\
         x\tB\n\
         3\tC\n\
         2\t{overlong}\n\
         1\tD\n\
         0\ta\\q\n\
         4\t\"E\n\
         5\t\"F\" G\n\
         0\tH\n\
         2\t\n\
         6\tI\tJ\n"
    );
    let lines = [
        "line 3: the slot isn't a decimal number",
        "line 4: slot 3: no such slot: 3, where the sheet has 0 to 2",
        "line 5: slot 2: overlong: 200 bytes, where a caption has at most 192: 8 too many",
        "line 6: slot 1: altered: the check differs",
        "line 7: a backslash that begins none of \\t \\n \\r \\\\ \\& \\x00; \\\\ is a backslash",
        "line 8: text after a closing quotation mark",
        "line 9: text after a closing quotation mark",
        "line 10: slot 0 stands in line 2 too",
        "line 11: slot 2 stands in line 5 too",
        "line 11: slot 2: no text, but it has a caption; --clear makes it blank, \\& empty",
        "line 12: a third column; a tab in a text is written \\t",
    ];
    let lines = lines.map(|line| format!("captions: standard input: {line}\n"));
    let before = place.sheet();
    for options in [&[][..], &["--dry-run"], &["--force"]] {
        let run = place.import_with(options, &table);
        assert_eq!((run.status, run.stderr), (65, lines.concat()));
        assert_eq!(
            (run.stdout.as_slice(), place.sheet()),
            (&b""[..], before.clone())
        );
    }
    // By the library alone: its number is the first refused line's.
    let run = place.import_with(&[], format!("slot\ttext\n2\t{overlong}\n3\tC\n"));
    assert_eq!(run.status, 7);
    let last = "line 3: slot 3: no such slot: 3, where the sheet has 0 to 2\n7 overlong\n";
    assert!(run.stderr.ends_with(last), "{}", run.stderr);
    assert_eq!(run.stderr.lines().count(), 3);
}

/// What a spreadsheet saves in another form is told by its name, with what to do.
#[test]
fn a_table_saved_in_another_form() {
    let place = Place::new(&three_slots());
    for (name, table, words) in [
        (
            "table.csv",
            &b"slot,text\n0,Vase\n"[..],
            "commas between its columns",
        ),
        (
            "table.csv",
            b"\"slot\",\"text\"\r\n0,\"Vase, 1751\"\r\n",
            "commas between",
        ),
        (
            "table.csv",
            b"\xef\xbb\xbfslot;text;write;serial\n0;Vase;1;1\n",
            "semicolons between",
        ),
        (
            "table.xlsx",
            b"PK\x03\x04\x14\0\x06\0",
            "a spreadsheet's own file",
        ),
    ] {
        let file = place.scratch.join(name);
        fs::write(&file, table).unwrap();
        let words = format!("{name}: {words}");
        let import = run(&words!["import", place.file, place.keys, "--file", file]);
        assert!(
            import.stderr.ends_with("; save it as tab-separated text\n"),
            "{}",
            import.stderr
        );
        import.failed(65, &words);
    }
}

/// Any bytes at all in the place of a table: a status, never a panic, and a
/// sheet that is whole.
#[test]
fn any_bytes_as_a_table() {
    let place = Place::new(&three_slots());
    let mut random = Random(1751);
    let good = "slot\ttext\r\n0\t\"Vase, \"\"1751\"\"\"\n1\t\\x43lock\\n\n2\t\\&\n".as_bytes();
    let (mut taken, mut refused) = (0, 0);
    for _ in 0..400 {
        let mut table = good.to_vec();
        for _ in 0..=random.below(4) {
            let at = random.below(table.len() as u64) as usize;
            match random.below(3) {
                0 => table[at] = random.next() as u8,
                1 => table.insert(at, b"\t\n\r\"\\0x\xff"[random.below(8) as usize]),
                _ => drop(table.remove(at)),
            }
        }
        fs::write(&place.file, three_slots()).unwrap();
        let run = place.import_with(&["--clear"], &table);
        assert!(
            [0, 6, 15, 65].contains(&run.status),
            "{} {}",
            run.status,
            run.stderr
        );
        if run.status == 0 {
            taken += 1;
            assert_eq!(run.stderr, "");
            assert_eq!(place.export().lines().count(), 4);
        } else {
            refused += 1;
            assert_eq!(place.sheet(), three_slots());
        }
    }
    println!("400 tables with changed bytes: {taken} taken, {refused} refused");
    assert!(taken > 20 && refused > 20);
}
