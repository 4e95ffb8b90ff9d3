//! The running order of a day: its text, its refusals, and the table for people.

use crate::support::*;
use crate::words;
use std::ffi::OsString;
use std::fs;
use std::path::PathBuf;

const LAST_DAY: u16 = 36524;
const NEVER: (u16, u16) = (LAST_DAY, 0);
/// 2026-05-01.
const OPENING: u16 = 9617;

/// A sheet of six slots with its keys and terms: the clock's opens first, then the
/// vase and the fan on one day, and the empty caption is always shown. Slot 4 is
/// blank, and slot 5 is never on show.
struct Hall {
    scratch: Scratch,
    sheet: PathBuf,
    terms: PathBuf,
    keys: PathBuf,
}

impl Hall {
    fn new() -> Hall {
        let scratch = Scratch::new();
        let mut sheet = blank_sheet(6, 4);
        for (slot, caption) in [(0, "Vase"), (1, "Clock, 1788"), (2, "Fan.\nSilk."), (3, "")] {
            sheet = written(&sheet, 8, slot, caption.as_bytes());
        }
        sheet = written(&sheet, 8, 5, b"Not lent");
        let terms = term_sheet(&[
            (OPENING, 9800),
            (9600, OPENING),
            (OPENING, OPENING),
            (0, LAST_DAY),
            (0, LAST_DAY),
            NEVER,
        ]);
        let hall = Hall {
            sheet: scratch.join("sheet"),
            terms: scratch.join("terms"),
            keys: scratch.keys(8),
            scratch,
        };
        fs::write(&hall.sheet, sheet).unwrap();
        fs::write(&hall.terms, terms).unwrap();
        hall
    }

    fn words(&self, date: &str) -> Vec<OsString> {
        words!["order", self.sheet, self.terms, date].to_vec()
    }

    fn order(&self, date: &str) -> Run {
        run(&self.words(date))
    }

    /// With these options behind it.
    fn with(&self, date: &str, options: &[OsString]) -> Run {
        run(&[&self.words(date)[..], options].concat())
    }

    /// What the second program prints.
    fn expected(&self, date: &str) -> Vec<u8> {
        let [sheet, terms] = [&self.sheet, &self.terms].map(|file| fs::read(file).unwrap());
        reference::running_order(&sheet, &terms, date.as_bytes())
    }
}

/// Printed on standard output, and refused with this number and these words.
#[track_caller]
fn printed_and_refused(run: Run, stdout: &str, number: i32, words: &str) {
    assert_eq!(run.stdout, stdout.as_bytes());
    let stdout = Vec::new();
    Run { stdout, ..run }.refused(number, words);
}

#[test]
fn the_earliest_opening_comes_first_and_then_the_lower_slot() {
    let hall = Hall::new();
    let all = "3 2000-01-01 2099-12-31 0\n1 2026-04-14 2026-05-01 11\n\
               0 2026-05-01 2026-10-31 4\n2 2026-05-01 2026-05-01 10\n";
    hall.order("2026-05-01").printed(all.as_bytes());
    for date in ["2026-04-13", "2026-04-30", "2026-05-02", "2026-11-01"] {
        hall.order(date).printed(&hall.expected(date));
    }
}

/// On every sheet, also one that is never written, the second program's text.
#[test]
fn the_text_is_the_second_programs() {
    let hall = Hall::new();
    let mut random = Random(11);
    for (slots, class, key_len) in [(1, 4, 8), (17, 6, 12), (60, 21, 10), (256, 24, 16)] {
        let mut sheet = blank_sheet(slots, class);
        fs::write(&hall.terms, term_sheet(&vec![(0, LAST_DAY); slots])).unwrap();
        fs::write(&hall.sheet, &sheet).unwrap();
        hall.order("2026-05-01").printed(b"");
        let mut terms = Vec::new();
        for slot in 0..slots {
            if random.below(4) > 0 {
                let length = random.below(193) as usize;
                sheet = written(&sheet, key_len, slot, &vec![b'x'; length]);
            }
            let edge = |random: &mut Random| OPENING - 4 + random.below(9) as u16;
            terms.push((edge(&mut random), edge(&mut random)));
        }
        fs::write(&hall.sheet, &sheet).unwrap();
        fs::write(&hall.terms, term_sheet(&terms)).unwrap();
        for date in [
            "2026-04-26",
            "2026-04-30",
            "2026-05-01",
            "2026-05-05",
            "2026-05-06",
        ] {
            hall.order(date).printed(&hall.expected(date));
        }
    }
}

#[test]
fn nothing_on_show_prints_nothing() {
    let hall = Hall::new();
    fs::write(&hall.terms, term_sheet(&[NEVER; 6])).unwrap();
    hall.order("2026-05-01").done();
    hall.with("2026-05-01", &words!["--table"])
        .printed(b"slot  opening     closing     length\n");
    hall.with("2026-05-01", &words!["--table", "--keys", hall.keys])
        .printed(b"slot  opening     closing     length  text\n");
}

/// The word is printed as the program prints it, and the exit status tells.
#[test]
fn what_is_unfit_and_what_is_no_date() {
    let hall = Hall::new();
    let (sheet, terms) = (
        fs::read(&hall.sheet).unwrap(),
        fs::read(&hall.terms).unwrap(),
    );
    for date in [
        "2026-02-29",
        "2026-5-1",
        "2026-05-01 ",
        "",
        "1999-12-31",
        "01.05.2026",
    ] {
        for options in [&words![][..], &words!["--table"]] {
            let order = hall.with(date, options);
            printed_and_refused(order, "no such date\n", 11, "no such date");
        }
        assert_eq!(hall.expected(date), b"no such date\n");
    }
    // What is unfit comes before what is no date.
    for date in ["2026-05-01", "no date"] {
        fs::write(&hall.terms, term_sheet(&[NEVER; 5])).unwrap();
        let other = "unfit sheet: the term sheet does not fit: it is for 5 slots, where the \
                     sheet has 6";
        for options in [&words![][..], &words!["--table", "--keys", hall.keys]] {
            printed_and_refused(hall.with(date, options), "unfit\n", 4, other);
        }
        fs::write(&hall.terms, &terms).unwrap();
        fs::write(&hall.sheet, &sheet[..700]).unwrap();
        let torn = "unfit sheet: 700 bytes, where 6 slots have 1264";
        printed_and_refused(hall.order(date), "unfit\n", 4, torn);
        fs::write(&hall.sheet, &sheet).unwrap();
    }
}

/// Where the program prints "unfit" or "no such date", a file or a word that isn't
/// there is what it is to every other command.
#[test]
fn what_is_missing_is_told_as_everywhere() {
    let hall = Hall::new();
    let none = hall.scratch.join("none");
    let on = |sheet: &PathBuf, terms: &PathBuf| run(&words!["order", sheet, terms, "2026-05-01"]);
    on(&none, &hall.terms).failed(66, "none: No such file");
    on(&hall.sheet, &none).failed(66, "none: No such file");
    on(&hall.scratch.path().to_path_buf(), &hall.terms).failed(66, "Is a directory");
    run(&words!["order", hall.sheet, hall.terms]).failed(64, "order takes 3 words, not 2");
    let keys = words!["--keys", hall.keys];
    hall.with("2026-05-01", &keys)
        .failed(64, "--keys goes with --table");
    hall.with("2026-05-01", &words!["--table", "--keys", none])
        .failed(66, "none: No such file");
    hall.with("2026-05-01", &words!["--table", "--keys", hall.sheet])
        .failed(65, "a caption sheet, not keys");
    // Each of the three may be standard input, and no two of them.
    let [sheet, terms, keys] =
        [&hall.sheet, &hall.terms, &hall.keys].map(|file| fs::read(file).unwrap());
    let all = hall.expected("2026-05-01");
    run_with(&words!["order", "-", hall.terms, "2026-05-01"], &sheet).printed(&all);
    run_with(&words!["order", hall.sheet, "-", "2026-05-01"], &terms).printed(&all);
    let table = hall.with("2026-05-01", &words!["--table", "--keys", hall.keys]);
    let words = [
        &hall.words("2026-05-01")[..],
        &words!["--table", "--keys", "-"],
    ]
    .concat();
    run_with(&words, &keys).printed(&table.stdout);
    run(&["order", "-", "-", "2026-05-01"]).failed(64, "can't be two things");
}

#[test]
fn a_table_has_headings_and_with_keys_the_texts() {
    let hall = Hall::new();
    hall.with("2026-05-01", &words!["--table"]).printed(
        b"slot  opening     closing     length\n\
          \x20  3  2000-01-01  2099-12-31       0\n\
          \x20  1  2026-04-14  2026-05-01      11\n\
          \x20  0  2026-05-01  2026-10-31       4\n\
          \x20  2  2026-05-01  2026-05-01      10\n",
    );
    let with_texts = b"slot  opening     closing     length  text\n\
          \x20  3  2000-01-01  2099-12-31       0\n\
          \x20  1  2026-04-14  2026-05-01      11  Clock, 1788\n\
          \x20  0  2026-05-01  2026-10-31       4  Vase\n\
          \x20  2  2026-05-01  2026-05-01      10  Fan.\\nSilk.\n";
    let keys = words!["--table", "--keys", hall.keys];
    hall.with("2026-05-01", &keys).printed(with_texts);
    let keys = words![format!("--keys={}", hall.keys.display()), "--table"];
    hall.with("2026-05-01", &keys).printed(with_texts);
}

/// It does nothing to a terminal, and a blank at its end is seen.
#[test]
fn a_text_is_on_one_line() {
    let hall = Hall::new();
    let sheet = blank_sheet(6, 4);
    let sheet = written(&sheet, 8, 0, "\x1b[31mVase\tá\\ ".as_bytes());
    let sheet = stored(&sheet, 8, 3, b"=1\xff");
    fs::write(&hall.sheet, sheet).unwrap();
    let table = hall.with("2026-05-01", &words!["--table", "--keys", hall.keys]);
    table.printed(
        "slot  opening     closing     length  text\n   \
           3  2000-01-01  2099-12-31       3  =1\\xff\n   \
           0  2026-05-01  2026-10-31      14  \\x1b[31mVase\\tá\\\\\\x20\n"
            .as_bytes(),
    );
}

/// The text needs no keys, so that an altered caption has its line; in a table that
/// is read with keys its refusal's word stands there, and the others are shown.
#[test]
fn a_caption_that_cannot_be_read() {
    let hall = Hall::new();
    let whole = hall.expected("2026-05-01");
    let mut sheet = fs::read(&hall.sheet).unwrap();
    sheet[EDITION.field_place(6, 0)][0] ^= 1;
    fs::write(&hall.sheet, &sheet).unwrap();
    hall.order("2026-05-01").printed(&whole);
    let keys = words!["--table", "--keys", hall.keys];
    let table = "slot  opening     closing     length  text\n   \
                   3  2000-01-01  2099-12-31       0\n   \
                   1  2026-04-14  2026-05-01      11  Clock, 1788\n   \
                   0  2026-05-01  2026-10-31       4  [altered]\n   \
                   2  2026-05-01  2026-05-01      10  Fan.\\nSilk.\n";
    let altered = "altered: the check differs";
    printed_and_refused(hall.with("2026-05-01", &keys), table, 10, altered);
    // On another day it isn't read.
    let other = hall.with("2026-04-30", &keys);
    assert_eq!((other.status, other.stderr.as_str()), (0, ""));
    for (keys, number, words) in [
        (
            hall.scratch.key_file("a", &[1; 8], &[2; 8]),
            14,
            "other keys",
        ),
        (
            hall.scratch.key_file("b", &[1; 12], &[2; 12]),
            5,
            "other key class",
        ),
        (hall.scratch.key_file("c", &[1; 8], &[1; 8]), 2, "twin keys"),
        (hall.scratch.key_file("d", &[1; 7], &[2; 7]), 1, "wrong key"),
    ] {
        let order = hall.with("2026-05-02", &words!["--table", "--keys", keys]);
        let table = format!(
            "slot  opening     closing     length  text\n   \
               3  2000-01-01  2099-12-31       0  [{words}]\n   \
               0  2026-05-01  2026-10-31       4  [{words}]\n"
        );
        printed_and_refused(order, &table, number, words);
    }
}
