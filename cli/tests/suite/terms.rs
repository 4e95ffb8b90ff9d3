//! Term sheets: made, set by dates, printed, and heeded by a dated read.

use crate::support::*;
use crate::words;
use std::ffi::OsString;
use std::fs;
use std::os::unix::fs::{symlink, MetadataExt};
use std::path::{Path, PathBuf};

const LAST_DAY: u16 = 36524;
const NEVER: (u16, u16) = (LAST_DAY, 0);

// ---- Made and set ----

#[test]
fn a_new_term_sheet_shows_nothing() {
    let scratch = Scratch::new();
    for slots in [1, 2, 17, 255, 256] {
        let file = scratch.join(format!("{slots}.terms"));
        run(&words!["terms-blank", file, slots.to_string()]).done();
        assert_eq!(fs::read(&file).unwrap(), term_sheet(&vec![NEVER; slots]));
        let lines: String = (0..slots).map(|slot| format!("{slot} never\n")).collect();
        run(&words!["terms", file]).printed(format!("slots {slots}\n{lines}").as_bytes());
    }
    assert!(temporaries(scratch.path()).is_empty());
}

#[test]
fn a_term_is_set_by_its_dates() {
    let scratch = Scratch::new();
    let file = scratch.join("terms");
    let mut terms = vec![NEVER; 3];
    fs::write(&file, term_sheet(&terms)).unwrap();
    for (slot, opening, closing, term) in [
        (1, "2026-05-01", "2026-10-31", (9617, 9800)),
        (0, "2000-01-01", "2099-12-31", (0, LAST_DAY)),
        (2, "2000-01-01", "2000-01-01", (0, 0)),
        (2, "2099-12-31", "2099-12-31", (LAST_DAY, LAST_DAY)),
        (1, "2000-02-29", "2000-03-01", (59, 60)),
        (1, "2028-02-29", "2096-02-29", (10286, 35123)),
    ] {
        let words = words!["terms-set", file, slot.to_string(), opening, closing];
        run(&words).done();
        terms[slot] = term;
        assert_eq!(fs::read(&file).unwrap(), term_sheet(&terms));
    }
    run(&words!["terms", file]).printed(
        b"slots 3\n0 2000-01-01 2099-12-31\n1 2028-02-29 2096-02-29\n2 2099-12-31 2099-12-31\n",
    );
    run(&words!["terms-set", file, "2", "--never"]).done();
    run(&words!["terms-set", "--never", file, "0002"]).done();
    terms[2] = NEVER;
    assert_eq!(fs::read(&file).unwrap(), term_sheet(&terms));
    run(&words!["terms", file])
        .printed(b"slots 3\n0 2000-01-01 2099-12-31\n1 2028-02-29 2096-02-29\n2 never\n");
}

/// Every slot of the largest term sheet, each its own two numbers.
#[test]
fn the_largest_term_sheet() {
    let scratch = Scratch::new();
    let file = scratch.join("terms");
    let terms: Vec<(u16, u16)> = (0..256).map(|slot| (slot, LAST_DAY - slot)).collect();
    fs::write(&file, term_sheet(&terms)).unwrap();
    for slot in [0, 1, 128, 255] {
        let words = words![
            "terms-set",
            file,
            slot.to_string(),
            "2000-01-02",
            "2000-01-03"
        ];
        run(&words).done();
        let mut expected = terms.clone();
        expected[slot] = (1, 2);
        assert_eq!(fs::read(&file).unwrap(), term_sheet(&expected));
        fs::write(&file, term_sheet(&terms)).unwrap();
    }
}

/// Opening above closing is fit, whatever the two days are.
#[test]
fn opening_above_closing_is_never() {
    let scratch = Scratch::new();
    let file = scratch.join("terms");
    fs::write(
        &file,
        term_sheet(&[(1, 0), (LAST_DAY, 36523), (5, 5), NEVER]),
    )
    .unwrap();
    run(&words!["terms", file])
        .printed(b"slots 4\n0 never\n1 never\n2 2000-01-06 2000-01-06\n3 never\n");
}

// ---- Dates ----

/// The dates of the range in their order, by the calendar's rule.
fn dates() -> Vec<String> {
    let mut dates = Vec::new();
    for year in 2000..2100 {
        let leap = year % 4 == 0 && year % 100 != 0 || year % 400 == 0;
        let lengths = [31, 28, 31, 30, 31, 30, 31, 31, 30, 31, 30, 31];
        for (month, length) in (1..).zip(lengths) {
            let length = length + i32::from(month == 2 && leap);
            dates.extend((1..=length).map(|day| format!("{year}-{month:02}-{day:02}")));
        }
    }
    dates
}

#[test]
fn every_date_is_printed_in_its_place() {
    let scratch = Scratch::new();
    let (file, dates) = (scratch.join("terms"), dates());
    assert_eq!(dates.len(), usize::from(LAST_DAY) + 1);
    for (part, dates) in (0..).zip(dates.chunks(256)) {
        let first = part * 256;
        let days = (first..).take(dates.len());
        let terms: Vec<(u16, u16)> = days.map(|day| (day, LAST_DAY)).collect();
        fs::write(&file, term_sheet(&terms)).unwrap();
        let mut lines = format!("slots {}\n", dates.len());
        for (slot, date) in dates.iter().enumerate() {
            lines += &format!("{slot} {date} 2099-12-31\n");
        }
        run(&words!["terms", file]).printed(lines.as_bytes());
    }
}

/// The last days of some months and their neighbours.
#[test]
fn a_date_that_is_typed_is_its_day() {
    let scratch = Scratch::new();
    let file = scratch.join("terms");
    fs::write(&file, term_sheet(&[NEVER])).unwrap();
    let mut tried = 0;
    for (day, date) in (0..).zip(dates()) {
        if !(date.ends_with("-02-28") || date.ends_with("-02-29") || day % 499 == 0) {
            continue;
        }
        run(&words!["terms-set", file, "0", date, "2099-12-31"]).done();
        assert_eq!(fs::read(&file).unwrap(), term_sheet(&[(day, LAST_DAY)]));
        tried += 1;
    }
    println!("{tried} dates");
}

/// What is no date: by its form, and by its numbers.
const NO_DATES: [&str; 33] = [
    "",
    "-",
    "today",
    "2026",
    "2026-05",
    "2026-5-1",
    "2026-05-1",
    "2026-5-001",
    "26-05-01",
    "02026-05-01",
    "2026-05-011",
    "20260501",
    "2026/05/01",
    "2026.05.01",
    "01.05.2026",
    "01-05-2026",
    " 2026-05-01",
    "2026-05-01 ",
    "2026-05-01\n",
    "+026-05-01",
    "2026-+5-01",
    "2026-05-0x",
    "2026‐05-01",
    "٢٠٢٦-05-01",
    "9617",
    "1999-12-31",
    "2100-01-01",
    "2026-00-01",
    "2026-13-01",
    "2026-05-00",
    "2026-05-32",
    "2026-04-31",
    "2026-02-29",
];

#[test]
fn what_is_no_date_is_refused() {
    let scratch = Scratch::new();
    let Loan { sheet, keys, terms } = Loan::new(&scratch);
    let before = fs::read(&terms).unwrap();
    for date in NO_DATES {
        for words in [
            words!["terms-set", terms, "1", "--", date, "2026-05-01"],
            words!["terms-set", terms, "1", "--", "2026-05-01", date],
        ] {
            run(&words).refused(11, "no such date");
        }
        let words = words!["read", sheet, "1", keys, "--terms", terms, "--on", date];
        run(&words).refused(11, "no such date");
    }
    // Bytes that aren't text.
    use std::os::unix::ffi::OsStrExt;
    let date = OsString::from(std::ffi::OsStr::from_bytes(b"2026-05-0\xff"));
    run(&words!["terms-set", terms, "1", date, "2026-05-01"]).refused(11, "no such date");
    assert_eq!(fs::read(&terms).unwrap(), before);
}

#[test]
fn an_opening_after_the_closing_is_a_slip() {
    let scratch = Scratch::new();
    let terms = Loan::new(&scratch).terms;
    let before = fs::read(&terms).unwrap();
    for (opening, closing) in [
        ("2026-10-31", "2026-05-01"),
        ("2026-05-02", "2026-05-01"),
        ("2099-12-31", "2000-01-01"),
    ] {
        run(&words!["terms-set", terms, "1", opening, closing]).failed(
            64,
            "OPENING is after CLOSING; --never keeps a slot off show",
        );
    }
    assert_eq!(fs::read(&terms).unwrap(), before);
}

// ---- Dated reads ----

/// A sheet of three slots with a clock in slot 1, on loan from 2026-05-01 to
/// 2026-10-31 by the term sheet; slot 0 is blank, slot 2 written and never shown.
struct Loan {
    sheet: PathBuf,
    keys: PathBuf,
    terms: PathBuf,
}

impl Loan {
    fn new(scratch: &Scratch) -> Loan {
        let (sheet, terms) = (scratch.join("sheet"), scratch.join("terms"));
        let written = written(&written(&blank_sheet(3, 4), 8, 1, b"Clock"), 8, 2, b"Vase");
        fs::write(&sheet, written).unwrap();
        fs::write(&terms, term_sheet(&[(0, LAST_DAY), (9617, 9800), NEVER])).unwrap();
        let keys = scratch.keys(8);
        Loan { sheet, keys, terms }
    }

    fn read(&self, slot: &str, date: &str) -> Run {
        let Loan { sheet, keys, terms } = self;
        run(&words![
            "read", sheet, slot, keys, "--terms", terms, "--on", date
        ])
    }
}

#[test]
fn a_caption_is_shown_while_its_loan_is() {
    let scratch = Scratch::new();
    let loan = Loan::new(&scratch);
    for date in [
        "2026-05-01",
        "2026-05-02",
        "2026-07-15",
        "2026-10-30",
        "2026-10-31",
    ] {
        loan.read("1", date).printed(b"Clock");
    }
    for date in [
        "2000-01-01",
        "2025-07-15",
        "2026-04-30",
        "2026-11-01",
        "2099-12-31",
    ] {
        loan.read("1", date).refused(12, "not on show");
        loan.read("2", date).refused(12, "not on show");
        loan.read("0", date).refused(9, "blank");
    }
    // The options in any place and form; no term is looked at without them.
    let Loan { sheet, keys, terms } = &loan;
    let terms = format!("--terms={}", terms.display());
    run(&words!["read", "--on=2026-05-01", sheet, terms, "1", keys]).printed(b"Clock");
    run(&words!["read", sheet, "2", keys]).printed(b"Vase");
}

#[test]
fn both_options_or_neither() {
    let scratch = Scratch::new();
    let Loan { sheet, keys, terms } = Loan::new(&scratch);
    let read = words!["read", sheet, "1", keys];
    let together = "--terms and --on are given together or not at all";
    run(&[&read[..], &words!["--terms", terms]].concat()).failed(64, together);
    run(&[&read[..], &words!["--on", "2026-05-01"]].concat()).failed(64, together);
    run(&[&read[..], &words!["--on", "tomorrow"]].concat()).failed(64, together);
    run(&[&read[..], &words!["--on"]].concat()).failed(64, "--on takes DATE");
    run(&[&read[..], &words!["--terms"]].concat()).failed(64, "--terms takes TERMS");
    let twice = words!["--on", "2026-05-01", "--on", "2026-05-02"];
    run(&[&read[..], &twice].concat()).failed(64, "--on is given twice");
    run(&words!["terms-set", terms, "1", "--never", "2026-05-01"])
        .failed(64, "terms-set --never takes 2 words, not 3");
    run(&words![
        "terms-set",
        terms,
        "1",
        "--never",
        "2026-05-01",
        "2026-10-31"
    ])
    .failed(64, "terms-set --never takes 2 words, not 4");
    run(&words!["terms-set", terms, "1"]).failed(64, "terms-set takes 4 words, not 2");
}

/// The library's order: 1 2 4 5 11 6 9 12 10. Each of these has what stands after
/// it, too.
#[test]
fn the_first_refusal_is_given() {
    let scratch = Scratch::new();
    let Loan { sheet, keys, terms } = Loan::new(&scratch);
    let mut altered = fs::read(&sheet).unwrap();
    altered[EDITION.field_place(3, 1)][0] ^= 1;
    fs::write(&sheet, altered).unwrap();
    let unfit = scratch.join("unfit");
    fs::write(&unfit, "neither kind").unwrap();
    let other = scratch.keys(12);
    let twins = scratch.key_file("twins", &[7; 12], &[7; 12]);
    let short = scratch.key_file("short", &[7; 7], &[7; 7]);
    let try_read = |sheet: &Path, slot: &str, keys: &Path, terms: &Path, date: &str| {
        run(&words![
            "read", sheet, slot, keys, "--terms", terms, "--on", date
        ])
    };
    try_read(&unfit, "3", &short, &unfit, "x").refused(1, "wrong key");
    try_read(&unfit, "3", &twins, &unfit, "x").refused(2, "twin keys");
    try_read(&unfit, "3", &other, &terms, "x").refused(4, "unfit sheet");
    try_read(&sheet, "3", &other, &unfit, "x").refused(4, "unfit sheet");
    try_read(&sheet, "3", &other, &terms, "x").refused(5, "other key class");
    try_read(&sheet, "3", &keys, &terms, "x").refused(11, "no such date");
    try_read(&sheet, "3", &keys, &terms, "2026-02-29").refused(11, "no such date");
    try_read(&sheet, "3", &keys, &terms, "2026-04-30").refused(6, "no such slot");
    try_read(&sheet, "0", &keys, &terms, "2026-04-30").refused(9, "blank");
    try_read(&sheet, "1", &keys, &terms, "2026-04-30").refused(12, "not on show");
    try_read(&sheet, "1", &keys, &terms, "2026-05-01").refused(10, "altered");
}

// ---- Unfit ----

/// Bytes that are no term sheet.
fn unfit_sheets() -> Vec<Vec<u8>> {
    let fit = term_sheet(&[(0, LAST_DAY), (9617, 9800), NEVER]);
    let mut sheets = vec![
        Vec::new(),
        vec![0],
        vec![0, 0],
        vec![0, 1],
        fit[..fit.len() - 1].to_vec(),
        [&fit[..], b"\0"].concat(),
        [&fit[..], b"\n"].concat(),
        term_sheet(&[NEVER; 257]),
        term_sheet(&[]),
        blank_sheet(3, 4),
        vec![0; 1 << 20],
    ];
    for place in 0..fit.len() / 2 {
        let mut sheet = fit.clone();
        let number: u16 = if place == 0 { 4 } else { LAST_DAY + 1 };
        sheet[2 * place..2 * place + 2].copy_from_slice(&number.to_be_bytes());
        sheets.push(sheet);
    }
    sheets
}

#[test]
fn what_is_no_term_sheet_is_unfit() {
    let scratch = Scratch::new();
    let Loan { sheet, keys, terms } = Loan::new(&scratch);
    for bytes in unfit_sheets() {
        fs::write(&terms, &bytes).unwrap();
        let before = fs::metadata(&terms).unwrap().ino();
        let run_terms = run(&words!["terms", terms]);
        assert_eq!(
            (run_terms.status, &run_terms.stdout[..]),
            (0, &b"unfit\n"[..])
        );
        let reason = run_terms
            .stderr
            .strip_prefix("captions: unfit term sheet: ");
        let reason = reason.and_then(|reason| reason.strip_suffix('\n')).unwrap();
        let json = run(&words!["terms", terms, "--json"]);
        assert_eq!((json.status, &json.stderr), (0, &run_terms.stderr));
        let expected =
            format!("{{\"fit\":false,\"slots\":null,\"reason\":\"{reason}\",\"list\":[\n\n]}}\n");
        assert_eq!(json.stdout, expected.as_bytes());
        run(&words!["terms-set", terms, "1", "--never"]).refused(4, "unfit sheet");
        run(&words!["terms-set", terms, "9", "2026-05-01", "2026-05-01"]).refused(4, "unfit sheet");
        let dated = words!["--terms", terms, "--on", "2026-05-01"];
        let read = words!["read", sheet, "1", keys];
        run(&[&read[..], &dated].concat()).refused(4, "unfit sheet");
        assert_eq!(fs::read(&terms).unwrap(), bytes);
        assert_eq!(fs::metadata(&terms).unwrap().ino(), before);
    }
    assert_eq!(run(&["terms", "/dev/zero"]).stdout, b"unfit\n");
}

/// A term sheet that is fit, but another sheet's.
#[test]
fn a_term_sheet_of_another_sheet() {
    let scratch = Scratch::new();
    let loan = Loan::new(&scratch);
    for slots in [1, 2, 4, 256] {
        fs::write(&loan.terms, term_sheet(&vec![(0, LAST_DAY); slots])).unwrap();
        loan.read("1", "2026-05-01").refused(4, "unfit sheet");
    }
}

#[test]
fn slots_and_slot_are_in_range() {
    let scratch = Scratch::new();
    let terms = Loan::new(&scratch).terms;
    let before = fs::read(&terms).unwrap();
    let new = scratch.join("new");
    for slots in [
        "0",
        "257",
        "65537",
        "65539",
        "18446744073709551615",
        "99999999999999999999",
    ] {
        run(&words!["terms-blank", new, slots]).refused(3, "wrong span");
        run(&words!["terms-blank", terms, slots, "--force"]).refused(3, "wrong span");
    }
    for slot in [
        "3",
        "256",
        "65536",
        "65537",
        "18446744073709551615",
        "99999999999999999999",
    ] {
        run(&words!["terms-set", terms, slot, "--never"]).refused(6, "no such slot");
        run(&words![
            "terms-set",
            terms,
            slot,
            "2026-05-01",
            "2026-05-01"
        ])
        .refused(6, "no such slot");
    }
    for word in ["", "x", "1x", "+1", "1.0"] {
        run(&words!["terms-blank", new, word]).failed(64, "SLOTS is a decimal number");
        run(&words!["terms-set", terms, word, "--never"]).failed(64, "SLOT is a decimal number");
    }
    assert_eq!(fs::read(&terms).unwrap(), before);
    assert!(!new.exists());
}

// ---- Files ----

#[test]
fn terms_as_json() {
    let scratch = Scratch::new();
    let terms = Loan::new(&scratch).terms;
    run(&words!["terms", terms, "--json"]).printed(
        br#"{"fit":true,"slots":3,"reason":null,"list":[
{"slot":0,"opening":"2000-01-01","closing":"2099-12-31"},
{"slot":1,"opening":"2026-05-01","closing":"2026-10-31"},
{"slot":2,"opening":null,"closing":null}
]}
"#,
    );
}

#[test]
fn a_term_sheet_is_replaced_as_a_sheet_is() {
    let scratch = Scratch::new();
    let terms = Loan::new(&scratch).terms;
    let link = scratch.join("link");
    symlink("terms", &link).unwrap();
    set_mode(&terms, 0o640);
    let inode = || fs::metadata(&terms).unwrap().ino();
    let before = inode();
    // What changes nothing replaces nothing.
    run(&words!["terms-set", link, "1", "2026-05-01", "2026-10-31"]).done();
    run(&words!["terms-set", link, "2", "--never"]).done();
    assert_eq!(inode(), before);
    run(&words!["terms-set", link, "1", "2026-05-01", "2026-11-30"]).done();
    assert_ne!(inode(), before);
    assert_eq!(
        (mode(&terms), fs::read_link(&link).unwrap()),
        (0o640, "terms".into())
    );
    assert!(temporaries(scratch.path()).is_empty());

    // One that exists is blanked only where that is asked.
    let set = fs::read(&terms).unwrap();
    for content in [&set[..], b""] {
        fs::write(&terms, content).unwrap();
        run(&words!["terms-blank", terms, "3"]).failed(73, "exists; --force blanks it");
        assert_eq!(fs::read(&terms).unwrap(), content);
        run(&words!["terms-blank", terms, "2", "--force"]).done();
        assert_eq!(fs::read(&terms).unwrap(), term_sheet(&[NEVER; 2]));
    }
}

#[test]
fn term_sheets_that_cannot_be_read_or_replaced() {
    let scratch = Scratch::new();
    let Loan { sheet, keys, .. } = Loan::new(&scratch);
    let (missing, folder) = (scratch.join("none"), scratch.path().to_path_buf());
    for (terms, reading, changing) in [
        (&missing, "none: No such file", "none: No such file"),
        (&folder, "Is a directory", "not a regular file"),
    ] {
        run(&words!["terms", terms]).failed(66, reading);
        let status = if terms == &missing { 66 } else { 73 };
        run(&words!["terms-set", terms, "1", "--never"]).failed(status, changing);
        let dated = words!["--terms", terms, "--on", "2026-05-01"];
        let read = words!["read", sheet, "1", keys];
        run(&[&read[..], &dated].concat()).failed(66, reading);
    }
    run(&words!["terms-blank", scratch.join("none/terms"), "3"]).failed(73, "No such file");
    assert_eq!(scratch.names(), ["keys-8", "sheet", "terms"]);
}

/// `-` is standard input where a term sheet is only read, and holds one thing.
#[test]
fn a_term_sheet_from_standard_input() {
    let scratch = Scratch::new();
    let Loan { sheet, keys, terms } = Loan::new(&scratch);
    let bytes = fs::read(&terms).unwrap();
    run_with(&["terms", "-"], &bytes).printed(&run(&words!["terms", terms]).stdout);
    let on = |file: &Path, keys: &Path, terms: &Path| {
        words![
            "read",
            file,
            "1",
            keys,
            "--terms",
            terms,
            "--on",
            "2026-05-01"
        ]
    };
    let dash = Path::new("-");
    run_with(&on(&sheet, &keys, dash), &bytes).printed(b"Clock");
    run_with(&on(dash, &keys, &terms), &fs::read(&sheet).unwrap()).printed(b"Clock");
    run_with(&on(&sheet, dash, &terms), &fs::read(&keys).unwrap()).printed(b"Clock");
    for words in [
        on(dash, &keys, dash),
        on(&sheet, dash, dash),
        on(dash, dash, &terms),
        on(dash, dash, dash),
    ] {
        run(&words).failed(64, "standard input can't be two things at once");
    }
    for words in [
        &["terms-blank", "-", "3"][..],
        &["terms-set", "-", "1", "--never"],
        &["terms-set", "-", "1", "2026-05-01", "2026-10-31"],
    ] {
        run(words).failed(64, "a file of that name is ./-");
    }
}
