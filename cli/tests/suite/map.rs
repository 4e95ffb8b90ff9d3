//! A sheet at a glance.

use crate::support::*;
use crate::words;
use std::fs;

#[test]
fn a_sign_for_each_slot_sixteen_to_a_line() {
    let scratch = Scratch::new();
    let file = scratch.join("sheet");
    let mut sheet = blank_sheet(35, 4);
    for slot in [0, 2, 15, 16, 34] {
        sheet = written(&sheet, 8, slot, b"");
    }
    fs::write(&file, &sheet).unwrap();
    let map = "  0 o.o............o\n 16 o...............\n 32 ..o\n. blank: 30\no written: 5\n";
    run(&words!["map", file]).printed(map.as_bytes());
    run_with(&["map", "-"], &sheet).printed(map.as_bytes());
    fs::write(&file, blank_sheet(256, 8)).unwrap();
    let full = String::from_utf8(run(&words!["map", file]).stdout).unwrap();
    let lines: Vec<&str> = full.lines().collect();
    assert_eq!(lines.len(), 18);
    assert_eq!(lines[15], "240 ................");
    assert_eq!(lines[16..], [". blank: 256", "o written: 0"]);
}

/// By the term sheet and the day, as a dated read judges it.
#[test]
fn what_is_on_show_on_a_day() {
    let scratch = Scratch::new();
    let (file, keys, terms) = (
        scratch.join("sheet"),
        scratch.keys(8),
        scratch.join("terms"),
    );
    let mut sheet = blank_sheet(18, 4);
    let mut all = vec![(36524, 0); 18];
    for (slot, term) in all.iter_mut().enumerate().take(17) {
        sheet = written(&sheet, 8, slot, b"Vase");
        *term = (9610 + slot as u16, 9620 + slot as u16);
    }
    all[17] = (0, 36524);
    fs::write(&file, &sheet).unwrap();
    fs::write(&terms, term_sheet(&all)).unwrap();
    for date in [
        "2026-04-23",
        "2026-05-01",
        "2026-05-10",
        "2026-05-20",
        "2026-05-21",
    ] {
        let dated = words!["--terms", terms, "--on", date];
        let map = run(&[&words!["map", file][..], &dated].concat());
        assert_eq!((map.status, map.stderr.as_str()), (0, ""));
        let map = String::from_utf8(map.stdout).unwrap();
        let lines: Vec<&str> = map.lines().collect();
        let signs = [&lines[0][4..], &lines[1][4..]].concat();
        for (slot, sign) in signs.chars().enumerate() {
            let read = words!["read", file, slot.to_string(), keys];
            let status = run(&[&read[..], &dated].concat()).status;
            let expected = match sign {
                '+' => 0,
                '-' => 12,
                _ => 9,
            };
            assert_eq!(status, expected, "{slot} {sign}");
        }
        let count = |sign: char| signs.matches(sign).count();
        let key = format!(
            ". blank: 1\n+ written, on show: {}\n- written, not on show: {}",
            count('+'),
            count('-')
        );
        assert_eq!(lines[2..].join("\n"), key);
    }
}

#[test]
fn what_a_map_refuses() {
    let scratch = Scratch::new();
    let (file, terms) = (scratch.sheet("sheet", 3, 4), scratch.join("terms"));
    let on = |date: &str| run(&words!["map", file, "--terms", terms, "--on", date]);
    fs::write(&terms, term_sheet(&[(1, 0); 4])).unwrap();
    let count =
        "unfit sheet: the term sheet does not fit: it is for 4 slots, where the sheet has 3";
    on("2026-05-01").refused(4, count);
    fs::write(&terms, "").unwrap();
    on("2026-05-01").refused(4, "unfit sheet");
    fs::write(&terms, term_sheet(&[(1, 0); 3])).unwrap();
    on("2026-02-29").refused(11, "no such date");
    run(&words!["map", file, "--on", "2026-05-01"]).failed(64, "--terms and --on are given");
    run(&words![
        "map",
        file,
        "--terms",
        "/none",
        "--on",
        "2026-05-01"
    ])
    .failed(66, "/none");
    // What is unfit is told as by a listing, and its JSON is a listing's.
    let json = run(&words!["map", file, "--json"]);
    assert_eq!(json, run(&words!["list", file, "--json"]));
    fs::write(&file, "not a sheet").unwrap();
    let map = run(&words!["map", file]);
    assert_eq!(map.stdout, b"unfit\n");
    assert_eq!(map, run(&words!["list", file]));
    assert_eq!(
        run(&words!["map", file, "--json"]),
        run(&words!["list", file, "--json"])
    );
}
