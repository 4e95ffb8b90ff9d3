//! The running order of a day (document 02, request 11).

use crate::broken::{broken_sheet, Break, BREAK_WAYS};
use crate::calendar::on_the_wall;
use crate::edition::Edition;
use crate::layout::meets_the_layout;
use crate::program::printed;
use crate::random::Random;
use crate::support::*;
use crate::term_sheet::*;
use reference::calendar::{date_text, day_of_text};
use reference::order::{RunningOrder, Showing};
use reference::running_order;
use std::ffi::{OsStr, OsString};
use std::fs;
use std::path::{Path, PathBuf};

const UNFIT: &str = "unfit\n";
const NO_SUCH_DATE: &str = "no such date\n";
const NOTHING: &str = "";

/// The running order, as characters.
fn order(sheet: &[u8], terms: &[u8], date: &str) -> String {
    String::from_utf8(running_order(sheet, terms, date.as_bytes())).unwrap()
}

// ---- What is expected, found here and by no program that is tested ----

/// The dates of days 0 to 36524, read off a wall calendar. They stand in the order
/// of their characters too.
fn wall_dates() -> Vec<String> {
    let months = (2000..2100).flat_map(|year| (1..=12).map(move |month| (year, month)));
    let mut dates = Vec::new();
    for (year, month) in months {
        let days = (1..=31).filter(|day| on_the_wall(year, month, *day));
        dates.extend(days.map(|day| format!("{year}-{month:02}-{day:02}")));
    }
    dates
}

/// The day of a date on the wall; none if it isn't there.
fn wall_day(dates: &[String], date: &[u8]) -> Option<usize> {
    dates
        .binary_search_by(|on_wall| on_wall.as_bytes().cmp(date))
        .ok()
}

/// The running order once more: the earliest opening is taken out again and again,
/// of equal ones the first.
fn expected(dates: &[String], sheet: &[u8], terms: &[u8], date: &str) -> String {
    let n = sheet.get(..2).map_or(0, |bytes| number_at(bytes, 0));
    if !meets_the_layout(sheet) || !belongs(terms, n) {
        return UNFIT.to_string();
    }
    let Some(day) = wall_day(dates, date.as_bytes()) else {
        return NO_SUCH_DATE.to_string();
    };
    let (mut left, mut text) = (on_show_by_slot(sheet, terms, day), String::new());
    while let Some(next) = left.iter().copied().min_by_key(|showing| showing.opening) {
        let (opening, closing) = (&dates[next.opening], &dates[next.closing]);
        text += &format!("{} {opening} {closing} {}\n", next.slot, next.length);
        left.retain(|showing| showing.slot != next.slot);
    }
    text
}

/// The written slots that are on show, by their numbers, of sheets that fit.
fn on_show_by_slot(sheet: &[u8], terms: &[u8], day: usize) -> Vec<Showing> {
    let mut editions = Edition::ALL.into_iter();
    let edition = editions
        .find(|edition| edition.number() == sheet[3])
        .unwrap();
    let n = number_at(sheet, 0);
    let is_written = |slot: &usize| {
        let mut bytes = edition
            .mark_place(*slot)
            .chain(edition.field_place(n, *slot));
        bytes.any(|place| sheet[place] != 0)
    };
    let on_show = (0..n).filter(|slot| on_show(terms, n, *slot, day));
    let written = on_show.filter(is_written);
    let showings = written.map(|slot| Showing {
        slot,
        opening: number_at(terms, opening_place(slot)),
        closing: number_at(terms, closing_place(n, slot)),
        length: number_at(sheet, edition.mark_place(slot).start + 4) as u16,
    });
    showings.collect()
}

/// A sheet put together by hand: a slot with a length is written, with its number
/// and one as the write number and bytes that no key sealed. Slots without are
/// blank.
fn sheet_of(edition: Edition, t: usize, lengths: &[Option<u16>]) -> Vec<u8> {
    let n = lengths.len();
    let mut sheet = edition.blank_sheet(n, t);
    set_w(&mut sheet, n as u32);
    for (slot, length) in lengths.iter().enumerate() {
        if let Some(length) = length {
            let mark = edition.mark_place(slot).start;
            sheet[mark..mark + 4].copy_from_slice(&(slot as u32 + 1).to_be_bytes());
            put_number(&mut sheet, mark + 4, *length);
            sheet[edition.field_place(n, slot)].fill(0xa5);
        }
    }
    sheet
}

/// A sheet of three written slots, with lengths 5, 17 and 192.
fn three_written(edition: Edition, t: usize) -> Vec<u8> {
    sheet_of(edition, t, &[Some(5), Some(17), Some(192)])
}

// ---- Days and lines ----

#[test]
fn a_line_is_slot_opening_closing_and_length() {
    for (edition, t) in kinds() {
        let sheet = three_written(edition, t);
        let terms = term_sheet(&[(9527, 9555), ALWAYS, (9526, 9526)]);
        let text = "1 2000-01-01 2099-12-31 17\n2 2026-01-30 2026-01-30 192\n";
        assert_eq!(order(&sheet, &terms, "2026-01-30"), text);
        let text = "1 2000-01-01 2099-12-31 17\n0 2026-01-31 2026-02-28 5\n";
        assert_eq!(order(&sheet, &terms, "2026-01-31"), text);
        assert_eq!(order(&sheet, &terms, "2026-02-28"), text);
    }
}

/// The day before a term, its first and last day and the day after, also at the
/// ends of the calendar.
#[test]
fn on_show_from_the_first_to_the_last_day() {
    for (edition, t) in kinds() {
        let sheet = sheet_of(edition, t, &[Some(0)]);
        for (term, before, first, last, after) in [
            (
                (31, 59),
                "2000-01-31",
                "2000-02-01",
                "2000-02-29",
                "2000-03-01",
            ),
            (
                (366, 366),
                "2000-12-31",
                "2001-01-01",
                "2001-01-01",
                "2001-01-02",
            ),
            (
                (0, 365),
                "1999-12-31",
                "2000-01-01",
                "2000-12-31",
                "2001-01-01",
            ),
            (
                (36523, 36524),
                "2099-12-29",
                "2099-12-30",
                "2099-12-31",
                "2100-01-01",
            ),
        ] {
            let terms = term_sheet(&[term]);
            let line = format!("0 {first} {last} 0\n");
            assert_eq!(order(&sheet, &terms, first), line);
            assert_eq!(order(&sheet, &terms, last), line);
            for beside in [before, after] {
                let false_date = ["1999-12-31", "2100-01-01"].contains(&beside);
                let note = if false_date { NO_SUCH_DATE } else { NOTHING };
                assert_eq!(order(&sheet, &terms, beside), note, "{beside}");
            }
        }
    }
}

#[test]
fn every_day_of_the_calendar() {
    let sheet = three_written(Edition::BLANKED, 4);
    let terms = term_sheet(&[(10000, 30000), (0, 20000), (10000, 10000)]);
    let lines = [
        "1 2000-01-01 2054-10-04 17\n",
        "0 2027-05-19 2082-02-19 5\n",
        "2 2027-05-19 2027-05-19 192\n",
    ];
    for (day, date) in wall_dates().iter().enumerate() {
        let on = [day <= 20000, (10000..=30000).contains(&day), day == 10000];
        let text: String = (0..3).filter(|i| on[*i]).map(|i| lines[i]).collect();
        assert_eq!(order(&sheet, &terms, date), text, "{date}");
    }
}

#[test]
fn opening_above_closing_means_never() {
    let dates = wall_dates();
    for edition in Edition::ALL {
        let sheet = three_written(edition, 8);
        for never in [NEVER, (36524, 0), (36524, 36523), (9527, 9526)] {
            let terms = term_sheet(&[never, (0, 36524), never]);
            for day in [0, 1, 2, 9525, 9526, 9527, 9528, 36522, 36523, 36524] {
                let text = order(&sheet, &terms, &dates[day]);
                assert_eq!(text, "1 2000-01-01 2099-12-31 17\n", "{never:?} {day}");
            }
            let terms = term_sheet(&[never; 3]);
            assert_eq!(order(&sheet, &terms, "2026-01-31"), NOTHING);
        }
    }
}

#[test]
fn nothing_on_show_prints_nothing() {
    for (edition, t) in kinds() {
        let written = three_written(edition, t);
        let blank = edition.blank_sheet(3, t);
        assert_eq!(
            order(&written, &term_sheet(&[(5, 9); 3]), "2000-01-05"),
            NOTHING
        );
        assert_eq!(
            order(&written, &term_sheet(&[(5, 9); 3]), "2000-01-11"),
            NOTHING
        );
        assert_eq!(
            order(&blank, &term_sheet(&[ALWAYS; 3]), "2000-01-06"),
            NOTHING
        );
    }
}

// ---- The order ----

/// The closing day and the length don't count.
#[test]
fn equal_openings_stand_by_slot() {
    for edition in Edition::ALL {
        let lengths = [Some(9), Some(1), Some(192), Some(0), Some(5)];
        let sheet = sheet_of(edition, 6, &lengths);
        let terms = term_sheet(&[(7, 90), (7, 8), (6, 91), (7, 7), (6, 7)]);
        let text = "2 2000-01-07 2000-04-01 192\n\
                    4 2000-01-07 2000-01-08 5\n\
                    0 2000-01-08 2000-03-31 9\n\
                    1 2000-01-08 2000-01-09 1\n\
                    3 2000-01-08 2000-01-08 0\n";
        assert_eq!(order(&sheet, &terms, "2000-01-08"), text);
    }
}

/// The last slot comes first; a write number has no say.
#[test]
fn falling_openings_of_256_slots() {
    let dates = wall_dates();
    for edition in Edition::ALL {
        let lengths: Vec<_> = (0..256).map(|slot| Some(slot % 193)).collect();
        let sheet = sheet_of(edition, 4, &lengths);
        // Also openings whose high byte falls while the low byte rises.
        for step in [1, 100, 127, 143] {
            let falling = (0..256).map(|slot| (step * (255 - slot), 36524));
            let terms = term_sheet(&falling.collect::<Vec<Term>>());
            let line = |slot: usize| {
                let opening = &dates[usize::from(step) * (255 - slot)];
                format!("{slot} {opening} 2099-12-31 {}\n", slot % 193)
            };
            let text: String = (0..256).rev().map(line).collect();
            assert_eq!(order(&sheet, &terms, "2099-12-31"), text);
        }
        let text = order(&sheet, &term_sheet(&[ALWAYS; 256]), "2026-01-31");
        let line = |slot| format!("{slot} 2000-01-01 2099-12-31 {}\n", slot % 193);
        assert_eq!(text, (0..256).map(line).collect::<String>());
    }
}

#[test]
fn every_way_of_opening_five_slots() {
    let dates = wall_dates();
    let sheet = sheet_of(Edition::BLANKED, 21, &[Some(3); 5]);
    for way in 0..5_usize.pow(5) {
        let opening = |slot: u32| 254 + (way / 5_usize.pow(slot) % 5) as u16;
        let terms: Vec<Term> = (0..5).map(|slot| (opening(slot), 300)).collect();
        let terms = term_sheet(&terms);
        let text = order(&sheet, &terms, "2000-09-13");
        assert_eq!(text, expected(&dates, &sheet, &terms, "2000-09-13"));
    }
}

// ---- Which slots ----

/// A blank slot has no line, one with an empty caption has.
#[test]
fn a_blank_slot_has_no_line_though_its_term_holds_the_day() {
    let mut random = Random::new(400);
    for (edition, t) in kinds() {
        let keys = unlike(&mut random, t);
        let mut sheet = blank_for(edition, &keys, 4, t);
        let terms = term_sheet(&[ALWAYS, (1, 2), ALWAYS, ALWAYS]);
        let lines = |slots: &[(usize, usize)]| -> String {
            let line = |(slot, length)| format!("{slot} 2000-01-01 2099-12-31 {length}\n");
            slots.iter().copied().map(line).collect()
        };
        let now = |sheet: &[u8]| order(sheet, &terms, "2026-01-31");
        assert_eq!(now(&sheet), NOTHING);
        write(&keys, &mut sheet, 3, &[b'x'; 192]);
        write(&keys, &mut sheet, 1, b"off show");
        assert_eq!(now(&sheet), lines(&[(3, 192)]));
        write(&keys, &mut sheet, 0, b"");
        assert_eq!(now(&sheet), lines(&[(0, 0), (3, 192)]));
        write(&keys, &mut sheet, 2, "caf\u{e9}".as_bytes());
        write(&keys, &mut sheet, 3, b"abc");
        assert_eq!(now(&sheet), lines(&[(0, 0), (2, 5), (3, 3)]));
        reference::clear(&mut sheet, 0);
        reference::clear(&mut sheet, 3);
        assert_eq!(now(&sheet), lines(&[(2, 5)]));
        reference::clear(&mut sheet, 2);
        assert_eq!(now(&sheet), NOTHING);
    }
}

/// A read refuses them with 10 or 14; the length is what the mark says.
#[test]
fn altered_captions_have_their_lines() {
    let mut random = Random::new(401);
    for (edition, t) in kinds() {
        let keys = unlike(&mut random, t);
        let mut sheet = blank_for(edition, &keys, 2, t);
        write(&keys, &mut sheet, 0, b"gone");
        write(&keys, &mut sheet, 1, b"caption");
        let terms = term_sheet(&[NEVER, ALWAYS]);
        let (mark, field) = (edition.mark_place(1).start, edition.field_place(2, 1));
        let altered_at = [
            mark + 3,
            mark + 5,
            mark + 8,
            mark + 15,
            field.start,
            field.end - 1,
        ];
        for (place, length) in altered_at.into_iter().zip([7, 6, 7, 7, 7, 7]) {
            let mut altered = sheet.clone();
            altered[place] ^= if place == mark + 3 { 3 } else { 1 };
            assert_eq!(read(&keys, &altered, 1).0, refused(10), "{place}");
            let line = format!("1 2000-01-01 2099-12-31 {length}\n");
            assert_eq!(order(&altered, &terms, "2026-01-31"), line, "{place}");
        }
        if let Edition::Three(_) = edition {
            sheet[10] ^= 1;
            assert_eq!(read(&keys, &sheet, 1).0, refused(14));
            let line = "1 2000-01-01 2099-12-31 7\n";
            assert_eq!(order(&sheet, &terms, "2026-01-31"), line);
        }
    }
}

#[test]
fn every_length_is_printed() {
    for edition in Edition::ALL {
        let terms = term_sheet(&[(59, 60)]);
        for length in 0..=193 {
            let text = order(&sheet_of(edition, 4, &[Some(length)]), &terms, "2000-02-29");
            let line = format!("0 2000-02-29 2000-03-01 {length}\n");
            assert_eq!(text, if length <= 192 { &line } else { UNFIT });
        }
    }
}

// ---- Unfit sheets of either kind ----

/// A date that is false, and one on which all is on show.
const BOTH_DATES: [&str; 2] = ["2026-02-30", "2026-01-31"];

#[test]
fn a_caption_sheet_with_any_rule_broken_is_unfit() {
    let terms = term_sheet(&[ALWAYS; 3]);
    for (edition, t) in kinds() {
        let good = three_written(edition, t);
        assert_eq!(order(&good, &terms, "2026-01-31").lines().count(), 3);
        for rule in Break::all(edition) {
            for way in 0..BREAK_WAYS {
                let broken = broken_sheet(edition, &good, &[rule], way);
                for date in BOTH_DATES {
                    assert_eq!(order(&broken, &terms, date), UNFIT, "{rule:?} {way}");
                }
            }
        }
    }
}

/// A bit of a field or a check changes nothing; others make it unfit or another
/// sheet that fits.
#[test]
fn every_bit_of_a_caption_sheet_flipped() {
    let dates = wall_dates();
    let terms = term_sheet(&[(9, 36524), (5, 36524), (7, 36524)]);
    for edition in Edition::ALL {
        let good = sheet_of(edition, 4, &[Some(5), None, Some(128)]);
        let text = order(&good, &terms, "2026-01-31");
        let (mut unfit, mut same) = (0, 0);
        for bit in 0..8 * good.len() {
            let mut sheet = good.clone();
            sheet[bit / 8] ^= 1 << (bit % 8);
            let flipped = order(&sheet, &terms, "2026-01-31");
            assert_eq!(
                flipped,
                expected(&dates, &sheet, &terms, "2026-01-31"),
                "{bit}"
            );
            unfit += usize::from(flipped == UNFIT);
            same += usize::from(flipped == text);
        }
        assert!(unfit > 1600 && same > 3000, "{unfit} {same}");
    }
}

#[test]
fn a_caption_sheet_of_another_length_is_unfit() {
    let terms = term_sheet(&[ALWAYS; 3]);
    for edition in Edition::ALL {
        let good = three_written(edition, 4);
        for length in 0..good.len() {
            assert_eq!(
                order(&good[..length], &terms, "2026-01-31"),
                UNFIT,
                "{length}"
            );
        }
        for more in [1, 2, 8, 208, 65536] {
            let longer = [good.clone(), vec![0; more]].concat();
            assert_eq!(order(&longer, &terms, "2026-01-31"), UNFIT, "{more}");
        }
    }
}

/// Of another n, another length, or with a day above the last in any entry, a
/// blank slot's too.
#[test]
fn an_unfit_term_sheet() {
    let good = term_sheet(&[(36524, 36524); 3]);
    for (edition, t) in kinds() {
        let sheet = sheet_of(edition, t, &[Some(5), None, Some(6)]);
        let is_unfit = |terms: &[u8], what: usize| {
            for date in BOTH_DATES {
                assert_eq!(order(&sheet, terms, date), UNFIT, "{what}");
            }
        };
        assert_eq!(order(&sheet, &good, "2099-12-31").lines().count(), 2);
        for length in 0..good.len() {
            is_unfit(&good[..length], length);
        }
        for more in [1, 2, 4, 65536] {
            is_unfit(&[good.clone(), vec![0; more]].concat(), more);
        }
        for n in [0, 1, 2, 4, 256, 259, 0x0300, 65535] {
            let mut other_n = good.clone();
            put_number(&mut other_n, 0, n);
            is_unfit(&other_n, usize::from(n));
        }
        for n in [1, 2, 4, 256] {
            is_unfit(&term_sheet(&vec![ALWAYS; n]), n);
        }
        for place in (1..=6).map(|entry| 2 * entry) {
            for day in [36525, 36526, 65535] {
                let mut above = good.clone();
                put_number(&mut above, place, day);
                is_unfit(&above, place);
            }
        }
    }
}

#[test]
fn exchanged_files_are_unfit() {
    for (edition, t) in kinds() {
        for n in [1, 3, 256] {
            let sheet = sheet_of(edition, t, &vec![Some(1); n]);
            let terms = term_sheet(&vec![ALWAYS; n]);
            for date in BOTH_DATES {
                assert_eq!(order(&terms, &sheet, date), UNFIT);
                assert_eq!(order(&sheet, &sheet, date), UNFIT);
                assert_eq!(order(&terms, &terms, date), UNFIT);
            }
        }
    }
}

// ---- Dates as text ----

#[test]
fn every_date_both_ways() {
    let dates = wall_dates();
    assert_eq!(dates.len(), 36525);
    for (day, date) in dates.iter().enumerate() {
        assert_eq!(date_text(day), *date);
        assert_eq!(day_of_text(date.as_bytes()), Some(day));
    }
}

#[test]
fn a_day_above_the_last_has_no_date() {
    for day in [36525, 36526, 65535, 65536, 1 << 32, usize::MAX] {
        assert_eq!(date_text(day), "0000-00-00");
    }
    assert_eq!(day_of_text(b"0000-00-00"), None);
}

/// Texts that are no date, or not in the form.
fn false_dates() -> Vec<String> {
    let mut texts = [
        "",
        "-",
        "2026",
        "20260101",
        "2026-2-03",
        "2026-02-3",
        "26-02-03",
        "2026-2-003",
        "2026-002-3",
        "02026-2-03",
        "02026-02-03",
        "2026-02-003",
        "2026-02-30",
        "2026-02-29",
        "2026-04-31",
        "2026-01-32",
        "2026-01-00",
        "2026-00-01",
        "2026-13-01",
        "2026-31-01",
        "2100-01-01",
        "2100-02-29",
        "1999-12-31",
        "0000-00-00",
        "0026-01-01",
        "9999-12-31",
        "01-01-2026",
        " 2026-01-01",
        "2026-01-01 ",
        "2026-01- 1",
        " 026-01-01",
        "2026-01-01\n",
        "\n2026-01-01",
        "2026-01-01\r\n",
        "2026-01-01\0",
        "2026-01-01T",
        "2026-01-012",
        "+026-01-01",
        "-026-01-01",
        "2026-+1-01",
        "2026--1-01",
        "2026-01-+1",
        "2026/01/01",
        "2026.01.01",
        "2026-01/01",
        "2026_01_01",
        "2026:01:01",
        "2026-0a-01",
        "0x7e-01-01",
        "2e03-01-01",
        // Full width, Arabic, in part, and other dashes.
        "\u{ff12}\u{ff10}\u{ff12}\u{ff16}-\u{ff10}\u{ff11}-\u{ff10}\u{ff11}",
        "202\u{ff16}-01-01",
        "2026-01-0\u{661}",
        "2026\u{2010}01\u{2010}01",
        "2026\u{2013}01\u{2013}01",
        "2026\u{2212}01-01",
        // Ten bytes, and ten characters of more.
        "\u{ff12}6-01-01",
        "2026-01-\u{e9}",
        "\u{feff}2026-01-01",
    ]
    .map(String::from)
    .to_vec();
    texts.push("2026-01-01".repeat(200));
    texts.push("2".repeat(2000));
    texts.push("0".repeat(1990) + "2026-01-01");
    texts
}

#[test]
fn false_dates_are_no_such_dates_where_both_sheets_fit() {
    for (edition, t) in kinds() {
        let (sheet, terms) = (three_written(edition, t), term_sheet(&[ALWAYS; 3]));
        for date in &false_dates() {
            assert_eq!(order(&sheet, &terms, date), NO_SUCH_DATE, "{date:?}");
            assert_eq!(order(&sheet, b"", date), UNFIT, "{date:?}");
            assert_eq!(order(b"", &terms, date), UNFIT, "{date:?}");
            assert_eq!(order(b"", b"", date), UNFIT, "{date:?}");
        }
        for date in ["2000-01-01", "2000-02-29", "2096-02-29", "2099-12-31"] {
            assert_eq!(order(&sheet, &terms, date).lines().count(), 3, "{date:?}");
        }
        // Also where nothing is on show.
        let never = term_sheet(&[NEVER; 3]);
        assert_eq!(order(&sheet, &never, "2026-02-30"), NO_SUCH_DATE);
    }
}

/// Holds that a text is taken exactly if it is on the wall.
fn as_on_the_wall(dates: &[String], text: &[u8]) -> usize {
    let day = wall_day(dates, text);
    assert_eq!(day_of_text(text), day, "{}", text.escape_ascii());
    usize::from(day.is_some())
}

#[test]
fn every_month_and_day_of_two_digits() {
    let dates = wall_dates();
    let mut taken = 0;
    for year in [0, 26, 1999, 2000, 2001, 2024, 2026, 2099, 2100, 2400, 9999] {
        for month in 0..100 {
            for day in 0..100 {
                let text = format!("{year:04}-{month:02}-{day:02}");
                taken += as_on_the_wall(&dates, text.as_bytes());
            }
        }
    }
    assert_eq!(taken, 2 * 366 + 3 * 365);
    for year in 0..10000 {
        taken += as_on_the_wall(&dates, format!("{year:04}-02-29").as_bytes());
    }
    assert_eq!(taken, 2 * 366 + 3 * 365 + 25);
}

#[test]
fn every_byte_with_every_value_put_in_and_taken_out() {
    let dates = wall_dates();
    for date in ["2000-01-01", "2024-02-29", "2026-11-30", "2099-12-31"] {
        let good = date.as_bytes();
        for place in 0..=10 {
            for value in 0..=255 {
                let put_in = [&good[..place], &[value], &good[place..]].concat();
                as_on_the_wall(&dates, &put_in);
                let mut changed = good.to_vec();
                if place < 10 {
                    changed[place] = value;
                }
                as_on_the_wall(&dates, &changed);
            }
            for end in place..=10 {
                let taken_out = [&good[..place], &good[end..]].concat();
                assert_eq!(
                    as_on_the_wall(&dates, &taken_out),
                    usize::from(end == place)
                );
            }
        }
    }
}

#[test]
fn random_texts_are_taken_exactly_if_they_are_on_the_wall() {
    let dates = wall_dates();
    let mut random = Random::new(402);
    let mut taken = 0;
    for _ in 0..50_000 {
        let mut text = b"2000-00-00".to_vec();
        for place in [2, 3, 5, 6, 8, 9] {
            text[place] = random.pick(b"0123456789");
        }
        text[5] = random.pick(b"0011-");
        text[8] = random.pick(b"01234");
        if random.below(4) == 0 {
            let place = random.below(10);
            text[place] = random.pick(b"0123456789-+ /");
        }
        taken += as_on_the_wall(&dates, &text);
    }
    assert!((10_000..30_000).contains(&taken), "{taken}");
}

// ---- Read back ----

/// A decimal number without leading zeros.
fn plain_number(text: &str) -> usize {
    let number: usize = text.parse().unwrap();
    assert_eq!(number.to_string(), text);
    number
}

/// What the lines say; each has four fields and ends with a line feed.
fn read_back(dates: &[String], text: &str) -> Vec<Showing> {
    assert!(text.is_empty() || text.ends_with('\n'));
    let showing = |line: &str| {
        let fields: Vec<&str> = line.split(' ').collect();
        let [slot, opening, closing, length] = fields[..] else {
            panic!("{line:?}");
        };
        Showing {
            slot: plain_number(slot),
            opening: wall_day(dates, opening.as_bytes()).unwrap(),
            closing: wall_day(dates, closing.as_bytes()).unwrap(),
            length: plain_number(length) as u16,
        }
    };
    text.split_terminator('\n').map(showing).collect()
}

/// A sheet of some written slots, each with any mark and field that fit.
fn random_sheet(random: &mut Random, edition: Edition, t: usize, n: usize) -> Vec<u8> {
    let mut sheet = edition.blank_sheet(n, t);
    let w = 1 + random.below(1000);
    set_w(&mut sheet, w as u32);
    for slot in (0..n).filter(|_| random.below(4) > 0).collect::<Vec<_>>() {
        let mark = edition.mark_place(slot);
        let bytes = random.bytes(mark.len());
        sheet[mark.clone()].copy_from_slice(&bytes);
        put_number(&mut sheet, mark.start, 0);
        put_number(&mut sheet, mark.start + 2, 1 + random.below(w) as u16);
        put_number(&mut sheet, mark.start + 4, random.below(193) as u16);
        put_number(&mut sheet, mark.start + 6, 0);
        let first = edition.field_place(n, slot).start;
        sheet[first..first + 8].copy_from_slice(&random.block());
    }
    sheet
}

/// Terms that end about the same few days.
fn random_terms(random: &mut Random, n: usize, start: usize, days: usize) -> Vec<u8> {
    let mut day = || (start + random.below(days)) as u16;
    let terms: Vec<Term> = (0..n).map(|_| (day(), day())).collect();
    term_sheet(&terms)
}

#[test]
fn what_is_printed_is_read_back_as_the_written_slots_on_show() {
    let dates = wall_dates();
    let mut random = Random::new(403);
    let mut lines = 0;
    for (edition, t) in kinds() {
        for round in 0..60 {
            let n = [1, 2, 3, 5, 17, 100, 256][round % 7];
            let days = random.pick(&[1, 3, 20, 300, 36525]);
            let start = random.below(36526 - days);
            let sheet = random_sheet(&mut random, edition, t, n);
            let terms = random_terms(&mut random, n, start, days);
            let day = start + random.below(days);
            let text = order(&sheet, &terms, &dates[day]);
            assert_eq!(text, expected(&dates, &sheet, &terms, &dates[day]));
            let mut showings = read_back(&dates, &text);
            let typed = RunningOrder::of(&sheet, &terms, dates[day].as_bytes());
            assert_eq!(typed, RunningOrder::Showings(showings.clone()));
            let place = |showing: &Showing| (showing.opening, showing.slot);
            assert!(showings.is_sorted_by(|one, next| place(one) < place(next)));
            showings.sort_by_key(|showing| showing.slot);
            assert_eq!(showings, on_show_by_slot(&sheet, &terms, day));
            lines += showings.len();
        }
    }
    assert!(lines > 5000, "{lines}");
}

#[test]
fn any_bytes_are_answered() {
    let dates = wall_dates();
    let mut random = Random::new(404);
    for _ in 0..3000 {
        let n = 1 + random.below(3);
        let (edition, t) = random.pick(&kinds().collect::<Vec<_>>());
        let mut sheet = random_sheet(&mut random, edition, t, n);
        let mut terms = random_terms(&mut random, n, 9000, 300);
        let mut date = dates[9000 + random.below(300)].clone();
        for _ in 0..random.below(3) {
            let place = random.below(sheet.len().min(40));
            sheet[place] = random.pick(&[0, 1, 2, 3, 4, 192, 255]);
        }
        for _ in 0..random.below(2) {
            let place = random.below(terms.len());
            terms[place] = random.pick(&[0, 1, 2, 3, 0x8e, 0x8f, 255]);
        }
        match random.below(8) {
            0 => sheet.truncate(random.below(30)),
            1 => terms.truncate(random.below(10)),
            2 => date.truncate(random.below(10)),
            _ => {}
        }
        let text = order(&sheet, &terms, &date);
        assert_eq!(text, expected(&dates, &sheet, &terms, &date));
    }
}

// ---- The program ----

/// A folder of a test's own, with nothing in it.
fn folder(name: &str) -> PathBuf {
    let folder = Path::new(env!("CARGO_TARGET_TMPDIR"))
        .join("order")
        .join(name);
    let _ = fs::remove_dir_all(&folder);
    fs::create_dir_all(&folder).unwrap();
    folder
}

/// A new file in a folder.
fn file(folder: &Path, name: impl AsRef<OsStr>, bytes: &[u8]) -> PathBuf {
    let path = folder.join(name.as_ref());
    fs::write(&path, bytes).unwrap();
    path
}

/// What the program prints with these operands.
fn program(operands: &[&OsStr]) -> String {
    let mut arguments = vec![OsString::from("order")];
    arguments.extend(operands.iter().map(OsString::from));
    String::from_utf8(printed(&arguments, b"")).unwrap()
}

/// A caption sheet and its term sheet in files.
fn two_files(folder: &Path) -> (PathBuf, PathBuf) {
    let terms = term_sheet(&[(9527, 9555), ALWAYS, NEVER]);
    let sheet = three_written(Edition::BLANKED, 24);
    (file(folder, "sheet", &sheet), file(folder, "terms", &terms))
}

/// What is printed of these two files on 2026-01-31.
const TWO_LINES: &str = "1 2000-01-01 2099-12-31 17\n0 2026-01-31 2026-02-28 5\n";

#[test]
fn the_program_prints_the_running_order() {
    let folder = folder("prints");
    let (sheet, terms) = two_files(&folder);
    let (sheet, terms) = (sheet.as_os_str(), terms.as_os_str());
    let date = OsStr::new("2026-01-31");
    assert_eq!(program(&[sheet, terms, date]), TWO_LINES);
    // What follows the date is passed over.
    assert_eq!(program(&[sheet, terms, date, OsStr::new("")]), TWO_LINES);
    assert_eq!(program(&[sheet, terms, date, date, sheet]), TWO_LINES);
    let terms = file(&folder, "never", &term_sheet(&[NEVER; 3]));
    assert_eq!(program(&[sheet, terms.as_os_str(), date]), NOTHING);
}

#[test]
fn the_program_takes_the_longest_sheets() {
    let folder = folder("longest");
    let lengths: Vec<_> = (0..256).map(|slot| Some(slot % 193)).collect();
    let falling: Vec<Term> = (0..256).map(|slot| (255 - slot, 36524)).collect();
    let terms = term_sheet(&falling);
    let terms_file = file(&folder, "terms", &terms);
    for (edition, t) in kinds() {
        let sheet = sheet_of(edition, t, &lengths);
        let sheet_file = file(&folder, format!("sheet {edition:?} {t}"), &sheet);
        let date = OsStr::new("2026-01-31");
        let text = program(&[sheet_file.as_os_str(), terms_file.as_os_str(), date]);
        assert_eq!(text, order(&sheet, &terms, "2026-01-31"));
        assert_eq!(text.lines().count(), 256);
    }
}

/// A name is any text or, on Unix, any bytes.
#[test]
fn the_program_takes_any_file_name() {
    let folder = folder("names");
    let (sheet, terms) = two_files(&folder);
    let mut names = [
        "-",
        "--help",
        "a b",
        " ",
        "2026-01-31",
        "caf\u{e9}",
        "a\nb",
        "*",
    ]
    .map(OsString::from)
    .to_vec();
    #[cfg(unix)]
    {
        use std::os::unix::ffi::OsStrExt;
        names.extend(
            [&b"\xff"[..], b"caf\xe9", b"\xed\xa0\x80"].map(|b| OsStr::from_bytes(b).into()),
        );
    }
    for name in &names {
        let path = folder.join(name);
        let Ok(_) = fs::copy(&sheet, &path) else {
            report(&format!(
                "order: skipped: no file can be named {name:?} here"
            ));
            continue;
        };
        let date = OsStr::new("2026-01-31");
        assert_eq!(
            program(&[path.as_os_str(), terms.as_os_str(), date]),
            TWO_LINES
        );
        fs::copy(&terms, &path).unwrap();
        assert_eq!(
            program(&[sheet.as_os_str(), path.as_os_str(), date]),
            TWO_LINES
        );
        fs::remove_file(&path).unwrap();
    }
}

/// In the place of the one file and of the other, with a true date, a false one and
/// none.
#[test]
fn the_program_prints_unfit_for_a_file_that_cannot_be_read_or_is_not_fit() {
    let folder = folder("unfit");
    let (sheet, terms) = two_files(&folder);
    let (sheet, terms) = (sheet.as_os_str(), terms.as_os_str());
    let mut longer = three_written(Edition::BLANKED, 24);
    longer.resize(1 << 20, 0);
    let mut unfit = vec![
        PathBuf::new(),
        folder.clone(),
        folder.join("missing"),
        folder.join("missing").join("sheet"),
        Path::new(sheet).join("within a file"),
        folder.join("n".repeat(5000)),
        file(&folder, "empty", b""),
        file(&folder, "longer", &longer),
        file(&folder, "lines", TWO_LINES.as_bytes()),
    ];
    // A file without an end.
    unfit.extend(Path::new("/dev/zero").exists().then(|| "/dev/zero".into()));
    for unfit in &unfit {
        let unfit = unfit.as_os_str();
        for pair in [[unfit, terms], [sheet, unfit], [unfit, unfit]] {
            for date in BOTH_DATES {
                let operands = [pair[0], pair[1], OsStr::new(date)];
                assert_eq!(program(&operands), UNFIT, "{operands:?}");
            }
            assert_eq!(program(&pair), UNFIT, "{pair:?}");
        }
    }
    assert_eq!(program(&[terms, sheet, OsStr::new("2026-01-31")]), UNFIT);
    assert_eq!(program(&[sheet, sheet, OsStr::new("2026-01-31")]), UNFIT);
}

#[test]
fn the_program_prints_unfit_for_an_unnamed_file() {
    let folder = folder("unnamed");
    let (sheet, terms) = two_files(&folder);
    assert_eq!(program(&[]), UNFIT);
    assert_eq!(program(&[sheet.as_os_str()]), UNFIT);
    assert_eq!(program(&[terms.as_os_str()]), UNFIT);
    let date = OsStr::new("2026-01-31");
    assert_eq!(program(&[date]), UNFIT);
    assert_eq!(program(&[sheet.as_os_str(), date]), UNFIT);
    assert_eq!(
        program(&[date, sheet.as_os_str(), terms.as_os_str()]),
        UNFIT
    );
}

#[test]
fn the_program_prints_no_such_date_for_a_false_or_missing_date() {
    let folder = folder("dates");
    let (sheet, terms) = two_files(&folder);
    let (sheet, terms) = (sheet.as_os_str(), terms.as_os_str());
    assert_eq!(program(&[sheet, terms]), NO_SUCH_DATE);
    // No argument of a program has a zero byte.
    let dates = false_dates()
        .into_iter()
        .filter(|date| !date.contains('\0'));
    let mut dates: Vec<OsString> = dates.map(OsString::from).collect();
    #[cfg(unix)]
    {
        use std::os::unix::ffi::OsStrExt;
        dates.extend(
            [&b"2026-01-3\xff"[..], b"\xff", b"2026-01-31\xff"]
                .map(|b| OsStr::from_bytes(b).into()),
        );
    }
    for date in &dates {
        assert_eq!(program(&[sheet, terms, date]), NO_SUCH_DATE, "{date:?}");
    }
    let next = OsStr::new("2026-01-31");
    assert_eq!(program(&[sheet, terms, OsStr::new(""), next]), NO_SUCH_DATE);
}
