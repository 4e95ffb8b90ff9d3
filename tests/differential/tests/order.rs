//! The running order of a day (document 02, request 11), with outputs exactly large
//! enough, larger and one byte short, and with texts that are written out or found
//! here beside the second program's.

use differential::both::Both;
use differential::edition::Edition;
use differential::lent::Place;
use differential::letters::good_text;
use differential::random::{seed, Random};
use differential::report;
use differential::sheets::{
    caption_length, fit_sheet, kinds, near_sheet, set_last_number, Keys, FAULTS,
};
use differential::term_sheet::{
    closing_place, number_at, on_show, opening_place, put_number, term_sheet, Term, ALWAYS,
    LAST_DAY, NEVER,
};
use differential::terms::{day_near, fit_terms, some_terms};
use reference::calendar::date_text;

const UNFIT: &str = "unfit\n";
const NO_SUCH_DATE: &str = "no such date\n";
const NOTHING: &str = "";

/// The longest text: 256 lines, each length of three digits.
const LONGEST: usize = 7_570;

fn both(test: &str) -> Both {
    Both::new(Place::Guarded, &format!("{test}, seed {:#x}", seed()))
}

fn done(both: &Both, what: &str) {
    both.hold_met([0, 3]);
    let (calls, met) = (both.calls, both.numbers_met());
    report(&format!("order: {what}: {calls} calls: {met}"));
}

/// Holds the running order to a text.
fn hold(both: &mut Both, sheet: &[u8], terms: &[u8], date: &str, text: &str) {
    let found = both.order(sheet, terms, date.as_bytes());
    let found = String::from_utf8_lossy(&found);
    assert_eq!(found, text, "{}: {date:?}", both.label);
}

/// The running order into an output exactly large enough alone, for the longest series.
fn exactly(both: &mut Both, sheet: &[u8], terms: &[u8], date: &[u8]) -> Vec<u8> {
    let text = reference::running_order(sheet, terms, date);
    both.order_into(sheet, terms, date, &text, text.len());
    text
}

/// A slot with a length is written, over a field and a check that no key made; one
/// without is blank.
fn sheet_of(edition: Edition, t: usize, lengths: &[Option<u16>]) -> Vec<u8> {
    let n = lengths.len();
    let mut sheet = edition.blank_sheet(n, t);
    set_last_number(&mut sheet, 300);
    for (slot, length) in lengths.iter().enumerate() {
        if let Some(length) = length {
            let mark = edition.mark_place(slot).start;
            // The higher slot has the lower write number, which has no say.
            put_number(&mut sheet, mark + 2, 300 - slot as u16);
            put_number(&mut sheet, mark + 4, *length);
            sheet[edition.field_place(n, slot)].fill(0x3c);
        }
    }
    sheet
}

/// Three written slots and terms that hold every day.
fn three_always(edition: Edition, t: usize) -> (Vec<u8>, Vec<u8>) {
    let sheet = sheet_of(edition, t, &[Some(5), Some(17), Some(192)]);
    (sheet, term_sheet(&[ALWAYS; 3]))
}

const THREE_ALWAYS: &str = "\
0 2000-01-01 2099-12-31 5
1 2000-01-01 2099-12-31 17
2 2000-01-01 2099-12-31 192
";

// ---- Lines ----

/// Slots 1 and 4 are blank, slot 5's term holds no day, and slots 2 and 3 open alike.
#[test]
fn lines_written_out_with_every_class() {
    let mut both = both("lines written out");
    let term = |opening, closing| (opening, closing);
    for (edition, t) in kinds() {
        let lengths = [Some(0), None, Some(17), Some(192), None, Some(3), Some(9)];
        let sheet = sheet_of(edition, t, &lengths);
        let terms = term_sheet(&[
            term(9_618, 36_524),
            ALWAYS,
            term(9_617, 9_618),
            term(9_617, 9_617),
            NEVER,
            term(9_618, 9_617),
            ALWAYS,
        ]);
        let [last, pair] = [
            "6 2000-01-01 2099-12-31 9\n",
            "2 2026-05-01 2026-05-02 17\n",
        ];
        let one_day = "3 2026-05-01 2026-05-01 192\n";
        let open = "0 2026-05-02 2099-12-31 0\n";
        for (date, lines) in [
            ("2000-01-01", vec![last]),
            ("2026-04-30", vec![last]),
            ("2026-05-01", vec![last, pair, one_day]),
            ("2026-05-02", vec![last, pair, open]),
            ("2026-05-03", vec![last, open]),
            ("2099-12-31", vec![last, open]),
        ] {
            hold(&mut both, &sheet, &terms, date, &lines.concat());
        }
        hold(&mut both, &sheet, &terms, "2026-05-00", NO_SUCH_DATE);
        hold(&mut both, &sheet, &terms[1..], "2026-05-00", UNFIT);
    }
    done(&both, "lines written out, every class");
}

/// The day before a term, its first and its last day and the day after, for ends
/// beside a carry, a month's end and the calendar's.
#[test]
fn ends_of_terms() {
    let mut both = both("ends of terms");
    let ends = [0, 1, 2, 58, 59, 60, 255, 256, 257, 9_617, 36_523, 36_524];
    for (edition, t) in kinds() {
        let sheet = sheet_of(edition, t, &[Some(100)]);
        for opening in ends {
            for closing in ends {
                let terms = term_sheet(&[(opening as u16, closing as u16)]);
                let (first, last) = (date_text(opening), date_text(closing));
                let line = format!("0 {first} {last} 100\n");
                for end in [opening, closing] {
                    for day in end.saturating_sub(1)..=(end + 1).min(LAST_DAY) {
                        let on = opening <= day && day <= closing;
                        let text = if on { &line } else { NOTHING };
                        hold(&mut both, &sheet, &terms, &date_text(day), text);
                    }
                }
            }
        }
    }
    done(&both, "terms, one day before, at and after each end");
}

/// Each end of each term of seeded pairs, by its own days.
#[test]
fn ends_of_every_term_of_seeded_pairs() {
    let mut random = Random::of_part(410);
    let mut both = both("ends of every term");
    let mut lines = 0;
    for (edition, t) in kinds() {
        for n in [1, 2, 3, 10, 11, 40] {
            let sheet = fit_sheet(&mut random, edition, n, t);
            let terms = fit_terms(&mut random, n);
            for slot in 0..n {
                let opening = number_at(&terms, opening_place(slot));
                let closing = number_at(&terms, closing_place(n, slot));
                for day in [opening.max(1) - 1, opening, closing, closing + 1] {
                    let text = both.order(&sheet, &terms, date_text(day).as_bytes());
                    lines += text.iter().filter(|byte| **byte == b'\n').count();
                }
            }
        }
    }
    assert!(lines > 1_000, "{lines} lines");
    done(&both, &format!("ends of every term, {lines} lines"));
}

// ---- The order ----

/// Five slots over five opening days in every way, equal ones among them.
#[test]
fn every_way_of_opening_five_slots() {
    let mut both = both("every way of opening");
    let sheet = sheet_of(Edition::BLANKED, 24, &[Some(3); 5]);
    for way in 0..5_usize.pow(5) {
        // Both sides of a carry.
        let opening = |slot: usize| 254 + way / 5_usize.pow(slot as u32) % 5;
        let terms: Vec<Term> = (0..5).map(|slot| (opening(slot) as u16, 300)).collect();
        let mut text = String::new();
        for day in 254..259 {
            for slot in (0..5).filter(|slot| opening(*slot) == day) {
                text += &format!("{slot} {} 2000-10-27 3\n", date_text(day));
            }
        }
        hold(&mut both, &sheet, &term_sheet(&terms), "2000-10-27", &text);
    }
    done(&both, "every way of opening five slots");
}

/// Counts of slots at which halves are even, odd and of one slot, with openings that
/// rise, fall, are equal, go up and down, and fall in steps of equal ones.
#[test]
fn rising_falling_and_equal_openings() {
    let mut both = both("rising, falling and equal openings");
    let openings: [fn(usize) -> usize; 6] = [
        |slot| 100 * slot,
        |slot| 25_500 - 100 * slot,
        |_| 9_617,
        |slot| slot * 37 % 256,
        |slot| 500 - slot / 5,
        |slot| (255 - slot) * 143,
    ];
    for edition in Edition::ALL {
        for n in (1..=17).chain([31, 32, 33, 127, 128, 129, 255, 256]) {
            let lengths: Vec<_> = (0..n).map(|slot| Some(slot as u16 * 7 % 193)).collect();
            let sheet = sheet_of(edition, 4, &lengths);
            for opening in openings {
                let terms: Vec<Term> = (0..n).map(|i| (opening(i) as u16, 36_524)).collect();
                // A stable order by the opening alone, found by inserting.
                let mut order: Vec<usize> = Vec::new();
                for slot in 0..n {
                    let place = order.partition_point(|other| opening(*other) <= opening(slot));
                    order.insert(place, slot);
                }
                let line = |slot: &usize| {
                    let (date, length) = (date_text(opening(*slot)), slot * 7 % 193);
                    format!("{slot} {date} 2099-12-31 {length}\n")
                };
                let text: String = order.iter().map(line).collect();
                hold(&mut both, &sheet, &term_sheet(&terms), "2099-12-31", &text);
            }
        }
    }
    done(
        &both,
        "rising, falling and equal openings of 1 to 256 slots",
    );
}

/// 256 lines of lengths with three digits: 7570 bytes are enough, 7569 are not.
#[test]
fn the_longest_text() {
    let mut both = both("the longest text");
    for (edition, t) in kinds() {
        for length in [100, 192] {
            let sheet = sheet_of(edition, t, &[Some(length); 256]);
            let falling: Vec<Term> = (0..256).map(|i| (9_617 - i, 9_617 + i)).collect();
            let terms = term_sheet(&falling);
            let line = |slot: usize| {
                let (opening, closing) = (date_text(9_617 - slot), date_text(9_617 + slot));
                format!("{slot} {opening} {closing} {length}\n")
            };
            let text: String = (0..256).rev().map(line).collect();
            assert_eq!(text.len(), LONGEST);
            hold(&mut both, &sheet, &terms, "2026-05-01", &text);
            for out in [0, 1, 7_568, 7_569, 7_570, 7_571, 8_704, 70_000] {
                both.order_into(&sheet, &terms, b"2026-05-01", text.as_bytes(), out);
            }
        }
    }
    done(&both, "the longest text, 7570 bytes");
}

// ---- Which slots ----

/// A written sheet of a pair of keys, with terms that hold every day.
fn written(random: &mut Random, edition: Edition, t: usize, n: usize) -> (Keys, Vec<u8>) {
    let keys = Keys::unlike(random, t);
    let mut sheet = keys.blank_sheet(edition, n, t);
    for slot in 0..n {
        let length = caption_length(random);
        let caption = good_text(random, length);
        let answer = reference::write(&keys.sealing, &keys.checking, &mut sheet, slot, &caption);
        assert_eq!(answer.number, 0);
    }
    (keys, sheet)
}

/// Every byte of a slot's check and field changed, which a read answers with 10; the
/// text stays. In edition 3 the key mark's bytes too, which a read answers with 14.
#[test]
fn altered_captions() {
    let mut random = Random::of_part(411);
    let mut both = both("altered captions");
    for (edition, t) in kinds() {
        let (keys, sheet) = written(&mut random, edition, t, 3);
        let terms = term_sheet(&[(9, 36_524), (7, 36_524), (8, 36_524)]);
        let text = both.order(&sheet, &terms, b"2026-05-01");
        assert_eq!(text.iter().filter(|byte| **byte == b'\n').count(), 3);
        let check = edition.mark_place(1).skip(8);
        let key_mark = 10..edition.header().max(10);
        for place in check.chain(edition.field_place(3, 1)).chain(key_mark) {
            let mut altered = sheet.clone();
            altered[place] ^= 1 << random.below(8);
            let number = if place < 16 && edition != Edition::One {
                14
            } else {
                10
            };
            // Edition 2's six bytes are zero, or the sheet is unfit.
            let unfit = number == 14 && edition.number() == 2;
            let answer = both.read(&keys, &altered, 1, 192).0;
            assert_eq!(answer.number, if unfit { 4 } else { number }, "{place}");
            let altered_text = both.order(&altered, &terms, b"2026-05-01");
            assert!(altered_text == if unfit { UNFIT.as_bytes() } else { &text });
        }
    }
    let (calls, met) = (both.calls, both.numbers_met());
    report(&format!("order: altered captions: {calls} calls: {met}"));
}

/// Every set of written slots of six, and every set of those on show.
#[test]
fn every_set_of_written_slots_and_of_slots_on_show() {
    let mut both = both("written slots and slots on show");
    for edition in Edition::ALL {
        for written in 0..64 {
            let lengths: Vec<_> = (0..6)
                .map(|slot| (written >> slot & 1 == 1).then_some(slot))
                .collect();
            let sheet = sheet_of(edition, 8, &lengths);
            for on in 0..64 {
                let term = |slot| if on >> slot & 1 == 1 { ALWAYS } else { NEVER };
                let terms: Vec<Term> = (0..6).map(term).collect();
                let shown = (0..6).filter(|slot| (written & on) >> slot & 1 == 1);
                let text: String = shown
                    .map(|slot| format!("{slot} 2000-01-01 2099-12-31 {slot}\n"))
                    .collect();
                hold(&mut both, &sheet, &term_sheet(&terms), "2026-05-01", &text);
            }
        }
    }
    done(&both, "every set of written slots and of slots on show");
}

/// No byte is put, whatever the output's length: blank sheets, terms that are over or
/// yet to come, and terms that hold no day.
#[test]
fn nothing_on_show() {
    let mut both = both("nothing on show");
    for (edition, t) in kinds() {
        for n in [1, 3, 256] {
            let full = sheet_of(edition, t, &vec![Some(1); n]);
            let blank = edition.blank_sheet(n, t);
            for (sheet, term) in [
                (&full, NEVER),
                (&full, (36_524, 0)),
                (&full, (9_618, 9_617)),
                (&full, (0, 9_616)),
                (&full, (9_618, 36_524)),
                (&blank, ALWAYS),
                (&blank, NEVER),
            ] {
                let terms = term_sheet(&vec![term; n]);
                hold(&mut both, sheet, &terms, "2026-05-01", NOTHING);
                for out in [0, 1, 6, 7_570] {
                    both.order_into(sheet, &terms, b"2026-05-01", b"", out);
                }
            }
        }
    }
    both.hold_met([0]);
    let calls = both.calls;
    report(&format!("order: nothing on show: {calls} calls"));
}

#[test]
fn every_length_of_a_caption() {
    let mut both = both("every length of a caption");
    let terms = term_sheet(&[(59, 60)]);
    for (edition, t) in kinds() {
        for length in (0..=195).chain([255, 256, 65_535]) {
            let sheet = sheet_of(edition, t, &[Some(length)]);
            let line = format!("0 2000-02-29 2000-03-01 {length}\n");
            let text = if length <= 192 { &line } else { UNFIT };
            hold(&mut both, &sheet, &terms, "2000-02-29", text);
        }
    }
    done(&both, "every length of a caption");
}

// ---- Unfit sheets of either kind ----

/// A true date, a false one and none.
const SOME_DATES: [&str; 3] = ["2026-05-01", "2026-02-30", ""];

/// Cut at every place of the header, and at places behind it; a byte too long.
#[test]
fn torn_caption_sheets() {
    let mut both = both("torn caption sheets");
    for (edition, t) in kinds() {
        let (sheet, terms) = three_always(edition, t);
        hold(&mut both, &sheet, &terms, "2026-05-01", THREE_ALWAYS);
        let places = (0..=edition.header() + 17).chain((34..sheet.len()).step_by(13));
        for length in places.chain([sheet.len() - 1]) {
            hold(&mut both, &sheet[..length], &terms, "2026-05-01", UNFIT);
        }
        for more in [1, 8, 208] {
            let longer = [&sheet[..], &vec![0; more]].concat();
            for date in SOME_DATES {
                hold(&mut both, &longer, &terms, date, UNFIT);
            }
        }
    }
    done(&both, "torn caption sheets");
}

/// Every value in every byte of the header, and of a mark.
#[test]
fn every_value_in_every_byte_of_the_header_and_a_mark() {
    let mut both = both("bytes of the header and a mark");
    let mut fit = 0;
    for (edition, t) in kinds() {
        let (good, terms) = three_always(edition, t);
        for place in (0..edition.header()).chain(edition.mark_place(1)) {
            for value in 0..=255 {
                let mut sheet = good.clone();
                sheet[place] = value;
                let text = exactly(&mut both, &sheet, &terms, b"2026-05-01");
                fit += usize::from(text != UNFIT.as_bytes());
            }
        }
    }
    assert!(fit > 10_000, "{fit} fit");
    both.hold_met([0]);
    let calls = both.calls;
    report(&format!(
        "order: header and mark bytes: {calls} calls, {fit} sheets fit"
    ));
}

/// Each rule of the layout broken, with terms and without, on dates true and false.
#[test]
fn caption_sheets_with_a_rule_broken() {
    let mut random = Random::of_part(412);
    let mut both = both("caption sheets with a rule broken");
    let mut unfit = 0;
    for (edition, t) in kinds() {
        for n in [1, 2, 3, 256] {
            for fault in 0..FAULTS {
                let sheet = near_sheet(&mut random, edition, n, t, fault);
                let terms = term_sheet(&vec![ALWAYS; n]);
                for date in SOME_DATES {
                    let text = both.order(&sheet, &terms, date.as_bytes());
                    let broken = !reference::fit(&sheet);
                    assert!(!broken || text == UNFIT.as_bytes());
                    unfit += usize::from(broken);
                }
                hold(&mut both, &sheet, b"", "2026-05-01", UNFIT);
            }
        }
    }
    done(
        &both,
        &format!("near-sheets, {unfit} calls with unfit ones"),
    );
}

/// Cut at every place, longer, of another n, with each day on both sides of the last.
#[test]
fn torn_term_sheets() {
    let mut both = both("torn term sheets");
    for (edition, t) in kinds() {
        let (sheet, good) = three_always(edition, t);
        for date in SOME_DATES {
            for length in 0..good.len() {
                hold(&mut both, &sheet, &good[..length], date, UNFIT);
            }
            for more in [1, 2, 4, 1_013, 1_014, 60_000] {
                let longer = [&good[..], &vec![0; more]].concat();
                hold(&mut both, &sheet, &longer, date, UNFIT);
            }
            for n in (0..=600).filter(|n| *n != 3).chain([768, 65_535]) {
                let mut other = good.clone();
                put_number(&mut other, 0, n);
                hold(&mut both, &sheet, &other, date, UNFIT);
            }
            for n in [1, 2, 4, 256] {
                let other = term_sheet(&vec![ALWAYS; n]);
                hold(&mut both, &sheet, &other, date, UNFIT);
            }
        }
    }
    done(&both, "torn term sheets");
}

/// In every entry, a blank slot's too: 36524 fits, and no later day.
#[test]
fn days_of_the_term_sheet() {
    let mut both = both("days of the term sheet");
    let carries = (0..=0xff).flat_map(|high| [high << 8, high << 8 | 0xff]);
    let days: Vec<u16> = (36_520..=36_530).chain(carries).collect();
    for edition in Edition::ALL {
        let sheet = sheet_of(edition, 6, &[Some(1), None, Some(3)]);
        for place in (1..=6).map(|entry| 2 * entry) {
            for day in &days {
                let mut terms = term_sheet(&[(300, 36_524); 3]);
                put_number(&mut terms, place, *day);
                let text = both.order(&sheet, &terms, b"2026-05-01");
                let unfit = text == UNFIT.as_bytes();
                assert_eq!(unfit, *day > 36_524, "{place} {day}");
            }
        }
    }
    done(&both, "days of the term sheet on both sides of 36524");
}

#[test]
fn exchanged_and_empty_files() {
    let mut both = both("exchanged and empty files");
    for (edition, t) in kinds() {
        for n in [1, 3, 256] {
            let sheet = sheet_of(edition, t, &vec![Some(1); n]);
            let terms = term_sheet(&vec![ALWAYS; n]);
            for date in SOME_DATES {
                for (first, second) in [
                    (&terms[..], &sheet[..]),
                    (&sheet, &sheet),
                    (&terms, &terms),
                    (&sheet, b""),
                    (b"", &terms),
                    (b"", b""),
                ] {
                    hold(&mut both, first, second, date, UNFIT);
                }
            }
        }
    }
    done(&both, "exchanged and empty files");
}

// ---- Dates as text ----

/// Each of 36525 dates, by a term of that day alone between two that it isn't in.
#[test]
fn every_date() {
    let mut both = both("every date");
    let sheet = sheet_of(Edition::BLANKED, 21, &[Some(1), Some(22), Some(192)]);
    for day in 0..=LAST_DAY {
        let today = day as u16;
        let terms = term_sheet(&[
            (0, today.max(1) - 1),
            (today, today),
            (36_524.min(today + 1), 36_524),
        ]);
        let date = date_text(day);
        let first = (day == 0).then(|| "0 2000-01-01 2000-01-01 1\n".to_string());
        let last = (day == LAST_DAY).then(|| "2 2099-12-31 2099-12-31 192\n".to_string());
        let line = format!("1 {date} {date} 22\n");
        let text: String = first.into_iter().chain([line]).chain(last).collect();
        hold(&mut both, &sheet, &terms, &date, &text);
    }
    done(&both, "every date from 2000-01-01 to 2099-12-31");
}

/// Every two digits for month and day, in years of and beside the range.
#[test]
fn every_month_and_day_of_two_digits() {
    let mut both = both("months and days of two digits");
    let (sheet, terms) = three_always(Edition::BLANKED, 4);
    let mut taken = 0;
    for year in [0, 1999, 2000, 2026, 2099, 2100, 9999] {
        for month in 0..100 {
            for day in 0..100 {
                let date = format!("{year:04}-{month:02}-{day:02}");
                let text = exactly(&mut both, &sheet, &terms, date.as_bytes());
                taken += usize::from(text == THREE_ALWAYS.as_bytes());
            }
        }
    }
    assert_eq!(taken, 366 + 2 * 365);
    for year in 0..=9999 {
        let date = format!("{year:04}-02-29");
        let text = exactly(&mut both, &sheet, &terms, date.as_bytes());
        taken += usize::from(text == THREE_ALWAYS.as_bytes());
    }
    assert_eq!(taken, 366 + 2 * 365 + 25);
    both.hold_met([0]);
    let calls = both.calls;
    report(&format!(
        "order: months and days of two digits: {calls} calls"
    ));
}

/// Every value at each place of dates whose neighbours are dates too, and every value
/// put in: what is taken is a date, by its digits.
#[test]
fn every_value_at_every_place_of_a_date() {
    let mut both = both("every value at every place");
    let (sheet, terms) = three_always(Edition::Two(7), 6);
    let mut taken = 0;
    for date in ["2000-01-01", "2024-02-29", "2026-11-30", "2099-12-31"] {
        for place in 0..=10 {
            for value in 0..=255 {
                let (before, behind) = date.as_bytes().split_at(place);
                let put_in = [before, &[value], behind].concat();
                let text = both.order(&sheet, &terms, &put_in);
                assert_eq!(text, NO_SUCH_DATE.as_bytes());
                if let [_, behind @ ..] = behind {
                    let changed = [before, &[value], behind].concat();
                    let text = both.order(&sheet, &terms, &changed);
                    let date = text == THREE_ALWAYS.as_bytes();
                    assert!(!date || value.is_ascii_digit() || (place % 3 == 1 && value == b'-'));
                    taken += usize::from(date);
                }
            }
        }
    }
    assert!((100..200).contains(&taken), "{taken} taken");
    done(
        &both,
        &format!("every value at every place of four dates, {taken} taken"),
    );
}

/// Lengths 0 to 12 and far ones, of dates cut, run on, and repeated.
#[test]
fn lengths_of_dates() {
    let mut both = both("lengths of dates");
    for (edition, t) in kinds() {
        let (sheet, terms) = three_always(edition, t);
        let long = "2026-05-01".repeat(201);
        for length in (0..=12).chain([20, 266, 1_034, 2_000]) {
            let date = &long[..length];
            let text = if length == 10 {
                THREE_ALWAYS
            } else {
                NO_SUCH_DATE
            };
            hold(&mut both, &sheet, &terms, date, text);
            hold(&mut both, &sheet, &terms[..13], date, UNFIT);
            if length > 0 {
                hold(
                    &mut both,
                    &sheet,
                    &terms,
                    &long[1..][..length],
                    NO_SUCH_DATE,
                );
            }
            for filling in ["0", "2", "-", "\0"] {
                let date = filling.repeat(length);
                hold(&mut both, &sheet, &terms, &date, NO_SUCH_DATE);
            }
        }
    }
    done(&both, "dates of 0 to 2000 characters");
}

#[test]
fn false_dates() {
    let mut both = both("false dates");
    let dates = [
        "2026-2-03",
        "2026-02-3",
        "2026-02-30",
        "2026-02-29",
        "2100-01-01",
        "1999-12-31",
        "0000-00-00",
        "2026-00-01",
        "2026-13-01",
        "2026-01-00",
        "2026-01-32",
        " 2026-01-01",
        "2026-01-01 ",
        " 026-01-01",
        "2026-01- 1",
        "2026-01-01\n",
        "\n2026-01-01",
        "2026-01-01\0",
        "2026-01-01T",
        "+026-01-01",
        "2026-01-+1",
        "2026/01/01",
        "2026\u{2212}01-01",
        "2026\u{2010}01\u{2010}01",
        // Full width, in whole and in part, also of ten bytes, and Arabic.
        "\u{ff12}\u{ff10}\u{ff12}\u{ff16}-\u{ff10}\u{ff15}-\u{ff10}\u{ff11}",
        "202\u{ff16}-05-01",
        "\u{ff12}6-05-01",
        "2026-05-0\u{661}",
        "\u{feff}2026-05-01",
        // Digits' low bits are right, or a sum of them is a date's.
        "rprv-pu-pq",
        "\"\u{10}\"&-\u{10}%-\u{10}!",
        "1:26-05-01",
        "2026-04-2;",
    ];
    for (edition, t) in kinds() {
        let (sheet, terms) = three_always(edition, t);
        for date in dates {
            hold(&mut both, &sheet, &terms, date, NO_SUCH_DATE);
            hold(&mut both, &sheet[1..], &terms, date, UNFIT);
            hold(&mut both, &sheet, &terms[1..], date, UNFIT);
        }
    }
    done(&both, "false dates");
}

// ---- Outputs ----

/// A text of five lines, one of none and both notes into every length of output.
#[test]
fn every_length_of_output() {
    let mut both = both("every length of output");
    for (edition, t) in kinds() {
        let sheet = sheet_of(
            edition,
            t,
            &[Some(1), Some(22), Some(192), Some(0), Some(9)],
        );
        let terms = term_sheet(&[(5, 9), (4, 9), (5, 8), ALWAYS, (3, 7)]);
        for (terms, date) in [
            (&terms[..], "2000-01-07"),
            (&terms, "2000-02-30"),
            (&term_sheet(&[NEVER; 5]), "2000-01-07"),
            (b"", "2000-01-07"),
        ] {
            let text = reference::running_order(&sheet, terms, date.as_bytes());
            for out in 0..=text.len() + 40 {
                both.order_into(&sheet, terms, date.as_bytes(), &text, out);
            }
        }
    }
    done(&both, "every length of output");
}

// ---- Random calls ----

/// A sheet, terms and a date: each most often fit, else near to it. Terms lie about a
/// few days, so that many open alike.
fn some_call(random: &mut Random, edition: Edition, t: usize, n: usize) -> [Vec<u8>; 3] {
    let sheet = match random.below(8) {
        0 => {
            let fault = random.below(FAULTS);
            near_sheet(random, edition, n, t, fault)
        }
        _ => fit_sheet(random, edition, n, t),
    };
    let terms = match random.below(4) {
        0 => some_terms(random, n),
        _ => {
            let days = random.pick(&[1, 2, 5, 40, 300]);
            let first = random.below(LAST_DAY + 2 - days);
            let mut day = || (first + random.below(days)) as u16;
            let terms: Vec<Term> = (0..n).map(|_| (day(), day())).collect();
            term_sheet(&terms)
        }
    };
    let day = day_near(random, &terms);
    let mut date = date_text(day).into_bytes();
    if random.once_in(16) {
        let place = random.below(10);
        date[place] = random.pick(b"0123456789-+ /:\0\xff");
    }
    [sheet, terms, date]
}

#[test]
fn random_calls() {
    let mut random = Random::of_part(413);
    let mut both = both("random calls");
    let (mut lines, mut notes) = (0, 0);
    for (edition, t) in kinds() {
        for round in 0..700 {
            let between = 1 + random.below(60);
            let n = random.pick(&[1, 2, 3, between]);
            let n = if round % 70 == 0 { 256 } else { n };
            let [sheet, terms, date] = some_call(&mut random, edition, t, n);
            let text = both.order(&sheet, &terms, &date);
            match &text[..] {
                b"unfit\n" | b"no such date\n" => notes += 1,
                text => lines += text.iter().filter(|byte| **byte == b'\n').count(),
            }
        }
    }
    assert!(lines > 5_000 && notes > 500, "{lines} lines, {notes} notes");
    done(
        &both,
        &format!(
            "random calls, {lines} lines, {notes} notes, seed {:#x}",
            seed()
        ),
    );
}

/// One line for each written slot on show, and no other: found from the sheets' bytes.
#[test]
fn one_line_for_each_written_slot_on_show() {
    let mut random = Random::of_part(414);
    let mut both = both("one line for each");
    let mut lines = 0;
    for (edition, t) in kinds() {
        for n in [1, 2, 5, 30, 256] {
            let sheet = fit_sheet(&mut random, edition, n, t);
            let terms = fit_terms(&mut random, n);
            for _ in 0..4 {
                let day = day_near(&mut random, &terms).min(LAST_DAY);
                let text = both.order(&sheet, &terms, date_text(day).as_bytes());
                let text = String::from_utf8_lossy(&text);
                let mut slots: Vec<usize> = text
                    .lines()
                    .filter_map(|line| line.split(' ').next()?.parse().ok())
                    .collect();
                lines += slots.len();
                slots.sort_unstable();
                let shown = |slot: &usize| {
                    let mark = &sheet[edition.mark_place(*slot)];
                    mark.iter().any(|byte| *byte != 0) && on_show(&terms, n, *slot, day)
                };
                assert!(slots.into_iter().eq((0..n).filter(shown)));
            }
        }
    }
    done(&both, &format!("one line for each of {lines} slots"));
}

// ---- Memory beside the buffers ----

fn fenced(place: Place, part: u64) {
    let mut random = Random::of_part(part);
    let mut both = Both::new(place, &format!("{place:?}, seed {:#x}", seed()));
    for (edition, t) in kinds() {
        for n in [1, 2, 3, 19, 20, 256] {
            for _ in 0..if n == 256 { 3 } else { 10 } {
                let [sheet, terms, date] = some_call(&mut random, edition, t, n);
                both.order(&sheet, &terms, &date);
                let length = random.below(13);
                both.order(&sheet, &terms, &b"2026-05-01-2"[..length]);
                let length = random.below(sheet.len() + 1);
                both.order(&sheet[..length], &terms, &date);
                let length = random.below(terms.len() + 1);
                both.order(&sheet, &terms[..length], &date);
            }
        }
        let (sheet, terms) = three_always(edition, t);
        both.order(&sheet, &terms, b"2026-05-01");
    }
    done(&both, &format!("{place:?}"));
}

#[test]
fn nothing_before_a_buffer_is_touched() {
    fenced(Place::FenceBefore, 415);
}

#[test]
fn nothing_behind_a_buffer_is_touched() {
    fenced(Place::FenceBehind, 416);
}
