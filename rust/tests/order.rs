//! The running order of a day: which slots have a line, in which order, what is no
//! running order, and how long an output it needs.

use captions::{
    blank, clear, date_of_day, dated_read, running_order, sheet_len, showings, terms_on_show,
    write, Fault, Refusal, Showing, FIELD, LAST_DAY, RUNNING_ORDER,
};

const SEALING: [u8; 8] = [1; 8];
const CHECKING: [u8; 8] = [2; 8];
const NEVER: (u16, u16) = (LAST_DAY, 0);
const UNTOUCHED: u8 = 7;

/// A term sheet by the terms of its slots.
fn terms_of(terms: &[(u16, u16)]) -> Vec<u8> {
    let openings = terms.iter().map(|term| term.0);
    let closings = terms.iter().map(|term| term.1);
    let numbers = [terms.len() as u16].into_iter();
    let numbers = numbers.chain(openings).chain(closings);
    numbers.flat_map(u16::to_be_bytes).collect()
}

/// A sheet with captions of these lengths; a slot without one is blank.
fn sheet_of(lengths: &[Option<usize>]) -> Vec<u8> {
    let mut sheet = vec![0; sheet_len(lengths.len())];
    blank(&mut sheet, lengths.len(), 4, 1, &SEALING, &CHECKING).unwrap();
    for (slot, length) in lengths.iter().enumerate() {
        if let Some(length) = length {
            write(&SEALING, &CHECKING, &mut sheet, slot, &vec![b'x'; *length]).unwrap();
        }
    }
    sheet
}

fn date(day: u16) -> String {
    date_of_day(day.into()).unwrap().to_string()
}

/// The text, after a look at the bytes behind it and at an output that is too short.
#[track_caller]
fn text_of(sheet: &[u8], terms: &[u8], date: impl AsRef<[u8]>) -> String {
    let mut out = vec![UNTOUCHED; RUNNING_ORDER + 1];
    let length = running_order(sheet, terms, date.as_ref(), &mut out).unwrap();
    assert!(out[length..].iter().all(|byte| *byte == UNTOUCHED));
    let text = String::from_utf8(out[..length].to_vec()).unwrap();
    // Exactly as long will do, and one byte less is too short.
    let mut out = vec![UNTOUCHED; length];
    let answer = running_order(sheet, terms, date.as_ref(), &mut out);
    assert_eq!((answer, out.as_slice()), (Ok(length), text.as_bytes()));
    for short in [length.saturating_sub(1), length / 2, 0] {
        if short < length {
            let mut out = vec![UNTOUCHED; short];
            let answer = running_order(sheet, terms, date.as_ref(), &mut out);
            assert_eq!(answer, Err(Refusal::WrongSpan));
            assert_eq!(out, vec![UNTOUCHED; short]);
        }
    }
    text
}

/// The slots of a running order, each line of which is that of its showing.
#[track_caller]
fn slots_on(sheet: &[u8], terms: &[u8], day: u16) -> Vec<usize> {
    let order = showings(sheet, terms, date(day)).unwrap();
    let lines: String = order.iter().map(|showing| format!("{showing}\n")).collect();
    assert_eq!(text_of(sheet, terms, date(day)), lines);
    order.iter().map(|showing| showing.slot).collect()
}

#[test]
fn the_earliest_opening_comes_first_and_then_the_lower_slot() {
    let sheet = sheet_of(&[Some(4), Some(192), None, Some(0), Some(11), Some(8)]);
    let terms = terms_of(&[
        (9617, 9800),
        (9600, 9617),
        (0, LAST_DAY),
        (9617, 9617),
        (0, LAST_DAY),
        NEVER,
    ]);
    let text = "4 2000-01-01 2099-12-31 11\n1 2026-04-14 2026-05-01 192\n\
                0 2026-05-01 2026-10-31 4\n3 2026-05-01 2026-05-01 0\n";
    assert_eq!(text_of(&sheet, &terms, "2026-05-01"), text);
    let order = showings(&sheet, &terms, "2026-05-01").unwrap();
    let [opening, closing] = [9600, 9617].map(|day| date_of_day(day).unwrap());
    let (slot, length) = (1, 192);
    let second = Showing {
        slot,
        opening,
        closing,
        length,
    };
    assert_eq!(order[1], second);
    assert_eq!(slots_on(&sheet, &terms, 9616), [4, 1]);
    assert_eq!(slots_on(&sheet, &terms, 9618), [4, 0]);
    assert_eq!(slots_on(&sheet, &terms, 9801), [4]);
}

/// Those are the slots that a dated read, which has the keys, shows on that day.
#[test]
fn every_written_slot_on_show_has_one_line_and_no_other() {
    let mut random = 20260501_u64;
    let mut next = move |bound: u64| {
        random = random.wrapping_mul(6364136223846793005).wrapping_add(1);
        (random >> 33) % bound
    };
    let mut lines = 0;
    for slots in [1, 2, 3, 17, 100, 255, 256] {
        let lengths: Vec<Option<usize>> = (0..slots)
            .map(|_| (next(4) > 0).then(|| next(193) as usize))
            .collect();
        let mut sheet = sheet_of(&lengths);
        clear(&mut sheet, slots / 2).unwrap();
        for _ in 0..4 {
            let near = |next: &mut dyn FnMut(u64) -> u64| match next(10) {
                0 => 0,
                1 => LAST_DAY,
                _ => 9610 + next(8) as u16,
            };
            let terms: Vec<(u16, u16)> = (0..slots)
                .map(|_| (near(&mut next), near(&mut next)))
                .collect();
            let terms_sheet = terms_of(&terms);
            for day in [0, 9609, 9610, 9613, 9617, 9618, LAST_DAY] {
                let mut expected: Vec<usize> = (0..slots)
                    .filter(|slot| {
                        let read = dated_read(
                            &SEALING,
                            &CHECKING,
                            &sheet,
                            &terms_sheet,
                            *slot,
                            day.into(),
                            &mut [0; FIELD],
                        );
                        let asked = terms_on_show(&terms_sheet, *slot, day.into());
                        assert!(read.is_err() || asked == Ok(true));
                        read.is_ok()
                    })
                    .collect();
                expected.sort_by_key(|slot| (terms[*slot].0, *slot));
                assert_eq!(slots_on(&sheet, &terms_sheet, day), expected);
                lines += expected.len();
            }
        }
    }
    println!("{lines} lines");
    assert!(lines > 1000);
}

#[test]
fn nothing_on_show_is_no_refusal() {
    let terms = terms_of(&[(9617, 9800), NEVER, (0, LAST_DAY)]);
    let sheet = sheet_of(&[Some(4), Some(5), None]);
    assert_eq!(showings(&sheet, &terms, "2026-04-30"), Ok(vec![]));
    assert_eq!(text_of(&sheet, &terms, "2026-04-30"), "");
    // An output of no bytes holds no lines, and no word either.
    assert_eq!(running_order(&sheet, &terms, "2026-04-30", &mut []), Ok(0));
    for no_order in ["2026-05-01", "2026-04-31"] {
        let answer = running_order(&sheet, &terms, no_order, &mut []);
        assert_eq!(answer, Err(Refusal::WrongSpan));
    }
}

#[test]
fn what_is_unfit_comes_before_what_is_no_date() {
    let sheet = sheet_of(&[Some(4), Some(5), None]);
    let terms = terms_of(&[(0, LAST_DAY); 3]);
    let unfit = |sheet: &[u8], terms: &[u8], fault: Fault| {
        for date in ["2026-05-01", "2026-02-29", ""] {
            assert_eq!(text_of(sheet, terms, date), "unfit\n");
            let refused = Err(Refusal::UnfitSheet(fault));
            assert_eq!(showings(sheet, terms, date), refused);
        }
    };
    unfit(b"tag", &terms, Fault::Short { bytes: 3 });
    unfit(b"tag", b"", Fault::Short { bytes: 3 });
    let (bytes, slots, whole) = (639, 3, 640);
    unfit(
        &sheet[..639],
        &terms,
        Fault::Length {
            bytes,
            slots,
            whole,
        },
    );
    // One byte more than the longest sheet has.
    let mut long = sheet_of(&vec![None; 256]);
    long.push(0);
    let (bytes, slots, whole) = (53265, 256, 53264);
    let terms_of_256 = terms_of(&[(0, LAST_DAY); 256]);
    unfit(
        &long,
        &terms_of_256,
        Fault::Length {
            bytes,
            slots,
            whole,
        },
    );
    for length in 0..terms.len() {
        unfit(&sheet, &terms[..length], Fault::Terms);
    }
    unfit(&sheet, &[&terms[..], &[0]].concat(), Fault::Terms);
    for slots in [0, 1, 2, 4, 256] {
        unfit(&sheet, &terms_of(&vec![(0, 0); slots]), Fault::Terms);
    }
    for place in 1..=6 {
        let mut terms = terms.clone();
        terms[2 * place..][..2].copy_from_slice(&36525_u16.to_be_bytes());
        unfit(&sheet, &terms, Fault::Terms);
    }
    assert_eq!(slots_on(&sheet, &terms, 9617), [0, 1]);
}

#[test]
fn a_date_is_ten_characters_of_the_calendar() {
    let sheet = sheet_of(&[Some(4)]);
    let terms = terms_of(&[(0, LAST_DAY)]);
    for day in (0..LAST_DAY).step_by(97).chain([0, 59, 60, LAST_DAY]) {
        assert_eq!(slots_on(&sheet, &terms, day), [0]);
    }
    let mut dates: Vec<Vec<u8>> = [
        "",
        "2026",
        "2026-05-1",
        "2026-5-01",
        "26-05-01",
        "2026-05-011",
        "02026-05-01",
        " 2026-05-01",
        "2026-05-01\n",
        "2026/05/01",
        "2026-05 01",
        "20260501",
        "+026-05-01",
        "2026-00-01",
        "2026-13-01",
        "2026-05-00",
        "2026-05-32",
        "2026-04-31",
        "2026-02-29",
        "1999-12-31",
        "2100-01-01",
        "٢٠٢٦-٠٥-٠١",
    ]
    .map(|date| date.as_bytes().to_vec())
    .to_vec();
    dates.push(b"2026-05-01\0".to_vec());
    dates.push(vec![b'0'; 70000]);
    // Every place, with each byte that isn't a digit or the hyphen.
    for place in 0..10 {
        for byte in (0..=255).filter(|byte| !b"-0123456789".contains(byte)) {
            let mut date = b"2026-05-01".to_vec();
            date[place] = byte;
            dates.push(date);
        }
    }
    for date in dates {
        assert_eq!(text_of(&sheet, &terms, &date), "no such date\n");
        let refused = Err(Refusal::NoSuchDate);
        assert_eq!(showings(&sheet, &terms, &date), refused);
    }
}

/// It takes no keys, so that nothing is opened.
#[test]
fn an_altered_caption_has_its_line() {
    let mut sheet = sheet_of(&[Some(4)]);
    let terms = terms_of(&[(9617, 9800)]);
    let line = "0 2026-05-01 2026-10-31 4\n";
    let field = sheet_len(1) - FIELD;
    sheet[field] ^= 1;
    let read = dated_read(
        &SEALING,
        &CHECKING,
        &sheet,
        &terms,
        0,
        9617,
        &mut [0; FIELD],
    );
    assert!(matches!(read, Err(Refusal::Altered(_))));
    assert_eq!(text_of(&sheet, &terms, "2026-05-01"), line);
}

#[test]
fn the_longest_running_order_fits() {
    let sheet = sheet_of(&[Some(FIELD); 256]);
    let terms = terms_of(&[(0, LAST_DAY); 256]);
    let text = text_of(&sheet, &terms, "2026-05-01");
    assert_eq!(text.len(), RUNNING_ORDER);
    assert!(text.starts_with("0 2000-01-01 2099-12-31 192\n"));
    assert!(text.ends_with("\n255 2000-01-01 2099-12-31 192\n"));
    assert_eq!(showings(&sheet, &terms, "2026-05-01").unwrap().len(), 256);
}
