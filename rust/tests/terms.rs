//! Dates over the whole range, and dated reads: every edge of a term, every way
//! in which a term sheet is unfit, and the order of the tests.

use captions::{
    blank, date_of_day, dated_read, day_of_date, read, sheet_len, terms_blank, terms_len,
    terms_on_show, terms_set, write, Change, Date, Fault, Refusal, FIELD, LAST_DAY,
};

// ---- Dates ----

/// The months' lengths, by the calendar's rule.
fn days_in(year: u16, month: u8) -> u8 {
    let leap = year.is_multiple_of(4) && !year.is_multiple_of(100) || year.is_multiple_of(400);
    match month {
        4 | 6 | 9 | 11 => 30,
        2 if leap => 29,
        2 => 28,
        _ => 31,
    }
}

/// The date after a date.
fn next(date: Date) -> Date {
    let Date { year, month, day } = date;
    match (month, day) {
        _ if day < days_in(year, month) => Date {
            day: day + 1,
            ..date
        },
        (12, _) => Date {
            year: year + 1,
            month: 1,
            day: 1,
        },
        _ => Date {
            month: month + 1,
            day: 1,
            ..date
        },
    }
}

#[test]
fn every_day_has_its_date_and_every_date_its_day() {
    let mut date = Date {
        year: 2000,
        month: 1,
        day: 1,
    };
    for day in 0..=LAST_DAY {
        assert_eq!(date_of_day(day.into()), Ok(date));
        let [year, month, of_month] = [date.year.into(), date.month.into(), date.day.into()];
        assert_eq!(day_of_date(year, month, of_month), Ok(day));
        assert!(date < next(date));
        date = next(date);
    }
    assert_eq!(date.to_string(), "2100-01-01");
}

#[test]
fn what_is_no_date_is_refused() {
    let refused = Err(Refusal::NoSuchDate);
    let mut dates = 0;
    for year in 1998..=2101 {
        for month in 0..=13 {
            for day in 0..=32 {
                let is_date = (2000..=2099).contains(&year)
                    && (1..=12).contains(&month)
                    && (1..=usize::from(days_in(year as u16, month as u8))).contains(&day);
                let answer = day_of_date(year, month, day);
                assert_eq!(answer.is_ok(), is_date, "{year}-{month}-{day}");
                assert!(is_date || answer == refused);
                dates += usize::from(is_date);
            }
        }
    }
    assert_eq!(dates, usize::from(LAST_DAY) + 1);
    // Numbers that would be a date's if their high bits were lost.
    for bits in [8, 16, 32, 63] {
        let high = 1 << bits;
        assert_eq!(day_of_date(2026 + high, 5, 1), refused);
        assert_eq!(day_of_date(2026, 5 + high, 1), refused);
        assert_eq!(day_of_date(2026, 5, 1 + high), refused);
        assert_eq!(date_of_day(high + 36525), Err(Refusal::NoSuchDate));
    }
    let most = usize::MAX;
    assert_eq!(day_of_date(most, most, most), refused);
    for day in [36525, 36526, 65535, 65536, most] {
        assert_eq!(date_of_day(day), Err(Refusal::NoSuchDate));
    }
}

#[test]
fn a_date_is_shown_with_all_its_digits() {
    for (day, shown) in [(0, "2000-01-01"), (9, "2000-01-10"), (36524, "2099-12-31")] {
        assert_eq!(date_of_day(day).unwrap().to_string(), shown);
    }
}

// ---- Dated reads ----

const SLOTS: usize = 3;
const SLOT: usize = 1;
const OPENING: u16 = 9617;
const CLOSING: u16 = 9800;

/// A term sheet by the terms of its slots.
fn terms_of(terms: &[(u16, u16)]) -> Vec<u8> {
    let openings = terms.iter().map(|term| term.0);
    let closings = terms.iter().map(|term| term.1);
    let numbers = [terms.len() as u16].into_iter();
    let numbers = numbers.chain(openings).chain(closings);
    numbers.flat_map(u16::to_be_bytes).collect()
}

/// A dated read that is accepted as it stands.
#[derive(Clone)]
struct Call {
    sealing: Vec<u8>,
    checking: Vec<u8>,
    sheet: Vec<u8>,
    terms: Vec<u8>,
    slot: usize,
    day: usize,
    window: usize,
}

impl Call {
    fn new() -> Call {
        let (sealing, checking) = (vec![1; 8], vec![2; 8]);
        let mut sheet = vec![0; sheet_len(SLOTS)];
        blank(&mut sheet, SLOTS, 4, 1, &sealing, &checking).unwrap();
        write(&sealing, &checking, &mut sheet, SLOT, b"Clock").unwrap();
        Call {
            sealing,
            checking,
            sheet,
            terms: terms_of(&[(0, LAST_DAY), (OPENING, CLOSING), (LAST_DAY, 0)]),
            slot: SLOT,
            day: OPENING.into(),
            window: FIELD,
        }
    }

    /// The answer, after a look at the window.
    #[track_caller]
    fn run(&self) -> Result<usize, Refusal> {
        let Call { sheet, terms, .. } = self;
        let (sealing, checking) = (&self.sealing, &self.checking);
        let mut window = vec![7; self.window];
        let answer = dated_read(
            sealing,
            checking,
            sheet,
            terms,
            self.slot,
            self.day,
            &mut window,
        );
        let mut shown = vec![0; self.window];
        if let Ok(length) = answer {
            let undated = read(sealing, checking, sheet, self.slot, &mut shown);
            assert_eq!(undated, Ok(length));
        }
        assert_eq!(window, shown);
        answer
    }
}

#[test]
fn a_slot_is_on_show_from_its_opening_to_its_closing_day() {
    let mut call = Call::new();
    for (opening, closing) in [
        (OPENING, CLOSING),
        (OPENING, OPENING),
        (0, 0),
        (0, LAST_DAY),
        (LAST_DAY, LAST_DAY),
        (OPENING, OPENING - 1),
        (LAST_DAY, 0),
    ] {
        call.terms = terms_of(&[(LAST_DAY, 0), (opening, closing), (LAST_DAY, 0)]);
        for day in 0..=LAST_DAY {
            let near = |edge: u16| day.abs_diff(edge) <= 1;
            if !(near(opening) || near(closing) || day % 1000 == 0) {
                continue;
            }
            call.day = day.into();
            let expected = match opening <= day && day <= closing {
                true => Ok(5),
                false => Err(Refusal::NotOnShow),
            };
            assert_eq!(call.run(), expected, "{opening} {day} {closing}");
        }
    }
}

#[test]
fn a_term_sheet_has_the_sheets_slots_its_length_and_no_day_past_the_last() {
    let call = Call::new();
    assert_eq!(call.terms.len(), terms_len(SLOTS));
    let unfit = |terms: &[u8]| {
        let terms = terms.to_vec();
        let refused = Call {
            terms,
            ..call.clone()
        };
        assert_eq!(refused.run(), Err(Refusal::UnfitSheet(Fault::Terms)));
    };
    for length in 0..call.terms.len() {
        unfit(&call.terms[..length]);
    }
    unfit(&[&call.terms[..], &[0]].concat());
    unfit(&[&call.terms[..], &[0; 4]].concat());
    // A whole term sheet, but another's.
    for slots in [0, 1, 2, 4, 256, 257] {
        unfit(&terms_of(&vec![(0, LAST_DAY); slots]));
    }
    // Another count alone.
    for count in [0, 2, 4, 259] {
        let mut terms = call.terms.clone();
        terms[..2].copy_from_slice(&u16::to_be_bytes(count));
        unfit(&terms);
    }
    // A day in any slot, blank ones and the never shown too.
    for place in 1..=2 * SLOTS {
        for day in [LAST_DAY + 1, 40000, 65535] {
            let mut terms = call.terms.clone();
            terms[2 * place..2 * place + 2].copy_from_slice(&day.to_be_bytes());
            unfit(&terms);
        }
    }
    assert_eq!(call.run(), Ok(5));
}

#[test]
fn the_largest_term_sheet() {
    let mut call = Call::new();
    let (sealing, checking) = (&call.sealing, &call.checking);
    let mut sheet = vec![0; sheet_len(256)];
    blank(&mut sheet, 256, 4, 1, sealing, checking).unwrap();
    write(sealing, checking, &mut sheet, 255, b"Vase").unwrap();
    let mut terms = vec![(LAST_DAY, 0); 256];
    terms[255] = (OPENING, CLOSING);
    (call.sheet, call.terms, call.slot) = (sheet, terms_of(&terms), 255);
    assert_eq!(call.terms.len(), terms_len(256));
    assert_eq!(call.run(), Ok(4));
    call.day = usize::from(CLOSING) + 1;
    assert_eq!(call.run(), Err(Refusal::NotOnShow));
    call.terms[2 + 2 * 511] = 0xff;
    assert_eq!(call.run(), Err(Refusal::UnfitSheet(Fault::Terms)));
}

/// A way in which a dated read is refused, with the refusal.
type Way = (Refusal, fn(&mut Call));

/// In the order of the tests.
const FAULTS: [Way; 14] = [
    (Refusal::WrongKey, |call| {
        call.sealing = vec![1; 7];
        call.checking = vec![2; 7];
    }),
    (Refusal::TwinKeys, |call| {
        call.checking = call.sealing.clone()
    }),
    (Refusal::WrongSpan, |call| call.window = 191),
    (
        Refusal::UnfitSheet(Fault::Edition { edition: 255 }),
        |call| call.sheet[3] = 255,
    ),
    (Refusal::UnfitSheet(Fault::Terms), |call| {
        call.terms[2..4].fill(255)
    }),
    (Refusal::OtherKeyClass, |call| {
        call.sealing = vec![1; 12];
        call.checking = vec![2; 12];
    }),
    (Refusal::NoSuchDate, |call| call.day = 36525),
    (Refusal::NoSuchDate, |call| call.day = usize::MAX),
    (Refusal::OtherKeys, |call| call.sealing = vec![3; 8]),
    (Refusal::OtherKeys, |call| {
        call.sheet[10] = call.sheet[10].wrapping_add(1)
    }),
    (Refusal::NoSuchSlot, |call| call.slot = SLOTS),
    (Refusal::Blank, |call| call.slot = 2),
    (Refusal::NotOnShow, |call| call.day = 0),
    (Refusal::Altered(Change::Check { slot: 1 }), |call| {
        let field = sheet_len(SLOTS) - 2 * FIELD;
        call.sheet[field] = call.sheet[field].wrapping_add(1);
    }),
];

#[test]
fn the_first_test_that_applies_is_given() {
    for (place, (refusal, fault)) in FAULTS.iter().enumerate() {
        for (_, later) in &FAULTS[place..] {
            // The earlier last, so that it isn't undone.
            let mut call = Call::new();
            later(&mut call);
            fault(&mut call);
            assert_eq!(call.run(), Err(*refusal), "{place}");
        }
    }
}

/// Windows of every length are zeroed.
#[test]
fn a_refused_dated_read_zeroes_its_window() {
    for length in [0, 1, 8, 191, 193, 400] {
        for (_, fault) in FAULTS {
            let mut call = Call::new();
            fault(&mut call);
            call.window = length;
            assert!(call.run().is_err());
        }
    }
}

// ---- Term sheets made and asked by the crate, beside the library's judgement ----

/// What the library says of a slot by a dated read, on a sheet of that many slots
/// that are all written.
fn judged(sheet: &[u8], terms: &[u8], slot: usize, day: usize) -> Result<bool, Refusal> {
    match dated_read(&[1; 8], &[2; 8], sheet, terms, slot, day, &mut [0; FIELD]) {
        Ok(_) => Ok(true),
        Err(Refusal::NotOnShow) => Ok(false),
        Err(refusal) => Err(refusal),
    }
}

fn written_sheet(slots: usize) -> Vec<u8> {
    let mut sheet = vec![0; sheet_len(slots)];
    blank(&mut sheet, slots, 4, 1, &[1; 8], &[2; 8]).unwrap();
    for slot in 0..slots {
        write(&[1; 8], &[2; 8], &mut sheet, slot, b"Clock").unwrap();
    }
    sheet
}

#[test]
fn a_slot_is_on_show_to_the_crate_as_to_the_library() {
    let mut random = 20260501_u64;
    let mut next = move |bound: u64| {
        random = random.wrapping_mul(6364136223846793005).wrapping_add(1);
        (random >> 33) % bound
    };
    let (mut asked, mut shown, mut refused) = (0, 0, 0);
    for slots in [1, 2, 3, 17, 255, 256] {
        let sheet = written_sheet(slots);
        for round in 0..60 {
            // Days about a few edges, now and then one that there isn't.
            let day = |next: &mut dyn FnMut(u64) -> u64| match next(40) {
                0 if round % 3 == 0 => LAST_DAY + 1 + next(1000) as u16,
                1 => LAST_DAY,
                2 => 0,
                _ => 9600 + next(20) as u16,
            };
            let terms: Vec<_> = (0..slots)
                .map(|_| (day(&mut next), day(&mut next)))
                .collect();
            let mut terms = terms_of(&terms);
            match next(12) {
                0 => terms.truncate(next(terms.len() as u64) as usize),
                1 => terms.push(0),
                2 => terms[1] = terms[1].wrapping_add(1),
                _ => {}
            }
            for _ in 0..40 {
                let slot = next(slots as u64 + 2) as usize;
                let day = match next(20) {
                    0 => usize::from(LAST_DAY) + 1,
                    1 => usize::MAX,
                    _ => 9598 + next(24) as usize,
                };
                let answer = terms_on_show(&terms, slot, day);
                assert_eq!(
                    answer,
                    judged(&sheet, &terms, slot, day),
                    "{slots} {slot} {day}"
                );
                asked += 1;
                shown += usize::from(answer == Ok(true));
                refused += usize::from(answer.is_err());
            }
        }
    }
    println!("{asked} slots asked of crate and library: {shown} on show, {refused} refused");
    assert!(shown > 1000 && refused > 1000 && asked - shown - refused > 1000);
}

#[test]
fn a_term_sheet_is_made_and_set() {
    for slots in [1, 3, 256] {
        let sheet = written_sheet(slots);
        let mut terms = vec![7; terms_len(slots)];
        assert_eq!(terms_blank(&mut terms, slots), Ok(()));
        assert_eq!(terms, terms_of(&vec![(LAST_DAY, 0); slots]));
        for day in [0, 9617, LAST_DAY] {
            assert_eq!(judged(&sheet, &terms, slots - 1, day.into()), Ok(false));
        }
        assert_eq!(terms_set(&mut terms, slots - 1, 9617, 9800), Ok(()));
        let mut expected = vec![(LAST_DAY, 0); slots];
        expected[slots - 1] = (9617, 9800);
        assert_eq!(terms, terms_of(&expected));
        for (day, on_show) in [(9616, false), (9617, true), (9800, true), (9801, false)] {
            assert_eq!(judged(&sheet, &terms, slots - 1, day), Ok(on_show));
        }
        // What is refused changes nothing, in the order of the tests.
        let late = usize::from(LAST_DAY) + 1;
        assert_eq!(terms_set(&mut terms, slots, 0, 0), Err(Refusal::NoSuchSlot));
        assert_eq!(terms_set(&mut terms, 0, late, 0), Err(Refusal::NoSuchDate));
        assert_eq!(
            terms_set(&mut terms, slots, 0, 65536),
            Err(Refusal::NoSuchDate)
        );
        assert_eq!(terms, terms_of(&expected));
        let unfit = Err(Refusal::UnfitSheet(Fault::Terms));
        assert_eq!(terms_set(&mut terms[1..], slots, late, 0), unfit);
        assert_eq!(terms, terms_of(&expected));
    }
    let mut terms = vec![7; terms_len(257)];
    for slots in [0, 1, 256, 257, usize::MAX] {
        assert_eq!(terms_blank(&mut terms, slots), Err(Refusal::WrongSpan));
    }
    assert_eq!(terms_blank(&mut [], 0), Err(Refusal::WrongSpan));
    assert!(terms.iter().all(|byte| *byte == 7));
}
