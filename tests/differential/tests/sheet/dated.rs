//! Dated reads (document 02, request 1): each side of each edge, with the
//! numbers of the papers beside the second program's, and random calls.

use crate::edges::done;
use crate::{both, FAR_SLOTS};
use differential::both::Both;
use differential::edition::Edition;
use differential::lent::Place;
use differential::letters::good_text;
use differential::random::{seed, Random};
use differential::sheets::{
    caption_length, key_bytes, kinds, near_sheet, Keys, CLASSES, FAULTS, FIELD,
};
use differential::term_sheet::{
    closing_place, on_show, opening_place, put_number, term_sheet, Term, ALWAYS, LAST_DAY, NEVER,
};
use differential::terms::{day_near, fit_terms, some_terms, FAR_DAYS};
use reference::{ALTERED, BLANK, NOT_ON_SHOW, NO_SUCH_DATE, UNFIT_SHEET, WRONG_SPAN};

/// What a dated read may answer.
pub const NUMBERS: [usize; 12] = [0, 1, 2, 3, 4, 5, 6, 9, 10, 11, 12, 14];

/// A sheet of n slots: the last but one blank, the last but two altered where
/// there are such, each other one written.
fn mixed_sheet(random: &mut Random, edition: Edition, n: usize, t: usize) -> (Keys, Vec<u8>) {
    let keys = Keys::unlike(random, t);
    let mut sheet = keys.blank_sheet(edition, n, t);
    for slot in (0..n).filter(|slot| slot + 2 != n) {
        let length = caption_length(random);
        let caption = good_text(random, length);
        reference::write(&keys.sealing, &keys.checking, &mut sheet, slot, &caption);
    }
    if n >= 3 {
        sheet[edition.mark_place(n - 3).end - 1] ^= 1;
    }
    (keys, sheet)
}

/// One day before, at and after each end of a term, and the calendar's ends.
#[test]
fn ends_of_terms() {
    let mut random = Random::of_part(580);
    let mut both = both("ends of terms");
    let ends = [0, 1, 2, 255, 256, 257, 18_000, 36_522, 36_523, 36_524];
    for (edition, t) in kinds() {
        let (keys, sheet) = mixed_sheet(&mut random, edition, 1, t);
        for opening in ends {
            for closing in ends {
                let terms = term_sheet(&[(opening as u16, closing as u16)]);
                let near = [opening, closing].map(|end| [end.max(1) - 1, end, end + 1]);
                for day in near.into_iter().flatten().chain([0, LAST_DAY]) {
                    let number = match day {
                        36_525.. => NO_SUCH_DATE,
                        _ if opening <= day && day <= closing => 0,
                        _ => NOT_ON_SHOW,
                    };
                    let (answer, window) = both.dated_read(&keys, &sheet, &terms, 0, day, FIELD);
                    assert_eq!(answer.number, number, "{opening} {closing} {day}");
                    assert!(number == 0 || window == [0; FIELD]);
                }
            }
        }
    }
    both.hold_met([0, 11, 12]);
    done(&both, "terms, one day before, at and after each end");
}

/// Terms of the slots beside it don't count, nor do the other array's.
#[test]
fn each_slot_by_its_own_term() {
    let mut random = Random::of_part(581);
    let mut both = both("each slot by its own term");
    for edition in Edition::ALL {
        for n in [2, 3, 16, 256] {
            let (keys, sheet) = mixed_sheet(&mut random, edition, n, 6);
            let day_of = |slot: usize| 100 * slot as u16 + 50;
            let days: Vec<Term> = (0..n).map(|slot| (day_of(slot), day_of(slot))).collect();
            for terms in [term_sheet(&days), fit_terms(&mut random, n)] {
                for slot in 0..n {
                    for day in [day_of(slot), day_of(slot ^ 1), day_of(slot) + 1] {
                        let day = usize::from(day);
                        let number = match n - slot {
                            2 => BLANK,
                            _ if !on_show(&terms, n, slot, day) => NOT_ON_SHOW,
                            3 => ALTERED,
                            _ => 0,
                        };
                        let (answer, _) = both.dated_read(&keys, &sheet, &terms, slot, day, FIELD);
                        assert_eq!(answer.number, number, "{n} {slot} {day}");
                    }
                }
            }
        }
    }
    both.hold_met([0, 9, 10, 12]);
    done(&both, "each of 2 to 256 slots by a term of its own");
}

/// Day 36524 taken, 36525 refused, in the call.
#[test]
fn days_of_the_call() {
    let mut random = Random::of_part(582);
    let mut both = both("days of the call");
    for (edition, t) in kinds() {
        let (keys, sheet) = mixed_sheet(&mut random, edition, 1, t);
        for term in [ALWAYS, NEVER, (36_524, 36_524), (0, 36_523)] {
            let terms = term_sheet(&[term]);
            let (answer, _) = both.dated_read(&keys, &sheet, &terms, 0, 36_524, FIELD);
            let on = term.0 <= term.1 && term.1 == 36_524;
            assert_eq!(answer.number, if on { 0 } else { NOT_ON_SHOW });
            for day in FAR_DAYS {
                let (answer, window) = both.dated_read(&keys, &sheet, &terms, 0, day, FIELD);
                assert_eq!(answer.number, NO_SUCH_DATE, "{day}");
                assert_eq!(window, [0; FIELD]);
            }
        }
    }
    both.hold_met([0, 11, 12]);
    done(&both, "days of the call on both sides of 36524");
}

/// The same in every entry of a term sheet, a blank slot's too, for a read of
/// any slot.
#[test]
fn days_of_the_term_sheet() {
    let mut random = Random::of_part(583);
    let mut both = both("days of the term sheet");
    let carries = (0..=0xff).flat_map(|high| [high << 8, high << 8 | 0xff]);
    let days: Vec<u16> = (36_520..=36_530).chain(carries).collect();
    for edition in Edition::ALL {
        let (keys, sheet) = mixed_sheet(&mut random, edition, 4, 8);
        let places = (0..4).flat_map(|slot| [opening_place(slot), closing_place(4, slot)]);
        for place in places {
            for day in &days {
                let mut terms = term_sheet(&[ALWAYS; 4]);
                put_number(&mut terms, place, *day);
                for slot in 0..4 {
                    let (answer, _) = both.dated_read(&keys, &sheet, &terms, slot, 300, FIELD);
                    let unfit = answer.number == UNFIT_SHEET;
                    assert_eq!(unfit, *day > 36_524, "{place} {day} {slot}");
                }
            }
        }
    }
    both.hold_met([0, 4, 9, 10, 12]);
    done(&both, "days of the term sheet on both sides of 36524");
}

/// Term sheets of every length: torn, and with bytes behind them; then with
/// the n that such a length could stand for, and random ones.
fn torn_terms(both: &mut Both, random: &mut Random) {
    for edition in Edition::ALL {
        for n in [1, 2, 3, 20, 256] {
            let (keys, sheet) = mixed_sheet(random, edition, n, 4);
            let whole = term_sheet(&vec![ALWAYS; n]);
            for length in (0..=whole.len() + 9).chain([whole.len() + 65_536]) {
                let mut torn = whole.clone();
                torn.resize(length, 0);
                let (answer, _) = both.dated_read(&keys, &sheet, &torn, n - 1, 7, FIELD);
                let number = if length == whole.len() {
                    0
                } else {
                    UNFIT_SHEET
                };
                assert_eq!(answer.number, number, "{n} {length}");
                if n == 256 {
                    continue;
                }
                if length >= 2 {
                    put_number(&mut torn, 0, (length / 4) as u16);
                    both.dated_read(&keys, &sheet, &torn, n - 1, 7, FIELD);
                }
                let random_bytes = random.bytes(length);
                both.dated_read(&keys, &sheet, &random_bytes, 0, 7, FIELD);
            }
        }
    }
}

#[test]
fn term_sheets_of_every_length() {
    let mut random = Random::of_part(584);
    let mut both = both("term sheets of every length");
    torn_terms(&mut both, &mut random);
    both.hold_met([0, 4]);
    done(&both, "term sheets torn at every length");
}

/// The same with a page that can't be touched right before or right behind
/// every lent buffer.
fn fenced_terms(place: Place, part: u64) {
    let mut random = Random::of_part(part);
    let mut both = Both::new(place, &format!("{place:?}, seed {:#x}", seed()));
    torn_terms(&mut both, &mut random);
    both.hold_met([0, 4]);
    for (edition, t) in kinds() {
        random_calls(&mut both, &mut random, (edition, t), 25);
    }
    both.hold_met(NUMBERS);
    done(&both, &format!("{place:?}, term sheets and dated reads"));
}

#[test]
fn nothing_before_a_term_sheet_is_touched() {
    fenced_terms(Place::FenceBefore, 585);
}

#[test]
fn nothing_behind_a_term_sheet_is_touched() {
    fenced_terms(Place::FenceBehind, 586);
}

/// Other values of n with the length that the sheet's own n wants, among them
/// those that share a byte with it.
#[test]
fn counts_of_the_term_sheet() {
    let mut random = Random::of_part(587);
    let mut both = both("counts of the term sheet");
    for edition in Edition::ALL {
        for n in [1, 2, 256] {
            let (keys, sheet) = mixed_sheet(&mut random, edition, n, 4);
            let mut terms = term_sheet(&vec![ALWAYS; n]);
            let carries = (0..=0xff).flat_map(|high| [high << 8, high << 8 | 1, high << 8 | 2]);
            for count in (0..=520).chain(carries) {
                put_number(&mut terms, 0, count);
                let (answer, _) = both.dated_read(&keys, &sheet, &terms, n - 1, 7, FIELD);
                assert_eq!(answer.number == UNFIT_SHEET, usize::from(count) != n);
            }
        }
    }
    both.hold_met([0, 4]);
    done(&both, "term sheets with other values of n");
}

/// Each bit of a term sheet flipped, then each slot read on days about.
#[test]
fn every_bit_of_a_term_sheet() {
    let mut random = Random::of_part(588);
    let mut both = both("bits of a term sheet");
    for (edition, t) in kinds() {
        let (keys, sheet) = mixed_sheet(&mut random, edition, 4, t);
        let terms = term_sheet(&[(300, 36_000), NEVER, (0, 36_524), (256, 512)]);
        for bit in 0..8 * terms.len() {
            let mut flipped = terms.clone();
            flipped[bit / 8] ^= 1 << (bit % 8);
            for slot in 0..=4 {
                for day in [0, 255, 256, 299, 300, 512, 513, 36_000, 36_001, 36_524] {
                    both.dated_read(&keys, &sheet, &flipped, slot, day, FIELD);
                }
            }
        }
    }
    both.hold_met([0, 4, 6, 9, 10, 12]);
    done(&both, "single bits of a term sheet flipped");
}

#[test]
fn windows_of_dated_reads() {
    let mut random = Random::of_part(589);
    let mut both = both("windows of dated reads");
    for (edition, t) in kinds() {
        let (keys, sheet) = mixed_sheet(&mut random, edition, 4, t);
        let terms = term_sheet(&[NEVER, ALWAYS, ALWAYS, ALWAYS]);
        for length in (0..=400).chain([192 + 256, 192 + 65_536]) {
            for (slot, day) in [(0, 0), (1, 0), (2, 0), (3, 0), (4, 0), (3, 36_525)] {
                let (answer, window) = both.dated_read(&keys, &sheet, &terms, slot, day, length);
                assert_eq!(answer.number == WRONG_SPAN, length != FIELD);
                assert!(answer.number == 0 || window.iter().all(|byte| *byte == 0));
            }
        }
    }
    both.hold_met([0, 3, 6, 9, 10, 11, 12]);
    done(&both, "windows of 0 to 400 bytes for dated reads");
}

/// Calls with random sheets, term sheets, slots, days and windows, right ones
/// most often, each followed by the undated one.
fn random_calls(
    both: &mut Both,
    random: &mut Random,
    (edition, t): (Edition, usize),
    sheets: usize,
) {
    for _ in 0..sheets {
        let n = random.pick(&[1, 2, 3, 4, 5, 9]);
        let (own, mut sheet) = mixed_sheet(random, edition, n, t);
        if random.once_in(10) {
            let fault = random.below(FAULTS);
            sheet = near_sheet(random, edition, n, t, fault);
        }
        for _ in 0..8 {
            let terms = some_terms(random, n);
            let keys = match random.below(20) {
                0 => Keys::twins(random, key_bytes(t)),
                1 => Keys::of_lengths(random, key_bytes(t), key_bytes(t) + 1),
                2 => {
                    let class = random.pick(&CLASSES);
                    Keys::unlike(random, class)
                }
                _ => own.clone(),
            };
            let slot = match random.below(12) {
                0 => random.pick(&FAR_SLOTS),
                1 => n,
                _ => random.below(n),
            };
            let day = day_near(random, &terms);
            let window = match random.below(15) {
                0 => random.pick(&[0, 1, 191, 193, 448]),
                _ => FIELD,
            };
            both.dated_read(&keys, &sheet, &terms, slot, day, window);
            both.read(&keys, &sheet, slot, window);
        }
    }
}

#[test]
fn random_dated_reads() {
    let mut random = Random::of_part(590);
    let mut both = both("random dated reads");
    for (edition, t) in kinds() {
        random_calls(&mut both, &mut random, (edition, t), 200);
    }
    both.hold_met(NUMBERS);
    done(&both, &format!("random dated reads, seed {:#x}", seed()));
}
