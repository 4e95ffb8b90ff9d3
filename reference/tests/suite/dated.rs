//! Dated reads: terms, days and what they show (document 02, request 1).

use crate::edition::Edition;
use crate::random::Random;
use crate::support::*;
use crate::term_sheet::*;

/// A sheet of n slots, each with its slot number as the caption.
fn numbered_sheet(edition: Edition, keys: &(Vec<u8>, Vec<u8>), n: usize, t: usize) -> Vec<u8> {
    let mut sheet = blank_for(edition, keys, n, t);
    for slot in 0..n {
        let caption = slot.to_string();
        assert_eq!(
            write(keys, &mut sheet, slot, caption.as_bytes()),
            accepted(0)
        );
    }
    sheet
}

/// What a dated read of a numbered sheet shows.
fn shows(slot: usize) -> (reference::Answer, [u8; 192]) {
    let caption = slot.to_string();
    (accepted(caption.len() as u16), shown(caption.as_bytes()))
}

const NOTHING: [u8; 192] = [0; 192];

/// One day before, at and after each end, and the ends of the calendar.
#[test]
fn on_show_from_the_opening_to_the_closing_day() {
    let mut random = Random::new(100);
    for (edition, t) in kinds() {
        let keys = unlike(&mut random, t);
        let sheet = numbered_sheet(edition, &keys, 2, t);
        let ends = [0, 1, 2, 255, 256, 257, 18000, 36522, 36523, 36524];
        let (mut on, mut off) = (0, 0);
        for opening in ends {
            for closing in ends {
                // The other slot's term is another one.
                let terms = term_sheet(&[(closing, opening), (opening, closing)]);
                let [opening, closing] = [opening, closing].map(usize::from);
                let near = [opening, closing].into_iter().flat_map(|end| {
                    let days = [end.checked_sub(1), Some(end), Some(end + 1)];
                    days.into_iter().flatten()
                });
                for day in near.chain([0, 36524]).filter(|day| *day <= LAST_DAY) {
                    let expected = if opening <= day && day <= closing {
                        on += 1;
                        shows(1)
                    } else {
                        off += 1;
                        (refused(12), NOTHING)
                    };
                    let read = dated_read(&keys, &sheet, &terms, 1, day);
                    assert_eq!(read, expected, "{opening} {closing} {day}");
                }
            }
        }
        assert!(on > 100 && off > 100);
    }
}

#[test]
fn opening_above_closing_means_never_and_the_other_slots_are_read() {
    let mut random = Random::new(101);
    for edition in Edition::ALL {
        let keys = unlike(&mut random, 6);
        let sheet = numbered_sheet(edition, &keys, 3, 6);
        for never in [NEVER, (36524, 0), (36524, 36523), (7, 6)] {
            let terms = term_sheet(&[ALWAYS, never, ALWAYS]);
            for day in (0..10).chain(36515..=36524) {
                for slot in [0, 2] {
                    assert_eq!(dated_read(&keys, &sheet, &terms, slot, day), shows(slot));
                }
                let read = dated_read(&keys, &sheet, &terms, 1, day);
                assert_eq!(read, (refused(12), NOTHING));
            }
        }
    }
}

/// Slot s is on show on day 100 × s alone.
#[test]
fn each_slot_of_256_has_a_term_of_its_own() {
    let mut random = Random::new(102);
    for edition in Edition::ALL {
        let keys = unlike(&mut random, 4);
        let sheet = numbered_sheet(edition, &keys, 256, 4);
        let days: Vec<Term> = (0..256).map(|slot| (100 * slot, 100 * slot)).collect();
        let terms = term_sheet(&days);
        for slot in 0..256 {
            let read = dated_read(&keys, &sheet, &terms, slot, 100 * slot);
            assert_eq!(read, shows(slot));
            let others = [100 * slot + 1, 100 * (slot ^ 1), 100 * (slot ^ 0x80)];
            for day in others {
                let read = dated_read(&keys, &sheet, &terms, slot, day);
                assert_eq!(read, (refused(12), NOTHING), "{slot} {day}");
            }
        }
    }
}

/// Day 36524 is taken, every later one is no date, whatever the term.
#[test]
fn days_of_the_call_on_both_sides_of_the_last() {
    let mut random = Random::new(103);
    for (edition, t) in kinds() {
        let keys = unlike(&mut random, t);
        let sheet = numbered_sheet(edition, &keys, 1, t);
        for term in [ALWAYS, NEVER, (36524, 36524), (0, 0)] {
            let terms = term_sheet(&[term]);
            let expected = if term.0 <= term.1 && term.1 == 36524 {
                shows(0)
            } else {
                (refused(12), NOTHING)
            };
            assert_eq!(dated_read(&keys, &sheet, &terms, 0, 36524), expected);
            let like_small = [16, 32, 62, 63].map(|bits| 1 << bits);
            let far = like_small.into_iter().flat_map(|power| {
                let days = [power - 1, power, power + 1, power + 36524];
                days.into_iter().filter(|day| *day > LAST_DAY)
            });
            for day in [36525, 36526, usize::MAX - 1, usize::MAX]
                .into_iter()
                .chain(far)
            {
                let read = dated_read(&keys, &sheet, &terms, 0, day);
                assert_eq!(read, (refused(11), NOTHING), "{day}");
            }
        }
    }
}

/// Day 36524 is taken in every entry and 36525 in none, in the entries of a
/// blank slot too; a read of any slot is refused then.
#[test]
fn days_of_the_term_sheet_on_both_sides_of_the_last() {
    let mut random = Random::new(104);
    for (edition, t) in kinds() {
        let keys = unlike(&mut random, t);
        let mut sheet = numbered_sheet(edition, &keys, 3, t);
        assert_eq!(reference::clear(&mut sheet, 1), accepted(0));
        let terms = term_sheet(&[ALWAYS; 3]);
        for place in (0..3).flat_map(|slot| [opening_place(slot), closing_place(3, slot)]) {
            for (day, number) in [(36524, 0), (36525, 4), (36526, 4), (65535, 4)] {
                let mut terms = terms.clone();
                put_number(&mut terms, place, day);
                for slot in 0..3 {
                    let expected = match slot {
                        _ if number == 4 => (refused(4), NOTHING),
                        1 => (refused(9), NOTHING),
                        _ => shows(slot),
                    };
                    let read = dated_read(&keys, &sheet, &terms, slot, 36524);
                    assert_eq!(read, expected, "{place} {day} {slot}");
                }
            }
        }
    }
}

#[test]
fn a_term_sheet_of_another_n_or_length_is_unfit() {
    let mut random = Random::new(105);
    for edition in Edition::ALL {
        for n in [1, 2, 5, 256] {
            let keys = unlike(&mut random, 8);
            let sheet = numbered_sheet(edition, &keys, n, 8);
            let terms = term_sheet(&vec![ALWAYS; n]);
            let own = dated_read(&keys, &sheet, &terms, n - 1, 7);
            assert_eq!(own, shows(n - 1));
            let mut other_n = terms.clone();
            put_number(&mut other_n, 0, n as u16 + 1);
            for unfit in [
                Vec::new(),
                vec![0],
                terms[..2].to_vec(),
                terms[..terms.len() - 1].to_vec(),
                terms[..terms.len() - 4].to_vec(),
                [terms.clone(), vec![0]].concat(),
                [terms.clone(), vec![0; 4]].concat(),
                term_sheet(&vec![ALWAYS; n - 1]),
                term_sheet(&vec![ALWAYS; n + 1]),
                other_n,
            ] {
                // Also where the slot is blank or isn't there.
                let blank = blank_for(edition, &keys, n, 8);
                for (sheet, slot) in [(&sheet, 0), (&sheet, n), (&blank, 0)] {
                    let read = dated_read(&keys, sheet, &unfit, slot, 7);
                    assert_eq!(read, (refused(4), NOTHING));
                }
            }
        }
    }
}

/// 9 hides 12, and 12 hides 10.
#[test]
fn a_blank_slot_off_show_is_blank_and_an_altered_one_off_show_is_not_on_show() {
    let mut random = Random::new(106);
    for (edition, t) in kinds() {
        let keys = unlike(&mut random, t);
        let mut sheet = numbered_sheet(edition, &keys, 3, t);
        assert_eq!(reference::clear(&mut sheet, 0), accepted(0));
        sheet[edition.mark_place(1).start + 8] ^= 1;
        for (term, numbers) in [(ALWAYS, [9, 10, 0]), (NEVER, [9, 12, 12])] {
            let terms = term_sheet(&[term; 3]);
            for (slot, number) in numbers.into_iter().enumerate() {
                let (answer, window) = dated_read(&keys, &sheet, &terms, slot, 500);
                assert_eq!(answer.number, number);
                assert_eq!(window == NOTHING, number != 0);
            }
        }
    }
}

#[test]
fn any_window_but_192_gives_3_and_becomes_zero() {
    let mut random = Random::new(107);
    for edition in Edition::ALL {
        let keys = unlike(&mut random, 4);
        let sheet = numbered_sheet(edition, &keys, 1, 4);
        for (term, number) in [(ALWAYS, 0), (NEVER, 12)] {
            let terms = term_sheet(&[term]);
            for length in 0..400 {
                let mut window = vec![0xee; length];
                let answer =
                    reference::dated_read(&keys.0, &keys.1, &sheet, &terms, 0, 1, &mut window);
                let answer = unpointed(answer);
                let number = if length == 192 { number } else { 3 };
                assert_eq!(answer.number, number);
                if number == 0 {
                    assert_eq!((answer, &window[..]), (shows(0).0, &shows(0).1[..]));
                } else {
                    assert_eq!((answer, window), (refused(number), vec![0; length]));
                }
            }
        }
    }
}
