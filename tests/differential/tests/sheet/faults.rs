//! The order of refusals: every combination of faults in one call.

use crate::both;
use crate::dated::NUMBERS;
use differential::edition::Edition;
use differential::letters::{bad_text, good_text};
use differential::random::Random;
use differential::report;
use differential::sheets::{key_bytes, kinds, set_last_number, Keys, FIELD, UNKNOWN_EDITION};
use differential::term_sheet::{
    closing_place, opening_place, put_number, term_sheet, Term, ALWAYS, NEVER,
};

const SLOTS: usize = 5;

/// The pair that wrote the sheet, then pairs with something wrong.
fn pairs(random: &mut Random, t: usize, right: &Keys) -> Vec<Keys> {
    let bytes = key_bytes(t);
    let mut pairs = vec![
        right.clone(),
        right.swapped(),
        Keys::unlike(random, t),
        Keys::twins(random, bytes),
        Keys::twins(random, 9),
        Keys::of_lengths(random, bytes - 1, bytes),
        Keys::of_lengths(random, bytes, bytes + 1),
        Keys::of_lengths(random, 0, 0),
    ];
    for other in [8, 10, 12, 16].into_iter().filter(|other| *other != bytes) {
        pairs.push(Keys::of_lengths(random, other, other));
        pairs.push(Keys::twins(random, other));
        pairs.push(Keys::of_lengths(random, bytes, other));
    }
    pairs
}

/// A sheet with a written slot 0, an altered one 1, an empty caption in 2 and
/// two blank ones; then the same with another key mark, and with faults in the
/// layout.
fn sheets(
    random: &mut Random,
    (edition, t): (Edition, usize),
    keys: &Keys,
    w: u32,
) -> Vec<Vec<u8>> {
    let mut fit = keys.blank_sheet(edition, SLOTS, t);
    set_last_number(&mut fit, w - 3);
    for (slot, length) in [(0, 100), (1, 192), (2, 0)] {
        let caption = good_text(random, length);
        let answer = reference::write(&keys.sealing, &keys.checking, &mut fit, slot, &caption);
        assert_eq!(answer.number, 0);
    }
    fit[edition.mark_place(1).start + 9] ^= 0x10;
    let mut other_mark = fit.clone();
    if let Edition::Three(_) = edition {
        other_mark[10 + random.below(6)] ^= 0x40;
    }
    let mut other_edition = fit.clone();
    other_edition[3] = UNKNOWN_EDITION;
    let mut last_mark_unfit = fit.clone();
    last_mark_unfit[edition.mark_place(SLOTS - 1).start + 7] = 1;
    let short = fit[..7].to_vec();
    let cut = fit[..fit.len() - 1].to_vec();
    vec![
        fit,
        other_mark,
        other_edition,
        last_mark_unfit,
        short,
        cut,
        Vec::new(),
    ]
}

#[test]
fn every_combination_of_faults() {
    let mut random = Random::of_part(520);
    let mut both = both("combinations of faults");
    for (edition, t) in kinds() {
        for w in [3, u32::MAX] {
            let right = Keys::unlike(&mut random, t);
            let pairs = pairs(&mut random, t, &right);
            for sheet in sheets(&mut random, (edition, t), &right, w) {
                for slot in (0..=SLOTS).chain([usize::MAX]) {
                    both.clear(&mut sheet.clone(), slot);
                    for keys in &pairs {
                        for window in [FIELD, FIELD - 1, FIELD + 1, 0] {
                            both.read(keys, &sheet, slot, window);
                        }
                        for length in [0, FIELD, FIELD + 1] {
                            let caption = good_text(&mut random, length);
                            both.write(keys, &mut sheet.clone(), slot, &caption);
                        }
                        for length in [1, FIELD, FIELD + 1] {
                            let caption = bad_text(&mut random, length);
                            both.write(keys, &mut sheet.clone(), slot, &caption);
                        }
                    }
                }
            }
        }
    }
    both.hold_met((0..=10).chain([14, 15]));
    let (calls, met) = (both.calls, both.numbers_met());
    report(&format!(
        "sheet: combinations of faults, {calls} calls: {met}"
    ));
}

/// Term sheets by which slots are on show on day 100 or not, written, altered
/// and blank ones; then unfit term sheets.
fn term_sheets() -> Vec<Vec<u8>> {
    let on_and_off = |on: Term, off: Term| term_sheet(&[on, off, (100, 99), (100, 100), off]);
    let all_on = term_sheet(&[ALWAYS; SLOTS]);
    let mut other_count = all_on.clone();
    put_number(&mut other_count, 0, SLOTS as u16 - 1);
    let mut late_opening = all_on.clone();
    put_number(&mut late_opening, opening_place(SLOTS - 1), 36_525);
    let mut late_closing = all_on.clone();
    put_number(&mut late_closing, closing_place(SLOTS, 0), 36_525);
    let cut = all_on[..all_on.len() - 1].to_vec();
    vec![
        all_on,
        on_and_off(ALWAYS, NEVER),
        on_and_off((99, 101), (101, 200)),
        on_and_off((0, 100), (0, 99)),
        on_and_off(NEVER, ALWAYS),
        other_count,
        late_opening,
        late_closing,
        cut,
        Vec::new(),
    ]
}

#[test]
fn every_combination_of_faults_of_a_dated_read() {
    let mut random = Random::of_part(521);
    let mut both = both("combinations of faults of dated reads");
    for (edition, t) in kinds() {
        let right = Keys::unlike(&mut random, t);
        let pairs = pairs(&mut random, t, &right);
        for sheet in sheets(&mut random, (edition, t), &right, 3) {
            for terms in term_sheets() {
                for slot in 0..=SLOTS {
                    for day in [100, 36_525] {
                        for keys in &pairs {
                            for window in [FIELD, FIELD - 1] {
                                both.dated_read(keys, &sheet, &terms, slot, day, window);
                            }
                        }
                    }
                }
            }
        }
    }
    both.hold_met(NUMBERS);
    let (calls, met) = (both.calls, both.numbers_met());
    report(&format!(
        "sheet: combinations of faults of dated reads, {calls} calls: {met}"
    ));
}
