//! Term sheets and days to call with: fit ones, and ones with a rule broken.

use crate::random::Random;
use crate::term_sheet::{
    closing_place, opening_place, put_number, term_sheet, Term, ALWAYS, LAST_DAY, NEVER,
};

/// Days above the last one, among them those that a narrower count would take
/// for days of the calendar.
pub const FAR_DAYS: [usize; 12] = [
    36_525,
    36_526,
    65_535,
    65_536,
    65_536 + 18_000,
    1 << 17,
    (1 << 32) - 1,
    1 << 32,
    (1 << 32) + 36_524,
    1 << 63,
    (1 << 63) + 18_000,
    usize::MAX,
];

/// A day: those beside a carry or an end of the calendar, and any.
fn some_day(random: &mut Random) -> u16 {
    match random.below(4) {
        0 => random.pick(&[0, 1, 255, 256, 257, 36_523, 36_524]),
        _ => random.below(LAST_DAY + 1) as u16,
    }
}

/// A term: every day, no day, one day, and any two days either way round.
fn some_term(random: &mut Random) -> Term {
    let [one, other] = [some_day(random), some_day(random)];
    match random.below(6) {
        0 => ALWAYS,
        1 => NEVER,
        2 => (one, one),
        3 => (one, other),
        _ => (one.min(other), one.max(other)),
    }
}

/// A term sheet that fits a sheet of n slots.
pub fn fit_terms(random: &mut Random, n: usize) -> Vec<u8> {
    let terms: Vec<Term> = (0..n).map(|_| some_term(random)).collect();
    term_sheet(&terms)
}

/// The ways to break a rule of the term sheet.
const FAULTS: usize = 10;

/// A fit term sheet with one thing altered: unfit then, or seldom still fit.
fn near_terms(random: &mut Random, n: usize, fault: usize) -> Vec<u8> {
    let mut terms = fit_terms(random, n);
    // The first and the last slot as often as all others.
    let between = random.below(n);
    let slot = random.pick(&[0, n - 1, between]);
    let day = random.pick(&[36_525, 36_526, 36_608, 36_864, 40_000, 0x8fff, 0xffff]);
    match fault {
        0 => put_number(&mut terms, 0, n as u16 - 1),
        1 => put_number(&mut terms, 0, n as u16 + 1),
        2 => put_number(&mut terms, 0, random.number() as u16),
        3 => put_number(&mut terms, opening_place(slot), day),
        4 => put_number(&mut terms, closing_place(n, slot), day),
        5 => terms.truncate(terms.len() - 1),
        6 => terms.push(random.pick(&[0, 0xff])),
        7 => terms.truncate(random.below(terms.len())),
        8 => terms = fit_terms(random, n + 1),
        _ => terms = fit_terms(random, n - 1),
    }
    terms
}

/// A term sheet for a sheet of n slots: fit most often, else near to it.
pub fn some_terms(random: &mut Random, n: usize) -> Vec<u8> {
    match random.below(4) {
        0 => {
            let fault = random.below(FAULTS);
            near_terms(random, n, fault)
        }
        _ => fit_terms(random, n),
    }
}

/// A day to read on: one beside an end of some term of a term sheet, any day,
/// or one above the last.
pub fn day_near(random: &mut Random, terms: &[u8]) -> usize {
    let numbers: Vec<usize> = terms
        .as_chunks::<2>()
        .0
        .iter()
        .map(|bytes| usize::from(u16::from_be_bytes(*bytes)))
        .collect();
    match random.below(12) {
        0 => random.pick(&FAR_DAYS),
        1..4 => usize::from(some_day(random)),
        _ if numbers.is_empty() => LAST_DAY,
        _ => (random.pick(&numbers) + random.below(3)).saturating_sub(1),
    }
}
