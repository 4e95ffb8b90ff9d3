//! The term sheet (document 02, request 1).

use crate::random::Random;
use crate::term_sheet::*;
use reference::terms_fit;

#[test]
fn the_layout_is_n_then_opening_days_then_closing_days() {
    let terms = term_sheet(&[(0x0102, 0x0304), (0x0506, 0x0708)]);
    assert_eq!(terms, [0, 2, 1, 2, 5, 6, 3, 4, 7, 8]);
    assert!(terms_fit(&terms, 2));
    assert_eq!(term_sheet(&[ALWAYS; 256]).len(), 1026);
    assert_eq!(term_sheet(&[ALWAYS; 256])[..2], [1, 0]);
}

#[test]
fn terms_of_1_to_256_slots_fit_their_own_n_alone() {
    for n in 1..=256 {
        for term in [ALWAYS, NEVER, (0, 0), (36524, 36524), (36524, 0)] {
            let terms = term_sheet(&vec![term; n]);
            for other in [0, 1, 2, n - 1, n, n + 1, 255, 256, 257, 65536 + n, 1 << 62] {
                assert_eq!(terms_fit(&terms, other), other == n, "{n} {other}");
            }
        }
    }
}

/// The last day is taken and the next isn't, in every entry and with every
/// value.
#[test]
fn every_entry_with_every_value() {
    let mut terms = term_sheet(&[(5, 9), NEVER, (200, 36524)]);
    for place in (1..=6).map(|i| 2 * i) {
        let before = terms.clone();
        for value in 0..=65535 {
            put_number(&mut terms, place, value);
            assert_eq!(terms_fit(&terms, 3), value <= 36524, "{place} {value}");
        }
        terms = before;
    }
}

#[test]
fn every_value_of_n_but_the_sheet_s_is_unfit() {
    for n in [1, 2, 255, 256] {
        let mut terms = term_sheet(&vec![ALWAYS; n]);
        for value in 0..=65535 {
            put_number(&mut terms, 0, value);
            assert_eq!(terms_fit(&terms, n), usize::from(value) == n, "{n} {value}");
        }
    }
}

#[test]
fn every_length_but_2_and_4_n_is_unfit() {
    for n in [1, 2, 3, 255, 256] {
        let terms = term_sheet(&vec![ALWAYS; n]);
        for length in 0..terms.len() {
            assert!(!terms_fit(&terms[..length], n), "{n} {length}");
        }
        for more in 1..=20 {
            let longer = [terms.clone(), vec![0; more]].concat();
            assert!(!terms_fit(&longer, n), "{n} {more}");
        }
        let longer = [terms.clone(), vec![0; 65536]].concat();
        assert!(!terms_fit(&longer, n));
    }
}

/// Also counts of slots that no sheet has, and of which 4 × n is 0 in 64 bits.
#[test]
fn any_count_of_slots_is_judged() {
    let huge = [1 << 16, 1 << 32, 1 << 62, 1 << 63, usize::MAX];
    for n in (0..300).chain([65534, 65535]).chain(huge) {
        for terms in [&[][..], &[0], &[0, 0], &[0xff; 2], &[0; 6], &[0xff; 6]] {
            assert_eq!(terms_fit(terms, n), n == 0 && terms == [0, 0]);
        }
    }
}

#[test]
fn random_bytes_are_judged_as_the_request_says() {
    let mut random = Random::new(90);
    let mut fit = 0;
    for _ in 0..50_000 {
        let n = 1 + random.below(4);
        let mut terms = term_sheet(&vec![ALWAYS; n]);
        for _ in 0..random.below(5) {
            let place = random.below(terms.len());
            terms[place] = random.pick(&[0, 1, 0x8e, 0x8d, 0x8f, 0xac, 0xad, 0xff]);
        }
        if random.below(8) == 0 {
            terms.resize(random.below(24), 0);
        }
        let beside = (n + random.below(3)).saturating_sub(1).max(1);
        let n = random.pick(&[n, n, n, beside]);
        assert_eq!(terms_fit(&terms, n), belongs(&terms, n));
        fit += usize::from(belongs(&terms, n));
    }
    assert!((10_000..40_000).contains(&fit), "{fit}");
}
