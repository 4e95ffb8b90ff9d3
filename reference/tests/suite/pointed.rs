//! What the answers to a read, a write and a dated read carry (document 02,
//! requests 5, 7 and 10).

use crate::broken::*;
use crate::edition::Edition;
use crate::faults::{mixed_sheet, numbers_on, written_sheet};
use crate::flips::in_key_mark;
use crate::random::Random;
use crate::refusals::{call_for, first, read_sets, write_sets, WAYS};
use crate::support::*;
use crate::term_sheet::*;
use reference::Pointed;

type Keys = (Vec<u8>, Vec<u8>);

/// A read; the window of a refused one becomes zero.
fn pointed_read(keys: &Keys, sheet: &[u8], slot: usize) -> Pointed {
    let mut window = [0x5a; 192];
    let answer = reference::read(&keys.0, &keys.1, sheet, slot, &mut window);
    assert!(answer.number == 0 || window == [0; 192]);
    answer
}

/// A write on a copy; a refused one changes nothing.
fn pointed_write(keys: &Keys, sheet: &[u8], slot: usize, caption: &[u8]) -> Pointed {
    let mut copy = sheet.to_vec();
    let answer = reference::write(&keys.0, &keys.1, &mut copy, slot, caption);
    assert_eq!(copy == sheet, answer.number != 0);
    answer
}

/// A dated read; the window of a refused one becomes zero.
fn pointed_dated(keys: &Keys, sheet: &[u8], terms: &[u8], slot: usize, day: usize) -> Pointed {
    let mut window = [0x5a; 192];
    let answer = reference::dated_read(&keys.0, &keys.1, sheet, terms, slot, day, &mut window);
    assert!(answer.number == 0 || window == [0; 192]);
    answer
}

/// An unfit sheet, and what is broken.
fn unfit(numbers: Numbers) -> Pointed {
    pointed(refused(4), numbers)
}

/// A refusal that points to nothing.
fn silent(number: u8) -> Pointed {
    pointed(refused(number), NOWHERE)
}

#[test]
fn the_answer_is_the_number_and_the_length_alone() {
    let answer = Pointed {
        number: 1,
        rule: 2,
        length: 3,
        slot: 4,
        place: 5,
    };
    assert_eq!((answer.answer().number, answer.answer().length), (1, 3));
}

/// 4 comes before 5, 14, 6, 7, 15 and 9, so slot, caption and keys don't matter.
#[test]
fn every_call_points_to_the_fault_of_an_unfit_sheet() {
    let mut random = Random::new(160);
    let overlong = random.bytes(193);
    for (edition, t) in kinds() {
        let (keys, sheet) = written_sheet(&mut random, (edition, t), [5, 17, 192]);
        let others = unlike(&mut random, class_without(key_bytes(t), 2));
        let strangers = unlike(&mut random, t);
        let terms = term_sheet(&[ALWAYS; 3]);
        for rule in Break::all(edition) {
            for way in 0..BREAK_WAYS {
                let broken = broken_sheet(edition, &sheet, &[rule], way);
                let expected = unfit(numbers_on(t, rule));
                for slot in [0, 1, 2, 3, usize::MAX] {
                    for keys in [&keys, &others, &strangers] {
                        assert_eq!(pointed_read(keys, &broken, slot), expected);
                        assert_eq!(pointed_write(keys, &broken, slot, b"x"), expected);
                        assert_eq!(pointed_write(keys, &broken, slot, &overlong), expected);
                        assert_eq!(pointed_write(keys, &broken, slot, b"\xff"), expected);
                        for day in [0, 36525] {
                            let dated = pointed_dated(keys, &broken, &terms, slot, day);
                            assert_eq!(dated, expected);
                        }
                    }
                }
                assert_eq!(reference::clear(&mut broken.clone(), 0), refused(4));
            }
        }
    }
}

#[test]
fn of_a_pair_of_faults_every_call_names_the_earlier_one() {
    let mut random = Random::new(161);
    for (edition, t) in kinds() {
        let (keys, sheet) = written_sheet(&mut random, (edition, t), [0, 100, 192]);
        let terms = term_sheet(&[ALWAYS; 3]);
        let all = Break::all(edition);
        for (i, first) in all.iter().enumerate() {
            for second in &all[i + 1..] {
                let way = random.below(BREAK_WAYS);
                let broken = broken_sheet(edition, &sheet, &[*second, *first], way);
                let expected = unfit(numbers_on(t, *first));
                assert_eq!(pointed_read(&keys, &broken, 2), expected);
                assert_eq!(pointed_write(&keys, &broken, 2, b""), expected);
                assert_eq!(pointed_dated(&keys, &broken, &terms, 2, 7), expected);
            }
        }
    }
}

/// The first opened byte of slot 0 that another serial makes other than zero.
/// Its caption has 5 bytes and write number 1; the first opened block changes by
/// what the start blocks differ in.
fn place_after_serial(t: usize, keys: &Keys, serials: [[u8; 2]; 2]) -> usize {
    let start = |[g, h]: [u8; 2]| encrypt_in(t, &keys.0, [0, 0, 0, 1, 0, 0, g, h]);
    let [was, is] = serials.map(start);
    let place = (5..8).find(|place| was[*place] != is[*place]);
    place.unwrap()
}

/// What a read of a slot answers with a bit of this byte flipped. The slots are
/// written with 5 bytes, blank, and written with 192.
fn after_flip(
    keys: &Keys,
    edition: Edition,
    sheets: [&[u8]; 2],
    byte: usize,
    slot: usize,
) -> Pointed {
    let [sheet, flipped] = sheets;
    let broken = first_broken(flipped);
    let parts = [edition.mark_place(slot), edition.field_place(3, slot)];
    let own = parts.iter().any(|part| part.contains(&byte));
    let in_serial = edition != Edition::One && (8..10).contains(&byte);
    if broken != NOWHERE {
        unfit(broken)
    } else if key_bytes(usize::from(flipped[2])) != keys.0.len() {
        silent(5)
    } else if in_key_mark(flipped, byte) {
        silent(14)
    } else if own {
        pointed(refused(10), (10, slot as u16, 0))
    } else if in_serial && slot == 0 {
        let serials = [sheet, flipped].map(|sheet| [sheet[8], sheet[9]]);
        let place = place_after_serial(sheet[2].into(), keys, serials);
        pointed(refused(10), (11, 0, place as u16))
    } else if slot == 1 {
        silent(9)
    } else {
        let length = if slot == 0 { 5 } else { 192 };
        pointed(accepted(length), NOWHERE)
    }
}

#[test]
fn every_call_with_every_bit_of_a_sheet_flipped() {
    let mut random = Random::new(162);
    for (edition, t) in kinds() {
        let (keys, sheet) = mixed_sheet(&mut random, (edition, t));
        let terms = term_sheet(&[ALWAYS; 3]);
        for bit in 0..8 * sheet.len() {
            let byte = bit / 8;
            let mut flipped = sheet.clone();
            flipped[byte] ^= 1 << (bit % 8);
            // Slots in turn, but the byte's own slot with each of its bits.
            let has_byte = |slot: &usize| {
                let parts = [edition.mark_place(*slot), edition.field_place(3, *slot)];
                parts.iter().any(|part| part.contains(&byte))
            };
            let own = (0..3).find(has_byte).unwrap_or(0);
            for slot in [own, bit % 3] {
                let expected = after_flip(&keys, edition, [&sheet, &flipped], byte, slot);
                assert_eq!(pointed_read(&keys, &flipped, slot), expected, "{bit}");
            }
            let expected = after_flip(&keys, edition, [&sheet, &flipped], byte, own);
            let dated = pointed_dated(&keys, &flipped, &terms, own, 7);
            assert_eq!(dated, expected, "{bit}");
            // A write tests nothing that only a read of the slot tests.
            let expected = match expected.number {
                4 | 5 | 14 => expected,
                _ => pointed(accepted(0), NOWHERE),
            };
            assert_eq!(pointed_write(&keys, &flipped, 1, b""), expected, "{bit}");
        }
    }
}

/// The rule, slot and place for the first refusal of a set; `call_for` alters
/// the check or the sealed field of slot 1.
fn numbers_of(set: &[u8], sheet: &[u8]) -> Numbers {
    match first(set) {
        4 => first_broken(sheet),
        10 => (10, 1, 0),
        _ => NOWHERE,
    }
}

#[test]
fn a_read_and_a_write_point_by_their_first_refusal_of_every_set() {
    let mut random = Random::new(163);
    for kind in kinds() {
        for set in write_sets(kind.0) {
            for way in 0..WAYS {
                let call = call_for(&set, kind, way, &mut random);
                let keys = (call.sealing, call.checking);
                let answer = pointed_write(&keys, &call.sheet, call.slot, &call.caption);
                let expected = pointed(refused(first(&set)), numbers_of(&set, &call.sheet));
                assert_eq!(answer, expected, "{set:?} {way}");
            }
        }
        for set in read_sets(kind.0) {
            for way in 0..WAYS {
                let call = call_for(&set, kind, way, &mut random);
                let answer = reference::read(
                    &call.sealing,
                    &call.checking,
                    &call.sheet,
                    call.slot,
                    &mut call.window.clone(),
                );
                let mut expected = pointed(refused(first(&set)), numbers_of(&set, &call.sheet));
                if set.is_empty() {
                    expected.length = 40;
                }
                assert_eq!(answer, expected, "{set:?} {way}");
            }
        }
    }
}

/// Each by itself, and before it on an unfit sheet those that precede 4.
#[test]
fn accepted_calls_and_refusals_other_than_4_and_10_carry_zeros() {
    let mut random = Random::new(164);
    for (edition, t) in kinds() {
        let (keys, sheet) = mixed_sheet(&mut random, (edition, t));
        let terms = term_sheet(&[ALWAYS, ALWAYS, NEVER]);
        let short = (keys.0.clone(), vec![1; 7]);
        let twins = (keys.0.clone(), keys.0.clone());
        let others = unlike(&mut random, class_without(key_bytes(t), 2));
        let unfit_sheet = vec![0; 7];
        for sheet in [&sheet, &unfit_sheet] {
            for (keys, number) in [(&short, 1), (&twins, 2)] {
                assert_eq!(pointed_read(keys, sheet, 0), silent(number));
                assert_eq!(pointed_write(keys, sheet, 0, b""), silent(number));
                assert_eq!(pointed_dated(keys, sheet, &terms, 0, 0), silent(number));
            }
            for length in [0, 191, 193] {
                let mut window = vec![1; length];
                let answer = reference::read(&keys.0, &keys.1, sheet, 0, &mut window);
                assert_eq!(answer, silent(3));
                assert_eq!(window, vec![0; length]);
                let (sealing, checking) = (&keys.0, &keys.1);
                let answer =
                    reference::dated_read(sealing, checking, sheet, &terms, 0, 0, &mut window);
                assert_eq!(answer, silent(3));
            }
        }
        assert_eq!(pointed_read(&others, &sheet, 0), silent(5));
        assert_eq!(pointed_write(&others, &sheet, 0, b""), silent(5));
        assert_eq!(pointed_dated(&others, &sheet, &terms, 0, 0), silent(5));
        assert_eq!(pointed_dated(&keys, &sheet, &terms, 0, 36525), silent(11));
        if edition.number() == 3 {
            let strangers = unlike(&mut random, t);
            assert_eq!(pointed_read(&strangers, &sheet, 0), silent(14));
            assert_eq!(pointed_write(&strangers, &sheet, 0, b""), silent(14));
            let dated = pointed_dated(&strangers, &sheet, &terms, 0, 0);
            assert_eq!(dated, silent(14));
        }
        assert_eq!(pointed_read(&keys, &sheet, 3), silent(6));
        assert_eq!(pointed_write(&keys, &sheet, 3, b""), silent(6));
        assert_eq!(pointed_dated(&keys, &sheet, &terms, 3, 0), silent(6));
        assert_eq!(pointed_write(&keys, &sheet, 0, &[1; 193]), silent(7));
        assert_eq!(pointed_write(&keys, &sheet, 0, b"caf\xc3"), silent(15));
        assert_eq!(pointed_read(&keys, &sheet, 1), silent(9));
        assert_eq!(pointed_dated(&keys, &sheet, &terms, 1, 0), silent(9));
        assert_eq!(pointed_dated(&keys, &sheet, &terms, 2, 0), silent(12));
        let mut worn = sheet.clone();
        set_w(&mut worn, u32::MAX);
        assert_eq!(pointed_write(&keys, &worn, 0, b""), silent(8));

        let accepted = |length| pointed(accepted(length), NOWHERE);
        assert_eq!(pointed_read(&keys, &sheet, 0), accepted(5));
        assert_eq!(pointed_read(&keys, &sheet, 2), accepted(192));
        assert_eq!(pointed_dated(&keys, &sheet, &terms, 0, 0), accepted(5));
        assert_eq!(pointed_write(&keys, &sheet, 2, b"x"), accepted(0));
    }
}

// ---- The term sheet ----

/// Term sheets that are unfit beside a sheet of three slots.
fn unfit_terms() -> Vec<Vec<u8>> {
    let good = term_sheet(&[ALWAYS; 3]);
    let mut all = vec![
        Vec::new(),
        vec![0],
        vec![0, 3],
        good[..13].to_vec(),
        [&good[..], &[0]].concat(),
        term_sheet(&[ALWAYS; 2]),
        term_sheet(&[ALWAYS; 4]),
    ];
    for n in [0, 1, 2, 4, 256, 259, 65535] {
        let mut other_n = good.clone();
        put_number(&mut other_n, 0, n);
        all.push(other_n);
    }
    for place in (1..=6).map(|i| 2 * i) {
        for day in [36525, 65535] {
            let mut late = good.clone();
            put_number(&mut late, place, day);
            all.push(late);
        }
    }
    all
}

const TERMS: Numbers = (12, 0, 0);

/// Both unfit, and each alone: the term sheet is named after every fault of the
/// caption sheet.
#[test]
fn an_unfit_term_sheet_is_named_after_all_faults_of_the_caption_sheet() {
    let mut random = Random::new(165);
    let all_unfit = unfit_terms();
    let good = term_sheet(&[ALWAYS; 3]);
    assert!(belongs(&good, 3));
    assert!(all_unfit.iter().all(|terms| !belongs(terms, 3)));
    for (edition, t) in kinds() {
        let (keys, sheet) = written_sheet(&mut random, (edition, t), [5, 17, 192]);
        let answer = pointed_dated(&keys, &sheet, &good, 1, 7);
        assert_eq!(answer, pointed(accepted(17), NOWHERE));
        for rule in Break::all(edition) {
            for way in 0..BREAK_WAYS {
                let broken = broken_sheet(edition, &sheet, &[rule], way);
                let expected = unfit(numbers_on(t, rule));
                for terms in all_unfit.iter().chain([&good]) {
                    assert_eq!(pointed_dated(&keys, &broken, terms, 1, 7), expected);
                }
            }
        }
        for terms in &all_unfit {
            assert_eq!(pointed_dated(&keys, &sheet, terms, 1, 7), unfit(TERMS));
            // It is nothing to an undated read.
            let read = pointed_read(&keys, &sheet, 1);
            assert_eq!(read, pointed(accepted(17), NOWHERE));
        }
    }
}

/// A term sheet is judged by the n of a sheet that is fit: the caption sheet's n
/// is named where it is wrong, whatever n the term sheet has.
#[test]
fn a_wrong_n_of_the_caption_sheet_is_not_the_term_sheet_s() {
    let mut random = Random::new(166);
    for edition in Edition::ALL {
        let (keys, sheet) = written_sheet(&mut random, (edition, 4), [1, 2, 3]);
        for (n, rule) in [(0, 2), (1, 6), (2, 6), (4, 6), (256, 6), (257, 2)] {
            let mut other = sheet.clone();
            put_number(&mut other, 0, n);
            for terms in [3, usize::from(n)].map(|n| term_sheet(&vec![ALWAYS; n])) {
                let answer = pointed_dated(&keys, &other, &terms, 0, 7);
                assert_eq!(answer, unfit((rule, 0, 0)), "{n}");
            }
        }
    }
}

/// Before 5, 11, 14, 6, 9, 12 and 10, each of which is met with good terms.
#[test]
fn an_unfit_term_sheet_is_named_before_all_that_follows() {
    let mut random = Random::new(167);
    for (edition, t) in kinds() {
        let (keys, mut sheet) = mixed_sheet(&mut random, (edition, t));
        sheet[edition.mark_place(2).start + 9] ^= 4;
        let others = unlike(&mut random, class_without(key_bytes(t), 1));
        let good = term_sheet(&[NEVER, ALWAYS, ALWAYS]);
        let strangers = unlike(&mut random, t);
        let mut calls = vec![
            (&others, 0, 7, silent(5)),
            (&keys, 0, 36525, silent(11)),
            (&keys, 3, 7, silent(6)),
            (&keys, 1, 7, silent(9)),
            (&keys, 0, 7, silent(12)),
            (&keys, 2, 7, pointed(refused(10), (10, 2, 0))),
        ];
        if edition.number() == 3 {
            calls.push((&strangers, 0, 7, silent(14)));
            calls.push((&strangers, 3, 36525, silent(11)));
        }
        for (keys, slot, day, expected) in calls {
            assert_eq!(pointed_dated(keys, &sheet, &good, slot, day), expected);
            for terms in unfit_terms() {
                let answer = pointed_dated(keys, &sheet, &terms, slot, day);
                assert_eq!(answer, unfit(TERMS));
            }
        }
    }
}

/// Both rules of 10, by a dated read and by an undated one.
#[test]
fn a_dated_read_points_in_an_altered_slot_as_an_undated_one_does() {
    let mut random = Random::new(168);
    for (edition, t) in kinds() {
        let keys = unlike(&mut random, t);
        let (sealing, checking) = (&keys.0, &keys.1);
        let terms = term_sheet(&[ALWAYS, NEVER]);
        for place in (0..192).step_by(5) {
            let mut sheet = blank_for(edition, &keys, 2, t);
            let mut plain = [0; 192];
            plain[place] = 1;
            for slot in 0..2 {
                let length = place as u16 / 2;
                let answer =
                    reference::store_field(sealing, checking, &mut sheet, slot, length, &plain);
                assert_eq!(answer, accepted(0));
            }
            let mut differing = sheet.clone();
            differing[edition.field_place(2, 0).end - 1] ^= 1;
            let byte_place = (11, 0, place as u16);
            for (sheet, numbers) in [(&sheet, byte_place), (&differing, (10, 0, 0))] {
                let expected = pointed(refused(10), numbers);
                assert_eq!(pointed_read(&keys, sheet, 0), expected);
                assert_eq!(pointed_dated(&keys, sheet, &terms, 0, 7), expected);
                // 12 hides it.
                assert_eq!(pointed_dated(&keys, sheet, &terms, 1, 7), silent(12));
            }
        }
    }
}
