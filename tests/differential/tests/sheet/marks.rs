//! Key marks and other keys (document 02, request 7): the mark that blanking
//! stores, a mark with any bit flipped, pairs that differ in any bit, and 14's
//! place in the order, with the numbers of the papers beside the second program's.

use crate::edges::done;
use crate::{both, FAR_SLOTS};
use differential::both::Both;
use differential::edition::Edition;
use differential::letters::{bad_text, good_text};
use differential::library;
use differential::random::Random;
use differential::sheets::{
    key_bytes, set_last_number, some_serial, Keys, CLASSES, FIELD, MCRYPTON,
};
use differential::term_sheet::{put_number, term_sheet, ALWAYS, NEVER};
use reference::{NO_SUCH_SLOT, OTHER_KEYS};

const SLOTS: usize = 4;

// ---- The mark ----

/// The mark by the paper, of the library's blocks and CMAC with the cipher of a class:
/// n (2 bytes), t, edition 3, serial (2), two zero bytes, sealed; the first six bytes of
/// its CMAC.
fn mark_by_hand(class: usize, keys: &Keys, n: usize, t: usize, serial: u16) -> Vec<u8> {
    let [n0, n1] = (n as u16).to_be_bytes();
    let [s0, s1] = serial.to_be_bytes();
    let block = [n0, n1, t as u8, 3, s0, s1, 0, 0];
    let sealed = library::encrypted(class, &keys.sealing, block, 0xffff);
    library::check(class, &keys.checking, &sealed)[..6].to_vec()
}

/// A blanking over random bytes, with the mark that the paper says.
fn blank_and_look(both: &mut Both, random: &mut Random, n: usize, t: usize, serial: u16) {
    let keys = Keys::unlike(random, t);
    let mut sheet = random.bytes(Edition::BLANKED.sheet_length(n));
    both.begin(Edition::Three(serial), &keys, &mut sheet, n, t);
    assert_eq!(sheet[10..16], mark_by_hand(t, &keys, n, t, serial));
    let wrong = keys.flipped(random.below(keys.bits()));
    for (pair, number) in [(&keys, 9), (&wrong, OTHER_KEYS)] {
        assert_eq!(both.read(pair, &sheet, n - 1, FIELD).0.number, number);
    }
}

#[test]
fn marks_of_every_class_count_and_serial() {
    let mut random = Random::of_part(600);
    let mut both = both("key marks");
    for t in CLASSES {
        for n in 1..=256 {
            let serial = some_serial(&mut random);
            blank_and_look(&mut both, &mut random, n, t, serial);
        }
        let counts = [1, 2, 255, 256].into_iter();
        for n in counts.chain([0; 8].map(|_| 1 + random.below(256))) {
            let some = [0; 8].map(|_| random.number() as u16);
            for serial in Edition::SERIALS.into_iter().chain(some) {
                blank_and_look(&mut both, &mut random, n, t, serial);
            }
        }
    }
    both.hold_met([0, 9, 14]);
    done(
        &both,
        "marks of every class, every slot count and many serials",
    );
}

// ---- Other keys ----

/// Slot 0 holds a caption, slot 1 is blank, slot 2 altered, slot 3 holds the
/// longest caption.
fn mixed_sheet(random: &mut Random, edition: Edition, t: usize) -> (Keys, Vec<u8>) {
    let keys = Keys::unlike(random, t);
    let mut sheet = keys.blank_sheet(edition, SLOTS, t);
    for (slot, length) in [(0, 17), (2, 40), (3, FIELD)] {
        let caption = good_text(random, length);
        let answer = reference::write(&keys.sealing, &keys.checking, &mut sheet, slot, &caption);
        assert_eq!(answer.number, 0);
    }
    sheet[edition.mark_place(2).end - 1] ^= 1;
    (keys, sheet)
}

/// Holds that a read, a dated read and a write give 14 in a slot, there or not,
/// point nowhere, show zeros and change nothing, worn or not.
fn hold_others(both: &mut Both, keys: &Keys, sheet: &[u8], slots: impl Iterator<Item = usize>) {
    let terms = [ALWAYS, NEVER].map(|term| term_sheet(&[term; SLOTS]));
    let mut worn = sheet.to_vec();
    set_last_number(&mut worn, u32::MAX);
    let nowhere =
        |answer: reference::Pointed| (answer.length, answer.rule, answer.slot, answer.place);
    for slot in slots {
        let mut answers = vec![both.read(keys, sheet, slot, FIELD)];
        for terms in &terms {
            answers.push(both.dated_read(keys, sheet, terms, slot, 7, FIELD));
        }
        for (answer, window) in answers {
            assert_eq!(answer.number, OTHER_KEYS, "{} {slot}", both.label);
            assert_eq!(nowhere(answer), (0, 0, 0, 0));
            assert_eq!(window, [0; FIELD]);
        }
        for (before, caption) in [(sheet, &[7; FIELD][..]), (&worn, &[7; FIELD + 1])] {
            let mut after = before.to_vec();
            let answer = both.write(keys, &mut after, slot, caption);
            assert_eq!(answer.number, OTHER_KEYS, "{} {slot}", both.label);
            assert_eq!(nowhere(answer), (0, 0, 0, 0));
            assert!(after == before, "{} {slot}", both.label);
        }
    }
}

/// Slots below n, n and beyond.
fn every_slot() -> impl Iterator<Item = usize> {
    (0..=SLOTS + 1).chain(FAR_SLOTS)
}

/// 14 and never 4; clears and the listing go on.
#[test]
fn every_bit_of_the_mark() {
    let mut random = Random::of_part(601);
    let mut both = both("every bit of the mark");
    for t in CLASSES {
        let (keys, sheet) = mixed_sheet(&mut random, Edition::BLANKED, t);
        for bit in 8 * 10..8 * 16 {
            let mut flipped = sheet.clone();
            flipped[bit / 8] ^= 1 << (bit % 8);
            both.label = format!("bit {bit} of the mark, t = {t}");
            hold_others(&mut both, &keys, &flipped, every_slot());
            assert_eq!(reference::listing(&flipped), reference::listing(&sheet));
            both.list(&flipped);
            for slot in every_slot() {
                let number = if slot < SLOTS { 0 } else { NO_SUCH_SLOT };
                assert_eq!(both.clear(&mut flipped.clone(), slot).number, number);
            }
        }
        assert_eq!(both.read(&keys, &sheet, 0, FIELD).0.length, 17);
    }
    both.hold_met([0, 6, 14]);
    both.hold_pointed_at([0]);
    done(&both, "every bit of the mark flipped");
}

/// Every other value of each byte, marks of zeros and ones, and those of another
/// n, class, serial or pair; w has no part in it.
#[test]
fn other_marks() {
    let mut random = Random::of_part(602);
    let mut both = both("other marks");
    for t in CLASSES {
        let (keys, sheet) = mixed_sheet(&mut random, Edition::BLANKED, t);
        let own = &sheet[10..16];
        let mut marks = vec![vec![0; 6], vec![0xff; 6], Edition::SOME_MARK.to_vec()];
        for (place, value) in (0..6).flat_map(|place| (0..=255).map(move |value| (place, value))) {
            let mut mark = own.to_vec();
            mark[place] = value;
            marks.push(mark);
        }
        marks.extend([
            mark_by_hand(t, &keys, SLOTS + 1, t, 0xa53c),
            mark_by_hand(t, &keys, SLOTS << 8, t, 0xa53c),
            mark_by_hand(t, &keys, SLOTS, t + 2, 0xa53c),
            mark_by_hand(t, &keys, SLOTS, t, 0x3ca5),
            mark_by_hand(t, &keys, SLOTS, t, 0),
            mark_by_hand(t, &keys.swapped(), SLOTS, t, 0xa53c),
        ]);
        // The other cipher's, and that of the other class.
        if let 8 | 24 = t {
            let other = 32 - t;
            marks.push(mark_by_hand(other, &keys, SLOTS, t, 0xa53c));
            marks.push(mark_by_hand(other, &keys, SLOTS, other, 0xa53c));
        }
        for mark in marks.iter().filter(|mark| **mark != own) {
            let mut changed = sheet.clone();
            changed[10..16].copy_from_slice(mark);
            both.label = format!("mark {mark:02x?}, t = {t}");
            hold_others(&mut both, &keys, &changed, [0, SLOTS].into_iter());
        }
        for w in [3, 4, 0x00ff_ffff, u32::MAX] {
            let mut numbered = sheet.clone();
            set_last_number(&mut numbered, w);
            assert_eq!(both.read(&keys, &numbered, 0, FIELD).0.length, 17);
        }
    }
    done(&both, "every other value of each byte of the mark");
}

/// Each bit of either key flipped, the keys exchanged, one of them another, and
/// both others.
fn other_pairs(random: &mut Random, keys: &Keys) -> Vec<Keys> {
    let bytes = keys.sealing.len();
    let mut pairs: Vec<Keys> = (0..keys.bits()).map(|bit| keys.flipped(bit)).collect();
    let another = Keys::of_lengths(random, bytes, bytes);
    pairs.push(keys.swapped());
    pairs.push(Keys {
        sealing: another.sealing.clone(),
        ..keys.clone()
    });
    pairs.push(Keys {
        checking: another.checking.clone(),
        ..keys.clone()
    });
    pairs.push(another);
    pairs
}

#[test]
fn every_pair_but_the_sheet_s_own() {
    let mut random = Random::of_part(603);
    let mut both = both("other pairs");
    for t in CLASSES {
        let (keys, sheet) = mixed_sheet(&mut random, Edition::BLANKED, t);
        for (number, others) in other_pairs(&mut random, &keys).iter().enumerate() {
            both.label = format!("other pair {number}, t = {t}");
            let some_slot = random.pick(&FAR_SLOTS);
            let slots = [number % SLOTS, SLOTS, some_slot];
            hold_others(&mut both, others, &sheet, slots.into_iter());
        }
        let exchanged = keys.swapped();
        hold_others(&mut both, &exchanged, &sheet, every_slot());
    }
    both.hold_met([14]);
    done(
        &both,
        "keys exchanged, and pairs that differ in any one bit",
    );
}

/// 16 bytes are keys of two classes. The pair that one sheet was blanked with is a
/// stranger to the other, and the same pair has a mark of its own on each.
#[test]
fn sixteen_bytes_of_the_other_cipher() {
    let mut random = Random::of_part(608);
    let mut both = both("pairs of the other cipher");
    for _ in 0..20 {
        let serial = some_serial(&mut random);
        let pairs = [8, 24].map(|t| Keys::unlike(&mut random, t));
        let mut blanked = |keys: &Keys, t| {
            let mut sheet = random.bytes(Edition::BLANKED.sheet_length(SLOTS));
            both.begin(Edition::Three(serial), keys, &mut sheet, SLOTS, t);
            assert_eq!(both.write(keys, &mut sheet, 1, b"caption").number, 0);
            assert_eq!(both.read(keys, &sheet, 1, FIELD).0.length, 7);
            sheet
        };
        let sheets = [blanked(&pairs[0], 8), blanked(&pairs[1], 24)];
        let same = [8, 24].map(|t| blanked(&pairs[0], t));
        assert!(same[0][10..] != same[1][10..]);
        hold_others(&mut both, &pairs[1], &sheets[0], every_slot());
        hold_others(&mut both, &pairs[0], &sheets[1], every_slot());
        for (mut sheet, t) in same.into_iter().zip([24, 8]) {
            sheet[2] = t;
            hold_others(&mut both, &pairs[0], &sheet, every_slot());
        }
    }
    both.hold_met([0, 14]);
    done(&both, "16 bytes of the other cipher");
}

/// The same pairs on the older editions: another pair finds a caption altered, or
/// shown with other bytes, and writes over it.
#[test]
fn older_editions_never_give_14() {
    let mut random = Random::of_part(604);
    let mut both = both("other pairs on older editions");
    let terms = term_sheet(&[ALWAYS; SLOTS]);
    for edition in [Edition::One, Edition::Two(0), Edition::Two(0xa53c)] {
        for t in MCRYPTON {
            let (keys, sheet) = mixed_sheet(&mut random, edition, t);
            for (number, others) in other_pairs(&mut random, &keys).iter().enumerate() {
                for slot in [number % SLOTS, SLOTS] {
                    let (answer, window) = both.read(others, &sheet, slot, FIELD);
                    let dated = both.dated_read(others, &sheet, &terms, slot, 7, FIELD);
                    assert_eq!(dated, (answer, window));
                    let mut written = sheet.clone();
                    let answer = both.write(others, &mut written, slot, b"over");
                    assert_eq!(answer.number, if slot < SLOTS { 0 } else { 6 });
                    assert_eq!(
                        both.read(others, &written, slot, FIELD).0.number,
                        answer.number
                    );
                }
            }
        }
    }
    both.hold_met([0, 6, 9, 10]);
    done(&both, "the same pairs on editions 1 and 2");
}

// ---- The order ----

/// Pairs and sheets by which 14 is held beside every other refusal.
struct Order {
    own: Keys,
    others: Keys,
    other_class: Keys,
    wrong: Keys,
    twins: Keys,
    /// Worn; slot 0 is written, slot 1 blank and slot 2 altered.
    sheet: Vec<u8>,
    unfit: Vec<u8>,
}

impl Order {
    fn of_class(random: &mut Random, t: usize) -> Order {
        let (own, mut sheet) = mixed_sheet(random, Edition::BLANKED, t);
        set_last_number(&mut sheet, u32::MAX);
        let mut unfit = sheet.clone();
        unfit.push(0);
        let others = other_pairs(random, &own);
        let others = others[random.below(others.len())].clone();
        Order {
            own,
            others,
            other_class: Keys::unlike(random, if t == 4 { 6 } else { 4 }),
            wrong: Keys::of_lengths(random, key_bytes(t), key_bytes(t) - 1),
            twins: Keys::twins(random, key_bytes(t)),
            sheet,
            unfit,
        }
    }
}

/// Slots, and what a read by the sheet's own pair meets there.
const OWN_READS: [(usize, u8); 5] = [(0, 0), (1, 9), (2, 10), (SLOTS, 6), (usize::MAX, 6)];

/// 14 is hidden by 1, 2, 3, 4 and 5, and hides 6, 9 and 10.
#[test]
fn other_keys_among_the_refusals_of_a_read() {
    let mut random = Random::of_part(605);
    let mut both = both("14 among a read's refusals");
    for t in CLASSES {
        let order = Order::of_class(&mut random, t);
        for (slot, own) in OWN_READS {
            for (keys, sheet, window, number) in [
                (&order.own, &order.sheet, FIELD, own),
                (&order.others, &order.sheet, FIELD, OTHER_KEYS),
                (&order.other_class, &order.sheet, FIELD, 5),
                (&order.others, &order.unfit, FIELD, 4),
                (&order.others, &order.unfit, FIELD - 1, 3),
                (&order.others, &order.sheet, FIELD + 1, 3),
                (&order.twins, &order.unfit, 0, 2),
                (&order.wrong, &order.unfit, 0, 1),
            ] {
                let (answer, _) = both.read(keys, sheet, slot, window);
                assert_eq!(answer.number, number, "slot {slot}, t = {t}");
            }
        }
    }
    both.hold_met([0, 1, 2, 3, 4, 5, 6, 9, 10, 14]);
    done(&both, "14 among a read's refusals");
}

/// The same on a day: 14 is hidden by 11 and both kinds of 4, and hides 12.
#[test]
fn other_keys_among_the_refusals_of_a_dated_read() {
    let mut random = Random::of_part(606);
    let mut both = both("14 among a dated read's refusals");
    let always = &term_sheet(&[ALWAYS; SLOTS]);
    let never = &term_sheet(&[NEVER; SLOTS]);
    let mut torn = always.clone();
    put_number(&mut torn, 0, 1);
    for t in CLASSES {
        let order = Order::of_class(&mut random, t);
        let (own, others, sheet) = (&order.own, &order.others, &order.sheet);
        for (slot, by_own) in OWN_READS {
            let off_show = if [0, 10].contains(&by_own) {
                12
            } else {
                by_own
            };
            for (keys, sheet, terms, day, number) in [
                (own, sheet, always, 7, by_own),
                (own, sheet, never, 7, off_show),
                (own, sheet, never, 36_525, 11),
                (others, sheet, always, 7, OTHER_KEYS),
                (others, sheet, never, 36_524, OTHER_KEYS),
                (others, sheet, never, 36_525, 11),
                (&order.other_class, sheet, never, 36_525, 5),
                (others, sheet, &torn, 36_525, 4),
                (others, &order.unfit, always, 36_525, 4),
                (&order.twins, &order.unfit, &torn, 36_525, 2),
                (&order.wrong, &order.unfit, &torn, 36_525, 1),
            ] {
                let (answer, _) = both.dated_read(keys, sheet, terms, slot, day, FIELD);
                assert_eq!(answer.number, number, "slot {slot} on {day}, t = {t}");
            }
            let (answer, _) = both.dated_read(others, sheet, never, slot, 36_525, FIELD - 1);
            assert_eq!(answer.number, 3);
        }
    }
    both.hold_met([0, 1, 2, 3, 4, 5, 6, 9, 10, 11, 12, 14]);
    done(&both, "14 among a dated read's refusals");
}

/// 14 is hidden by 1, 2, 4 and 5, and hides 6, 7, 15 and 8.
#[test]
fn other_keys_among_the_refusals_of_a_write() {
    let mut random = Random::of_part(607);
    let mut both = both("14 among a write's refusals");
    for t in CLASSES {
        let order = Order::of_class(&mut random, t);
        let (good, bad) = (good_text(&mut random, 192), bad_text(&mut random, 192));
        let overlong = bad_text(&mut random, 193);
        for (slot, caption, own) in [
            (0, &good, 8),
            (0, &bad, 15),
            (0, &overlong, 7),
            (SLOTS, &overlong, 6),
        ] {
            for (keys, sheet, number) in [
                (&order.own, &order.sheet, own),
                (&order.others, &order.sheet, OTHER_KEYS),
                (&order.other_class, &order.sheet, 5),
                (&order.others, &order.unfit, 4),
                (&order.twins, &order.unfit, 2),
                (&order.wrong, &order.unfit, 1),
            ] {
                let answer = both.write(keys, &mut sheet.clone(), slot, caption);
                assert_eq!(answer.number, number, "slot {slot}, t = {t}");
            }
        }
    }
    both.hold_met([1, 2, 4, 5, 6, 7, 8, 14, 15]);
    done(&both, "14 among a write's refusals");
}
