//! The first fault of a sheet (document 02, requests 5, 7 and 10).

use crate::broken::*;
use crate::edition::Edition;
use crate::letters::good_text;
use crate::random::Random;
use crate::support::*;
use reference::{first_fault, fit, Fault};

/// Rule, slot and place of the first fault, once the rules gathered by hand and
/// the layout test agree with it.
fn named(sheet: &[u8]) -> Numbers {
    let fault = first_fault(sheet);
    let numbers = fault.map_or(NOWHERE, Fault::numbers);
    assert_eq!(numbers, first_broken(sheet));
    assert_eq!(fit(sheet), fault.is_none());
    numbers
}

/// Three slots with captions of these lengths, and their keys.
pub fn written_sheet(
    random: &mut Random,
    (edition, t): (Edition, usize),
    lengths: [usize; 3],
) -> ((Vec<u8>, Vec<u8>), Vec<u8>) {
    let keys = unlike(random, t);
    let mut sheet = blank_for(edition, &keys, 3, t);
    for (slot, length) in lengths.into_iter().enumerate() {
        let caption = good_text(random, length);
        assert_eq!(write(&keys, &mut sheet, slot, &caption), accepted(0));
    }
    (keys, sheet)
}

/// Three slots: write number 1 with 5 bytes, a blank one, write number 3 with
/// 192 bytes.
pub fn mixed_sheet(random: &mut Random, kind: (Edition, usize)) -> ((Vec<u8>, Vec<u8>), Vec<u8>) {
    let (keys, mut sheet) = written_sheet(random, kind, [5, 17, 192]);
    assert_eq!(reference::clear(&mut sheet, 1), accepted(0));
    (keys, sheet)
}

/// What shall be answered on a sheet of class t if this rule alone is broken. Of
/// PRESENT's classes byte 2 breaks its rule wherever byte 3 isn't 3.
pub fn numbers_on(t: usize, rule: Break) -> Numbers {
    match rule {
        Break::Edition if PRESENT_CLASSES.contains(&t) => Break::KeyClass.numbers(),
        _ => rule.numbers(),
    }
}

#[test]
fn the_numbers_of_every_fault() {
    use reference::*;
    let (slot, place) = (200, 150);
    for (fault, name, numbers) in [
        (Fault::Short, RULE_SHORT, (1, 0, 0)),
        (Fault::SlotCount, RULE_SLOT_COUNT, (2, 0, 0)),
        (Fault::KeyClass, RULE_KEY_CLASS, (3, 0, 0)),
        (Fault::Edition, RULE_EDITION, (4, 0, 0)),
        (Fault::HeaderZero { place }, RULE_HEADER_ZERO, (5, 0, 150)),
        (Fault::Length, RULE_LENGTH, (6, 0, 0)),
        (Fault::MarkNumber { slot }, RULE_MARK_NUMBER, (7, 200, 0)),
        (Fault::MarkLength { slot }, RULE_MARK_LENGTH, (8, 200, 0)),
        (
            Fault::MarkZero { slot, place },
            RULE_MARK_ZERO,
            (9, 200, 150),
        ),
        (Fault::Check { slot }, RULE_CHECK, (10, 200, 0)),
        (
            Fault::OpenedByte { slot, place },
            RULE_OPENED_BYTE,
            (11, 200, 150),
        ),
        (Fault::Terms, RULE_TERMS, (12, 0, 0)),
    ] {
        assert_eq!(fault.numbers(), numbers);
        assert_eq!(name, numbers.0);
    }
    assert_eq!(RULE_NONE, 0);
}

#[test]
fn good_sheets_have_no_fault() {
    let mut random = Random::new(130);
    for (edition, t) in kinds() {
        for n in [1, 2, 3, 255, 256] {
            assert_eq!(named(&edition.blank_sheet(n, t)), NOWHERE);
        }
        assert_eq!(named(&mixed_sheet(&mut random, (edition, t)).1), NOWHERE);
    }
}

// ---- The header ----

#[test]
fn a_sheet_under_8_bytes_is_short_whatever_it_holds() {
    let mut random = Random::new(131);
    for length in 0..8 {
        for sheet in [vec![0; length], vec![255; length], random.bytes(length)] {
            assert_eq!(named(&sheet), (1, 0, 0));
        }
        for edition in Edition::ALL {
            assert_eq!(named(&edition.blank_sheet(1, 4)[..length]), (1, 0, 0));
        }
    }
    for (sheet, rule) in [([0; 8], 2), ([255; 8], 2)] {
        assert_eq!(named(&sheet), (rule, 0, 0));
    }
    assert_eq!(named(&[0, 1, 0, 0, 0, 0, 0, 0]), (3, 0, 0));
    assert_eq!(named(&[0, 1, 4, 0, 0, 0, 0, 0]), (4, 0, 0));
    assert_eq!(named(&[0, 1, 4, 1, 0, 0, 0, 0]), (6, 0, 0));
    assert_eq!(named(&[0, 1, 4, 2, 0, 0, 0, 0]), (6, 0, 0));
    assert_eq!(named(&[0, 1, 4, 3, 0, 0, 0, 0]), (6, 0, 0));
    assert_eq!(named(&[0, 1, 4, 4, 0, 0, 0, 0]), (4, 0, 0));
}

#[test]
fn n_with_every_value() {
    let mut random = Random::new(132);
    for edition in Edition::ALL {
        let (_, mut sheet) = mixed_sheet(&mut random, (edition, 4));
        for n in 0..=65535u16 {
            sheet[0..2].copy_from_slice(&n.to_be_bytes());
            let expected = match n {
                3 => NOWHERE,
                1..=256 => (6, 0, 0),
                _ => (2, 0, 0),
            };
            assert_eq!(named(&sheet), expected, "{n}");
        }
    }
}

/// n outside 1 to 256 isn't right for being the length's.
#[test]
fn n_on_both_sides_of_its_edges_with_the_length_of_n() {
    for edition in Edition::ALL {
        for (n, rule) in [(0, 2), (1, 0), (256, 0), (257, 2), (512, 2), (65535, 2)] {
            assert_eq!(named(&edition.blank_sheet(n, 6)), (rule, 0, 0), "{n}");
        }
    }
}

#[test]
fn byte_2_with_every_value() {
    let mut random = Random::new(133);
    for (edition, t) in kinds() {
        let (_, mut sheet) = mixed_sheet(&mut random, (edition, t));
        for value in 0..=255 {
            sheet[2] = value;
            let fits = classes_of(edition).contains(&value.into());
            let rule = if fits { 0 } else { 3 };
            assert_eq!(named(&sheet), (rule, 0, 0), "{value}");
        }
    }
}

/// As edition 2, byte 11 of an edition 1 sheet is the last of slot 0's write
/// number, and a key mark is set; as edition 3 an edition 1 sheet is 8 bytes too
/// short, and an edition 2 sheet has no fault; as edition 1 the others are 8
/// bytes too long. PRESENT's classes are edition 3's alone.
#[test]
fn byte_3_with_every_value() {
    let mut random = Random::new(134);
    for (edition, t) in kinds() {
        let (_, mut sheet) = mixed_sheet(&mut random, (edition, t));
        let set = (10..16).find(|place| sheet[*place] != 0).unwrap_or(0);
        for value in 0..=255 {
            sheet[3] = value;
            let expected = match (edition.number(), value) {
                (_, 0..=2 | 4..) if PRESENT_CLASSES.contains(&t) => (3, 0, 0),
                (1, 1) | (2, 2 | 3) | (3, 3) => NOWHERE,
                (1, 2) => (5, 0, 11),
                (3, 2) => (5, 0, set as u16),
                (1, 3) | (2 | 3, 1) => (6, 0, 0),
                _ => (4, 0, 0),
            };
            assert_eq!(named(&sheet), expected, "{value}");
        }
    }
}

/// Bytes 8 and 9 are the serial, bytes 10 to 15 zero or, in edition 3, the key
/// mark.
#[test]
fn bytes_8_to_15_of_editions_2_and_3_with_every_value() {
    let mut random = Random::new(135);
    for (edition, zeros) in [(Edition::Two(0xa53c), 10..16), (Edition::BLANKED, 0..0)] {
        let (_, sheet) = mixed_sheet(&mut random, (edition, 8));
        for place in 8..16 {
            for value in 0..=255 {
                let mut changed = sheet.clone();
                changed[place] = value;
                let expected = if zeros.contains(&place) && value != 0 {
                    (5, 0, place as u16)
                } else {
                    NOWHERE
                };
                assert_eq!(named(&changed), expected, "{place} {value}");
            }
        }
    }
}

/// Every set of the six bytes set, on sheets that end within the header, after
/// it, and where they should: zero bytes of edition 2, edition 3's key mark.
#[test]
fn a_short_sheet_is_held_to_the_zero_bytes_it_has() {
    let whole = Edition::Two(0xa53c).blank_sheet(1, 6);
    for set in 0..64 {
        let mut sheet = whole.clone();
        for i in 0..6 {
            sheet[10 + i] = set >> i & 1;
        }
        for length in (8..=17).chain([whole.len() - 1, whole.len()]) {
            let mut marked = sheet[..length].to_vec();
            marked[3] = 3;
            let rule = if length == whole.len() { 0 } else { 6 };
            assert_eq!(named(&marked), (rule, 0, 0), "{set} {length}");
            let lowest = (10..length.min(16)).find(|place| sheet[*place] != 0);
            let expected = match lowest {
                Some(place) => (5, 0, place as u16),
                None if length == whole.len() => NOWHERE,
                None => (6, 0, 0),
            };
            assert_eq!(named(&sheet[..length]), expected, "{set} {length}");
        }
    }
}

#[test]
fn every_length_of_a_cut_and_of_a_grown_sheet() {
    let mut random = Random::new(136);
    for (edition, t) in kinds() {
        let blank = edition.blank_sheet(3, t);
        for sheet in [blank, mixed_sheet(&mut random, (edition, t)).1] {
            for length in 0..sheet.len() {
                let rule = if length < 8 { 1 } else { 6 };
                assert_eq!(named(&sheet[..length]), (rule, 0, 0), "{length}");
                // What is left without the first bytes.
                let rest = named(&sheet[sheet.len() - length..]);
                assert_eq!(rest.0 == 1, length < 8);
            }
            assert_eq!(named(&sheet), NOWHERE);
            for value in [0, 1, 255] {
                let mut grown = sheet.clone();
                for _ in 0..420 {
                    grown.push(value);
                    assert_eq!(named(&grown), (6, 0, 0), "{}", grown.len());
                }
            }
        }
    }
}

#[test]
fn lengths_about_every_edge() {
    for edition in Edition::ALL {
        for n in [1, 2, 255, 256] {
            let mut sheet = edition.blank_sheet(n, 4);
            let length = sheet.len();
            sheet.resize(60_000, 0);
            for other in [216, 224, 53256, 53264, 60_000] {
                let rule = if other == length { 0 } else { 6 };
                assert_eq!(named(&sheet[..other]), (rule, 0, 0));
            }
            for (other, rule) in [(length - 1, 6), (length, 0), (length + 1, 6)] {
                assert_eq!(named(&sheet[..other]), (rule, 0, 0));
            }
        }
    }
}

// ---- The marks ----

#[test]
fn a_write_number_on_both_sides_of_its_edges() {
    let edges = [0, 1, 2, 255, 256, 65536, 1 << 31, u32::MAX - 1, u32::MAX];
    for edition in Edition::ALL {
        let mut sheet = edition.blank_sheet(3, 8);
        let mark = edition.mark_place(1).start;
        // Not all zero, whatever the number.
        sheet[mark + 15] = 1;
        for w in edges {
            set_w(&mut sheet, w);
            let near = [w.saturating_sub(1), w, w.saturating_add(1)];
            for number in edges.into_iter().chain(near) {
                sheet[mark..mark + 4].copy_from_slice(&number.to_be_bytes());
                let numbered = number >= 1 && number <= w;
                let expected = if numbered { NOWHERE } else { (7, 1, 0) };
                assert_eq!(named(&sheet), expected, "{w} {number}");
            }
        }
    }
}

/// The mark is named, not w, and the lowest slot above it.
#[test]
fn a_w_below_a_write_number() {
    let mut random = Random::new(137);
    for (edition, t) in kinds() {
        let (_, mut sheet) = mixed_sheet(&mut random, (edition, t));
        for (w, expected) in [
            (0, (7, 0, 0)),
            (1, (7, 2, 0)),
            (2, (7, 2, 0)),
            (3, NOWHERE),
            (u32::MAX, NOWHERE),
        ] {
            set_w(&mut sheet, w);
            assert_eq!(named(&sheet), expected, "{w}");
        }
    }
}

#[test]
fn a_caption_length_with_every_value() {
    let mut random = Random::new(138);
    for edition in Edition::ALL {
        let (_, mut sheet) = mixed_sheet(&mut random, (edition, 6));
        let mark = edition.mark_place(2).start;
        for length in 0..=65535u16 {
            sheet[mark + 4..mark + 6].copy_from_slice(&length.to_be_bytes());
            let expected = if length <= 192 { NOWHERE } else { (8, 2, 0) };
            assert_eq!(named(&sheet), expected, "{length}");
        }
    }
}

#[test]
fn a_mark_s_zero_bytes_with_every_pair_of_values() {
    let mut random = Random::new(139);
    for edition in Edition::ALL {
        let (_, mut sheet) = mixed_sheet(&mut random, (edition, 4));
        let mark = edition.mark_place(2).start;
        for pair in 0..=65535u16 {
            let [a, b] = pair.to_be_bytes();
            sheet[mark + 6..mark + 8].copy_from_slice(&[a, b]);
            let expected = match (a, b) {
                (0, 0) => NOWHERE,
                (0, _) => (9, 2, 7),
                _ => (9, 2, 6),
            };
            assert_eq!(named(&sheet), expected, "{pair}");
        }
    }
}

/// What a byte of a mark of the mixed sheet breaks.
fn after_mark_byte(slot: u16, byte: usize, value: u8) -> Numbers {
    let numbered = byte == 3 && (1..=3).contains(&value);
    match (slot, byte) {
        // A blank slot until a byte is set.
        (1, _) if value == 0 || numbered => NOWHERE,
        (1, _) => (7, 1, 0),
        (_, 0..=2) if value != 0 => (7, slot, 0),
        (_, 3) if !numbered => (7, slot, 0),
        (_, 4) if value != 0 => (8, slot, 0),
        (_, 5) if value > 192 => (8, slot, 0),
        (_, 6 | 7) if value != 0 => (9, slot, byte as u16),
        _ => NOWHERE,
    }
}

#[test]
fn every_byte_of_every_mark_with_every_value() {
    let mut random = Random::new(140);
    for (edition, t) in kinds() {
        let (_, sheet) = mixed_sheet(&mut random, (edition, t));
        for slot in 0..3 {
            for byte in 0..16 {
                for value in 0..=255 {
                    let mut changed = sheet.clone();
                    changed[edition.mark_place(slot).start + byte] = value;
                    let expected = after_mark_byte(slot as u16, byte, value);
                    assert_eq!(named(&changed), expected, "{slot} {byte} {value}");
                }
            }
        }
    }
}

#[test]
fn a_zero_mark_over_a_field_with_one_byte_set() {
    for edition in Edition::ALL {
        for w in [0, 1, u32::MAX] {
            let mut sheet = edition.blank_sheet(3, 8);
            set_w(&mut sheet, w);
            for slot in 0..3 {
                for place in edition.field_place(3, slot) {
                    for value in [1, 0x80, 255] {
                        sheet[place] = value;
                        assert_eq!(named(&sheet), (7, slot as u16, 0), "{place}");
                    }
                    sheet[place] = 0;
                }
            }
            assert_eq!(named(&sheet), NOWHERE);
        }
    }
}

/// Every set of the mark's other parts being wrong or set: the number comes
/// before the length, the length before the zero bytes, whatever the check is.
#[test]
fn a_mark_s_rules_by_their_lowest_byte() {
    let mut random = Random::new(141);
    for edition in Edition::ALL {
        let (_, sheet) = written_sheet(&mut random, (edition, 6), [9, 9, 9]);
        for slot in 0..3u16 {
            let mark = edition.mark_place(slot.into()).start;
            for set in 0..32 {
                let has = |i: u8| set >> i & 1 == 1;
                let mut changed = sheet.clone();
                if has(0) {
                    changed[mark..mark + 4].fill(0);
                }
                if has(1) {
                    changed[mark + 4] = 1;
                }
                if has(2) {
                    changed[mark + 6] = 1;
                }
                if has(3) {
                    changed[mark + 7] = 1;
                }
                if has(4) {
                    changed[mark + 8..mark + 16].fill(0);
                }
                let expected = match (has(0), has(1), has(2), has(3)) {
                    (true, _, _, _) => (7, slot, 0),
                    (_, true, _, _) => (8, slot, 0),
                    (_, _, true, _) => (9, slot, 6),
                    (_, _, _, true) => (9, slot, 7),
                    _ => NOWHERE,
                };
                assert_eq!(named(&changed), expected, "{set}");
            }
        }
    }
}

// ---- Several at once ----

#[test]
fn each_fault_alone_and_of_each_pair_the_earlier_one() {
    let mut random = Random::new(142);
    for (edition, t) in kinds() {
        let (_, sheet) = written_sheet(&mut random, (edition, t), [0, 100, 192]);
        let all = Break::all(edition);
        assert_eq!(all.len(), [17, 23, 17][usize::from(edition.number()) - 1]);
        for (i, first) in all.iter().enumerate() {
            for way in 0..BREAK_WAYS {
                let alone = broken_sheet(edition, &sheet, &[*first], way);
                assert_eq!(named(&alone), numbers_on(t, *first), "{first:?} {way}");
                for second in &all[i + 1..] {
                    for pair in [[*first, *second], [*second, *first]] {
                        let both = broken_sheet(edition, &sheet, &pair, way);
                        assert_eq!(named(&both), numbers_on(t, *first), "{pair:?} {way}");
                    }
                }
            }
        }
    }
}

#[test]
fn of_any_set_of_faults_the_first() {
    let mut random = Random::new(143);
    let present = PRESENT_CLASSES.map(|t| (Edition::BLANKED, t));
    let kinds = Edition::ALL.map(|edition| (edition, 4));
    for (edition, t) in kinds.into_iter().chain(present) {
        let (_, sheet) = written_sheet(&mut random, (edition, t), [7, 8, 9]);
        let all = Break::all(edition);
        let mut met = vec![0; all.len()];
        for _ in 0..20_000 {
            let from = random.below(all.len());
            let chosen = (from..all.len()).filter(|_| random.below(3) == 0);
            let set: Vec<usize> = chosen.collect();
            let breaks: Vec<Break> = set.iter().map(|i| all[*i]).collect();
            let broken = broken_sheet(edition, &sheet, &breaks, random.below(BREAK_WAYS));
            match set.first() {
                Some(first) => {
                    let expected = numbers_on(t, all[*first]);
                    assert_eq!(named(&broken), expected, "{breaks:?}");
                    met[*first] += 1;
                }
                None => assert_eq!(named(&broken), NOWHERE),
            }
        }
        assert!(met.iter().all(|times| *times > 100), "{met:?}");
    }
}

/// Slots are compared as numbers, the lowest of 256 too.
#[test]
fn the_lowest_slot_of_256() {
    let slots = [0, 1, 2, 9, 10, 127, 128, 254, 255];
    for edition in Edition::ALL {
        let blank = edition.blank_sheet(256, 8);
        for (i, low) in slots.into_iter().enumerate() {
            for high in &slots[i..] {
                let mut sheet = blank.clone();
                // The field of the lower one, the mark of the higher one.
                sheet[edition.field_place(256, low).end - 1] = 1;
                sheet[edition.mark_place(*high).start] = 1;
                assert_eq!(named(&sheet), (7, low as u16, 0), "{low} {high}");
            }
        }
    }
}

/// How often each rule is first when each bit of the mixed sheet is flipped,
/// counted by hand. n becomes above 256 by byte 0 and another good one by byte
/// 1; 4 and 6 become each other once, as do 8 and 24 in edition 3; w becomes 1 or 2, below slot 2's number.
/// Of slot 0's number 1 only 3 is good, of slot 2's number 3 only 1 and 2, and
/// of the blank slot's 1664 bits only those that make the number 1 or 2. Length
/// 5 becomes above 192 by its high byte alone, length 192 by six more bits.
/// Edition 1 becomes 3, which is longer; edition 2 becomes 3, which fits; and 3
/// becomes 2, whose zero bytes are set, or 1, which is shorter. All eight bits of
/// byte 3 take PRESENT's classes out of edition 3, so that byte 2 is wrong.
fn counts_of_flips(edition: Edition, t: usize) -> [usize; 10] {
    let t_flips = match (edition, t) {
        (Edition::One | Edition::Two(_), 8) => 8,
        (_, 21) => 8 + 8,
        (_, 24) => 7 + 8,
        _ => 7,
    };
    let [no_edition, zeros, lengths] = match edition {
        Edition::One => [7, 0, 8 + 1],
        Edition::Two(_) => [7, 6 * 8, 8],
        Edition::Three(_) if PRESENT_CLASSES.contains(&t) => [0, 0, 8],
        Edition::Three(_) => [6, 1, 8 + 1],
    };
    let numbers = 2 + 31 + 30 + 1662;
    let header = [0, 0, 8, t_flips, no_edition, zeros, lengths];
    let marks = [numbers, 8 + 14, 4 * 8];
    [&header[..], &marks].concat().try_into().unwrap()
}

#[test]
fn every_bit_of_a_sheet_flipped() {
    let mut random = Random::new(144);
    for (edition, t) in kinds() {
        let (_, sheet) = mixed_sheet(&mut random, (edition, t));
        let mut counts = [0; 10];
        for bit in 0..8 * sheet.len() {
            let mut flipped = sheet.clone();
            flipped[bit / 8] ^= 1 << (bit % 8);
            counts[usize::from(named(&flipped).0)] += 1;
        }
        counts[0] = 0;
        assert_eq!(counts, counts_of_flips(edition, t), "{edition:?} {t}");
    }
}

// ---- Any bytes ----

/// A sheet of up to four slots with some of it wrong, of any edition.
fn some_sheet(random: &mut Random) -> Vec<u8> {
    let edition = random.pick(&Edition::ALL);
    let n = random.pick(&[0, 1, 1, 2, 2, 2, 3, 3, 4]);
    let t = random.pick(&[4, 4, 6, 6, 8, 8, 8, 21, 24, 5]);
    let mut sheet = edition.blank_sheet(n, t);
    set_w(&mut sheet, random.below(5) as u32);
    for slot in 0..n {
        if random.below(3) > 0 {
            let mark = edition.mark_place(slot).start;
            let number = random.pick(&[0, 1, 1, 1, 2]);
            let length = random.pick(&[0, 1, 5, 100, 191, 192, 193]);
            sheet[mark + 3] = number;
            sheet[mark + 5] = length;
            sheet[mark + 8] = random.next() as u8;
        }
    }
    for _ in 0..random.below(4) {
        let place = random.below(sheet.len());
        let place = random.pick(&[place, place % 32, place % 80]) % sheet.len();
        sheet[place] = random.pick(&[0, 0, 1, 2, 3, 192, 193, 255]);
    }
    match random.below(10) {
        0 => sheet.truncate(random.below(20)),
        1 => sheet.truncate(random.below(sheet.len() + 1)),
        2 => sheet.resize(sheet.len() + random.below(9), 0),
        _ => {}
    }
    sheet
}

#[test]
fn fit_exactly_if_there_is_no_first_fault() {
    let mut random = Random::new(145);
    let mut met = [0; 10];
    for _ in 0..300_000 {
        met[usize::from(named(&some_sheet(&mut random)).0)] += 1;
    }
    report(&format!("seeded sheets by first rule, 0 to 9: {met:?}"));
    assert!(met.iter().all(|times| *times > 1000), "{met:?}");
}

#[test]
fn bytes_of_any_length_have_a_first_fault_or_none() {
    let mut random = Random::new(146);
    for length in 0..1500 {
        for start in [
            &[][..],
            &[0, 1, 4, 1],
            &[0, 1, 6, 2],
            &[0, 3, 8, 2],
            &[1, 0, 4, 2],
            &[0, 1, 4, 3],
            &[0, 2, 8, 3],
            &[0, 1, 21, 3],
            &[0, 2, 24, 3],
            &[0, 1, 21, 2],
            &[0, 1, 24, 4],
        ] {
            let mut sheet = random.bytes(length);
            let shared = start.len().min(length);
            sheet[..shared].copy_from_slice(&start[..shared]);
            let (rule, ..) = named(&sheet);
            assert_eq!(rule == 1, length < 8);
        }
    }
}
