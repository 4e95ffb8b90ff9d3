//! The layout test (document 01, "The sheet", and refusal 4; document 02,
//! requests 3, 7 and 10).

use crate::edition::Edition;
use crate::letters::good_text;
use crate::random::Random;
use crate::support::*;
use reference::fit;

/// The layout once more, read straight off the table.
pub fn meets_the_layout(sheet: &[u8]) -> bool {
    if sheet.len() < 8 {
        return false;
    }
    let be = |from: usize, count: usize| {
        let mut x = 0u64;
        for byte in &sheet[from..from + count] {
            x = 256 * x + u64::from(*byte);
        }
        x
    };
    let (n, t, number, w) = (be(0, 2) as usize, be(2, 1), be(3, 1), be(4, 4));
    let mut editions = Edition::ALL.into_iter();
    let Some(edition) = editions.find(|edition| u64::from(edition.number()) == number) else {
        return false;
    };
    if n == 0 || n > 256 || sheet.len() != edition.sheet_length(n) {
        return false;
    }
    if !classes_of(edition).contains(&(t as usize)) || number == 2 && be(10, 6) != 0 {
        return false;
    }
    for slot in 0..n {
        let mark = edition.mark_place(slot).start;
        let bytes = sheet[edition.mark_place(slot)]
            .iter()
            .chain(&sheet[edition.field_place(n, slot)]);
        let blank = bytes.map(|byte| u64::from(*byte)).sum::<u64>() == 0;
        let (number, length, zeros) = (be(mark, 4), be(mark + 4, 2), be(mark + 6, 2));
        let written = number >= 1 && number <= w && length <= 192 && zeros == 0;
        if !blank && !written {
            return false;
        }
    }
    true
}

/// Three slots: the first written, the second blank, the third written last.
fn mixed_sheet(random: &mut Random, edition: Edition, t: usize) -> Vec<u8> {
    let keys = unlike(random, t);
    let mut sheet = blank_for(edition, &keys, 3, t);
    for (slot, length) in [(0, 192), (1, 5), (2, 0)] {
        let caption = good_text(random, length);
        assert_eq!(write(&keys, &mut sheet, slot, &caption), accepted(0));
    }
    assert_eq!(reference::clear(&mut sheet, 1), accepted(0));
    sheet
}

#[test]
fn blank_and_written_sheets_fit() {
    let mut random = Random::new(30);
    for (edition, t) in kinds() {
        for n in [1, 2, 3, 255, 256] {
            assert!(fit(&edition.blank_sheet(n, t)));
        }
        assert!(fit(&mixed_sheet(&mut random, edition, t)));
    }
}

#[test]
fn every_byte_with_every_value() {
    let mut random = Random::new(31);
    let [one, two, three] = Edition::ALL;
    for (edition, t) in [(one, 6), (two, 6), (three, 6), (three, 21), (three, 24)] {
        let sheet = mixed_sheet(&mut random, edition, t);
        let mut unfit = 0;
        for place in 0..sheet.len() {
            for value in 0..=255 {
                let mut changed = sheet.clone();
                changed[place] = value;
                assert_eq!(fit(&changed), meets_the_layout(&changed), "{place} {value}");
                unfit += u32::from(!fit(&changed));
            }
        }
        assert!(unfit > 255 * 208);
    }
}

#[test]
fn a_length_that_is_not_that_of_n_is_unfit() {
    for edition in Edition::ALL {
        let sheet = edition.blank_sheet(2, 4);
        for length in 0..sheet.len() {
            assert!(!fit(&sheet[..length]), "{length}");
        }
        let mut longer = sheet.clone();
        longer.push(0);
        assert!(!fit(&longer));
        longer.resize(edition.sheet_length(3), 0);
        assert!(!fit(&longer));
    }
}

#[test]
fn lengths_about_every_edge() {
    let whole = [
        (1, 1, 216),
        (2, 1, 224),
        (3, 1, 224),
        (1, 256, 53256),
        (2, 256, 53264),
        (3, 256, 53264),
    ];
    let edges = [1, 8, 15, 16, 216, 224, 53256, 53264];
    for edition in Edition::ALL {
        for n in [1, 256] {
            for length in edges.into_iter().flat_map(|edge| edge - 1..=edge + 1) {
                let mut sheet = edition.blank_sheet(n, 4);
                sheet.resize(length, 0);
                let fits = whole.contains(&(edition.number(), n, length));
                assert_eq!(fit(&sheet), fits, "{edition:?} {n} {length}");
            }
        }
    }
}

#[test]
fn n_is_1_to_256() {
    for edition in Edition::ALL {
        for n in [0, 257, 258, 512, 65535] {
            assert!(!fit(&edition.blank_sheet(n, 4)), "{n}");
        }
        assert!(fit(&edition.blank_sheet(1, 4)));
        assert!(fit(&edition.blank_sheet(256, 4)));
    }
}

#[test]
fn t_is_the_edition_s_and_byte_3_the_edition_of_the_length() {
    let zero_mark = {
        let mut sheet = Edition::BLANKED.blank_sheet(1, 4);
        sheet[10..16].fill(0);
        sheet
    };
    let [one, two, three] = Edition::ALL.map(|edition| edition.blank_sheet(1, 4));
    // Six zero bytes are a key mark too, but no key mark else is six zero bytes.
    let sheets: [(_, &[u8]); 4] = [
        (one, &[1]),
        (two, &[2, 3]),
        (three, &[3]),
        (zero_mark, &[2, 3]),
    ];
    for (sheet, editions) in sheets {
        for value in 0..=255 {
            let mut changed = sheet.clone();
            changed[2] = value;
            let present = sheet[3] == 3 && [21, 24].contains(&value);
            assert_eq!(fit(&changed), [4, 6, 8].contains(&value) || present);
            let mut changed = sheet.clone();
            changed[3] = value;
            assert_eq!(fit(&changed), editions.contains(&value));
        }
    }
}

#[test]
fn a_write_number_is_1_to_w() {
    for edition in Edition::ALL {
        let mut sheet = edition.blank_sheet(2, 8);
        let mark = edition.mark_place(0).start;
        sheet[mark + 3] = 7;
        for w in [0, 1, 6, 7, 8, u32::MAX] {
            set_w(&mut sheet, w);
            assert_eq!(fit(&sheet), w >= 7, "{w}");
        }
        set_w(&mut sheet, u32::MAX);
        sheet[mark..mark + 4].copy_from_slice(&[0xff; 4]);
        assert!(fit(&sheet));
        set_w(&mut sheet, u32::MAX - 1);
        assert!(!fit(&sheet));
    }
}

#[test]
fn a_blank_sheet_may_have_any_w() {
    for edition in Edition::ALL {
        let mut sheet = edition.blank_sheet(2, 8);
        for w in [0, 1, 255, 256, u32::MAX] {
            set_w(&mut sheet, w);
            assert!(fit(&sheet));
        }
    }
}

#[test]
fn a_length_is_0_to_192() {
    for edition in Edition::ALL {
        let mut sheet = edition.blank_sheet(1, 4);
        let mark = edition.mark_place(0).start;
        set_w(&mut sheet, 1);
        sheet[mark + 3] = 1;
        for length in 0..=65535u16 {
            sheet[mark + 4..mark + 6].copy_from_slice(&length.to_be_bytes());
            assert_eq!(fit(&sheet), length <= 192, "{length}");
        }
    }
}

#[test]
fn a_slot_with_write_number_0_has_all_208_bytes_zero() {
    for edition in Edition::ALL {
        let mut blank = edition.blank_sheet(2, 4);
        set_w(&mut blank, 9);
        let mark = edition.mark_place(1);
        let slot_1 = mark.clone().chain(edition.field_place(2, 1));
        assert_eq!(slot_1.clone().count(), 208);
        for place in slot_1 {
            let mut sheet = blank.clone();
            sheet[place] = 1;
            // Only a write number makes it a written slot; 1 in its last byte
            // is within w, 1 in a higher byte is above it.
            assert_eq!(fit(&sheet), place == mark.start + 3, "{place}");
        }
    }
}

#[test]
fn a_broken_rule_in_the_last_of_256_slots_counts() {
    for edition in Edition::ALL {
        let mut sheet = edition.blank_sheet(256, 6);
        assert_eq!(sheet.len(), edition.header() + 53248);
        *sheet.last_mut().unwrap() = 1;
        assert!(!fit(&sheet));
    }
}

#[test]
fn two_slots_may_have_the_same_write_number() {
    for edition in Edition::ALL {
        let mut sheet = edition.blank_sheet(2, 4);
        set_w(&mut sheet, 5);
        for slot in 0..2 {
            sheet[edition.mark_place(slot).start + 3] = 5;
        }
        assert!(fit(&sheet));
    }
}

#[test]
fn random_bytes_are_judged_as_the_table_says() {
    let mut random = Random::new(32);
    for edition in Edition::ALL {
        for _ in 0..2000 {
            let n = random.below(4);
            let t = random.pick(&[4, 6, 8, 5, 21, 24]);
            let mut sheet = edition.blank_sheet(n, t);
            set_w(&mut sheet, random.below(4) as u32);
            for _ in 0..random.below(5) {
                let place = random.below(sheet.len());
                sheet[place] = random.pick(&[0, 1, 2, 3, 192, 193, 255]);
            }
            assert_eq!(fit(&sheet), meets_the_layout(&sheet));
        }
    }
}

#[test]
fn any_six_bytes_are_fit_for_a_key_mark() {
    let mut random = Random::new(34);
    for t in ALL_CLASSES {
        let mut sheet = mixed_sheet(&mut random, Edition::BLANKED, t);
        for mark in (0..1000).map(|_| random.bytes(6)) {
            sheet[10..16].copy_from_slice(&mark);
            assert!(fit(&sheet));
        }
        for mark in [[0; 6], [255; 6], Edition::SOME_MARK] {
            sheet[10..16].copy_from_slice(&mark);
            assert!(fit(&sheet));
        }
    }
}

/// The sheet with another edition in byte 3: as it is, 8 bytes longer or shorter
/// at its end, and with 8 zeros put in or 8 bytes taken out after w.
fn relabelled(sheet: &[u8], edition: Edition) -> [Vec<u8>; 5] {
    let mut same = sheet.to_vec();
    same[3] = edition.number();
    let longer = [&same[..], &[0; 8]].concat();
    let shorter = same[..same.len() - 8].to_vec();
    let put_in = [&same[..8], &[0; 8], &same[8..]].concat();
    let taken_out = [&same[..8], &same[16..]].concat();
    [same, longer, shorter, put_in, taken_out]
}

/// How many of the sheets of an edition, relabelled each way as another, fit.
fn fitting_as(random: &mut Random, edition: Edition, other: Edition) -> [u32; 5] {
    let mut fitting = [0; 5];
    let mixed = mixed_sheet(random, edition, 4);
    for mut sheet in [edition.blank_sheet(3, 4), mixed] {
        for w in [3, u32::MAX] {
            set_w(&mut sheet, w);
            for (way, relabelled) in relabelled(&sheet, other).iter().enumerate() {
                assert_eq!(fit(relabelled), meets_the_layout(relabelled));
                fitting[way] += u32::from(fit(relabelled));
            }
        }
    }
    fitting
}

/// Each edition's two blank sheets and two written ones, with w = 3 and with the
/// greatest w.
#[test]
fn a_relabelled_sheet_is_held_to_the_rules_of_the_other_edition() {
    use Edition::{One, Three, Two};
    let mut random = Random::new(33);
    for (edition, other, fitting) in [
        // Longer: the blank ones, their zeros moved into the header. Put in: all,
        // as edition 3 with a key mark of zeros.
        (One, Two(0), [0, 2, 0, 4, 0]),
        (One, Three(0), [0, 2, 0, 4, 0]),
        // Shorter: the blank ones with serial 0, and with 0xa53c where w is above
        // that serial read as a write number. Taken out: all.
        (Two(0), One, [0, 0, 2, 0, 4]),
        (Two(0xa53c), One, [0, 0, 1, 0, 4]),
        // As it is: all, with a key mark of zeros.
        (Two(0), Three(0), [4, 0, 0, 0, 0]),
        (Two(0xa53c), Three(0), [4, 0, 0, 0, 0]),
        // The key mark is set, and no zero bytes; as a mark's length it is above
        // 192, or its zero bytes are set.
        (Three(0), Two(0), [0; 5]),
        (Three(0xa53c), Two(0), [0; 5]),
        (Three(0), One, [0, 0, 0, 0, 4]),
        (Three(0xa53c), One, [0, 0, 0, 0, 4]),
    ] {
        let counted = fitting_as(&mut random, edition, other);
        assert_eq!(counted, fitting, "{edition:?} {other:?}");
    }
}
