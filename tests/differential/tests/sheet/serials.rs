//! The editions beside each other (document 02, requests 3 and 7): serials, the
//! six zero bytes, every value of byte 3, and sheets relabelled as another edition.

use crate::both;
use crate::edges::done;
use differential::both::Both;
use differential::edition::Edition;
use differential::random::Random;
use differential::sheets::{
    classes, kinds, other_editions, set_last_number, Keys, CLASSES, FIELD, MCRYPTON,
    UNKNOWN_EDITION,
};
use differential::term_sheet::{term_sheet, ALWAYS};
use reference::{
    NO_SUCH_SLOT, OTHER_KEYS, OTHER_KEY_CLASS, RULE_EDITION, RULE_KEY_CLASS, UNFIT_SHEET,
};
use std::collections::BTreeSet;

const SLOTS: usize = 3;

/// Writes a short caption into a blank sheet's first slot, the longest into its
/// last.
fn write_captions(both: &mut Both, keys: &Keys, sheet: &mut [u8]) {
    for (slot, caption) in [(0, &b"short"[..]), (2, &[b'x'; FIELD])] {
        assert_eq!(both.write(keys, sheet, slot, caption).number, 0);
    }
}

fn written_sheet(both: &mut Both, keys: &Keys, edition: Edition, t: usize) -> Vec<u8> {
    let mut sheet = keys.blank_sheet(edition, SLOTS, t);
    write_captions(both, keys, &mut sheet);
    sheet
}

/// Holds that every call finds a sheet fit or unfit, on each slot and past them,
/// and that an unfit one stays as it is.
fn hold_fit(both: &mut Both, keys: &Keys, sheet: &[u8], fits: bool) {
    let terms = term_sheet(&[ALWAYS; SLOTS]);
    both.list(sheet);
    for slot in 0..=SLOTS {
        let (mut written, mut cleared) = (sheet.to_vec(), sheet.to_vec());
        let answers = [
            both.read(keys, sheet, slot, FIELD).0.number,
            both.dated_read(keys, sheet, &terms, slot, 9, FIELD)
                .0
                .number,
            both.write(keys, &mut written, slot, b"another").number,
            both.clear(&mut cleared, slot).number,
        ];
        for number in answers {
            assert_eq!(number != UNFIT_SHEET, fits, "{}", both.label);
        }
        assert!(fits || written == sheet && cleared == sheet);
    }
}

/// Each blanking in the bytes that the one before left.
#[test]
fn every_serial_is_stored() {
    let mut random = Random::of_part(570);
    let mut both = both("every serial");
    let keys = Keys::unlike(&mut random, 4);
    let mut sheet = random.bytes(Edition::BLANKED.sheet_length(1));
    for serial in 0..=u16::MAX {
        both.begin(Edition::Three(serial), &keys, &mut sheet, 1, 4);
    }
    assert_eq!(both.numbers[0], 65_536);
    done(&both, "blanking with every serial");
}

/// What request 3 is for: the same keys, write number, slot and caption after
/// each blanking, in the bytes of the sheet before. With serial 0 they are
/// sealed as in edition 1, and with any serial as in edition 2.
#[test]
fn unlike_serials_seal_from_unlike_starts() {
    let mut random = Random::of_part(571);
    let mut both = both("unlike serials");
    for t in CLASSES {
        let keys = Keys::unlike(&mut random, t);
        let has_older = MCRYPTON.contains(&t);
        let old = has_older.then(|| written_sheet(&mut both, &keys, Edition::One, t));
        let mut sheet = random.bytes(Edition::BLANKED.sheet_length(SLOTS));
        let mut first_blocks = BTreeSet::new();
        for serial in Edition::SERIALS {
            let edition = Edition::Three(serial);
            both.begin(edition, &keys, &mut sheet, SLOTS, t);
            write_captions(&mut both, &keys, &mut sheet);
            if let Some(old) = &old {
                assert_eq!(sheet[16..] == old[8..], serial == 0);
                let second = written_sheet(&mut both, &keys, Edition::Two(serial), t);
                assert_eq!(sheet[16..], second[16..]);
            }
            let field = &sheet[edition.field_place(SLOTS, 2)];
            first_blocks.insert(field[..8].to_vec());
        }
        assert_eq!(first_blocks.len(), Edition::SERIALS.len());
    }
    done(&both, "the same writes after blankings with unlike serials");
}

#[test]
fn the_six_zero_bytes() {
    let mut random = Random::of_part(572);
    let mut both = both("the six zero bytes");
    let keys = Keys::unlike(&mut random, 6);
    let sheet = written_sheet(&mut both, &keys, Edition::Two(0xa53c), 6);
    for place in 10..16 {
        for value in 0..=255 {
            let mut near = sheet.clone();
            near[place] = value;
            hold_fit(&mut both, &keys, &near, value == 0);
        }
    }
    done(&both, "the six zero bytes at every value");
}

/// Fit with its edition's number and length alone, but that any sheet of edition
/// 2 is one of edition 3 too, with a key mark of zeros.
#[test]
fn every_value_of_byte_3() {
    let mut random = Random::of_part(573);
    let mut both = both("byte 3");
    for (edition, t) in kinds() {
        let keys = Keys::unlike(&mut random, t);
        let sheet = written_sheet(&mut both, &keys, edition, t);
        for length in Edition::ALL.map(|edition| edition.sheet_length(SLOTS)) {
            for value in 0..=255 {
                let mut near = sheet.clone();
                near[3] = value;
                near.resize(length, 0);
                let as_third = edition.number() == 2 && value == 3 && length == sheet.len();
                let fits = near == sheet || as_third;
                both.label = format!("byte 3 of {edition:?} is {value}, {length} bytes");
                hold_fit(&mut both, &keys, &near, fits);
            }
        }
    }
    done(&both, "byte 3 at every value, at each edition's length");
}

/// Byte 2 of each edition at every value, and of what is no edition, held to 4, 6 or 8
/// there: rule 3 comes before rule 4. A fit sheet's key class is byte 2's.
#[test]
fn every_value_of_byte_2() {
    let mut random = Random::of_part(575);
    let mut both = both("byte 2");
    let pairs = [4, 6, 24, 21].map(|t| Keys::unlike(&mut random, t));
    let terms = term_sheet(&[ALWAYS; SLOTS]);
    for edition in Edition::ALL {
        let sheet = edition.blank_sheet(SLOTS, 4);
        for byte_3 in [edition.number(), 0, UNKNOWN_EDITION, 255] {
            let known = byte_3 == edition.number();
            let fit = if known { classes(edition) } else { &MCRYPTON };
            for (byte_2, keys) in (0..=255).flat_map(|t| pairs.iter().map(move |keys| (t, keys))) {
                let mut near = sheet.clone();
                near[2..4].copy_from_slice(&[byte_2, byte_3]);
                let t = usize::from(byte_2);
                let bytes = reference::key_bytes(t);
                let expected = match fit.contains(&t) {
                    false => (UNFIT_SHEET, RULE_KEY_CLASS),
                    true if !known => (UNFIT_SHEET, RULE_EDITION),
                    true if bytes != Some(keys.sealing.len()) => (OTHER_KEY_CLASS, 0),
                    true if byte_3 == 3 => (OTHER_KEYS, 0),
                    true => (NO_SUCH_SLOT, 0),
                };
                let answers = [
                    both.read(keys, &near, SLOTS, FIELD).0,
                    both.dated_read(keys, &near, &terms, SLOTS, 9, FIELD).0,
                    both.write(keys, &mut near.clone(), SLOTS, b"another"),
                ];
                for answer in answers {
                    assert_eq!((answer.number, answer.rule), expected, "{byte_2} {byte_3}");
                }
                both.list(&near);
                let number = if expected.0 == 4 { 4 } else { NO_SUCH_SLOT };
                assert_eq!(both.clear(&mut near, SLOTS).number, number);
            }
        }
    }
    both.hold_met([4, 5, 6, 14]);
    both.hold_pointed_at([0, 3, 4]);
    done(&both, "byte 2 at every value, in each edition and in none");
}

/// The sheet with another edition's number and length: bytes put on or taken
/// off at its end, or in its header, where marks and fields stay whole.
fn relabelled(edition: Edition, other: Edition, sheet: &[u8]) -> [Vec<u8>; 2] {
    let mut sheet = sheet.to_vec();
    sheet[3] = other.number();
    let mut in_header = sheet[..8].to_vec();
    in_header.resize(other.header(), 0);
    in_header.extend(&sheet[edition.header()..]);
    sheet.resize(other.sheet_length(SLOTS), 0);
    [sheet, in_header]
}

/// Whether a blank sheet relabelled at its end is fit: zeros of a blank slot
/// become header, or the header a blank slot's or, by a serial up to w, a written
/// one's. A key mark is neither zero bytes nor a mark.
fn fits_at_end(edition: Edition, other: Edition, w: u32) -> bool {
    match (edition, other) {
        (Edition::Three(_), _) => false,
        (Edition::Two(serial), Edition::One) => serial == 0 || w == u32::MAX,
        _ => true,
    }
}

#[test]
fn sheets_relabelled_as_another_edition() {
    let mut random = Random::of_part(574);
    let mut both = both("relabelled sheets");
    let editions = Edition::ALL.into_iter();
    for edition in editions.chain([Edition::Two(0), Edition::Three(0)]) {
        for other in other_editions(edition) {
            for t in MCRYPTON {
                for w in [2, u32::MAX] {
                    let keys = Keys::unlike(&mut random, t);
                    let mut blank = keys.blank_sheet(edition, SLOTS, t);
                    set_last_number(&mut blank, w);
                    let [at_end, in_header] = relabelled(edition, other, &blank);
                    hold_fit(&mut both, &keys, &at_end, fits_at_end(edition, other, w));
                    hold_fit(&mut both, &keys, &in_header, true);
                    relabelled_and_written(&mut both, &keys, (edition, other), t, w);
                }
            }
        }
    }
    done(&both, "sheets relabelled as another edition");
}

/// A written sheet relabelled at its end is fit from edition 2 to 3 alone.
/// Relabelled in its header it has serial 0 and is, as edition 3, nobody's; with
/// the pair's key mark a read shows what it showed, if that was serial 0 too.
fn relabelled_and_written(
    both: &mut Both,
    keys: &Keys,
    (edition, other): (Edition, Edition),
    t: usize,
    w: u32,
) {
    let mut written = written_sheet(both, keys, edition, t);
    set_last_number(&mut written, w);
    let [at_end, mut in_header] = relabelled(edition, other, &written);
    let as_third = (edition.number(), other.number()) == (2, 3);
    hold_fit(both, keys, &at_end, as_third);
    hold_fit(both, keys, &in_header, true);
    for slot in 0..=SLOTS {
        let (answer, _) = both.read(keys, &in_header, slot, FIELD);
        assert_eq!(answer.number == OTHER_KEYS, other.number() == 3);
    }
    keys.put_mark(&mut in_header);
    let reads_alike = [0, 1, 2].map(|slot| {
        let read = both.read(keys, &written, slot, FIELD);
        both.read(keys, &in_header, slot, FIELD) == read
    });
    let no_serial = edition.start_tail() == [0, 0];
    assert_eq!(reads_alike, [no_serial, true, no_serial]);
}
