//! Reads of a sheet with one bit flipped (document 01, the table; document 02,
//! requests 3, 7 and 10).

use crate::edition::Edition;
use crate::layout::meets_the_layout;
use crate::letters::good_text;
use crate::random::Random;
use crate::support::*;

/// The number that a read of a slot answers with a bit of this place flipped.
/// The three slots have a short caption, none, and the longest.
fn number_after((edition, t): (Edition, usize), flipped: &[u8], place: usize, slot: usize) -> u8 {
    let parts = [edition.mark_place(slot), edition.field_place(3, slot)];
    let own = parts.iter().any(|part| part.contains(&place));
    match slot {
        _ if !meets_the_layout(flipped) => 4,
        _ if key_bytes(usize::from(flipped[2])) != key_bytes(t) => 5,
        _ if in_key_mark(flipped, place) => 14,
        _ if own => 10,
        // The serial is in no check, but it changes zeros past a short caption.
        0 if in_serial(edition, place) => 10,
        1 => 9,
        _ => 0,
    }
}

/// Whether a bit of this place decides on the key mark of a sheet that fits: it
/// is one of the mark or the serial, or it has made edition 3 of edition 2, or
/// class 8 and class 24 of each other.
pub fn in_key_mark(flipped: &[u8], place: usize) -> bool {
    flipped[3] == 3 && ([2, 3].contains(&place) || (8..16).contains(&place))
}

fn in_serial(edition: Edition, place: usize) -> bool {
    edition != Edition::One && (8..10).contains(&place)
}

#[test]
fn every_bit_of_a_sheet_flipped() {
    let mut random = Random::new(125);
    for (edition, t) in kinds() {
        let keys = unlike(&mut random, t);
        let longest = good_text(&mut random, 192);
        let mut sheet = blank_for(edition, &keys, 3, t);
        assert_eq!(write(&keys, &mut sheet, 0, b"short"), accepted(0));
        assert_eq!(write(&keys, &mut sheet, 2, &longest), accepted(0));
        let unflipped = [0, 1, 2].map(|slot| read(&keys, &sheet, slot));
        for bit in 0..8 * sheet.len() {
            let place = bit / 8;
            let mut flipped = sheet.clone();
            flipped[place] ^= 1 << (bit % 8);
            for (slot, before) in unflipped.into_iter().enumerate() {
                let after = read(&keys, &flipped, slot);
                match number_after((edition, t), &flipped, place, slot) {
                    0 if in_serial(edition, place) => {
                        assert_eq!(after.0, before.0);
                        assert_eq!(after.1[8..], before.1[8..]);
                        assert_ne!(after.1[..8], before.1[..8]);
                    }
                    0 => assert_eq!(after, before, "{bit} {slot}"),
                    number => assert_eq!(after, (refused(number), [0; 192]), "{bit} {slot}"),
                }
            }
        }
    }
}
