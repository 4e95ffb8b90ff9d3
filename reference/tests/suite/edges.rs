//! "Each side of each edge" (document 01; of blanking, in its own file).

use crate::edition::Edition;
use crate::letters::good_text;
use crate::random::Random;
use crate::support::*;

#[test]
fn key_bytes_7_9_13_17_refused_and_8_12_16_taken_by_mcrypton() {
    for edition in Edition::ALL {
        for (length, number) in [(7, 1), (8, 0), (9, 1), (12, 0), (13, 1), (16, 0), (17, 1)] {
            let key = vec![3; length];
            let other = vec![4; length];
            let mut out = [0; 8];
            assert_eq!(
                reference::encrypt_block(&key, &[0; 8], &mut out),
                refused(number)
            );
            assert_eq!(
                reference::decrypt_block(&key, &[0; 8], &mut out),
                refused(number)
            );
            assert_eq!(reference::cmac(&key, b"", &mut out), refused(number));
            let t = match length {
                12 | 13 => 6,
                16 | 17 => 8,
                _ => 4,
            };
            let keys = (key, other);
            let mut sheet = edition.blank_sheet(1, t);
            if number == 0 {
                put_mark(&mut sheet, &keys);
            }
            assert_eq!(write(&keys, &mut sheet, 0, b"x"), refused(number));
            let (answer, _) = read(&keys, &sheet, 0);
            let taken = if number == 0 { accepted(1) } else { refused(1) };
            assert_eq!(answer, taken);
        }
    }
}

#[test]
fn caption_192_taken_and_193_refused() {
    let mut random = Random::new(40);
    for (edition, t) in kinds() {
        let keys = unlike(&mut random, t);
        let mut sheet = blank_for(edition, &keys, 2, t);
        let mut caption = good_text(&mut random, 192);
        caption.push(b'x');
        assert_eq!(write(&keys, &mut sheet, 1, &caption[..192]), accepted(0));
        let before = sheet.clone();
        assert_eq!(write(&keys, &mut sheet, 1, &caption), refused(7));
        assert_eq!(sheet, before);
        let (answer, window) = read(&keys, &sheet, 1);
        assert_eq!(answer, accepted(192));
        assert_eq!(window[..], caption[..192]);
    }
}

#[test]
fn slot_n_minus_1_taken_and_n_refused() {
    let mut random = Random::new(41);
    for edition in Edition::ALL {
        for n in [1, 2, 7, 256] {
            let keys = unlike(&mut random, 4);
            let mut sheet = blank_for(edition, &keys, n, 4);
            assert_eq!(write(&keys, &mut sheet, n - 1, b"last"), accepted(0));
            for slot in [n, n + 1, 65535, 65536, 65536 + n - 1, 1 << 32, usize::MAX] {
                let before = sheet.clone();
                assert_eq!(write(&keys, &mut sheet, slot, b"past"), refused(6));
                assert_eq!(reference::clear(&mut sheet, slot), refused(6));
                assert_eq!(sheet, before);
                assert_eq!(read(&keys, &sheet, slot), (refused(6), [0; 192]));
            }
            assert_eq!(read(&keys, &sheet, n - 1), (accepted(4), shown(b"last")));
            assert_eq!(reference::clear(&mut sheet, n - 1), accepted(0));
            assert_eq!(read(&keys, &sheet, n - 1), (refused(9), [0; 192]));
        }
    }
}

#[test]
fn the_last_write_is_taken_and_the_next_is_worn() {
    let mut random = Random::new(42);
    for (edition, t) in kinds() {
        let keys = unlike(&mut random, t);
        let mut sheet = blank_for(edition, &keys, 2, t);
        set_w(&mut sheet, 4294967294);
        assert_eq!(write(&keys, &mut sheet, 0, b"last"), accepted(0));
        assert_eq!(w_of(&sheet), 4294967295);
        assert_eq!(sheet[edition.mark_place(0)][..4], [0xff; 4]);
        let before = sheet.clone();
        assert_eq!(write(&keys, &mut sheet, 1, b"worn"), refused(8));
        assert_eq!(write(&keys, &mut sheet, 0, b"worn"), refused(8));
        assert_eq!(sheet, before);
        // A worn sheet is still read and cleared.
        assert_eq!(read(&keys, &sheet, 0), (accepted(4), shown(b"last")));
        assert_eq!(reference::clear(&mut sheet, 0), accepted(0));
        assert_eq!(w_of(&sheet), 4294967295);
        assert_eq!(write(&keys, &mut sheet, 0, b"worn"), refused(8));
    }
}
