//! The listing text (document 01; document 02, requests 3, 7 and 10).

use crate::edition::Edition;
use crate::random::Random;
use crate::support::*;
use reference::listing;

fn text(sheet: &[u8]) -> String {
    String::from_utf8(listing(sheet)).unwrap()
}

#[test]
fn the_example() {
    let mut sheet = vec![0; 424];
    sheet[..4].copy_from_slice(&[0, 2, 4, 1]);
    assert_eq!(text(&sheet), "slots 2 key 64 last 0\n0 blank\n1 blank\n");
}

#[test]
fn written_and_blank_slots() {
    let mut random = Random::new(80);
    for (edition, t) in kinds() {
        let bits = match t {
            4 => 64,
            6 => 96,
            21 => 80,
            _ => 128,
        };
        let keys = unlike(&mut random, t);
        let mut sheet = blank_for(edition, &keys, 3, t);
        write(&keys, &mut sheet, 0, b"");
        write(&keys, &mut sheet, 2, &[1; 192]);
        write(&keys, &mut sheet, 1, &[2; 17]);
        write(&keys, &mut sheet, 2, b"gone");
        reference::clear(&mut sheet, 2);
        let expected = "last 4\n0 written 1 0\n1 written 3 17\n2 blank\n";
        assert_eq!(text(&sheet), format!("slots 3 key {bits} {expected}"));
    }
}

#[test]
fn the_greatest_numbers() {
    for edition in Edition::ALL {
        let mut sheet = edition.blank_sheet(256, 8);
        set_w(&mut sheet, u32::MAX);
        let mark = edition.mark_place(255).start;
        sheet[mark..mark + 6].copy_from_slice(&[0xff, 0xff, 0xff, 0xff, 0, 192]);
        let text = text(&sheet);
        assert!(text.starts_with("slots 256 key 128 last 4294967295\n0 blank\n"));
        assert!(text.ends_with("\n254 blank\n255 written 4294967295 192\n"));
        assert_eq!(text.lines().count(), 257);
    }
}

#[test]
fn an_unfit_sheet_prints_unfit_alone() {
    for edition in Edition::ALL {
        assert_eq!(text(&[]), "unfit\n");
        let mut sheet = edition.blank_sheet(1, 4);
        let last = sheet.len() - 1;
        sheet[last] = 1;
        assert_eq!(text(&sheet), "unfit\n");
        sheet[last] = 0;
        assert_eq!(text(&sheet), "slots 1 key 64 last 0\n0 blank\n");
        sheet.push(0);
        assert_eq!(text(&sheet), "unfit\n");
    }
}

#[test]
fn up_to_53264_bytes_are_listed() {
    assert_eq!(reference::listing::MOST_BYTES, 53264);
    for edition in Edition::ALL {
        let longest = edition.sheet_length(256);
        let mut sheet = edition.blank_sheet(257, 4);
        assert_eq!(text(&sheet), "unfit\n");
        sheet[1] = 0;
        for length in [longest - 1, longest + 1, 53265, sheet.len()] {
            assert_eq!(text(&sheet[..length]), "unfit\n");
        }
        assert!(text(&sheet[..longest]).starts_with("slots 256 key 64 last 0\n"));
    }
}
