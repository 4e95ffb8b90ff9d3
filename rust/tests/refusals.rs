//! Numbers and words of the refusals.

use captions::{
    blank, clear, dated_read, first_fault, read, sheet_len, sheet_len_1, write, Change, Fault,
    Refusal, FIELD, MARK,
};

const WORDS: [&str; 15] = [
    "wrong key",
    "twin keys",
    "wrong span",
    "unfit sheet",
    "other key class",
    "no such slot",
    "overlong",
    "worn",
    "blank",
    "altered",
    "no such date",
    "not on show",
    "no such round",
    "other keys",
    "broken text",
];

#[test]
fn every_number_has_its_refusal_and_its_word() {
    assert_eq!(Refusal::of_number(0), None);
    for number in 1..=255 {
        let refusal = Refusal::of_number(number).unwrap();
        assert_eq!(refusal.number(), number);
        match WORDS.get(usize::from(number) - 1) {
            Some(word) => {
                assert_eq!(refusal.to_string(), *word);
                assert_ne!(refusal, Refusal::Other(number));
            }
            None => {
                assert_eq!(refusal.to_string(), "refused");
                assert_eq!(refusal, Refusal::Other(number));
            }
        }
    }
}

#[test]
fn a_refusal_is_an_error_that_crosses_threads() {
    fn boxed(number: u8) -> Result<(), Box<dyn std::error::Error + Send + Sync>> {
        match Refusal::of_number(number) {
            None => Ok(()),
            Some(refusal) => Err(refusal)?,
        }
    }
    assert!(boxed(0).is_ok());
    assert_eq!(boxed(8).unwrap_err().to_string(), "worn");
}

// ---- What a refusal points at ----

const KEYS: [[u8; 8]; 2] = [[1; 8], [2; 8]];

/// A blank sheet; no function makes one of an older edition any more.
fn blank_sheet(edition: u8, slots: u8) -> Vec<u8> {
    let mut sheet = match edition {
        1 => vec![0; sheet_len_1(slots.into())],
        _ => vec![0; sheet_len(slots.into())],
    };
    match edition {
        3 => blank(&mut sheet, slots.into(), 4, 0, &KEYS[0], &KEYS[1]).unwrap(),
        _ => sheet[..4].copy_from_slice(&[0, slots, 4, edition]),
    }
    sheet
}

/// A sheet of two slots with a caption of 5 bytes in slot 1.
fn sheet(edition: u8) -> Vec<u8> {
    let mut sheet = blank_sheet(edition, 2);
    write(&KEYS[0], &KEYS[1], &mut sheet, 1, b"Clock").unwrap();
    sheet
}

/// The words of a read, and that write, clear and [`first_fault`] say the same.
fn unfit(sheet: &[u8]) -> String {
    let refusal = read(&KEYS[0], &KEYS[1], sheet, 0, &mut [0; FIELD]).unwrap_err();
    let mut copy = sheet.to_vec();
    assert_eq!(
        write(&KEYS[0], &KEYS[1], &mut copy, 0, b"Vase"),
        Err(refusal)
    );
    assert_eq!(clear(&mut copy, 0), Err(refusal));
    assert_eq!(copy, sheet);
    let Refusal::UnfitSheet(fault) = refusal else {
        panic!("{refusal}");
    };
    assert_eq!(first_fault(sheet), Some(fault));
    assert_eq!((refusal.number(), refusal.word()), (4, "unfit sheet"));
    refusal.to_string()
}

/// A sheet with some bytes changed.
fn changed(edition: u8, changes: &[(usize, u8)]) -> Vec<u8> {
    let mut sheet = sheet(edition);
    for (place, value) in changes {
        sheet[*place] = *value;
    }
    sheet
}

#[test]
fn words_for_somebody_on_the_floor() {
    let whole = sheet(2);
    let cases = [
        (vec![], "0 bytes, where a sheet has at least 8"),
        (vec![0], "1 byte, where a sheet has at least 8"),
        (
            changed(2, &[(0, 1)]),
            "258 slots, where a sheet has 1 to 256 (bytes 0 and 1)",
        ),
        (
            changed(2, &[(2, 5)]),
            "key class 5, where there are 4, 6 and 8, in edition 3 also 21 and 24 (byte 2)",
        ),
        (
            changed(1, &[(3, 0)]),
            "edition 0, where there are 1, 2 and 3 (byte 3)",
        ),
        (
            changed(3, &[(3, 4)]),
            "edition 4, where there are 1, 2 and 3 (byte 3)",
        ),
        (
            changed(2, &[(11, 1), (13, 1)]),
            "byte 11 of the header is not zero",
        ),
        (whole[..212].to_vec(), "212 bytes, where 2 slots have 432"),
        (
            sheet(3)[..212].to_vec(),
            "212 bytes, where 2 slots have 432",
        ),
        (sheet(3)[..12].to_vec(), "12 bytes, where 2 slots have 432"),
        (
            sheet(1)[..212].to_vec(),
            "212 bytes, where 2 slots have 424",
        ),
        (changed(2, &[(1, 1)]), "432 bytes, where 1 slot has 224"),
        (
            [&whole[..], &vec![0; 1 << 20]].concat(),
            "more than 53264 bytes, where 2 slots have 432",
        ),
        (
            changed(2, &[(200, 1), (35, 0)]),
            "slot 0: not blank, and without a write number (bytes 16 to 19)",
        ),
        (
            changed(2, &[(34, 1)]),
            "slot 1: write number 257, above the sheet's last, 1 (bytes 32 to 35)",
        ),
        (
            changed(1, &[(29, 193)]),
            "slot 1: length above 192 (bytes 28 and 29)",
        ),
        (
            changed(2, &[(36, 1)]),
            "slot 1: length above 192 (bytes 36 and 37)",
        ),
        (
            changed(2, &[(39, 9)]),
            "slot 1: byte 7 of its mark is not zero (byte 39)",
        ),
        // Edition 3's key mark has no rule of its own.
        (
            changed(3, &[(11, 1), (39, 9)]),
            "slot 1: byte 7 of its mark is not zero (byte 39)",
        ),
    ];
    for (sheet, words) in cases {
        assert_eq!(unfit(&sheet), format!("unfit sheet: {words}"));
    }
    assert_eq!(first_fault(&whole), None);
}

/// The places of document 02's issue: slot 3 in a sheet of each edition.
#[test]
fn the_bytes_of_a_length() {
    for (edition, words) in [
        (3, "slot 3: length above 192 (bytes 68 and 69)"),
        (2, "slot 3: length above 192 (bytes 68 and 69)"),
        (1, "slot 3: length above 192 (bytes 60 and 61)"),
    ] {
        let mut sheet = blank_sheet(edition, 4);
        write(&KEYS[0], &KEYS[1], &mut sheet, 3, b"Clock").unwrap();
        let header = sheet.len() - 4 * (MARK + FIELD);
        sheet[header + 3 * MARK + 4] = 1;
        assert_eq!(unfit(&sheet), format!("unfit sheet: {words}"));
    }
}

#[test]
fn what_is_altered() {
    for edition in [1, 2, 3] {
        what_is_altered_in(sheet(edition));
    }
}

fn what_is_altered_in(whole: Vec<u8>) {
    let mut sheet = whole.clone();
    sheet[400] ^= 1;
    let refusal = read(&KEYS[0], &KEYS[1], &sheet, 1, &mut [0; FIELD]).unwrap_err();
    assert_eq!(refusal, Refusal::Altered(Change::Check { slot: 1 }));
    assert_eq!(refusal.to_string(), "altered: the check differs");

    // Sealed by the second program with a byte behind the caption.
    let mut sheet = whole;
    let mut field = [0; FIELD];
    field[..5].copy_from_slice(b"Clock");
    (field[45], field[46]) = (7, 8);
    let stored = reference::store_field(&KEYS[0], &KEYS[1], &mut sheet, 1, 5, &field);
    assert_eq!(stored.number, 0);
    let refusal = read(&KEYS[0], &KEYS[1], &sheet, 1, &mut [0; FIELD]).unwrap_err();
    assert_eq!(
        refusal,
        Refusal::Altered(Change::Byte { slot: 1, place: 45 })
    );
    assert_eq!(
        refusal.to_string(),
        "altered: byte 45 is behind the caption and not zero"
    );
    assert_eq!((refusal.number(), refusal.word()), (10, "altered"));
}

#[test]
fn the_term_sheet_is_named() {
    let read = |sheet: &[u8], terms: &[u8]| {
        dated_read(&KEYS[0], &KEYS[1], sheet, terms, 1, 9, &mut [0; FIELD])
    };
    let refusal = read(&sheet(3), &[]).unwrap_err();
    assert_eq!(refusal, Refusal::UnfitSheet(Fault::Terms));
    assert_eq!(
        refusal.to_string(),
        "unfit sheet: the term sheet does not fit"
    );
    // After all faults of the caption sheet.
    let refusal = read(&changed(3, &[(39, 9)]), &[]).unwrap_err();
    assert_eq!(
        refusal,
        Refusal::UnfitSheet(Fault::MarkByte {
            slot: 1,
            byte: 7,
            place: 39
        })
    );
}
