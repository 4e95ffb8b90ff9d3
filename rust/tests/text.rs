//! Broken text: where, why, and who tests it.

/// A seeded generator, from the second program's tests.
#[allow(dead_code)]
#[path = "../../reference/tests/suite/random.rs"]
mod random;

use captions::{
    blank, broken_at, clear, dated_read, list, read, sheet_len, sheet_len_1, write, Break,
    BreakKind, Refusal, FIELD,
};
use random::Random;

const KEYS: [[u8; 8]; 2] = [[1; 8], [2; 8]];

/// A blank sheet of two slots; no function makes one of an older edition any more.
fn blank_sheet(edition: u8) -> Vec<u8> {
    let mut sheet = match edition {
        1 => vec![0; sheet_len_1(2)],
        _ => vec![0; sheet_len(2)],
    };
    match edition {
        3 => blank(&mut sheet, 2, 4, 1, &KEYS[0], &KEYS[1]).unwrap(),
        _ => sheet[..4].copy_from_slice(&[0, 2, 4, edition]),
    }
    sheet
}

/// What a write of a text to a blank sheet says; a refused one changes nothing.
fn written(text: &[u8]) -> Result<(), Refusal> {
    let blank = blank_sheet(3);
    let mut sheet = blank.clone();
    let answer = write(&KEYS[0], &KEYS[1], &mut sheet, 0, text);
    assert_eq!(sheet == blank, answer.is_err());
    answer
}

/// Each kind with the bytes at both ends of it, and where it breaks. What stands
/// beside each kind, and breaks nowhere, is in the next table.
const BROKEN: [(&[u8], usize, BreakKind); 45] = [
    (b"\xc2", 1, BreakKind::CutOffAtEnd),
    (b"\xdf", 1, BreakKind::CutOffAtEnd),
    (b"\xe0", 1, BreakKind::CutOffAtEnd),
    (b"\xe0\xa0", 2, BreakKind::CutOffAtEnd),
    (b"\xed\x9f", 2, BreakKind::CutOffAtEnd),
    (b"\xef\xbf", 2, BreakKind::CutOffAtEnd),
    (b"\xf0", 1, BreakKind::CutOffAtEnd),
    (b"\xf0\x90", 2, BreakKind::CutOffAtEnd),
    (b"\xf0\x90\x80", 3, BreakKind::CutOffAtEnd),
    (b"\xf4\x8f\xbf", 3, BreakKind::CutOffAtEnd),
    (b"\xc2\x7f", 1, BreakKind::CutOff),
    (b"\xdf\xc0", 1, BreakKind::CutOff),
    (b"\xc3\xc3\xa9", 1, BreakKind::CutOff),
    (b"\xe0.", 1, BreakKind::CutOff),
    (b"\xed\xff", 1, BreakKind::CutOff),
    (b"\xe2\x82\x7f", 2, BreakKind::CutOff),
    (b"\xe2\x82\xc0", 2, BreakKind::CutOff),
    (b"\xf0\x00", 1, BreakKind::CutOff),
    (b"\xf4\xc0", 1, BreakKind::CutOff),
    (b"\xf0\x9d\xc3", 2, BreakKind::CutOff),
    (b"\xf0\x9d\x84.", 3, BreakKind::CutOff),
    (b"\x80", 0, BreakKind::Continuation),
    (b"\xbf", 0, BreakKind::Continuation),
    (b"\xc3\xa9\x80", 2, BreakKind::Continuation),
    (b"\xe2\x82\xac\xbf", 3, BreakKind::Continuation),
    (b"\xf0\x9d\x84\x9e\x80", 4, BreakKind::Continuation),
    (b"\xc0", 0, BreakKind::OverlongForm),
    (b"\xc0\x80", 0, BreakKind::OverlongForm),
    (b"\xc1\xbf", 0, BreakKind::OverlongForm),
    (b"\xe0\x80\x80", 1, BreakKind::OverlongForm),
    (b"\xe0\x9f\xbf", 1, BreakKind::OverlongForm),
    (b"\xf0\x80\x80\x80", 1, BreakKind::OverlongForm),
    (b"\xf0\x8f\xbf\xbf", 1, BreakKind::OverlongForm),
    (b"\xed\xa0", 1, BreakKind::Surrogate),
    (b"\xed\xa0\x80", 1, BreakKind::Surrogate),
    (b"\xed\xbf\xbf", 1, BreakKind::Surrogate),
    (b"\xed\xa0\x80\xed\xb0\x80", 1, BreakKind::Surrogate),
    (b"\xf4\x90", 1, BreakKind::TooHigh),
    (b"\xf4\x90\x80\x80", 1, BreakKind::TooHigh),
    (b"\xf4\xbf\xbf\xbf", 1, BreakKind::TooHigh),
    (b"\xf5", 0, BreakKind::NoLetter),
    (b"\xf5\x80\x80\x80", 0, BreakKind::NoLetter),
    (b"\xf7\xbf\xbf\xbf", 0, BreakKind::NoLetter),
    (b"\xfe\xff", 0, BreakKind::NoLetter),
    (b"\xff", 0, BreakKind::NoLetter),
];

const WELL_FORMED: [&[u8]; 17] = [
    b"",
    b"\0",
    b"\x7f",
    b"\xc2\x80",
    b"\xdf\xbf",
    b"\xe0\xa0\x80",
    b"\xe1\x80\x80",
    b"\xec\xbf\xbf",
    b"\xed\x80\x80",
    b"\xed\x9f\xbf",
    b"\xee\x80\x80",
    b"\xef\xbb\xbf",
    b"\xef\xbf\xbf",
    b"\xf0\x90\x80\x80",
    b"\xf1\x80\x80\x80",
    b"\xf3\xbf\xbf\xbf",
    b"\xf4\x8f\xbf\xbf",
];

/// Alone, behind letters of every length, and so far behind them that 192 bytes are
/// full; what is broken inside a text is broken in the same place before letters.
#[test]
fn every_kind_from_both_sides() {
    for before in ["", "Vase, ", "é", "€", "𝄞", &"é".repeat(94)] {
        for (piece, place, kind) in BROKEN {
            let at = before.len() + place;
            let mut texts = vec![[before.as_bytes(), piece].concat()];
            if kind != BreakKind::CutOffAtEnd {
                texts.push([before.as_bytes(), piece, b"."].concat());
            }
            for text in texts.iter().filter(|text| text.len() <= FIELD) {
                let refusal = Refusal::BrokenText(Break { at, kind });
                assert_eq!(written(text), Err(refusal), "{text:02x?}");
                assert_eq!(broken_at(text), at);
                assert_eq!((refusal.number(), refusal.word()), (15, "broken text"));
                let words = format!("broken text: byte {at}: {kind}");
                assert_eq!(refusal.to_string(), words);
            }
        }
        for piece in WELL_FORMED {
            for after in ["", ".", "é"] {
                let text = [before.as_bytes(), piece, after.as_bytes()].concat();
                assert_eq!(broken_at(&text), text.len());
                let answer = match text.len() <= FIELD {
                    true => Ok(()),
                    false => Err(Refusal::Overlong),
                };
                assert_eq!(written(&text), answer, "{text:02x?}");
            }
        }
    }
}

#[test]
fn words_for_whoever_wrote_the_text() {
    let cases: [(&[u8], &str); 8] = [
        (b"Caf\xc3", "byte 4: a letter is cut off at the end"),
        (b"Caf\xc3.", "byte 4: the letter before it is cut off"),
        (
            b"Caf\xa9",
            "byte 3: a continuation byte that belongs to no letter",
        ),
        (
            b"Caf\xc0\xaf",
            "byte 3: an overlong form, more bytes than the letter needs",
        ),
        (
            b"Caf\xed\xa0\x80",
            "byte 4: a surrogate, which is half of a letter",
        ),
        (
            b"Caf\xf4\x90\x80\x80",
            "byte 4: above U+10FFFF, the last letter",
        ),
        (b"Caf\xf5", "byte 3: no letter begins with this byte"),
        // As Latin-1 has it.
        (
            b"Caf\xe9, Gen\xe8ve",
            "byte 4: the letter before it is cut off",
        ),
    ];
    for (text, words) in cases {
        let refusal = written(text).unwrap_err();
        assert_eq!(refusal.to_string(), format!("broken text: {words}"));
    }
    // A number alone names nothing.
    assert_eq!(Refusal::of_number(15).unwrap().to_string(), "broken text");
}

// ---- Beside the standard library ----

/// Where a text breaks by the standard library, which gives the first byte of what is
/// wrong and how many bytes that has: those that a letter may begin with are no break
/// yet. None where it is well formed.
fn broken_by_std(text: &[u8]) -> Option<(usize, bool)> {
    let error = std::str::from_utf8(text).err()?;
    let begin = error.valid_up_to();
    let may_begin = (0xc2..=0xf4).contains(&text[begin]);
    Some(match error.error_len() {
        None => (text.len(), true),
        Some(bytes) if may_begin => (begin + bytes, false),
        Some(_) => (begin, false),
    })
}

/// Whether a text is well formed, where it breaks, and if that is at its end.
fn hold_to_std(text: &[u8]) -> Option<BreakKind> {
    let expected = broken_by_std(text);
    let at = expected.map_or(text.len(), |(at, _)| at);
    assert_eq!(broken_at(text), at, "{text:02x?}");
    match written(text) {
        Ok(()) => {
            assert_eq!(expected, None, "{text:02x?}");
            None
        }
        Err(Refusal::BrokenText(found)) => {
            let is_at_end = found.kind == BreakKind::CutOffAtEnd;
            assert_eq!(Some((found.at, is_at_end)), expected, "{text:02x?}");
            Some(found.kind)
        }
        Err(refusal) => panic!("{refusal}: {text:02x?}"),
    }
}

impl Random {
    /// Letters of every length, up to 192 bytes, cut anywhere; most often with a byte
    /// changed, put in or taken out.
    fn text(&mut self) -> Vec<u8> {
        let mut text = Vec::new();
        let length = self.below(FIELD + 1);
        while text.len() < length {
            let most = 0x11_0000 >> [0, 4, 9, 13][self.below(4)];
            let letter = char::from_u32(self.below(most) as u32).unwrap_or('\u{d7ff}');
            text.extend(letter.to_string().bytes());
        }
        if self.below(2) == 0 {
            text.truncate(length);
        }
        let place = self.below(text.len() + 1);
        match self.below(5) {
            0 if place < text.len() => text[place] = self.next() as u8,
            1 if place < text.len() => text[place] ^= 1 << self.below(8),
            2 if place < text.len() => drop(text.remove(place)),
            3 => text.insert(place, self.next() as u8),
            _ => {}
        }
        text.truncate(FIELD);
        text
    }
}

#[test]
fn seeded_texts_beside_the_standard_library() {
    let mut random = Random::new(9);
    let mut met: Vec<(Option<BreakKind>, usize)> = Vec::new();
    for _ in 0..40_000 {
        let kind = hold_to_std(&random.text());
        match met.iter_mut().find(|(other, _)| *other == kind) {
            Some((_, count)) => *count += 1,
            None => met.push((kind, 1)),
        }
    }
    println!("{met:?}");
    // Every kind, and well-formed texts.
    assert_eq!(met.len(), 8);
}

/// Every text of one and two bytes, and of a first byte, a second and bytes of the
/// edges.
#[test]
fn every_short_text_beside_the_standard_library() {
    let mut texts = 0;
    let mut hold = |text: &[u8]| {
        let kind = hold_to_std(text);
        assert_ne!(kind, Some(BreakKind::Unnamed), "{text:02x?}");
        texts += 1;
    };
    for first in 0..=255 {
        hold(&[first]);
        for second in 0..=255 {
            hold(&[first, second]);
        }
    }
    for first in [0xc2, 0xdf, 0xe0, 0xe1, 0xed, 0xee, 0xef, 0xf0, 0xf1, 0xf4] {
        for second in 0x7f..=0xc0 {
            for third in [0x00, 0x7f, 0x80, 0xbf, 0xc0, 0xff] {
                hold(&[first, second, third]);
                for fourth in [0x7f, 0x80, 0xbf, 0xc0] {
                    hold(&[first, second, third, fourth]);
                }
            }
        }
    }
    println!("{texts} texts");
}

/// A text of any length has a place, also one that is too long to be written.
#[test]
fn long_texts_break_too() {
    let mut text = "é".repeat(100_000).into_bytes();
    assert_eq!(broken_at(&text), 200_000);
    text.push(0xc3);
    assert_eq!(broken_at(&text), 200_001);
    text[150_000] = 0xa9;
    assert_eq!(broken_at(&text), 150_000);
    assert_eq!(written(&text), Err(Refusal::Overlong));
}

// ---- Who tests it ----

/// The edge of 192 bytes: a whole last letter, one that is cut off, one byte more.
#[test]
fn a_text_that_is_cut_at_192_bytes() {
    let text = "Vase. ".to_string() + &"€".repeat(62);
    let bytes = text.as_bytes();
    assert_eq!(bytes.len(), FIELD);
    assert_eq!(written(bytes), Ok(()));
    let longer = ["x", &text].concat();
    assert_eq!(written(longer.as_bytes()), Err(Refusal::Overlong));
    let cut = Break {
        at: FIELD,
        kind: BreakKind::CutOffAtEnd,
    };
    let answer = written(&longer.as_bytes()[..FIELD]);
    assert_eq!(answer, Err(Refusal::BrokenText(cut)));
    assert_eq!(written(&longer.as_bytes()[..FIELD - 2]), Ok(()));
}

/// What a write took before: the second program stores it.
#[test]
fn reads_clears_and_listings_take_old_captions() {
    let terms = [2_u16, 0, 0, 9, 9].map(u16::to_be_bytes).concat();
    for edition in [1, 2, 3] {
        for caption in BROKEN.map(|(text, _, _)| text) {
            let mut sheet = blank_sheet(edition);
            let mut field = [0; FIELD];
            field[..caption.len()].copy_from_slice(caption);
            let (length, [sealing, checking]) = (caption.len(), &KEYS);
            let stored =
                reference::store_field(sealing, checking, &mut sheet, 1, length as u16, &field);
            assert_eq!(stored.number, 0);

            let mut window = [7; FIELD];
            let answer = read(sealing, checking, &sheet, 1, &mut window);
            assert_eq!((answer, window), (Ok(length), field));
            let mut window = [7; FIELD];
            let answer = dated_read(sealing, checking, &sheet, &terms, 1, 9, &mut window);
            assert_eq!((answer, window), (Ok(length), field));
            let lines = format!("slots 2 key 64 last 1\n0 blank\n1 written 1 {length}\n");
            assert_eq!(list(&sheet), lines.as_bytes());

            // It isn't written again, and stays.
            let before = sheet.clone();
            let answer = write(sealing, checking, &mut sheet, 1, caption);
            assert_eq!(answer.map_err(Refusal::number), Err(15));
            assert_eq!(sheet, before);
            assert_eq!(write(sealing, checking, &mut sheet, 0, b"Vase"), Ok(()));
            let answer = read(sealing, checking, &sheet, 1, &mut window);
            assert_eq!((answer, window), (Ok(length), field));
            assert_eq!(clear(&mut sheet, 1), Ok(()));
            let answer = read(sealing, checking, &sheet, 1, &mut window);
            assert_eq!(answer, Err(Refusal::Blank));
        }
    }
}
