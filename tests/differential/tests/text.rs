//! Well-formed text (document 02, request 9): the library beside the second program
//! and beside the standard library's `from_utf8`, which nobody here wrote.

use differential::both::Both;
use differential::edition::Edition;
use differential::lent::Place;
use differential::letters::{any_text, bad_text, cut_letter, good_text};
use differential::library;
use differential::random::{seed, Random};
use differential::report;
use differential::sheets::{caption_length, key_bytes, kinds, set_last_number, Keys, FIELD};
use differential::term_sheet::{term_sheet, ALWAYS};
use reference::{BROKEN_TEXT, OVERLONG, WORN};
use std::str::from_utf8;

fn both(place: Place, test: &str) -> Both {
    Both::new(place, &format!("{test}, seed {:#x}", seed()))
}

// ---- Texts alone ----

/// Where a text breaks by the standard library. Of a text that is merely cut off its
/// error has no length. Else the letters end at `valid_up_to`, and the bytes that the
/// error counts begin a letter, but for a first byte that begins none: the byte behind
/// them, or that first one, is where no well-formed text goes on.
fn breaks_by_std(text: &[u8]) -> usize {
    let Err(error) = from_utf8(text) else {
        return text.len();
    };
    let (place, Some(bytes)) = (error.valid_up_to(), error.error_len()) else {
        return text.len();
    };
    match from_utf8(&text[place..=place]) {
        Err(alone) if alone.error_len().is_none() => place + bytes,
        _ => place,
    }
}

/// Asks the library of texts of up to 192 bytes, and counts them. Whether one is well
/// formed is asked by a write to a worn sheet, which is refused by 15 or else by 8, so
/// that nothing is sealed.
struct Texts {
    keys: Keys,
    worn: Vec<u8>,
    texts: u64,
    broken: u64,
}

impl Texts {
    fn new() -> Texts {
        let keys = Keys::unlike(&mut Random::of_part(1100), 4);
        let mut worn = keys.blank_sheet(Edition::One, 1, 4);
        set_last_number(&mut worn, u32::MAX);
        Texts {
            keys,
            worn,
            texts: 0,
            broken: 0,
        }
    }

    /// Holds the library and the second program to the standard library; whether the
    /// text is well formed.
    fn hold(&mut self, text: &[u8]) -> bool {
        let well = from_utf8(text).is_ok();
        let place = library::broken_at(text);
        assert_eq!(place, breaks_by_std(text), "{text:02x?}");
        let (sealing, checking) = (&self.keys.sealing, &self.keys.checking);
        let answer = library::write(sealing, checking, &mut self.worn, 0, text);
        let number = if well { WORN } else { BROKEN_TEXT };
        assert_eq!(answer.number, number, "{text:02x?}");
        assert_eq!(reference::well_formed(text), well, "{text:02x?}");
        self.texts += 1;
        self.broken += u64::from(!well);
        well
    }

    fn done(&self, what: &str) {
        assert!(self.worn == Texts::new().worn, "the worn sheet changed");
        let (texts, broken) = (self.texts, self.broken);
        report(&format!("text: {what}: {texts} texts, {broken} broken"));
    }
}

/// Where one breaks is asked of the second program for every text of one and two
/// bytes, and for one in 97 of three.
#[test]
fn every_text_of_up_to_three_bytes() {
    let mut texts = Texts::new();
    let mut both = both(Place::Guarded, "texts of up to three bytes");
    texts.hold(b"");
    for bytes in 1..=3 {
        for number in 0..1u32 << (8 * bytes) {
            let text = &number.to_be_bytes()[4 - bytes..];
            texts.hold(text);
            if bytes < 3 || number % 97 == 0 {
                both.broken_at(text);
            }
        }
    }
    // Of one, two and three bytes there are 128, 1920 and 61440 letters.
    let well = [
        1,
        128,
        128 * 128 + 1_920,
        128 * 128 * 128 + 2 * 128 * 1_920 + 61_440,
    ];
    assert_eq!(texts.texts - texts.broken, well.iter().sum::<u64>());
    let asked = both.calls;
    texts.done(&format!(
        "every text of 0 to 3 bytes, {asked} of them beside the second program's place"
    ));
}

/// Bytes on both sides of each edge of the grammar.
const EDGES: [u8; 24] = [
    0x00, 0x7f, 0x80, 0x8f, 0x90, 0x9f, 0xa0, 0xbf, 0xc0, 0xc1, 0xc2, 0xdf, 0xe0, 0xe1, 0xec, 0xed,
    0xee, 0xef, 0xf0, 0xf1, 0xf3, 0xf4, 0xf5, 0xff,
];

#[test]
fn four_bytes_at_every_edge() {
    let mut texts = Texts::new();
    let mut both = both(Place::Guarded, "four bytes at every edge");
    let fours = EDGES.len().pow(4);
    for number in 0..fours {
        let text = [13_824, 576, 24, 1].map(|unit| EDGES[number / unit % 24]);
        texts.hold(&text);
        both.broken_at(&text);
        let place = library::broken_at(&[b"a", &text[..], b"a"].concat());
        assert_eq!(place, 1 + breaks_by_std(&[&text[..], b"a"].concat()));
    }
    texts.done("four bytes, each on both sides of every edge");
}

/// A number in the form of so many bytes, whether or not it is its own.
fn in_form(number: u32, bytes: usize) -> Vec<u8> {
    let six = |place: usize| (number >> (6 * (bytes - 1 - place))) as u8;
    let lead = [0, 0xc0, 0xe0, 0xf0][bytes - 1] | six(0);
    let rest = (1..bytes).map(|place| 0x80 | six(place) & 0x3f);
    [lead].into_iter().chain(rest).collect()
}

/// Every number in every form that has room for it, and all its beginnings, at the end
/// and before another letter. Well formed are the code points, in their own form.
#[test]
fn every_number_in_every_form() {
    let mut texts = Texts::new();
    let mut letters = 0;
    for (bytes, bits) in [(1, 7), (2, 11), (3, 16), (4, 21)] {
        for number in 0..1 << bits {
            let text = in_form(number, bytes);
            let letter = char::from_u32(number).filter(|letter| letter.len_utf8() == bytes);
            assert_eq!(texts.hold(&text), letter.is_some(), "{text:02x?}");
            if letter.is_some() {
                assert_eq!(reference::text::encode(number), Some(text.clone()));
                letters += 1;
            }
            for length in 1..bytes {
                assert!(!texts.hold(&text[..length]));
                assert!(!texts.hold(&[&text[..length], b"a"].concat()));
            }
        }
    }
    assert_eq!(letters, 0x11_0000 - 0x800);
    texts.done("every number in every form, and all beginnings");
}

/// Whole letters, their beginnings and what no text has, each at every place of
/// captions of every length, among ASCII and among letters of two bytes.
#[test]
fn every_place_of_a_caption() {
    let pieces = [
        "\u{e9}",
        "\u{20ac}",
        "\u{fffd}",
        "\u{10ffff}",
        "\u{7f}",
        "\u{0}",
    ];
    let mut all: Vec<Vec<u8>> = [&b"\x80"[..], b"\xc0", b"\xed\xa0\x80", b"\xf4\x90", b"\xff"]
        .map(<[u8]>::to_vec)
        .into();
    for piece in pieces.map(str::as_bytes) {
        all.extend((1..=piece.len()).map(|length| piece[..length].to_vec()));
    }
    let mut texts = Texts::new();
    let fillings = ["a".repeat(FIELD), "\u{e9}".repeat(FIELD / 2)];
    for piece in &all {
        for length in piece.len()..=FIELD {
            for place in 0..=length - piece.len() {
                for filling in fillings.iter().map(|filling| filling.as_bytes()) {
                    let mut text = [0; FIELD];
                    text[..length].copy_from_slice(&filling[..length]);
                    text[place..place + piece.len()].copy_from_slice(piece);
                    texts.hold(&text[..length]);
                }
            }
        }
    }
    texts.done("letters, their beginnings and refused bytes at every place of 0 to 192 bytes");
}

/// What the second program prints, text by text.
#[test]
fn the_second_program_s_texts() {
    let mut both = both(Place::Guarded, "the second program's texts");
    let keys = Keys::unlike(&mut Random::of_part(1101), 6);
    let blank = keys.blank_sheet(Edition::BLANKED, 1, 6);
    for line in reference::vectors::texts().lines() {
        let words: Vec<&str> = line.split(' ').collect();
        let digits = words[0].trim_start_matches('-').as_bytes();
        let pairs = digits.as_chunks::<2>().0.iter();
        let byte = |pair| u8::from_str_radix(from_utf8(pair).expect("digits"), 16).expect("hex");
        let text: Vec<u8> = pairs.map(|pair| byte(pair)).collect();
        assert_eq!(words[2], both.broken_at(&text).to_string(), "{line}");
        let number = match words[1] {
            _ if text.len() > FIELD => OVERLONG,
            "1" => 0,
            _ => BROKEN_TEXT,
        };
        let answer = both.write(&keys, &mut blank.clone(), 0, &text);
        assert_eq!(answer.number, number, "{line}");
    }
    both.hold_met([0, 7, 15]);
    let (calls, met) = (both.calls, both.numbers_met());
    report(&format!(
        "text: the second program's list, {calls} calls: {met}"
    ));
}

/// Of any text, of up to 70000 bytes too, and of each beginning of a shorter one: that
/// breaks where the text does, or not.
#[test]
fn seeded_texts_and_their_beginnings() {
    let mut random = Random::of_part(1102);
    let mut both = both(Place::Guarded, "seeded texts");
    let mut beginnings = 0;
    for _ in 0..20_000 {
        let text = any_text(&mut random, 60);
        let place = both.broken_at(&text);
        assert_eq!(place, breaks_by_std(&text));
        for length in 0..text.len() {
            assert_eq!(library::broken_at(&text[..length]), place.min(length));
            beginnings += 1;
        }
    }
    for length in [193, 256, 4_095, 4_096, 65_535, 65_536, 70_000] {
        for text in [
            good_text(&mut random, length),
            bad_text(&mut random, length),
        ] {
            assert_eq!(both.broken_at(&text), breaks_by_std(&text));
        }
    }
    let texts = both.calls;
    report(&format!(
        "text: {texts} seeded texts and {beginnings} beginnings, seed {:#x}",
        seed()
    ));
}

/// Ends of every kind right before and right behind an untouchable page.
#[test]
fn nothing_outside_is_touched() {
    let mut random = Random::of_part(1103);
    let mut calls = 0;
    for place in [Place::FenceBefore, Place::FenceBehind] {
        let mut both = both(place, "texts beside a page");
        let keys = Keys::unlike(&mut random, 4);
        let mut worn = keys.blank_sheet(Edition::One, 1, 4);
        set_last_number(&mut worn, u32::MAX);
        for length in (0..=70).chain(160..=193).chain([4_095, 4_096, 4_097]) {
            let mut texts = vec![good_text(&mut random, length), vec![b'a'; length]];
            for cut in 1..=length.min(3) {
                let front = vec![b'a'; length - cut];
                texts.push([front, cut_letter(&mut random, cut)].concat());
            }
            for text in &texts {
                assert_eq!(both.broken_at(text), text.len());
                both.write(&keys, &mut worn, 0, text);
            }
        }
        both.hold_met([7, 8, 15]);
        calls += both.calls;
    }
    report(&format!("text: beside untouchable pages, {calls} calls"));
}

// ---- Captions ----

/// A write on both programs: its number, and that a refused one changes no byte.
fn write(both: &mut Both, keys: &Keys, sheet: &mut [u8], slot: usize, caption: &[u8]) -> u8 {
    let before = sheet.to_vec();
    let number = both.write(keys, sheet, slot, caption).number;
    assert!(number == 0 || sheet == before, "{}", both.label);
    number
}

fn done(both: &Both, what: &str) {
    let (calls, met) = (both.calls, both.numbers_met());
    report(&format!("text: {what}: {calls} calls: {met}"));
}

/// Letters of two to four bytes, each whole and each cut off at the end of captions of
/// 189 to 193 bytes.
#[test]
fn ends_of_long_captions() {
    let mut random = Random::of_part(1104);
    let mut both = both(Place::Guarded, "ends of long captions");
    let letters = "\u{80}\u{7ff}\u{800}\u{d7ff}\u{e000}\u{ffff}\u{10000}\u{10ffff}";
    for (edition, t) in kinds() {
        let keys = Keys::unlike(&mut random, t);
        let mut sheet = keys.blank_sheet(edition, 2, t);
        for letter in letters.chars().map(String::from) {
            for (bytes, length) in (1..=letter.len()).flat_map(|b| (189..=193).map(move |l| (b, l)))
            {
                let mut caption = good_text(&mut random, length - bytes);
                caption.extend(&letter.as_bytes()[..bytes]);
                let number = match (length, bytes) {
                    (193, _) => OVERLONG,
                    (_, bytes) if bytes < letter.len() => BROKEN_TEXT,
                    _ => 0,
                };
                assert_eq!(write(&mut both, &keys, &mut sheet, 1, &caption), number);
            }
        }
        assert_eq!(both.read(&keys, &sheet, 1, FIELD).0.length, 192);
    }
    both.hold_met([0, 7, 15]);
    done(
        &both,
        "whole and cut letters at the end of 189 to 193 bytes",
    );
}

/// Seeded captions, most of them of several letters: taken if `from_utf8` takes them,
/// and read as written.
#[test]
fn seeded_captions() {
    let mut random = Random::of_part(1105);
    let mut both = both(Place::Guarded, "seeded captions");
    for (edition, t) in kinds() {
        let keys = Keys::unlike(&mut random, t);
        let mut sheet = keys.blank_sheet(edition, 2, t);
        for turn in 0..1_200 {
            let length = caption_length(&mut random).max(1);
            let caption = match turn % 3 {
                0 => good_text(&mut random, length),
                1 => bad_text(&mut random, length),
                _ => any_text(&mut random, 90),
            };
            let number = match from_utf8(&caption) {
                _ if caption.len() > FIELD => OVERLONG,
                Ok(_) => 0,
                Err(_) => BROKEN_TEXT,
            };
            assert_eq!(write(&mut both, &keys, &mut sheet, 1, &caption), number);
            if number == 0 {
                let (answer, window) = both.read(&keys, &sheet, 1, FIELD);
                assert_eq!(window[..usize::from(answer.length)], caption);
            }
        }
    }
    both.hold_met([0, 7, 15]);
    done(&both, &format!("seeded captions, seed {:#x}", seed()));
}

/// Broken captions from before request 9 are read, on a day too, listed, written over
/// and cleared.
#[test]
fn old_sheets_still_show() {
    let mut random = Random::of_part(1106);
    let mut both = both(Place::Guarded, "old sheets");
    let terms = term_sheet(&[ALWAYS; 5]);
    for (edition, t) in kinds() {
        for _ in 0..20 {
            let keys = Keys::unlike(&mut random, t);
            let mut sheet = keys.blank_sheet(edition, 5, t);
            for slot in 0..5 {
                let length = caption_length(&mut random).max(1);
                let caption = bad_text(&mut random, length);
                let mut field = [0; FIELD];
                field[..length].copy_from_slice(&caption);
                let (sealing, checking, bytes) = (&keys.sealing, &keys.checking, length as u16);
                let stored =
                    reference::store_field(sealing, checking, &mut sheet, slot, bytes, &field);
                assert_eq!(stored.number, 0);
                let shown = both.read(&keys, &sheet, slot, FIELD);
                assert_eq!((shown.0.number, shown.0.length), (0, bytes));
                assert_eq!(shown.1, field);
                let dated = both.dated_read(&keys, &sheet, &terms, slot, 7, FIELD);
                assert_eq!(dated, shown);
                let number = write(&mut both, &keys, &mut sheet, slot, &caption);
                assert_eq!(number, BROKEN_TEXT);
            }
            both.list(&sheet);
            for slot in 0..4 {
                assert_eq!(both.clear(&mut sheet, slot).number, 0);
            }
            assert_eq!(write(&mut both, &keys, &mut sheet, 4, "é".as_bytes()), 0);
            both.list(&sheet);
        }
    }
    both.hold_met([0, 15]);
    done(&both, "broken captions on old sheets of every edition");
}

/// 15 is hidden by 1, 2, 4, 5, 14, 6 and 7, and hides 8.
#[test]
fn broken_text_among_the_refusals_of_a_write() {
    let mut random = Random::of_part(1107);
    let mut both = both(Place::Guarded, "15 among a write's refusals");
    for (edition, t) in kinds() {
        let own = &Keys::unlike(&mut random, t);
        let others = &own.swapped();
        let other_class = &Keys::unlike(&mut random, if t == 4 { 6 } else { 4 });
        let (twins, wrong) = (
            &Keys::twins(&mut random, key_bytes(t)),
            &Keys::of_lengths(&mut random, 8, 9),
        );
        let mut worn = own.blank_sheet(edition, 2, t);
        set_last_number(&mut worn, u32::MAX);
        let mut unfit = worn.clone();
        unfit.push(0);
        let stranger = if edition == Edition::BLANKED { 14 } else { 15 };
        for _ in 0..20 {
            let [broken, overlong] = [192, 193].map(|length| bad_text(&mut random, length));
            let good = good_text(&mut random, 192);
            for (keys, sheet, slot, caption, number) in [
                (own, &worn, 1, &good, WORN),
                (own, &worn, 1, &broken, BROKEN_TEXT),
                (own, &worn, 1, &overlong, OVERLONG),
                (own, &worn, 2, &overlong, 6),
                (own, &worn, 2, &broken, 6),
                (others, &worn, 1, &broken, stranger),
                (other_class, &worn, 2, &broken, 5),
                (own, &unfit, 2, &broken, 4),
                (twins, &unfit, 2, &broken, 2),
                (wrong, &unfit, 2, &broken, 1),
            ] {
                let met = write(&mut both, keys, &mut sheet.clone(), slot, caption);
                assert_eq!(met, number, "{edition:?}, t = {t}");
            }
        }
    }
    both.hold_met([1, 2, 4, 5, 6, 7, 8, 14, 15]);
    done(&both, "15 among a write's refusals");
}
