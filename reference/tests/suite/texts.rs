//! Well-formed text, and what writes and all else make of it (document 02,
//! request 9; RFC 3629). The standard library's UTF-8 is what is held against.

use crate::edition::Edition;
use crate::letters::{any_text, bad_text, cut_letter, good_text};
use crate::random::Random;
use crate::support::*;
use crate::term_sheet::{term_sheet, ALWAYS, NEVER};
use reference::text::encode;
use reference::{breaks_at, vectors, well_formed};
use std::str::from_utf8;

/// Octets on each side of each edge.
const EDGES: [u8; 10] = [0x00, 0x7f, 0x80, 0x8f, 0x90, 0x9f, 0xa0, 0xbf, 0xc0, 0xff];

/// Where a text breaks, from the standard library's error. One that has no length
/// is a letter cut off at the end. Else the error's bytes begin a letter and the
/// byte after them is the one, except that a single byte may begin nothing.
fn place_of_error(text: &[u8]) -> usize {
    let Err(error) = from_utf8(text) else {
        return text.len();
    };
    let start = error.valid_up_to();
    match error.error_len() {
        None => text.len(),
        Some(1) if !can_go_on(&text[start..=start]) => start,
        Some(length) => start + length,
    }
}

/// Whether some well-formed text begins with this one: if one does, then one
/// that is at most three bytes longer, and of these any but the first may be 80.
fn can_go_on(text: &[u8]) -> bool {
    let ends =
        (0x80..=0xbf).flat_map(|byte| [1, 2, 3].map(|more| [byte, 0x80, 0x80][..more].to_vec()));
    let mut ends = std::iter::once(Vec::new()).chain(ends);
    ends.any(|end| from_utf8(&[text, &end].concat()).is_ok())
}

/// Where a text breaks, by the definition: the least place such that no
/// well-formed text begins with the bytes up to it, or else the length.
fn place_by_search(text: &[u8]) -> usize {
    let mut places = 0..text.len();
    places
        .find(|i| !can_go_on(&text[..=*i]))
        .unwrap_or(text.len())
}

fn assert_judged(text: &[u8]) {
    assert_eq!(well_formed(text), from_utf8(text).is_ok(), "{text:02x?}");
    assert_eq!(breaks_at(text), place_of_error(text), "{text:02x?}");
}

#[test]
fn all_texts_of_one_and_two_bytes() {
    assert_judged(&[]);
    for first in 0..=255 {
        assert_judged(&[first]);
        assert_eq!(breaks_at(&[first]), place_by_search(&[first]));
        for second in 0..=255 {
            let text = [first, second];
            assert_judged(&text);
            assert_eq!(breaks_at(&text), place_by_search(&text), "{text:02x?}");
        }
    }
}

/// Whether all of them are well formed, and where those break whose last byte
/// stands at an edge.
#[test]
fn all_texts_of_three_bytes() {
    let mut good = 0;
    for number in 0..1u32 << 24 {
        let [_, text @ ..] = number.to_be_bytes();
        let well = well_formed(&text);
        assert_eq!(well, from_utf8(&text).is_ok(), "{text:02x?}");
        good += usize::from(well);
        if EDGES.contains(&text[2]) {
            assert_eq!(breaks_at(&text), place_of_error(&text), "{text:02x?}");
        }
    }
    // One letter of three octets; one of two before or behind one of one; three
    // of one.
    let [ones, twos, threes] = [128, 1920, 65536 - 2048 - 2048];
    assert_eq!(good, threes + 2 * ones * twos + ones * ones * ones);
}

#[test]
fn texts_of_four_bytes_at_every_edge() {
    for first in 0..=255 {
        for second in 0..=255 {
            for third in EDGES {
                for fourth in EDGES {
                    let text = [first, second, third, fourth];
                    assert_eq!(well_formed(&text), from_utf8(&text).is_ok(), "{text:02x?}");
                    if EDGES.contains(&second) {
                        assert_judged(&text);
                    }
                }
            }
        }
    }
}

/// The forms of five and six octets that RFC 2279 had, and longer ones.
#[test]
fn no_letter_has_five_octets_or_more() {
    for lead in 0xf5..=0xff {
        for octets in 1..10 {
            for following in [0x80, 0x88, 0xbf] {
                let mut text = vec![following; octets];
                text[0] = lead;
                assert!(!well_formed(&text));
                assert_eq!(breaks_at(&text), 0);
                assert_judged(&text);
            }
        }
    }
}

/// Every character number: encoded as the standard library does it, well formed,
/// and cut off anywhere merely not whole.
#[test]
fn every_character_number() {
    let mut letters = 0;
    for number in 0..=0x10ffff {
        let expected = char::from_u32(number).map(|letter| letter.to_string().into_bytes());
        assert_eq!(encode(number), expected, "{number:x}");
        assert_eq!(expected.is_none(), (0xd800..=0xdfff).contains(&number));
        let Some(letter) = expected else { continue };
        letters += 1;
        assert!(well_formed(&letter));
        assert_eq!(breaks_at(&letter), letter.len());
        for cut in 1..letter.len() {
            assert!(!well_formed(&letter[..cut]));
        }
    }
    assert_eq!(letters, 0x110000 - 0x800);
    for number in [0x110000, 0x110001, 0x1fffff, 0x200000, 0x7fffffff, u32::MAX] {
        assert_eq!(encode(number), None);
    }
}

/// A number put into more octets than it needs, a surrogate or a number above
/// U+10FFFF, in the pattern of two, three or four octets.
fn in_pattern(number: u32, octets: usize) -> Vec<u8> {
    let lead = [0xc0, 0xe0, 0xf0][octets - 2] | number >> (6 * (octets - 1));
    let following = (0..octets - 1)
        .rev()
        .map(|i| 0x80 | number >> (6 * i) & 0x3f);
    [lead]
        .into_iter()
        .chain(following)
        .map(|octet| octet as u8)
        .collect()
}

#[test]
fn every_overlong_form_every_surrogate_and_all_above_the_last_number() {
    let overlong = [(2, 0..=0x7f), (3, 0..=0x7ff), (4, 0..=0xffff)];
    let refused = overlong
        .into_iter()
        .chain([(3, 0xd800..=0xdfff), (4, 0x110000..=0x1fffff)]);
    let mut count = 0;
    for (octets, numbers) in refused {
        for number in numbers {
            let text = in_pattern(number, octets);
            assert!(!well_formed(&text), "{text:02x?}");
            // The first octet begins nothing, or none that goes on so.
            let begins = !matches!(text[0], 0xc0 | 0xc1 | 0xf5..);
            assert_eq!(breaks_at(&text), usize::from(begins), "{text:02x?}");
            count += 1;
        }
    }
    assert_eq!(count, 0x80 + 0x800 + 0x10000 + 0x800 + 0xf0000);
}

#[test]
fn the_examples_of_section_7() {
    let examples = [
        ("41 e2 89 a2 ce 91 2e", "A\u{2262}\u{391}."),
        ("ed 95 9c ea b5 ad ec 96 b4", "\u{d55c}\u{ad6d}\u{c5b4}"),
        ("e6 97 a5 e6 9c ac e8 aa 9e", "\u{65e5}\u{672c}\u{8a9e}"),
        ("ef bb bf f0 a3 8e b4", "\u{feff}\u{233b4}"),
    ];
    for (digits, text) in examples {
        assert_eq!(hex(digits), text.as_bytes());
        let numbers = text.chars().map(u32::from);
        let encoded: Vec<Vec<u8>> = numbers.map(|number| encode(number).unwrap()).collect();
        assert_eq!(encoded.concat(), hex(digits));
        assert!(well_formed(&hex(digits)));
    }
}

/// By hand, from the table of section 3.
#[test]
fn where_texts_break() {
    for (digits, place) in [
        ("", 0),
        ("00", 1),
        ("80", 0),
        ("c0", 0),
        ("c2", 1),
        ("c1 bf", 0),
        ("c2 41", 1),
        ("e0 80 80", 1),
        ("e0 a0", 2),
        ("e0 a0 41", 2),
        ("ed 9f bf", 3),
        ("ed a0", 1),
        ("ed a0 80", 1),
        ("f0 8f bf bf", 1),
        ("f0 90 80", 3),
        ("f0 90 80 41", 3),
        ("f4 8f bf bf", 4),
        ("f4 90", 1),
        ("f5", 0),
        ("ff", 0),
        ("63 61 66 c3 a9", 5),
        ("63 61 66 c3", 4),
        ("63 61 66 c3 c3 a9", 4),
        ("c3 a9 a9", 2),
    ] {
        assert_eq!(breaks_at(&hex(digits)), place, "{digits}");
        assert_eq!(place_by_search(&hex(digits)), place, "{digits}");
    }
}

#[test]
fn random_mixes_of_pieces() {
    let mut random = Random::new(400);
    let (mut good, mut cut) = (0, 0);
    for round in 0..200_000 {
        let text = any_text(&mut random, if round % 4 == 0 { 90 } else { 12 });
        assert_judged(&text);
        let well = well_formed(&text);
        good += usize::from(well);
        cut += usize::from(!well && breaks_at(&text) == text.len());
        if round % 100 == 0 {
            assert_eq!(breaks_at(&text), place_by_search(&text), "{text:02x?}");
        }
    }
    report(&format!(
        "200000 mixed texts: {good} well formed, {cut} cut off"
    ));
    assert!(good > 20_000 && cut > 1_000 && good < 180_000);
}

/// Any bytes, and bytes of the upper half alone.
#[test]
fn random_bytes() {
    let mut random = Random::new(401);
    for round in 0..100_000 {
        let length = random.below(12);
        let mut text = random.bytes(length);
        if round % 2 == 0 {
            text.iter_mut().for_each(|byte| *byte |= 0x80);
        }
        assert_judged(&text);
    }
}

/// A cut between letters leaves two well-formed texts, one inside a letter leaves
/// two broken ones: the first goes on, the second breaks at once.
#[test]
fn texts_cut_in_two_at_every_place() {
    let mut random = Random::new(402);
    for length in 0..=192 {
        let text = good_text(&mut random, length);
        assert!(well_formed(&text));
        let whole = from_utf8(&text).unwrap();
        for place in 0..=length {
            let (before, after) = text.split_at(place);
            let between = whole.is_char_boundary(place);
            assert_eq!(
                (well_formed(before), well_formed(after)),
                (between, between)
            );
            assert_eq!(breaks_at(before), place);
            assert_eq!(breaks_at(after), if between { length - place } else { 0 });
        }
    }
}

#[test]
fn every_byte_of_a_text_with_every_value() {
    let mut random = Random::new(403);
    for length in [1, 2, 3, 4, 5, 9, 30] {
        let text = good_text(&mut random, length);
        for place in 0..length {
            for value in 0..=255 {
                let mut text = text.clone();
                text[place] = value;
                assert_judged(&text);
            }
        }
    }
}

/// Neither call looks at anything but the bytes, at any length.
#[test]
fn long_texts() {
    let mut random = Random::new(404);
    for length in [193, 1000, 65536, 200_000] {
        let mut text = good_text(&mut random, length);
        assert_judged(&text);
        text.extend(cut_letter(&mut random, 1));
        assert_judged(&text);
        text.push(b'.');
        assert_judged(&text);
        text[length / 2] = 0xff;
        assert_judged(&text);
    }
}

// ---- The printed texts ----

/// The texts of `vectors texts`, and whether each is well formed.
fn printed_texts() -> Vec<(Vec<u8>, bool)> {
    let text = vectors::texts();
    let lines = text.lines().map(|line| line.split(' ').collect::<Vec<_>>());
    lines.map(|line| (hex(line[0]), line[1] == "1")).collect()
}

#[test]
fn the_printed_texts() {
    let printed = vectors::texts();
    for line in printed.lines() {
        let fields: Vec<&str> = line.split(' ').collect();
        let text = hex(fields[0]);
        assert_eq!(fields[0] == "-", text.is_empty());
        let well = u8::from(from_utf8(&text).is_ok());
        let expected = format!("{well} {}", place_by_search(&text));
        assert_eq!(fields[1..].join(" "), expected, "{line}");
        assert_eq!(place_of_error(&text), place_by_search(&text));
    }
    assert!(printed.starts_with("- 1 0\n41e289a2ce912e 1 7\n"));
    assert!(printed.ends_with('\n'));
    for line in [
        "00 1 1",
        "7f 1 1",
        "80 0 0",
        "c1bf 0 0",
        "c280 1 2",
        "dfbf 1 2",
        "e09fbf 0 1",
        "e0a080 1 3",
        "ed9fbf 1 3",
        "eda080 0 1",
        "edbfbf 0 1",
        "ee8080 1 3",
        "efbbbff0a38eb4 1 7",
        "efbfbe 1 3",
        "efbfbf 1 3",
        "f08fbfbf 0 1",
        "f0908080 1 4",
        "f48fbfbf 1 4",
        "f4908080 0 1",
        "f5808080 0 0",
        "fe 0 0",
        "ff 0 0",
        "c3 0 1",
        "e0a0 0 2",
    ] {
        assert!(printed.contains(&format!("\n{line}\n")), "{line}");
    }
    let lengths: Vec<usize> = printed_texts().iter().map(|(text, _)| text.len()).collect();
    for length in [0, 1, 2, 3, 4, 5, 6, 191, 192, 193] {
        assert!(lengths.contains(&length));
    }
}

// ---- Writes ----

/// A refused write changes nothing; an accepted one shows its caption.
fn assert_write(
    keys: &(Vec<u8>, Vec<u8>),
    sheet: &mut [u8],
    slot: usize,
    caption: &[u8],
    number: u8,
) {
    let before = sheet.to_vec();
    assert_eq!(write(keys, sheet, slot, caption), refused(number));
    if number == 0 {
        let expected = (accepted(caption.len() as u16), shown(caption));
        assert_eq!(read(keys, sheet, slot), expected);
    } else {
        assert_eq!(sheet, before);
    }
}

#[test]
fn each_printed_text_is_written_or_refused() {
    let mut random = Random::new(405);
    let texts = printed_texts();
    for (edition, t) in kinds() {
        let keys = unlike(&mut random, t);
        let mut sheet = blank_for(edition, &keys, 2, t);
        for (caption, well) in &texts {
            let number = match (caption.len(), well) {
                (193.., _) => 7,
                (_, false) => 15,
                (_, true) => 0,
            };
            let slot = random.below(2);
            assert_write(&keys, &mut sheet, slot, caption, number);
        }
    }
}

/// A letter that ends with byte 192, that is cut off there, or ends behind it.
#[test]
fn a_letter_at_the_end_of_the_longest_caption() {
    let mut random = Random::new(406);
    for (edition, t) in kinds() {
        let keys = unlike(&mut random, t);
        let mut sheet = blank_for(edition, &keys, 1, t);
        for letter in ["\u{e9}", "\u{20ac}", "\u{1d11e}"] {
            let octets = letter.len();
            for cut in 1..=octets {
                let mut caption = good_text(&mut random, 192 - cut);
                caption.extend(letter.as_bytes());
                assert_eq!(caption.len(), 192 + octets - cut);
                let whole = cut == octets;
                assert_write(&keys, &mut sheet, 0, &caption, if whole { 0 } else { 7 });
                let number = if whole { 0 } else { 15 };
                assert_write(&keys, &mut sheet, 0, &caption[..192], number);
            }
        }
    }
}

/// Empty text, U+0000, U+FEFF and noncharacters are well formed.
#[test]
fn what_looks_odd_and_is_well_formed_is_written() {
    let mut random = Random::new(407);
    for (edition, t) in kinds() {
        let keys = unlike(&mut random, t);
        let mut sheet = blank_for(edition, &keys, 1, t);
        for caption in [
            "",
            "\0",
            "\0\0",
            "\u{feff}",
            "\u{feff}a\u{feff}",
            "\u{fffe}",
        ] {
            assert_write(&keys, &mut sheet, 0, caption.as_bytes(), 0);
        }
        for caption in [
            "\u{ffff}",
            "\u{fdd0}",
            "\u{1fffe}",
            "\u{10ffff}",
            "\u{85}",
            "\u{e000}",
        ] {
            assert_write(&keys, &mut sheet, 0, caption.as_bytes(), 0);
        }
    }
}

#[test]
fn what_comes_before_15_and_after_it() {
    let mut random = Random::new(408);
    for (edition, t) in kinds() {
        let keys = unlike(&mut random, t);
        let mut sheet = blank_for(edition, &keys, 3, t);
        assert_write(&keys, &mut sheet, 1, b"old", 0);
        for w in [1, u32::MAX] {
            set_w(&mut sheet, w);
            for length in [1, 2, 40, 191, 192] {
                let caption = bad_text(&mut random, length);
                for slot in 0..3 {
                    assert_write(&keys, &mut sheet, slot, &caption, 15);
                }
                assert_write(&keys, &mut sheet, 3, &caption, 6);
                assert_write(&keys, &mut sheet, usize::MAX, &caption, 6);
            }
            for length in [193, 194, 1000] {
                let caption = bad_text(&mut random, length);
                assert_write(&keys, &mut sheet, 1, &caption, 7);
                assert_write(&keys, &mut sheet, 3, &caption, 6);
            }
        }
        assert_write(&keys, &mut sheet, 0, b"worn", 8);
        assert_eq!(read(&keys, &sheet, 1), (accepted(3), shown(b"old")));
        let number = if edition.number() == 3 { 14 } else { 15 };
        let others = unlike(&mut random, t);
        assert_write(&others, &mut sheet, 1, b"\xff", number);
    }
}

// ---- Old sheets ----

/// A sheet as it was written before the request: any captions, broken ones too.
fn old_sheet(
    edition: Edition,
    keys: &(Vec<u8>, Vec<u8>),
    t: usize,
    captions: &[Vec<u8>],
) -> Vec<u8> {
    let mut sheet = blank_for(edition, keys, captions.len(), t);
    for (slot, caption) in captions.iter().enumerate() {
        let (length, field) = (caption.len() as u16, shown(caption));
        let answer = reference::store_field(&keys.0, &keys.1, &mut sheet, slot, length, &field);
        assert_eq!(answer, accepted(0));
    }
    sheet
}

/// Captions of which most are broken.
fn old_captions(random: &mut Random) -> Vec<Vec<u8>> {
    let mut captions: Vec<Vec<u8>> = [1, 2, 3, 8, 40, 191, 192]
        .map(|length| bad_text(random, length))
        .to_vec();
    captions.extend([random.bytes(17), random.bytes(192), vec![0xff; 192]]);
    captions.extend([good_text(random, 50), Vec::new()]);
    captions
}

#[test]
fn old_sheets_still_show() {
    let mut random = Random::new(409);
    for (edition, t) in kinds() {
        for _ in 0..5 {
            let keys = unlike(&mut random, t);
            let captions = old_captions(&mut random);
            let n = captions.len();
            let sheet = old_sheet(edition, &keys, t, &captions);
            assert!(reference::fit(&sheet));
            let always = term_sheet(&vec![ALWAYS; n]);
            let never = term_sheet(&vec![NEVER; n]);
            let mut listed = format!("slots {n} key {} last {n}\n", 8 * key_bytes(t));
            for (slot, caption) in captions.iter().enumerate() {
                let expected = (accepted(caption.len() as u16), shown(caption));
                assert_eq!(read(&keys, &sheet, slot), expected);
                assert_eq!(dated_read(&keys, &sheet, &always, slot, 9), expected);
                let hidden = dated_read(&keys, &sheet, &never, slot, 9);
                assert_eq!(hidden, (refused(12), [0; 192]));
                listed += &format!("{slot} written {} {}\n", slot + 1, caption.len());
            }
            assert_eq!(reference::listing(&sheet), listed.as_bytes());
        }
    }
}

/// A write elsewhere leaves what an old sheet shows; the same caption isn't taken
/// again; a write over it and a clear test nothing of it.
#[test]
fn old_sheets_are_written_and_cleared() {
    let mut random = Random::new(410);
    for (edition, t) in kinds() {
        let keys = unlike(&mut random, t);
        let captions = old_captions(&mut random);
        let mut sheet = old_sheet(edition, &keys, t, &captions);
        for (slot, caption) in captions.iter().enumerate() {
            let expected = (accepted(caption.len() as u16), shown(caption));
            let number = if from_utf8(caption).is_ok() { 0 } else { 15 };
            assert_write(&keys, &mut sheet, slot, caption, number);
            assert_eq!(read(&keys, &sheet, slot), expected);
            if slot % 2 == 0 {
                let caption = good_text(&mut random, 33);
                assert_write(&keys, &mut sheet, slot, &caption, 0);
            }
            assert_eq!(reference::clear(&mut sheet, slot), accepted(0));
            assert_eq!(read(&keys, &sheet, slot), (refused(9), [0; 192]));
            for (slot, caption) in captions.iter().enumerate().skip(slot + 1) {
                let expected = (accepted(caption.len() as u16), shown(caption));
                assert_eq!(read(&keys, &sheet, slot), expected);
            }
        }
    }
}
