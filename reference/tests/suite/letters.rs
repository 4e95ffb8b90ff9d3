//! Texts for the tests, well formed and broken, made here and by no program that
//! is tested: the standard library encodes their letters (document 02, request
//! 9).

use crate::random::Random;

/// The character numbers of one octet, two, three and four.
const NUMBERS: [(u32, u32); 4] = [
    (0, 0x7f),
    (0x80, 0x7ff),
    (0x800, 0xffff),
    (0x10000, 0x10ffff),
];

/// Letters on each side of each edge.
const EDGE_LETTERS: [char; 23] = [
    '\0',
    '\u{1}',
    '~',
    '\u{7f}',
    '\u{80}',
    '\u{7ff}',
    '\u{800}',
    '\u{fff}',
    '\u{1000}',
    '\u{cfff}',
    '\u{d000}',
    '\u{d7ff}',
    '\u{e000}',
    '\u{feff}',
    '\u{fffe}',
    '\u{ffff}',
    '\u{10000}',
    '\u{3ffff}',
    '\u{40000}',
    '\u{fffff}',
    '\u{100000}',
    '\u{10fffe}',
    '\u{10ffff}',
];

/// What no well-formed text has anywhere, each of another length or kind.
const BROKEN_PIECES: [&[u8]; 23] = [
    b"\x80",
    b"\xbf",
    b"\xc0",
    b"\xc1",
    b"\xf5",
    b"\xfe",
    b"\xff",
    b"\xc0\x80",
    b"\xc1\xbf",
    b"\xe0\x80",
    b"\xe0\x9f",
    b"\xed\xa0",
    b"\xed\xbf",
    b"\xf0\x80",
    b"\xf0\x8f",
    b"\xf4\x90",
    b"\xe0\x9f\xbf",
    b"\xed\xa0\x80",
    b"\xed\xbf\xbf",
    b"\xf0\x8f\xbf\xbf",
    b"\xf4\x90\x80\x80",
    b"\xf5\x80\x80\x80",
    b"\xed\xa0\x80\xed\xb0\x80",
];

/// A letter of at most so many octets, 1 or more.
pub fn letter(random: &mut Random, most: usize) -> Vec<u8> {
    loop {
        let letter = if random.below(4) == 0 {
            Some(random.pick(&EDGE_LETTERS))
        } else {
            let (least, greatest) = random.pick(&NUMBERS[..most.min(4)]);
            let number = least + random.below((greatest - least + 1) as usize) as u32;
            char::from_u32(number)
        };
        if let Some(letter) = letter.filter(|letter| letter.len_utf8() <= most) {
            return letter.to_string().into_bytes();
        }
    }
}

/// A well-formed text of so many bytes.
pub fn good_text(random: &mut Random, length: usize) -> Vec<u8> {
    let mut text = Vec::new();
    while text.len() < length {
        let left = length - text.len();
        text.extend(letter(random, left));
    }
    assert!(std::str::from_utf8(&text).is_ok());
    text
}

/// A letter that isn't whole, of so many bytes, 1 to 3.
pub fn cut_letter(random: &mut Random, length: usize) -> Vec<u8> {
    loop {
        let mut letter = letter(random, 4);
        if letter.len() > length {
            letter.truncate(length);
            return letter;
        }
    }
}

/// A broken piece of so many bytes at most, 1 or more: a letter that isn't whole,
/// which breaks a text at its end or before another letter, or what no
/// well-formed text has.
fn broken_piece(random: &mut Random, most: usize) -> Vec<u8> {
    if random.below(2) == 0 {
        let length = 1 + random.below(most.min(3));
        return cut_letter(random, length);
    }
    loop {
        let piece = random.pick(&BROKEN_PIECES);
        if piece.len() <= most {
            return piece.to_vec();
        }
    }
}

/// A broken text of so many bytes, 1 or more: well formed, but for one piece at
/// its beginning, inside or at its end.
pub fn bad_text(random: &mut Random, length: usize) -> Vec<u8> {
    let piece = broken_piece(random, length);
    let good = length - piece.len();
    let before = match random.below(3) {
        0 => 0,
        1 => good,
        _ => random.below(good + 1),
    };
    let before_piece = good_text(random, before);
    let behind_piece = good_text(random, good - before);
    let text = [before_piece, piece, behind_piece].concat();
    assert!(std::str::from_utf8(&text).is_err());
    text
}

/// A mix of up to so many pieces of any kind, well formed or not.
pub fn any_text(random: &mut Random, pieces: usize) -> Vec<u8> {
    let mut text = Vec::new();
    for _ in 0..random.below(pieces + 1) {
        match random.below(24) {
            0 => text.extend(broken_piece(random, 6)),
            1 => text.push(random.next() as u8),
            _ => text.extend(letter(random, 4)),
        }
    }
    text
}
