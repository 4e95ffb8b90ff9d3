//! Well-formed text: UTF-8 of RFC 3629 (document 02, request 9).
//!
//! A text is well formed exactly if it is a row of letters, none or more, each
//! a character number encoded by the table of the RFC's section 3. Nothing here
//! asks the standard library what UTF-8 is.

use std::ops::RangeInclusive;

/// A row of the table in section 3.
struct Form {
    /// The character numbers of the row. A number has one row alone: any longer
    /// form of it is overlong.
    numbers: RangeInclusive<u32>,
    /// The fixed high bits of the first octet, and how many bits it leaves.
    lead: u8,
    lead_bits: u32,
    /// How many octets 10xxxxxx follow.
    following: usize,
}

/// Section 3: char. number range, octet sequence.
const FORMS: [Form; 4] = [
    row(0x0000_0000..=0x0000_007f, 0b0000_0000, 7, 0),
    row(0x0000_0080..=0x0000_07ff, 0b1100_0000, 5, 1),
    row(0x0000_0800..=0x0000_ffff, 0b1110_0000, 4, 2),
    row(0x0001_0000..=0x0010_ffff, 0b1111_0000, 3, 3),
];

const fn row(numbers: RangeInclusive<u32>, lead: u8, lead_bits: u32, following: usize) -> Form {
    Form {
        numbers,
        lead,
        lead_bits,
        following,
    }
}

/// Section 3: "The definition of UTF-8 prohibits encoding character numbers
/// between U+D800 and U+DFFF".
fn is_surrogate(code_point: u32) -> bool {
    (0xd800..=0xdfff).contains(&code_point)
}

/// The x bits of a following octet, 10xxxxxx; none for any other octet.
fn following_bits(octet: u8) -> Option<u32> {
    (octet >> 6 == 0b10).then_some(u32::from(octet) & 0b11_1111)
}

impl Form {
    /// The x bits of a first octet; none for one of another form.
    fn lead_bits_of(&self, octet: u8) -> Option<u32> {
        let bits = octet ^ self.lead;
        (bits >> self.lead_bits == 0).then_some(u32::from(bits))
    }

    /// The number whose x bits these are, put together from the first octet on.
    fn decoded(&self, octets: &[u8]) -> Option<u32> {
        let (lead, rest) = octets.split_first()?;
        let mut number = self.lead_bits_of(*lead)?;
        for octet in rest.get(..self.following)? {
            number = number << 6 | following_bits(*octet)?;
        }
        Some(number)
    }

    /// Whether the number has this form: it is neither overlong nor above
    /// U+10FFFF, nor a surrogate.
    fn has(&self, number: u32) -> bool {
        self.numbers.contains(&number) && !is_surrogate(number)
    }
}

/// How many octets the letter has with which a text begins; none if it begins
/// with no letter.
fn first_letter(text: &[u8]) -> Option<usize> {
    let begins = |form: &&Form| form.decoded(text).is_some_and(|number| form.has(number));
    FORMS.iter().find(begins).map(|form| 1 + form.following)
}

/// What is left of a text behind all the letters that it begins with.
fn behind_letters(mut text: &[u8]) -> &[u8] {
    while let Some(octets) = first_letter(text) {
        text = &text[octets..];
    }
    text
}

/// Whether a text is UTF-8 of RFC 3629.
pub fn well_formed(text: &[u8]) -> bool {
    behind_letters(text).is_empty()
}

/// A letter: as many octets as it has, then zeros.
struct Letter {
    octets: [u8; 4],
    count: usize,
}

impl Letter {
    /// A character number encoded, by section 3: its row of the table, then the
    /// x bits from the lowest up, the last octet first. None for a surrogate and
    /// for a number above U+10FFFF.
    fn of_number(code_point: u32) -> Option<Letter> {
        let form = FORMS.iter().find(|form| form.has(code_point))?;
        let mut rest = code_point;
        let mut octets = [0; 4];
        for octet in octets[1..=form.following].iter_mut().rev() {
            *octet = 0b1000_0000 | (rest & 0b11_1111) as u8;
            rest >>= 6;
        }
        octets[0] = form.lead | rest as u8;
        let count = 1 + form.following;
        Some(Letter { octets, count })
    }

    fn octets(&self) -> &[u8] {
        &self.octets[..self.count]
    }
}

/// A character number encoded; none for a surrogate and for a number above
/// U+10FFFF.
pub fn encode(code_point: u32) -> Option<Vec<u8>> {
    Letter::of_number(code_point).map(|letter| letter.octets().to_vec())
}

/// How many character numbers can be encoded: up to U+10FFFF, without the 2048
/// surrogates.
const LETTERS: u32 = 0x11_0000 - 0x800;

/// Of the letters in the order of their character numbers the one with this
/// place; none from the place `LETTERS` on.
fn letter(place: u32) -> Option<Letter> {
    let surrogates_below = if place < 0xd800 { 0 } else { 0x800 };
    Letter::of_number(place + surrogates_below)
}

/// Whether some letter begins with these octets, or is them. Letters sort as
/// their character numbers do (section 1), and those that begin with the octets
/// stand together, not below the octets themselves: if there are any, the first
/// letter that isn't below the octets is one of them.
fn begins_some_letter(octets: &[u8]) -> bool {
    let (mut below, mut end) = (0, LETTERS);
    while below < end {
        let middle = (below + end) / 2;
        if letter(middle).is_some_and(|letter| letter.octets() < octets) {
            below = middle + 1;
        } else {
            end = middle;
        }
    }
    letter(below).is_some_and(|letter| letter.octets().starts_with(octets))
}

/// The place, from 0, of the first byte at which no well-formed text can go on:
/// the least i such that no well-formed text begins with the bytes 0 to i; if
/// there is none, the length. So it is the length for a well-formed text, and
/// for one that only stops inside its last letter.
///
/// Behind the letters that the text begins with stands the beginning of no
/// letter, or of one that isn't whole.
pub fn breaks_at(text: &[u8]) -> usize {
    let rest = behind_letters(text);
    let broken = (0..rest.len()).find(|i| !begins_some_letter(&rest[..=*i]));
    broken.map_or(text.len(), |i| text.len() - rest.len() + i)
}

/// What the command `text` prints: "well", or "broken at" and the place.
pub fn text_line(text: &[u8]) -> String {
    if well_formed(text) {
        "well\n".to_string()
    } else {
        format!("broken at {}\n", breaks_at(text))
    }
}
