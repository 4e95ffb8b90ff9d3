//! A caption as a text in a table, and back: any bytes, in characters that a
//! spreadsheet neither changes nor takes for something else.

use crate::shown::steers;

/// Stands for nothing.
const GUARD: &str = "\\&";

/// Weekday, month, and AM or PM: a text with more words than that and a number is
/// no date, time or amount to any spreadsheet.
const MOST_WORDS_OF_A_DATE: usize = 3;

/// The text of a caption.
pub fn text_of(caption: &[u8]) -> String {
    let text = on_a_line(caption);
    match is_taken_for_something(&text) {
        true => format!("{GUARD}{text}"),
        false => text,
    }
}

/// The same for people, whom nothing need be guarded against.
pub fn on_a_line(caption: &[u8]) -> String {
    let mut text = String::new();
    for chunk in caption.utf8_chunks() {
        for character in chunk.valid().chars() {
            push(&mut text, character);
        }
        push_bytes(&mut text, chunk.invalid());
    }
    // A blank at the end isn't seen, and some programs take it away.
    if text.ends_with(' ') {
        text.pop();
        push_bytes(&mut text, b" ");
    }
    text
}

fn push(text: &mut String, character: char) {
    match character {
        '\\' => text.push_str("\\\\"),
        '\t' => text.push_str("\\t"),
        '\n' => text.push_str("\\n"),
        '\r' => text.push_str("\\r"),
        _ if steers(character) || is_no_character(character) => {
            push_bytes(text, character.encode_utf8(&mut [0; 4]).as_bytes());
        }
        _ => text.push(character),
    }
}

fn push_bytes(text: &mut String, bytes: &[u8]) {
    text.extend(bytes.iter().map(|byte| format!("\\x{byte:02x}")));
}

/// A byte order mark, or one of Unicode's numbers that are no characters:
/// programs drop them or put others in their place.
fn is_no_character(character: char) -> bool {
    let number = u32::from(character);
    character == '\u{feff}' || number & 0xfffe == 0xfffe || (0xfdd0..=0xfdef).contains(&number)
}

/// What a formula, a quotation or an error begins with, in wide characters too,
/// and blanks, which some programs take away.
fn steers_a_spreadsheet(first: char) -> bool {
    first.is_whitespace() || "=+-@'\"#＝＋－＠".contains(first)
}

/// Whether a spreadsheet could take a text for a number, a date, a formula, a
/// quotation, a truth value or an empty cell. With an escape in it, it is no
/// number.
fn is_taken_for_something(text: &str) -> bool {
    let is_number = !text.contains('\\')
        && text.contains(char::is_numeric)
        && words_in(text) <= MOST_WORDS_OF_A_DATE;
    let is_truth = ["true", "false"]
        .iter()
        .any(|word| text.eq_ignore_ascii_case(word));
    text.is_empty() || text.starts_with(steers_a_spreadsheet) || is_number || is_truth
}

fn words_in(text: &str) -> usize {
    let words = text.split(|character: char| !character.is_alphabetic());
    words.filter(|word| !word.is_empty()).count()
}

/// The caption of a text, or what is wrong with the text.
pub fn caption_of(text: &str) -> Result<Vec<u8>, String> {
    let mut caption = Vec::new();
    let mut rest = text;
    while let Some((plain, escape)) = rest.split_once('\\') {
        caption.extend_from_slice(plain.as_bytes());
        let mut characters = escape.chars();
        match characters.next() {
            Some('\\') => caption.push(b'\\'),
            Some('t') => caption.push(b'\t'),
            Some('n') => caption.push(b'\n'),
            Some('r') => caption.push(b'\r'),
            Some('&') => {}
            Some('x') => caption.push(hex_byte(&mut characters)?),
            _ => return Err(no_escape()),
        }
        rest = characters.as_str();
    }
    caption.extend_from_slice(rest.as_bytes());
    Ok(caption)
}

fn hex_byte(characters: &mut std::str::Chars) -> Result<u8, String> {
    let mut digit = || characters.next().and_then(|digit| digit.to_digit(16));
    let byte = digit().zip(digit()).map(|(high, low)| high * 16 + low);
    byte.and_then(|byte| u8::try_from(byte).ok())
        .ok_or_else(no_escape)
}

fn no_escape() -> String {
    "a backslash that begins none of \\t \\n \\r \\\\ \\& \\x00; \\\\ is a backslash".to_string()
}
