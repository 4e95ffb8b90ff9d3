//! The table of a sheet: lines of slot and text, and what they were taken from,
//! with a tab between, as `captions export` prints them and as a spreadsheet saves
//! them.

use crate::escapes;

/// The names of the columns.
const COLUMNS: [&str; 5] = ["slot", "text", "write", "serial", "digest"];
/// As many of them has a table that was typed.
const TYPED: usize = 2;

/// A line of the table; a text that is empty is none.
pub struct Row {
    pub line: usize,
    pub slot: usize,
    pub caption: Option<Vec<u8>>,
    /// None where the line doesn't say.
    pub taken: Option<Taken>,
}

impl Row {
    /// Whether the text is still the one that was exported.
    pub fn is_untouched(&self) -> bool {
        match (&self.caption, &self.taken) {
            (None, Some(taken)) => taken.write == 0,
            (Some(caption), Some(taken)) => taken.digest == digest(caption),
            (_, None) => false,
        }
    }
}

/// What a line was taken from. Columns of plain numbers and letters are what every
/// spreadsheet keeps, whatever else it does: a line sorted or copied has its own.
pub struct Taken {
    /// The slot's write number; 0 where it was blank.
    pub write: u32,
    /// The sheet's serial; 0 where it has none.
    pub serial: u16,
    /// The digest of the text; empty where the slot was blank, or nobody kept it.
    pub digest: String,
}

/// Sixteen letters by which a text is known again: FNV-1a of its bytes, 64 bits.
/// It guards against no ill will. Letters from a to p make no number, date or
/// truth value.
fn digest(caption: &[u8]) -> String {
    let hash = caption
        .iter()
        .fold(0xcbf2_9ce4_8422_2325_u64, |hash, byte| {
            (hash ^ u64::from(*byte)).wrapping_mul(0x0100_0000_01b3)
        });
    let nibbles = (0..16).rev().map(|place| (hash >> (4 * place)) as u8 & 15);
    nibbles.map(|nibble| char::from(b'a' + nibble)).collect()
}

/// The rows of a table in the order of their slots, and what is wrong with its
/// other lines, by their numbers.
pub struct Rows {
    pub rows: Vec<Row>,
    pub faults: Vec<(usize, String)>,
    /// Whether it has the columns that say what it was taken from.
    pub is_exported: bool,
}

/// The table's first line.
pub fn header() -> String {
    COLUMNS.join("\t") + "\n"
}

/// The line of a slot with this write number, on a sheet with this serial.
pub fn line_of(slot: usize, caption: Option<&[u8]>, write: u32, serial: u16) -> String {
    let text = text_of(caption);
    let digest = caption.map(digest).unwrap_or_default();
    format!("{slot}\t{text}\t{write}\t{serial}\t{digest}\n")
}

/// The text of a slot; a blank one's is empty.
pub fn text_of(caption: Option<&[u8]>) -> String {
    caption.map_or(String::new(), escapes::text_of)
}

/// The rows of a table, or what is wrong with it as a whole.
pub fn rows(bytes: &[u8]) -> Result<Rows, String> {
    let text = characters(bytes)?;
    if let Some(separator) = other_separator(&text) {
        return Err(format!(
            "{separator} between its columns; save it as tab-separated text"
        ));
    }
    let (records, mut faults) = records(&text);
    let mut records = records.into_iter();
    let columns = match records.next() {
        Some((line, first)) => columns_of(&first).ok_or(format!(
            "line {line}: not slot, a tab and text, as it should begin"
        ))?,
        None => return Err("it has no lines".to_string()),
    };
    let mut rows = Vec::new();
    for (line, fields) in records {
        match row(line, &fields, columns) {
            Ok(row) => rows.push(row),
            Err(fault) => faults.push((line, fault)),
        }
    }
    rows.sort_by_key(|row| (row.slot, row.line));
    for pair in rows.windows(2) {
        if let [first, second] = pair {
            if first.slot == second.slot {
                let fault = format!("slot {} stands in line {} too", first.slot, first.line);
                faults.push((second.line, fault));
            }
        }
    }
    faults.sort();
    Ok(Rows {
        rows,
        faults,
        is_exported: columns > TYPED,
    })
}

/// How many columns the first line names, if those are a table's.
fn columns_of(first: &[String]) -> Option<usize> {
    let are_named = (first.iter().zip(COLUMNS)).all(|(field, name)| {
        let field = field.trim_matches(' ');
        field.eq_ignore_ascii_case(name)
    });
    let count = first.len();
    (are_named && [TYPED, COLUMNS.len()].contains(&count)).then_some(count)
}

/// What stands between the columns of a table that a spreadsheet saved in
/// another form.
fn other_separator(text: &str) -> Option<&'static str> {
    let first = text.lines().find(|line| !line.trim().is_empty())?;
    match first {
        _ if first.contains('\t') => None,
        _ if first.contains(';') => Some("semicolons"),
        _ if first.contains(',') => Some("commas"),
        _ => None,
    }
}

fn row(line: usize, fields: &[String], columns: usize) -> Result<Row, String> {
    if fields.len() > columns {
        let more = if columns == TYPED { "third" } else { "sixth" };
        return Err(format!("a {more} column; a tab in a text is written \\t"));
    }
    let field = |place: usize| fields.get(place).map_or("", String::as_str);
    let (slot, text) = (field(0), field(1));
    let digits = slot.trim_matches(' ');
    if !is_decimal(digits) {
        return Err("the slot isn't a decimal number".to_string());
    }
    let caption = match text {
        "" => None,
        // Not seen in a spreadsheet, so hardly meant as a caption.
        _ if text.trim().is_empty() => {
            return Err("nothing but blanks; a blank is written \\x20".to_string());
        }
        _ => Some(escapes::caption_of(text)?),
    };
    Ok(Row {
        line,
        // One that is too large for the machine is too large for the library.
        slot: digits.parse().unwrap_or(usize::MAX),
        caption,
        taken: taken_from(field(2), field(3), field(4))?,
    })
}

/// What a line was taken from, by its last cells. They are left empty where
/// somebody typed the line.
fn taken_from(write: &str, serial: &str, digest: &str) -> Result<Option<Taken>, String> {
    let (write, serial) = (write.trim_matches(' '), serial.trim_matches(' '));
    if write.is_empty() && serial.is_empty() {
        return Ok(None);
    }
    let of = |name: &str| format!("the {name} isn't a number as it was exported");
    Ok(Some(Taken {
        write: number(write).ok_or_else(|| of("write number"))?,
        serial: number(serial).ok_or_else(|| of("serial"))?,
        digest: digest.trim_matches(' ').to_string(),
    }))
}

fn number<N: std::str::FromStr>(digits: &str) -> Option<N> {
    digits.parse().ok().filter(|_| is_decimal(digits))
}

fn is_decimal(digits: &str) -> bool {
    !digits.is_empty() && digits.bytes().all(|byte| byte.is_ascii_digit())
}

/// The characters of a table: UTF-8 with or without a byte order mark, or
/// UTF-16 with one.
fn characters(bytes: &[u8]) -> Result<String, String> {
    let utf_16 = |of_pair: fn([u8; 2]) -> u16, rest: &[u8]| {
        let (pairs, odd) = rest.as_chunks::<2>();
        let units = pairs.iter().map(|pair| of_pair(*pair));
        let text: Result<String, _> = char::decode_utf16(units).collect();
        match (text, odd) {
            (Ok(text), []) => Ok(text),
            _ => Err("it begins as UTF-16 and isn't".to_string()),
        }
    };
    match bytes {
        [b'P', b'K', 3, 4, ..] => {
            Err("a spreadsheet's own file; save it as tab-separated text".to_string())
        }
        [0xff, 0xfe, rest @ ..] => utf_16(u16::from_le_bytes, rest),
        [0xfe, 0xff, rest @ ..] => utf_16(u16::from_be_bytes, rest),
        [0xef, 0xbb, 0xbf, rest @ ..] => utf_8(rest),
        _ => utf_8(bytes),
    }
}

fn utf_8(bytes: &[u8]) -> Result<String, String> {
    std::str::from_utf8(bytes)
        .map(str::to_string)
        .map_err(|error| {
            let before = bytes.iter().take(error.valid_up_to());
            let line = 1 + before.filter(|byte| **byte == b'\n').count();
            format!("line {line}: not UTF-8; save the table as UTF-8 or as Unicode text")
        })
}

type Record = (usize, Vec<String>);

/// The lines with their numbers, each as its fields without the empty ones at
/// its end, and the lines that have none for a fault. Lines without a field are
/// left out.
fn records(text: &str) -> (Vec<Record>, Vec<(usize, String)>) {
    let (mut records, mut faults) = (Vec::new(), Vec::new());
    let (mut rest, mut line) = (text, 1);
    while !rest.is_empty() {
        match record(rest) {
            Ok((fields, after)) => {
                if !fields.is_empty() {
                    records.push((line, fields));
                }
                line += lines_before(rest, after);
                rest = after;
            }
            // The next line may be in order, or have a fault of its own.
            Err((at, fault)) => {
                line += lines_before(rest, at);
                faults.push((line, fault.to_string()));
                rest = at.split_once('\n').map_or("", |(_, after)| after);
                line += 1;
            }
        }
    }
    (records, faults)
}

/// How many lines end in a text before this rest of it.
fn lines_before(text: &str, rest: &str) -> usize {
    let before = text.bytes().take(text.len() - rest.len());
    before.filter(|byte| *byte == b'\n').count()
}

/// The fields of a line without the empty ones at its end, and what follows the
/// line; or where it has a fault, and which.
fn record(text: &str) -> Result<(Vec<String>, &str), (&str, &'static str)> {
    let (mut fields, mut rest) = (Vec::new(), text);
    loop {
        let (field, after) = field(rest).map_err(|fault| (rest, fault))?;
        fields.push(field);
        match after.strip_prefix('\t') {
            Some(next) => rest = next,
            None => {
                rest = end_of_line(after).unwrap_or(after);
                break;
            }
        }
    }
    while fields.last().is_some_and(String::is_empty) {
        fields.pop();
    }
    Ok((fields, rest))
}

/// What follows the end of a line, if a line ends here.
fn end_of_line(text: &str) -> Option<&str> {
    text.strip_prefix("\r\n").or(text.strip_prefix('\n'))
}

/// A field, and what follows it: a tab, the end of a line or of the table.
fn field(text: &str) -> Result<(String, &str), &'static str> {
    let Some(quoted) = text.strip_prefix('"') else {
        let end = text.find(['\t', '\n']).unwrap_or(text.len());
        let (field, after) = text.split_at(end);
        // A carriage return belongs to the end of its line.
        return match (field.strip_suffix('\r'), after.starts_with('\n')) {
            (Some(field), true) => Ok((field.to_string(), after)),
            _ => Ok((field.to_string(), after)),
        };
    };
    let (mut field, mut rest) = (String::new(), quoted);
    while let Some((part, after)) = rest.split_once('"') {
        field.push_str(part);
        match after.strip_prefix('"') {
            Some(next) => {
                field.push('"');
                rest = next;
            }
            None if ends_field(after) => return Ok((field, after)),
            None => return Err("text after a closing quotation mark"),
        }
    }
    Err("a quotation mark that isn't closed")
}

fn ends_field(after: &str) -> bool {
    after.is_empty() || after.starts_with('\t') || end_of_line(after).is_some()
}
