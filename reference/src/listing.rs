//! The listing (document 01, after cases A to M; document 02, requests 3 and 10).

use crate::class::key_bytes;
use crate::sheet::{fit_header, mark_of, Edition, Header, MOST_SLOTS};

/// The most bytes a sheet has: 256 slots of edition 2 or 3, 53264 bytes.
pub const MOST_BYTES: usize = Edition::BLANKED.sheet_length(MOST_SLOTS);

/// The listing text of a sheet; an unfit one, or one above 53264 bytes, gives
/// "unfit" alone on its line.
pub fn listing(sheet: &[u8]) -> Vec<u8> {
    text(sheet).into_bytes()
}

/// The listing as characters.
pub(crate) fn text(sheet: &[u8]) -> String {
    if sheet.len() > MOST_BYTES {
        return "unfit\n".to_string();
    }
    let Some(header) = fit_header(sheet) else {
        return "unfit\n".to_string();
    };
    let key_bits = key_bytes(header.t).map_or(0, |bytes| 8 * bytes);
    let mut text = format!("slots {} key {} last {}\n", header.n, key_bits, header.w);
    for slot in 0..header.n {
        text += &slot_line(sheet, &header, slot);
    }
    text
}

fn slot_line(sheet: &[u8], header: &Header, slot: usize) -> String {
    match mark_of(sheet, header, slot) {
        None => format!("{slot} blank\n"),
        Some(mark) => format!("{slot} written {} {}\n", mark.write_number, mark.length),
    }
}
