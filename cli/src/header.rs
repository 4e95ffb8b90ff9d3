//! What the first bytes of a sheet say that its listing doesn't: the cipher, the
//! edition, the serial and the key mark.

use captions::Cipher;

/// The cipher of a sheet that is fit.
pub fn cipher(sheet: &[u8]) -> Option<Cipher> {
    Cipher::of_class(*sheet.get(2)?)
}

/// The edition of a sheet.
pub fn edition(sheet: &[u8]) -> u8 {
    sheet.get(3).copied().unwrap_or(0)
}

/// The serial of a sheet; none where it is of edition 1, which has none. A changed
/// edition byte doesn't hide it.
pub fn serial(sheet: &[u8]) -> Option<u16> {
    match sheet {
        [_, _, _, 1, ..] => None,
        [_, _, _, _, _, _, _, _, high, low, ..] => Some(u16::from_be_bytes([*high, *low])),
        _ => None,
    }
}

/// The key mark of a sheet; none where its edition has none.
pub fn key_mark(sheet: &[u8]) -> Option<&[u8]> {
    match edition(sheet) {
        3 => sheet.get(10..16),
        _ => None,
    }
}
