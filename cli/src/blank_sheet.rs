//! A sheet of blank slots, by which the library also says which slot counts there
//! are.

use crate::exchange::caption_in;
use crate::header;
use crate::keys::Keys;
use crate::listing::Listing;
use captions::{sheet_len, Class, Refusal, HEADER, SLOTS};

/// A blank sheet that a pair of keys serves.
pub fn blank_sheet(
    slots: usize,
    cipher: impl Class,
    serial: u16,
    keys: &Keys,
) -> Result<Vec<u8>, Refusal> {
    // One slot more than a sheet can have is enough for the library to refuse.
    let mut sheet = vec![0; sheet_len(slots.min(SLOTS + 1))];
    let Keys { sealing, checking } = keys;
    captions::blank(&mut sheet, slots, cipher, serial, sealing, checking)?;
    Ok(sheet)
}

/// Whether a sheet that is blanked with this cipher and serial under these keys
/// would seal from starts that the old one there has used: it has the same cipher
/// and serial, and nothing shows that it belongs to other keys.
pub fn repeats_starts(old: &[u8], cipher: impl Class, serial: u16, keys: &Keys) -> bool {
    // Without a serial a sheet seals as one with serial 0 does.
    if header::serial(old).unwrap_or(0) != serial {
        return false;
    }
    let [high, low, class, edition, ..] = *old else {
        return false;
    };
    let class = usize::from(class);
    if class != cipher.number() {
        return false;
    }
    let slots = usize::from(u16::from_be_bytes([high, low]));
    match edition {
        1 | 2 => serves_some_slot(old, keys),
        // Its key mark tells, also where the rest of it is torn off or its edition
        // was changed.
        _ => match blank_sheet(slots, class, serial, keys) {
            Ok(same) => {
                let end = HEADER.min(old.len());
                old.get(8..end) == same.get(8..end)
            }
            Err(_) => false,
        },
    }
}

/// Whether a pair of keys opens a slot of a sheet that has no key mark. Where no
/// slot is written, or the sheet is torn, that can't be told, and it may.
fn serves_some_slot(sheet: &[u8], keys: &Keys) -> bool {
    let Some(listing) = Listing::of_sheet(sheet) else {
        return true;
    };
    let written: Vec<usize> = (0..listing.slots)
        .filter(|slot| listing.write_number(*slot) > 0)
        .collect();
    let opens = |slot: &usize| caption_in(sheet, keys, *slot).is_ok();
    written.is_empty() || written.iter().any(opens)
}

/// Two unlike keys of 64 bits, for sheets by which the library is asked and which
/// aren't kept.
pub fn any_keys() -> Keys {
    Keys {
        sealing: vec![0; 8],
        checking: vec![1; 8],
    }
}
