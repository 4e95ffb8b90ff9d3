//! What a file is by its first bytes: a sheet, a term sheet or keys. The library
//! judges whether it is fit; this is for what is torn, or in another's place.

use captions::{sheet_len, sheet_len_1, terms_len, Cipher, LAST_DAY, SLOTS};

#[derive(Clone, Copy, Debug, PartialEq, Eq)]
pub enum Kind {
    /// A sheet, whole or torn.
    Sheet,
    /// A term sheet, whole or torn.
    Terms,
    /// Lines of hex digits and nothing else.
    Keys,
    /// Nothing at all.
    Empty,
    Other,
}

impl Kind {
    /// What a file with these bytes is; the first of them will do.
    pub fn of(bytes: &[u8]) -> Kind {
        match bytes {
            [] => Kind::Empty,
            // A whole term sheet can begin as a sheet does, the other way round
            // the length tells.
            _ if is_whole_terms(bytes) => Kind::Terms,
            _ if begins_as_sheet(bytes) => Kind::Sheet,
            _ if begins_as_terms(bytes) => Kind::Terms,
            _ if is_keys(bytes) => Kind::Keys,
            _ => Kind::Other,
        }
    }

    /// In words.
    pub fn name(self) -> &'static str {
        match self {
            Kind::Sheet => "a caption sheet",
            Kind::Terms => "a term sheet",
            Kind::Keys => "a file of keys",
            Kind::Empty => "an empty file",
            Kind::Other => "a file of another kind",
        }
    }
}

/// The slot count that a sheet and a term sheet begin with.
fn slots(bytes: &[u8]) -> Option<usize> {
    let first = bytes.first_chunk::<2>()?;
    Some(u16::from_be_bytes(*first).into()).filter(|slots| (1..=SLOTS).contains(slots))
}

/// Slot count, cipher and edition. An edition that there isn't, or not with that
/// cipher, is a changed byte where the length is a sheet's.
fn begins_as_sheet(bytes: &[u8]) -> bool {
    let Some(slots) = slots(bytes) else {
        return false;
    };
    let has_length = [sheet_len(slots), sheet_len_1(slots)].contains(&bytes.len());
    match bytes {
        [_, _, 4 | 6 | 8, 1..=2, ..] => true,
        [_, _, class, edition, ..] => {
            Cipher::of_class(*class).is_some() && (*edition == 3 || has_length)
        }
        _ => false,
    }
}

fn is_whole_terms(bytes: &[u8]) -> bool {
    begins_as_terms(bytes) && slots(bytes).map(terms_len) == Some(bytes.len())
}

/// Slot count and days, and no more of them than such a term sheet has.
fn begins_as_terms(bytes: &[u8]) -> bool {
    let (numbers, _) = bytes.as_chunks::<2>();
    let mut days = numbers.iter().skip(1).map(|day| u16::from_be_bytes(*day));
    slots(bytes).is_some_and(|slots| bytes.len() <= terms_len(slots))
        && days.all(|day| day <= LAST_DAY)
}

/// Whatever the length of the keys, and how many there are.
fn is_keys(bytes: &[u8]) -> bool {
    let is_end = |byte: &u8| matches!(byte, b'\n' | b'\r');
    bytes.iter().any(u8::is_ascii_hexdigit)
        && bytes
            .iter()
            .all(|byte| byte.is_ascii_hexdigit() || is_end(byte))
}
