//! Keys and sheets to call with: fit ones, and ones with a rule broken.

use crate::edition::Edition;
use crate::letters::{bad_text, good_text};
use crate::random::Random;

/// The values of t that mean mCrypton, which are the words of a key.
pub const MCRYPTON: [usize; 3] = [4, 6, 8];

/// All values of t: those, and 21 and 24, which mean PRESENT in edition 3 alone.
pub const CLASSES: [usize; 5] = [4, 6, 8, 21, 24];

/// The values of t that an edition has.
pub fn classes(edition: Edition) -> &'static [usize] {
    match edition {
        Edition::One | Edition::Two(_) => &MCRYPTON,
        Edition::Three(_) => &CLASSES,
    }
}

/// Every edition with every class that it has.
pub fn kinds() -> impl Iterator<Item = (Edition, usize)> {
    let editions = Edition::ALL.into_iter();
    editions.flat_map(|edition| classes(edition).iter().map(move |t| (edition, *t)))
}

/// The bytes of a key of a class.
pub fn key_bytes(t: usize) -> usize {
    reference::key_bytes(t).expect("a class")
}

/// A value of byte 3 that is no edition's; the next is none's either.
pub const UNKNOWN_EDITION: u8 = Edition::BLANKED.number() + 1;

/// A serial: those about every edge, and any.
pub fn some_serial(random: &mut Random) -> u16 {
    match random.below(2) {
        0 => random.pick(&Edition::SERIALS),
        _ => random.number() as u16,
    }
}

/// The edition, with another serial where it has one.
pub fn with_some_serial(random: &mut Random, edition: Edition) -> Edition {
    match edition {
        Edition::One => Edition::One,
        Edition::Two(_) => Edition::Two(some_serial(random)),
        Edition::Three(_) => Edition::Three(some_serial(random)),
    }
}

/// A window's length, and the longest caption's.
pub const FIELD: usize = 192;

/// A sealing and a checking key.
#[derive(Clone, Debug)]
pub struct Keys {
    pub sealing: Vec<u8>,
    pub checking: Vec<u8>,
}

impl Keys {
    /// Two unlike keys of a class.
    pub fn unlike(random: &mut Random, t: usize) -> Keys {
        let mut keys = Keys::of_lengths(random, key_bytes(t), key_bytes(t));
        if keys.checking == keys.sealing {
            keys.checking[0] ^= 1;
        }
        keys
    }

    /// Random keys of any lengths.
    pub fn of_lengths(random: &mut Random, sealing: usize, checking: usize) -> Keys {
        Keys {
            sealing: random.bytes(sealing),
            checking: random.bytes(checking),
        }
    }

    pub fn twins(random: &mut Random, length: usize) -> Keys {
        let key = random.bytes(length);
        Keys {
            sealing: key.clone(),
            checking: key,
        }
    }

    pub fn swapped(&self) -> Keys {
        Keys {
            sealing: self.checking.clone(),
            checking: self.sealing.clone(),
        }
    }

    /// How many bits both keys have together.
    pub fn bits(&self) -> usize {
        8 * (self.sealing.len() + self.checking.len())
    }

    /// The keys with one bit flipped, counted through the sealing key, then
    /// through the checking key.
    pub fn flipped(&self, bit: usize) -> Keys {
        let mut flipped = self.clone();
        let (place, mask) = (bit / 8, 1 << (bit % 8));
        match place.checked_sub(self.sealing.len()) {
            None => flipped.sealing[place] ^= mask,
            Some(place) => flipped.checking[place] ^= mask,
        }
        flipped
    }

    /// The second program's key mark of the pair; none where the pair has none.
    pub fn mark(&self, n: usize, t: usize, serial: u16) -> Option<[u8; 6]> {
        reference::key_mark(n, t, serial, &self.sealing, &self.checking)
    }

    /// A blank sheet that is the pair's own, in edition 3 with its key mark.
    pub fn blank_sheet(&self, edition: Edition, n: usize, t: usize) -> Vec<u8> {
        let mut sheet = edition.blank_sheet(n, t);
        self.put_mark(&mut sheet);
        sheet
    }

    /// Makes a sheet of edition 3 the pair's own; any other, and one that the
    /// pair has no mark for, stays as it is.
    pub fn put_mark(&self, sheet: &mut [u8]) {
        let [n0, n1, t, 3, _, _, _, _, s0, s1, mark @ ..] = sheet else {
            return;
        };
        let (n, serial) = (
            u16::from_be_bytes([*n0, *n1]),
            u16::from_be_bytes([*s0, *s1]),
        );
        if let Some(own) = self.mark(usize::from(n), usize::from(*t), serial) {
            let room = mark.len().min(6);
            mark[..room].copy_from_slice(&own[..room]);
        }
    }
}

/// The last write number, w.
pub fn last_number(sheet: &[u8]) -> u32 {
    u32::from_be_bytes([sheet[4], sheet[5], sheet[6], sheet[7]])
}

pub fn set_last_number(sheet: &mut [u8], w: u32) {
    sheet[4..8].copy_from_slice(&w.to_be_bytes());
}

/// A number from 1 to `most`, of every count of digits.
fn number_up_to(random: &mut Random, most: u32) -> u32 {
    let digits = random.below(10) as u32 + 1;
    let number = random.number() % 10u64.pow(digits).min(u64::from(most)) + 1;
    number.min(u64::from(most)) as u32
}

/// A caption's length: the edges and any between.
pub fn caption_length(random: &mut Random) -> usize {
    match random.below(4) {
        0 => random.pick(&[0, 1, 7, 8, 9, 191, 192]),
        _ => random.below(FIELD + 1),
    }
}

/// A caption of a length: well formed, or seldom broken, as none of 0 bytes is.
pub fn some_caption(random: &mut Random, length: usize) -> Vec<u8> {
    if length > 0 && random.once_in(8) {
        return bad_text(random, length);
    }
    good_text(random, length)
}

/// A sheet that meets the layout, each slot blank or written; fields, checks and
/// a key mark are random bytes, which the layout doesn't look at.
pub fn fit_sheet(random: &mut Random, edition: Edition, n: usize, t: usize) -> Vec<u8> {
    let mut sheet = with_some_serial(random, edition).blank_sheet(n, t);
    if let Edition::Three(_) = edition {
        sheet[10..16].copy_from_slice(&random.bytes(6));
    }
    let w = match random.below(8) {
        0 => 0,
        1 => u32::MAX,
        _ => number_up_to(random, u32::MAX),
    };
    set_last_number(&mut sheet, w);
    let blank_once_in = random.pick(&[1, 2, 10]);
    for slot in 0..n {
        if w == 0 || random.once_in(blank_once_in) {
            continue;
        }
        let number = number_up_to(random, w);
        let length = caption_length(random) as u16;
        let mark = &mut sheet[edition.mark_place(slot)];
        mark[0..4].copy_from_slice(&number.to_be_bytes());
        mark[4..6].copy_from_slice(&length.to_be_bytes());
        // A check and a field of zeros are allowed in a written slot.
        if !random.once_in(5) {
            mark[8..16].copy_from_slice(&random.block());
            let field = random.bytes(FIELD);
            sheet[edition.field_place(n, slot)].copy_from_slice(&field);
        }
    }
    sheet
}

/// The ways to break a rule of the layout.
pub const FAULTS: usize = 16;

/// A fit sheet with one thing altered: most often unfit then, by the rule of
/// that number, and sometimes still fit.
pub fn near_sheet(
    random: &mut Random,
    edition: Edition,
    n: usize,
    t: usize,
    fault: usize,
) -> Vec<u8> {
    let mut sheet = fit_sheet(random, edition, n, t);
    // The first and the last slot as often as all others.
    let between = random.below(n);
    let slot = random.pick(&[0, n - 1, between]);
    let mark = edition.mark_place(slot).start;
    let field = edition.field_place(n, slot).start;
    let some_byte = random.below(255) as u8 + 1;
    match fault {
        0 => set_slot_count(&mut sheet, n - 1),
        1 => set_slot_count(&mut sheet, n + 1),
        2 => set_slot_count(&mut sheet, random.number() as usize % 65536),
        3 => {
            sheet[2] = random.pick(&[
                0, 1, 2, 3, 5, 7, 9, 10, 12, 16, 20, 21, 22, 23, 24, 25, 0x84, 255,
            ])
        }
        4 => sheet[3] = random.pick(&[0, UNKNOWN_EDITION, UNKNOWN_EDITION + 1, 0x81, 255]),
        5 => set_last_number(&mut sheet, random.pick(&[0, 1, 2, 0xff, 0x100, 0x10000])),
        6 => sheet[mark + 4..mark + 6]
            .copy_from_slice(&random.pick(&[193u16, 256, 448, 0x8000]).to_be_bytes()),
        7 => sheet[mark + 6] ^= some_byte,
        8 => sheet[mark + 7] ^= some_byte,
        9 => sheet[mark..mark + 4].fill(0),
        10 => {
            sheet[mark..mark + 16].fill(0);
            sheet[field + random.below(FIELD)] ^= some_byte;
        }
        11 => {
            sheet.pop();
        }
        // Edition 2's zero bytes and edition 3's key mark; in edition 1 bytes of
        // the first mark.
        12 => sheet[10 + random.below(6)] ^= some_byte,
        13 => sheet[3] = random.pick(&other_editions(edition)).number(),
        14 => {
            let other = random.pick(&other_editions(edition));
            sheet[3] = other.number();
            sheet.resize(other.sheet_length(n), 0);
        }
        _ => sheet.push(random.pick(&[0, some_byte])),
    }
    sheet
}

/// The editions that a sheet is relabelled as.
pub fn other_editions(edition: Edition) -> [Edition; 2] {
    let [one, two, three] = Edition::ALL;
    match edition {
        Edition::One => [two, three],
        Edition::Two(_) => [one, three],
        Edition::Three(_) => [one, two],
    }
}

fn set_slot_count(sheet: &mut [u8], n: usize) {
    sheet[0..2].copy_from_slice(&(n as u16).to_be_bytes());
}
