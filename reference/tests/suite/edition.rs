//! The editions of a sheet, for the tests of every package: where things stand,
//! and blank sheets, laid out here and by no program that is tested.

use std::ops::Range;

const MARK: usize = 16;
const FIELD: usize = 192;

/// Editions 2 and 3 with their serial.
#[derive(Clone, Copy, Debug, PartialEq, Eq)]
pub enum Edition {
    One,
    Two(u16),
    Three(u16),
}

impl Edition {
    pub const ALL: [Edition; 3] = [Edition::One, Edition::Two(0xa53c), Edition::BLANKED];

    /// The one that blanking makes.
    pub const BLANKED: Edition = Edition::Three(0xa53c);

    /// Serials about every edge, for tests that go through serials.
    #[allow(dead_code)]
    pub const SERIALS: [u16; 5] = [0, 1, 255, 256, 65535];

    /// A key mark for sheets whose keys don't matter, and no pair's but by chance.
    pub const SOME_MARK: [u8; 6] = [0x6d, 0, 0x80, 1, 0xff, 0x2e];

    /// Byte 3.
    pub const fn number(self) -> u8 {
        match self {
            Edition::One => 1,
            Edition::Two(_) => 2,
            Edition::Three(_) => 3,
        }
    }

    /// The bytes before the marks.
    pub fn header(self) -> usize {
        match self {
            Edition::One => 8,
            Edition::Two(_) | Edition::Three(_) => 16,
        }
    }

    /// The last two bytes of the block that is sealed to make a start block.
    pub fn start_tail(self) -> [u8; 2] {
        match self {
            Edition::One => [0, 0],
            Edition::Two(serial) | Edition::Three(serial) => {
                [(serial / 256) as u8, (serial % 256) as u8]
            }
        }
    }

    /// Where the mark of a slot stands.
    pub fn mark_place(self, slot: usize) -> Range<usize> {
        let start = self.header() + MARK * slot;
        start..start + MARK
    }

    /// Where the sealed field of a slot stands, in a sheet of n slots.
    pub fn field_place(self, n: usize, slot: usize) -> Range<usize> {
        let start = self.header() + MARK * n + FIELD * slot;
        start..start + FIELD
    }

    /// The length of a sheet of n slots: where a further field would start.
    pub fn sheet_length(self, n: usize) -> usize {
        self.field_place(n, n).start
    }

    /// A blank sheet, in edition 3 with some key mark; for a count or a class that
    /// no sheet has, its like.
    pub fn blank_sheet(self, n: usize, t: usize) -> Vec<u8> {
        let mut sheet = vec![0; self.sheet_length(n)];
        sheet[0..2].copy_from_slice(&(n as u16).to_be_bytes());
        sheet[2] = t as u8;
        sheet[3] = self.number();
        if self != Edition::One {
            sheet[8..10].copy_from_slice(&self.start_tail());
        }
        if let Edition::Three(_) = self {
            sheet[10..16].copy_from_slice(&Edition::SOME_MARK);
        }
        sheet
    }
}
