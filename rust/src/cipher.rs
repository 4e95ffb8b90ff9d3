//! The ciphers that a sheet can have, each with its length of keys.

use std::fmt;

/// A cipher with a length of keys, as byte 2 of a sheet says. What [`blank`]
/// makes has any of them; sheets of editions 1 and 2 have mCrypton alone. Shown as
/// its name and key bits. A later version may have more of them, so a `match` wants
/// an arm for the others.
///
/// ```
/// use captions::{blank, list, sheet_len, Cipher, Refusal};
///
/// let cipher = Cipher::Present80;
/// assert_eq!(cipher.to_string(), "PRESENT with 80 bits");
/// assert_eq!(cipher.key_bytes(), 10);
///
/// let mut sheet = vec![0; sheet_len(1)];
/// blank(&mut sheet, 1, cipher, 1, &[1; 10], &[2; 10])?;
/// assert_eq!(list(&sheet), b"slots 1 key 80 last 0\n0 blank\n");
/// assert_eq!(Cipher::of_class(sheet[2]), Some(cipher));
/// # Ok::<(), Refusal>(())
/// ```
///
/// [`blank`]: crate::blank
#[derive(Clone, Copy, Debug, PartialEq, Eq, Hash)]
#[non_exhaustive]
pub enum Cipher {
    /// mCrypton with keys of 8 bytes.
    Mcrypton64,
    /// mCrypton with keys of 12 bytes.
    Mcrypton96,
    /// mCrypton with keys of 16 bytes.
    Mcrypton128,
    /// PRESENT with keys of 10 bytes, in edition 3 alone.
    Present80,
    /// PRESENT with keys of 16 bytes, in edition 3 alone.
    Present128,
}

/// Of each cipher byte 2, the bytes of a key, and its name.
const TABLE: [(Cipher, u8, usize, &str); 5] = [
    (Cipher::Mcrypton64, 4, 8, "mCrypton"),
    (Cipher::Mcrypton96, 6, 12, "mCrypton"),
    (Cipher::Mcrypton128, 8, 16, "mCrypton"),
    (Cipher::Present80, 21, 10, "PRESENT"),
    (Cipher::Present128, 24, 16, "PRESENT"),
];

impl Cipher {
    /// All ciphers, by byte 2.
    pub const ALL: [Cipher; 5] = [
        Cipher::Mcrypton64,
        Cipher::Mcrypton96,
        Cipher::Mcrypton128,
        Cipher::Present80,
        Cipher::Present128,
    ];

    /// The cipher that byte 2 of a sheet names, if it names one.
    ///
    /// ```
    /// use captions::Cipher;
    ///
    /// assert_eq!(Cipher::of_class(24), Some(Cipher::Present128));
    /// assert_eq!(Cipher::of_class(5), None);
    /// ```
    pub fn of_class(class: u8) -> Option<Cipher> {
        let row = TABLE.iter().find(|(_, byte, ..)| *byte == class);
        row.map(|(cipher, ..)| *cipher)
    }

    /// Byte 2 of a sheet with this cipher.
    ///
    /// ```
    /// use captions::Cipher;
    ///
    /// assert_eq!(Cipher::ALL.map(Cipher::class), [4, 6, 8, 21, 24]);
    /// ```
    pub fn class(self) -> u8 {
        TABLE[self as usize].1
    }

    /// The bytes of each of its keys.
    ///
    /// ```
    /// use captions::Cipher;
    ///
    /// assert_eq!(Cipher::ALL.map(Cipher::key_bytes), [8, 12, 16, 10, 16]);
    /// ```
    pub fn key_bytes(self) -> usize {
        TABLE[self as usize].2
    }

    /// The bits of each of its keys, as a listing has them.
    ///
    /// ```
    /// use captions::Cipher;
    ///
    /// assert_eq!(Cipher::ALL.map(Cipher::key_bits), [64, 96, 128, 80, 128]);
    /// ```
    pub fn key_bits(self) -> usize {
        8 * self.key_bytes()
    }

    /// Its name, without the length of its keys.
    ///
    /// ```
    /// use captions::Cipher;
    ///
    /// assert_eq!(Cipher::Mcrypton64.name(), "mCrypton");
    /// assert_eq!(Cipher::Present80.name(), "PRESENT");
    /// ```
    pub fn name(self) -> &'static str {
        TABLE[self as usize].3
    }
}

impl fmt::Display for Cipher {
    fn fmt(&self, f: &mut fmt::Formatter<'_>) -> fmt::Result {
        write!(f, "{} with {} bits", self.name(), self.key_bits())
    }
}

/// What [`blank`](crate::blank) takes for byte 2 of a sheet: a [`Cipher`], or any
/// number, of which it refuses those that name none.
pub trait Class {
    /// The number.
    fn number(self) -> usize;
}

impl Class for Cipher {
    fn number(self) -> usize {
        self.class().into()
    }
}

impl Class for usize {
    fn number(self) -> usize {
        self
    }
}
