//! A pair of keys, its tests, and the key mark of an edition 3 sheet (document
//! 01, "What the kiosk shows instead of a caption"; document 02, requests 7 and
//! 10).

use crate::cipher::Block;
use crate::class::SheetCipher;
use crate::sheet::{fit_header, is_slot_count, Edition, Header};
use crate::{refuse_if, OTHER_KEYS, OTHER_KEY_CLASS, TWIN_KEYS, UNFIT_SHEET, WRONG_KEY};

/// The six bytes by which an edition 3 sheet knows its pair.
pub type KeyMark = [u8; 6];

/// A sealing and a checking key that meet neither 1 nor 2. What ciphers they are
/// keys of, only a sheet's class says.
#[derive(Clone, Copy)]
pub(crate) struct Keys<'a> {
    sealing: &'a [u8],
    checking: &'a [u8],
}

impl<'a> Keys<'a> {
    /// Tests 1 and 2. Test 1 knows no class: it takes the key bytes of any.
    pub(crate) fn tested(sealing: &'a [u8], checking: &'a [u8]) -> Result<Keys<'a>, u8> {
        let is_key = [8, 10, 12, 16].contains(&sealing.len());
        refuse_if(!is_key, WRONG_KEY)?;
        refuse_if(sealing.len() != checking.len(), WRONG_KEY)?;
        refuse_if(sealing == checking, TWIN_KEYS)?;
        Ok(Keys { sealing, checking })
    }

    /// Test 5: the key bytes are the class's, and the keys go into its cipher.
    pub(crate) fn tested_class(self, t: usize) -> Result<Pair, u8> {
        let cipher = |key| SheetCipher::of_class(t, key).ok_or(OTHER_KEY_CLASS);
        Ok(Pair {
            sealing: cipher(self.sealing)?,
            checking: cipher(self.checking)?,
        })
    }
}

/// The two ciphers of a pair on sheets of a class that it fits.
pub(crate) struct Pair {
    pub(crate) sealing: SheetCipher,
    pub(crate) checking: SheetCipher,
}

impl Pair {
    /// Test 14, for a sheet that fits: where it has a key mark, it is this
    /// pair's.
    pub(crate) fn test_mark(&self, header: &Header) -> Result<(), u8> {
        let own = || self.mark(header.n, header.t, header.serial);
        let differs = header.key_mark().is_some_and(|mark| mark != own());
        refuse_if(differs, OTHER_KEYS)
    }

    /// The first six bytes of the checking key's CMAC of the sealed block.
    pub(crate) fn mark(&self, n: usize, t: usize, serial: [u8; 2]) -> KeyMark {
        let sealed = self.sealing.encrypt(mark_block(n, t, serial));
        let mac = self.checking.cmac(&sealed);
        std::array::from_fn(|i| mac[i])
    }
}

/// The block that is sealed for a key mark: n, t, edition, serial and two zero
/// bytes.
pub(crate) fn mark_block(n: usize, t: usize, serial: [u8; 2]) -> Block {
    let [a, b] = (n as u16).to_be_bytes();
    let [e, f] = serial;
    [a, b, t as u8, Edition::Three.number(), e, f, 0, 0]
}

/// The key mark of a pair on a sheet of n slots, a class and a serial; none
/// where blanking such a sheet with that pair would meet 1, 2, 5 or, for n, 3.
pub fn key_mark(
    n: usize,
    t: usize,
    serial: u16,
    sealing_key: &[u8],
    checking_key: &[u8],
) -> Option<KeyMark> {
    let keys = Keys::tested(sealing_key, checking_key).ok()?;
    let pair = keys.tested_class(t).ok()?;
    is_slot_count(n).then(|| pair.mark(n, t, serial.to_be_bytes()))
}

/// The first of 1, 2, 5 and 14 that a pair meets with a sheet that fits; 0 if
/// none, and the pair is no stranger to it. With a sheet that doesn't fit it is
/// the first of 1, 2 and 4, as for a write.
pub fn key_refusal(sealing_key: &[u8], checking_key: &[u8], sheet: &[u8]) -> u8 {
    let tested = tested_pair(sealing_key, checking_key, sheet);
    tested.err().unwrap_or(0)
}

fn tested_pair(sealing_key: &[u8], checking_key: &[u8], sheet: &[u8]) -> Result<(), u8> {
    let keys = Keys::tested(sealing_key, checking_key)?;
    let header = fit_header(sheet).ok_or(UNFIT_SHEET)?;
    keys.tested_class(header.t)?.test_mark(&header)
}
