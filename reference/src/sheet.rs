//! The sheet: layout, blanking, writing, clearing, reading (document 01, "The
//! sheet" and "What the kiosk shows instead of a caption"; document 02, requests
//! 3, 5, 7, 9 and 10).

use crate::cipher::Block;
use crate::class::{key_bytes, SheetCipher};
use crate::faults::{first_fault, Fault};
use crate::keys::{KeyMark, Keys, Pair};
use crate::modes::{cbc_decrypt, cbc_encrypt};
use crate::text::well_formed;
use crate::{
    refuse_if, Answer, Pointed, Refusal, BLANK, BROKEN_TEXT, NO_SUCH_SLOT, OVERLONG, UNFIT_SHEET,
    WORN, WRONG_KEY, WRONG_SPAN,
};
use std::array::from_fn;
use std::ops::Range;

/// The bytes of a mark.
pub const MARK: usize = 16;
/// The bytes of a sealed field, of a window and of the longest caption.
pub const FIELD: usize = 192;
/// The most slots a sheet has.
pub const MOST_SLOTS: usize = 256;

/// The edition of a sheet.
#[derive(Clone, Copy)]
pub(crate) enum Edition {
    One,
    Two,
    Three,
}

impl Edition {
    /// The edition that blanking makes.
    pub(crate) const BLANKED: Edition = Edition::Three;

    /// The edition of byte 3; none if there is no such edition.
    pub(crate) fn of_number(number: u8) -> Option<Edition> {
        match number {
            1 => Some(Edition::One),
            2 => Some(Edition::Two),
            3 => Some(Edition::Three),
            _ => None,
        }
    }

    /// Byte 3.
    pub(crate) fn number(self) -> u8 {
        match self {
            Edition::One => 1,
            Edition::Two => 2,
            Edition::Three => 3,
        }
    }

    /// Whether byte 2 may be t: 4, 6 or 8, in edition 3 also 21 or 24.
    fn has_class(self, t: usize) -> bool {
        match self {
            Edition::One | Edition::Two => [4, 6, 8].contains(&t),
            Edition::Three => is_key_class(t),
        }
    }

    /// The bytes before the marks.
    const fn header(self) -> usize {
        match self {
            Edition::One => 8,
            Edition::Two | Edition::Three => 16,
        }
    }

    /// The length of a sheet of n slots, n from 1 to 256.
    pub(crate) const fn sheet_length(self, n: usize) -> usize {
        self.header() + (MARK + FIELD) * n
    }

    /// Where the mark of a slot stands.
    pub(crate) fn mark_place(self, slot: usize) -> Range<usize> {
        let start = self.header() + MARK * slot;
        start..start + MARK
    }

    /// Where the sealed field of a slot stands.
    pub(crate) fn field_place(self, n: usize, slot: usize) -> Range<usize> {
        let start = self.header() + MARK * n + FIELD * slot;
        start..start + FIELD
    }
}

/// A number of up to four bytes, high byte first.
pub(crate) fn number(bytes: &[u8]) -> u32 {
    bytes.iter().fold(0, |x, byte| x << 8 | u32::from(*byte))
}

pub(crate) fn all_zero(bytes: &[u8]) -> bool {
    bytes.iter().all(|byte| *byte == 0)
}

/// The header, and what its edition settles.
pub(crate) struct Header {
    pub(crate) n: usize,
    pub(crate) t: usize,
    edition: Edition,
    pub(crate) w: u32,
    /// Edition 1 has none, and two zero bytes in its place in the start block.
    pub(crate) serial: [u8; 2],
    /// The six bytes after the serial: edition 2's zeros, edition 3's key mark.
    /// Edition 1 has none.
    last_six: [u8; 6],
}

impl Header {
    /// None if there is no such edition or the sheet is shorter than its header.
    fn of_sheet(sheet: &[u8]) -> Option<Header> {
        let edition = Edition::of_number(*sheet.get(3)?)?;
        let header = sheet.get(..edition.header())?;
        let (serial, last_six) = match edition {
            Edition::One => ([0; 2], [0; 6]),
            Edition::Two | Edition::Three => ([header[8], header[9]], from_fn(|i| header[10 + i])),
        };
        Some(Header {
            n: number(&header[0..2]) as usize,
            t: usize::from(header[2]),
            edition,
            w: number(&header[4..8]),
            serial,
            last_six,
        })
    }

    /// The key mark; only edition 3 has one.
    pub(crate) fn key_mark(&self) -> Option<KeyMark> {
        match self.edition {
            Edition::One | Edition::Two => None,
            Edition::Three => Some(self.last_six),
        }
    }

    /// Any six bytes are fit for a key mark; edition 2's are zero.
    fn last_six_fit(&self) -> bool {
        self.key_mark().is_some() || all_zero(&self.last_six)
    }

    fn sheet_length(&self) -> usize {
        self.edition.sheet_length(self.n)
    }

    fn mark_place(&self, slot: usize) -> Range<usize> {
        self.edition.mark_place(slot)
    }

    fn field_place(&self, slot: usize) -> Range<usize> {
        self.edition.field_place(self.n, slot)
    }
}

/// A mark, and its 16 bytes.
pub(crate) struct Mark {
    pub(crate) write_number: u32,
    pub(crate) length: u16,
    zeros: [u8; 2],
    check: Block,
}

impl Mark {
    fn of_bytes(bytes: &[u8]) -> Mark {
        Mark {
            write_number: number(&bytes[0..4]),
            length: number(&bytes[4..6]) as u16,
            zeros: [bytes[6], bytes[7]],
            check: from_fn(|i| bytes[8 + i]),
        }
    }

    fn bytes(&self) -> Vec<u8> {
        let mut bytes = Vec::new();
        bytes.extend(self.write_number.to_be_bytes());
        bytes.extend(self.length.to_be_bytes());
        bytes.extend(self.zeros);
        bytes.extend(self.check);
        bytes
    }
}

// ---- The layout ----

/// Whether t is 4, 6, 8, 21 or 24.
fn is_key_class(t: usize) -> bool {
    key_bytes(t).is_some()
}

/// Whether n is 1 to 256.
pub(crate) fn is_slot_count(n: usize) -> bool {
    (1..=MOST_SLOTS).contains(&n)
}

/// The layout test (the contrary of refusal 4).
pub fn fit(sheet: &[u8]) -> bool {
    fit_header(sheet).is_some()
}

/// The header of a sheet that meets every rule of the layout.
pub(crate) fn fit_header(sheet: &[u8]) -> Option<Header> {
    let header = Header::of_sheet(sheet)?;
    let fits = is_slot_count(header.n)
        && header.edition.has_class(header.t)
        && header.last_six_fit()
        && sheet.len() == header.sheet_length()
        && (0..header.n).all(|slot| slot_fits(sheet, &header, slot));
    fits.then_some(header)
}

/// Every slot is one or the other: blank or written.
fn slot_fits(sheet: &[u8], header: &Header, slot: usize) -> bool {
    is_blank(sheet, header, slot) || is_written(sheet, header, slot)
}

/// A blank slot has all 208 bytes zero.
fn is_blank(sheet: &[u8], header: &Header, slot: usize) -> bool {
    all_zero(&sheet[header.mark_place(slot)]) && all_zero(&sheet[header.field_place(slot)])
}

/// A written slot has a write number from 1 to w, a length from 0 to 192 and
/// two zero bytes.
fn is_written(sheet: &[u8], header: &Header, slot: usize) -> bool {
    let mark = Mark::of_bytes(&sheet[header.mark_place(slot)]);
    1 <= mark.write_number
        && mark.write_number <= header.w
        && usize::from(mark.length) <= FIELD
        && all_zero(&mark.zeros)
}

/// The mark of a slot below n of a sheet that fits; none if it is blank.
pub(crate) fn mark_of(sheet: &[u8], header: &Header, slot: usize) -> Option<Mark> {
    if is_blank(sheet, header, slot) {
        None
    } else {
        Some(Mark::of_bytes(&sheet[header.mark_place(slot)]))
    }
}

// ---- What is sealed and checked ----

/// The start block: the sealing key's sealed form of write number, slot and
/// serial (edition 1: two zero bytes).
fn start_block(sealing: &SheetCipher, header: &Header, write_number: u32, slot: usize) -> Block {
    let [a, b, c, d] = write_number.to_be_bytes();
    let [e, f] = (slot as u16).to_be_bytes();
    let [g, h] = header.serial;
    sealing.encrypt([a, b, c, d, e, f, g, h])
}

/// The caption, of at most 192 bytes, followed by zero bytes up to 192.
fn plain_field(caption: &[u8]) -> [u8; FIELD] {
    from_fn(|i| caption.get(i).copied().unwrap_or(0))
}

/// A plain field sealed by CBC.
fn sealed_field(sealing: &SheetCipher, start: Block, plain: &[u8; FIELD]) -> Vec<u8> {
    let blocks = plain.as_chunks::<8>().0;
    cbc_encrypt(&|block| sealing.encrypt(block), start, blocks).concat()
}

/// A sealed field opened by CBC.
fn opened_field(sealing: &SheetCipher, start: Block, field: &[u8]) -> Vec<u8> {
    let blocks = field.as_chunks::<8>().0;
    cbc_decrypt(&|block| sealing.decrypt(block), start, blocks).concat()
}

/// The check: CMAC of write number, slot, length and sealed field, 200 bytes.
fn check(
    checking: &SheetCipher,
    write_number: u32,
    slot: usize,
    length: u16,
    field: &[u8],
) -> Block {
    let mut message = Vec::new();
    message.extend(write_number.to_be_bytes());
    message.extend((slot as u16).to_be_bytes());
    message.extend(length.to_be_bytes());
    message.extend(field);
    checking.cmac(&message)
}

// ---- A test that calls share ----

/// Test 4 of a read and a write, which points to the sheet's first fault.
pub(crate) fn tested_header(sheet: &[u8]) -> Result<Header, Refusal> {
    fit_header(sheet).ok_or_else(|| Refusal::unfit(first_fault(sheet)))
}

// ---- Blanking ----

/// Blanking: stores n, t, edition 3, w = 0, the serial, the pair's key mark and
/// zeros. Refusals 1, 2, 3 and 5, in that order.
pub fn blank(
    sheet: &mut [u8],
    n: usize,
    t: usize,
    serial: u16,
    sealing_key: &[u8],
    checking_key: &[u8],
) -> Answer {
    match tested_blanking(sheet, n, t, sealing_key, checking_key) {
        Ok(pair) => {
            let serial = serial.to_be_bytes();
            sheet.fill(0);
            sheet[0..2].copy_from_slice(&(n as u16).to_be_bytes());
            sheet[2] = t as u8;
            sheet[3] = Edition::BLANKED.number();
            sheet[8..10].copy_from_slice(&serial);
            sheet[10..16].copy_from_slice(&pair.mark(n, t, serial));
            Answer::accepted(0)
        }
        Err(number) => Answer::refused(number),
    }
}

fn tested_blanking(
    sheet: &[u8],
    n: usize,
    t: usize,
    sealing_key: &[u8],
    checking_key: &[u8],
) -> Result<Pair, u8> {
    refuse_if(!is_key_class(t), WRONG_KEY)?;
    let keys = Keys::tested(sealing_key, checking_key)?;
    refuse_if(!is_slot_count(n), WRONG_SPAN)?;
    refuse_if(sheet.len() != Edition::BLANKED.sheet_length(n), WRONG_SPAN)?;
    keys.tested_class(t)
}

// ---- Writing ----

/// What a write that meets no refusal stores.
struct Written {
    header: Header,
    mark: Mark,
    field: Vec<u8>,
}

/// Writing a caption into a slot. Refusals 1, 2, 4, 5, 14, 6, 7, 15, 8, in that
/// order; 4 points to the sheet's first fault.
pub fn write(
    sealing_key: &[u8],
    checking_key: &[u8],
    sheet: &mut [u8],
    slot: usize,
    caption: &[u8],
) -> Pointed {
    let tested = tested_write(sealing_key, checking_key, sheet, slot, caption);
    answer_write(tested, sheet, slot)
}

/// A tool for tests: a write whose 192 plain bytes are given whole and sealed as
/// they are, so that a slot with a true check may have set bytes at or past its
/// length. It also makes old sheets: with a caption of any bytes, zeros after it
/// and its length it stores what a write did before request 9, on any edition.
/// Refusals as for a write, 7 for a length above 192, but for 15, which it never
/// tests.
pub fn store_field(
    sealing_key: &[u8],
    checking_key: &[u8],
    sheet: &mut [u8],
    slot: usize,
    length: u16,
    field: &[u8; FIELD],
) -> Answer {
    let tested = tested_field(sealing_key, checking_key, sheet, slot, length, field);
    answer_write(tested, sheet, slot).answer()
}

/// Stores what is written, and answers the write.
fn answer_write(tested: Result<Written, Refusal>, sheet: &mut [u8], slot: usize) -> Pointed {
    match tested {
        Ok(written) => {
            sheet[4..8].copy_from_slice(&written.mark.write_number.to_be_bytes());
            sheet[written.header.mark_place(slot)].copy_from_slice(&written.mark.bytes());
            sheet[written.header.field_place(slot)].copy_from_slice(&written.field);
            Pointed::accepted(0)
        }
        Err(refusal) => Pointed::refused(refusal),
    }
}

fn tested_write(
    sealing_key: &[u8],
    checking_key: &[u8],
    sheet: &[u8],
    slot: usize,
    caption: &[u8],
) -> Result<Written, Refusal> {
    let (pair, header) = tested_place(sealing_key, checking_key, sheet, slot, caption.len())?;
    refuse_if(!well_formed(caption), BROKEN_TEXT)?;
    let plain = plain_field(caption);
    written(&pair, header, slot, caption.len() as u16, &plain)
}

fn tested_field(
    sealing_key: &[u8],
    checking_key: &[u8],
    sheet: &[u8],
    slot: usize,
    length: u16,
    plain: &[u8; FIELD],
) -> Result<Written, Refusal> {
    let bytes = usize::from(length);
    let (pair, header) = tested_place(sealing_key, checking_key, sheet, slot, bytes)?;
    written(&pair, header, slot, length, plain)
}

/// Tests 1, 2, 4, 5, 14, 6 and 7 of a write.
fn tested_place(
    sealing_key: &[u8],
    checking_key: &[u8],
    sheet: &[u8],
    slot: usize,
    length: usize,
) -> Result<(Pair, Header), Refusal> {
    let keys = Keys::tested(sealing_key, checking_key)?;
    let header = tested_header(sheet)?;
    let pair = keys.tested_class(header.t)?;
    pair.test_mark(&header)?;
    refuse_if(slot >= header.n, NO_SUCH_SLOT)?;
    refuse_if(length > FIELD, OVERLONG)?;
    Ok((pair, header))
}

/// Test 8, and what is stored under the next write number.
fn written(
    pair: &Pair,
    header: Header,
    slot: usize,
    length: u16,
    plain: &[u8; FIELD],
) -> Result<Written, Refusal> {
    let write_number = header.w.checked_add(1).ok_or(WORN)?;
    let start = start_block(&pair.sealing, &header, write_number, slot);
    let field = sealed_field(&pair.sealing, start, plain);
    let mark = Mark {
        write_number,
        length,
        zeros: [0; 2],
        check: check(&pair.checking, write_number, slot, length, &field),
    };
    Ok(Written {
        header,
        mark,
        field,
    })
}

// ---- Clearing ----

/// Clearing a slot: all its 208 bytes become zero, w stays. Refusals 4 and 6.
pub fn clear(sheet: &mut [u8], slot: usize) -> Answer {
    match tested_clear(sheet, slot) {
        Ok(header) => {
            sheet[header.mark_place(slot)].fill(0);
            sheet[header.field_place(slot)].fill(0);
            Answer::accepted(0)
        }
        Err(number) => Answer::refused(number),
    }
}

fn tested_clear(sheet: &[u8], slot: usize) -> Result<Header, u8> {
    let header = fit_header(sheet).ok_or(UNFIT_SHEET)?;
    refuse_if(slot >= header.n, NO_SUCH_SLOT)?;
    Ok(header)
}

// ---- Reading ----

/// What a read that meets no refusal shows.
pub(crate) struct Caption {
    length: u16,
    window: Vec<u8>,
}

/// Reading a slot into a window of 192 bytes. Refusals 1, 2, 3, 4, 5, 14, 6, 9,
/// 10, in that order; 4 points to the sheet's first fault, 10 to the check or an
/// opened byte. A refused read makes every byte of its window zero.
pub fn read(
    sealing_key: &[u8],
    checking_key: &[u8],
    sheet: &[u8],
    slot: usize,
    window: &mut [u8],
) -> Pointed {
    let tested = tested_read(sealing_key, checking_key, sheet, slot, window);
    answer_read(tested, window)
}

/// Fills the window of a read, and answers it.
pub(crate) fn answer_read(tested: Result<Caption, Refusal>, window: &mut [u8]) -> Pointed {
    match tested {
        Ok(caption) => {
            window.copy_from_slice(&caption.window);
            Pointed::accepted(caption.length)
        }
        Err(refusal) => {
            window.fill(0);
            Pointed::refused(refusal)
        }
    }
}

fn tested_read(
    sealing_key: &[u8],
    checking_key: &[u8],
    sheet: &[u8],
    slot: usize,
    window: &[u8],
) -> Result<Caption, Refusal> {
    let keys = Keys::tested(sealing_key, checking_key)?;
    refuse_if(window.len() != FIELD, WRONG_SPAN)?;
    let header = tested_header(sheet)?;
    let pair = keys.tested_class(header.t)?;
    pair.test_mark(&header)?;
    refuse_if(slot >= header.n, NO_SUCH_SLOT)?;
    let mark = mark_of(sheet, &header, slot).ok_or(BLANK)?;
    tested_caption(&pair, sheet, &header, slot, &mark)
}

/// Test 10: the check, or else the first opened byte at or past the length that
/// isn't zero.
pub(crate) fn tested_caption(
    pair: &Pair,
    sheet: &[u8],
    header: &Header,
    slot: usize,
    mark: &Mark,
) -> Result<Caption, Refusal> {
    let field = &sheet[header.field_place(slot)];
    let true_check = check(&pair.checking, mark.write_number, slot, mark.length, field);
    let differs = mark.check != true_check;
    refuse_if(differs, Refusal::altered(Fault::Check { slot }))?;
    let start = start_block(&pair.sealing, header, mark.write_number, slot);
    let opened = opened_field(&pair.sealing, start, field);
    match (usize::from(mark.length)..FIELD).find(|place| opened[*place] != 0) {
        Some(place) => Err(Refusal::altered(Fault::OpenedByte { slot, place })),
        None => Ok(Caption {
            length: mark.length,
            window: opened,
        }),
    }
}
