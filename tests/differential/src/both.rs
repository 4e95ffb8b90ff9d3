//! Every call made on both programs: the library, over lent memory, is held
//! to the second program's number, length, rule, slot, place and bytes.

mod dated;
mod order;

use crate::edition::Edition;
use crate::lent::{Lent, Place};
use crate::library;
use crate::sheets::Keys;
use reference::{Answer, Pointed, OTHER_KEYS};
use std::fmt::Debug;

/// The two block calls of a cipher.
#[derive(Clone, Copy, Debug)]
pub enum Direction {
    Encrypt,
    Decrypt,
}

/// A block call that takes no path number, or has been given one.
type BlockCall<'a> = &'a dyn Fn(&[u8], &[u8], &mut [u8]) -> Answer;

/// Both programs side by side, and counts of what was compared.
pub struct Both {
    place: Place,
    /// What a failure names: the test, its seed, the place in it.
    pub label: String,
    pub calls: u64,
    /// How often each number was answered.
    pub numbers: [u64; 16],
    /// How often each rule was pointed at.
    pub rules: [u64; 13],
    pub listings: u64,
}

impl Both {
    pub fn new(place: Place, label: &str) -> Both {
        Both {
            place,
            label: label.to_string(),
            calls: 0,
            numbers: [0; 16],
            rules: [0; 13],
            listings: 0,
        }
    }

    /// mCrypton's block call by a path number: its answer, and the output after it.
    pub fn block(
        &mut self,
        direction: Direction,
        key: &[u8],
        block: &[u8],
        path: u16,
        out: &[u8],
    ) -> (Answer, Vec<u8>) {
        let name = format!("{direction:?} by path {path:#06x}");
        let calls: [BlockCall; 2] = match direction {
            Direction::Encrypt => [
                &|k, b, o| library::encrypt_block(k, b, path, o),
                &reference::encrypt_block,
            ],
            Direction::Decrypt => [
                &|k, b, o| library::decrypt_block(k, b, path, o),
                &reference::decrypt_block,
            ],
        };
        self.block_by(&name, calls, key, block, out)
    }

    /// PRESENT's block call.
    pub fn present_block(
        &mut self,
        direction: Direction,
        key: &[u8],
        block: &[u8],
        out: &[u8],
    ) -> (Answer, Vec<u8>) {
        let calls: [BlockCall; 2] = match direction {
            Direction::Encrypt => [
                &library::present_encrypt_block,
                &reference::present_encrypt_block,
            ],
            Direction::Decrypt => [
                &library::present_decrypt_block,
                &reference::present_decrypt_block,
            ],
        };
        self.block_by(&format!("PRESENT {direction:?}"), calls, key, block, out)
    }

    /// A block call of the library and one of the second program.
    fn block_by(
        &mut self,
        name: &str,
        [ours, theirs]: [BlockCall; 2],
        key: &[u8],
        block: &[u8],
        out: &[u8],
    ) -> (Answer, Vec<u8>) {
        let call = || {
            let out = out.len();
            format!("{name} key {key:02x?} block {block:02x?} output of {out}")
        };
        let mut true_out = out.to_vec();
        let theirs = theirs(key, block, &mut true_out);
        let (lent_key, lent_block, mut lent_out) =
            (self.lend(key), self.lend(block), self.lend(out));
        let ours = ours(lent_key.bytes(), lent_block.bytes(), lent_out.bytes_mut());
        self.hold_answer(call, ours, theirs);
        self.hold_bytes(call, "key", &lent_key, key);
        self.hold_bytes(call, "block", &lent_block, block);
        self.hold_bytes(call, "output", &lent_out, &true_out);
        (ours, true_out)
    }

    /// The bench: its answer, and the output after it.
    pub fn bench(
        &mut self,
        key: &[u8],
        round: usize,
        wanted: &[u8],
        out: &[u8],
    ) -> (Answer, Vec<u8>) {
        let call = || {
            let out = out.len();
            format!("bench key {key:02x?} round {round} array {wanted:02x?} output of {out}")
        };
        let mut true_out = out.to_vec();
        let theirs = reference::bench_block(key, round, wanted, &mut true_out);
        let (lent_key, lent_wanted, mut lent_out) =
            (self.lend(key), self.lend(wanted), self.lend(out));
        let ours = library::bench_block(
            lent_key.bytes(),
            round,
            lent_wanted.bytes(),
            lent_out.bytes_mut(),
        );
        self.hold_answer(call, ours, theirs);
        self.hold_bytes(call, "key", &lent_key, key);
        self.hold_bytes(call, "array", &lent_wanted, wanted);
        self.hold_bytes(call, "output", &lent_out, &true_out);
        (ours, true_out)
    }

    /// CMAC: its answer, and the output after it.
    pub fn cmac(&mut self, key: &[u8], message: &[u8], out: &[u8]) -> (Answer, Vec<u8>) {
        let call = || {
            let (message, out) = (message.len(), out.len());
            format!("cmac key {key:02x?} message of {message} output of {out}")
        };
        let mut true_out = out.to_vec();
        let theirs = reference::cmac(key, message, &mut true_out);
        let (lent_key, lent_message, mut lent_out) =
            (self.lend(key), self.lend(message), self.lend(out));
        let ours = library::cmac(lent_key.bytes(), lent_message.bytes(), lent_out.bytes_mut());
        self.hold_answer(call, ours, theirs);
        self.hold_bytes(call, "key", &lent_key, key);
        self.hold_bytes(call, "message", &lent_message, message);
        self.hold_bytes(call, "output", &lent_out, &true_out);
        (ours, true_out)
    }

    pub fn panel(&mut self, key: &[u8], first: u64, panel: &[u8], out: &[u8]) -> (Answer, Vec<u8>) {
        let call = || {
            let (panel, out) = (panel.len(), out.len());
            format!("panel key {key:02x?} first {first:#x} panel of {panel} output of {out}")
        };
        let mut true_out = out.to_vec();
        let theirs = reference::panel::panel(key, first, panel, &mut true_out);
        let (lent_key, lent_panel, mut lent_out) =
            (self.lend(key), self.lend(panel), self.lend(out));
        let ours = library::panel(
            lent_key.bytes(),
            first,
            lent_panel.bytes(),
            lent_out.bytes_mut(),
        );
        self.hold_answer(call, ours, theirs);
        self.hold_bytes(call, "key", &lent_key, key);
        self.hold_bytes(call, "panel", &lent_panel, panel);
        self.hold_bytes(call, "output", &lent_out, &true_out);
        (ours, true_out)
    }

    /// Blanking; `sheet` becomes what both programs leave.
    pub fn blank(
        &mut self,
        keys: &Keys,
        sheet: &mut [u8],
        slots: usize,
        key_words: usize,
        serial: u16,
    ) -> Answer {
        let length = sheet.len();
        let call = || format!("blank {slots} {key_words} {serial}, {keys:02x?}, on {length} bytes");
        let mut lent_sheet = self.lend(sheet);
        let (sealing, checking) = (self.lend(&keys.sealing), self.lend(&keys.checking));
        let theirs = reference::blank(
            sheet,
            slots,
            key_words,
            serial,
            &keys.sealing,
            &keys.checking,
        );
        let ours = library::blank(
            lent_sheet.bytes_mut(),
            slots,
            key_words,
            serial,
            sealing.bytes(),
            checking.bytes(),
        );
        self.hold_answer(call, ours, theirs);
        self.hold_bytes(call, "sheet", &lent_sheet, sheet);
        self.hold_bytes(call, "sealing key", &sealing, &keys.sealing);
        self.hold_bytes(call, "checking key", &checking, &keys.checking);
        ours
    }

    /// A blank sheet of an edition that is the keys' own: blanked by both
    /// programs in place of what `sheet` holds if that is the edition they make,
    /// else laid out.
    pub fn begin(
        &mut self,
        edition: Edition,
        keys: &Keys,
        sheet: &mut [u8],
        slots: usize,
        key_words: usize,
    ) {
        let laid_out = keys.blank_sheet(edition, slots, key_words);
        match edition {
            Edition::One | Edition::Two(_) => sheet.copy_from_slice(&laid_out),
            Edition::Three(serial) => {
                self.blank(keys, sheet, slots, key_words, serial);
                assert!(*sheet == laid_out, "{}: not blank", self.label);
            }
        }
    }

    /// A write; `sheet` becomes what both programs leave.
    pub fn write(&mut self, keys: &Keys, sheet: &mut [u8], slot: usize, caption: &[u8]) -> Pointed {
        let length = sheet.len();
        let call = || {
            let caption = caption.len();
            format!("write {slot}, caption of {caption}, {keys:02x?}, on {length} bytes")
        };
        let mut lent_sheet = self.lend(sheet);
        let (sealing, checking) = (self.lend(&keys.sealing), self.lend(&keys.checking));
        let lent_caption = self.lend(caption);
        let theirs = reference::write(&keys.sealing, &keys.checking, sheet, slot, caption);
        let ours = library::write(
            sealing.bytes(),
            checking.bytes(),
            lent_sheet.bytes_mut(),
            slot,
            lent_caption.bytes(),
        );
        self.hold_pointed(call, ours, theirs, sheet);
        self.hold_bytes(call, "sheet", &lent_sheet, sheet);
        self.hold_bytes(call, "sealing key", &sealing, &keys.sealing);
        self.hold_bytes(call, "checking key", &checking, &keys.checking);
        self.hold_bytes(call, "caption", &lent_caption, caption);
        ours
    }

    /// Where a text breaks.
    pub fn broken_at(&mut self, text: &[u8]) -> usize {
        let call = || format!("broken at, text {text:02x?}");
        let lent_text = self.lend(text);
        let theirs = reference::breaks_at(text);
        let ours = library::broken_at(lent_text.bytes());
        if ours != theirs {
            let label = &self.label;
            panic!("{label}: {}: {ours}, second program {theirs}", call());
        }
        self.calls += 1;
        self.hold_bytes(call, "text", &lent_text, text);
        ours
    }

    /// A clear; `sheet` becomes what both programs leave.
    pub fn clear(&mut self, sheet: &mut [u8], slot: usize) -> Answer {
        let length = sheet.len();
        let call = || format!("clear {slot} on {length} bytes");
        let mut lent_sheet = self.lend(sheet);
        let theirs = reference::clear(sheet, slot);
        let ours = library::clear(lent_sheet.bytes_mut(), slot);
        self.hold_answer(call, ours, theirs);
        self.hold_bytes(call, "sheet", &lent_sheet, sheet);
        ours
    }

    /// A read into a window of a length: its answer, and the window after it.
    pub fn read(
        &mut self,
        keys: &Keys,
        sheet: &[u8],
        slot: usize,
        window: usize,
    ) -> (Pointed, Vec<u8>) {
        let call = || {
            let length = sheet.len();
            format!("read {slot}, window of {window}, {keys:02x?}, on {length} bytes")
        };
        // No zero byte, so that a byte left as it was shows.
        let mut true_window = vec![0x5a; window];
        let mut lent_window = self.lend(&true_window);
        let (sealing, checking) = (self.lend(&keys.sealing), self.lend(&keys.checking));
        let lent_sheet = self.lend(sheet);
        let theirs = reference::read(&keys.sealing, &keys.checking, sheet, slot, &mut true_window);
        let ours = library::read(
            sealing.bytes(),
            checking.bytes(),
            lent_sheet.bytes(),
            slot,
            lent_window.bytes_mut(),
        );
        self.hold_pointed(call, ours, theirs, sheet);
        self.hold_bytes(call, "window", &lent_window, &true_window);
        self.hold_bytes(call, "sealing key", &sealing, &keys.sealing);
        self.hold_bytes(call, "checking key", &checking, &keys.checking);
        self.hold_bytes(call, "sheet", &lent_sheet, sheet);
        (ours, true_window)
    }

    /// The listing into an output of a length: whole where there is room for
    /// it, with the bytes behind it as they were; else none of it, and 0.
    pub fn list_into(&mut self, sheet: &[u8], listing: &[u8], out: usize) {
        let call = || {
            let length = sheet.len();
            format!("list {length} bytes into {out}")
        };
        let mut true_out = vec![0x5a; out];
        let lent_sheet = self.lend(sheet);
        let mut lent_out = self.lend(&true_out);
        let written = library::list(lent_sheet.bytes(), lent_out.bytes_mut());
        let room = listing.len() <= out;
        if room {
            true_out[..listing.len()].copy_from_slice(listing);
        }
        let true_written = if room { listing.len() } else { 0 };
        self.calls += 1;
        self.listings += 1;
        if written != true_written {
            let label = &self.label;
            panic!(
                "{label}: {}: {written} bytes written, not {true_written}",
                call()
            );
        }
        self.hold_bytes(call, "output", &lent_out, &true_out);
        self.hold_bytes(call, "sheet", &lent_sheet, sheet);
    }

    /// The listing into outputs exactly large enough, one byte short, larger
    /// and of length 0.
    pub fn list(&mut self, sheet: &[u8]) {
        let listing = reference::listing(sheet);
        let exact = listing.len();
        for out in [exact, exact - 1, exact + 1, exact + 300, 0] {
            self.list_into(sheet, &listing, out);
        }
    }

    fn lend(&self, bytes: &[u8]) -> Lent {
        Lent::new(self.place, bytes)
    }

    fn hold_answer(&mut self, call: impl Fn() -> String, ours: Answer, theirs: Answer) {
        self.hold(call, ours, theirs, theirs.number);
    }

    /// The same of an answer that points; 14 comes from edition 3 alone.
    fn hold_pointed(
        &mut self,
        call: impl Fn() -> String,
        ours: Pointed,
        theirs: Pointed,
        sheet: &[u8],
    ) {
        if ours.number == OTHER_KEYS && sheet.get(3) != Some(&3) {
            panic!("{}: {}: {ours:?}", self.label, call());
        }
        self.hold(call, ours, theirs, theirs.number);
        self.rules[usize::from(theirs.rule)] += 1;
    }

    /// Answers of any kind, and the number that they have.
    fn hold<A: Debug + PartialEq>(
        &mut self,
        call: impl Fn() -> String,
        ours: A,
        theirs: A,
        number: u8,
    ) {
        if ours != theirs {
            let label = &self.label;
            panic!("{label}: {}: {ours:?}, second program {theirs:?}", call());
        }
        self.calls += 1;
        self.numbers[usize::from(number)] += 1;
    }

    fn hold_bytes(&self, call: impl Fn() -> String, what: &str, lent: &Lent, expected: &[u8]) {
        let (label, bytes) = (&self.label, lent.bytes());
        // All at once first, which is quicker than byte by byte.
        if bytes != expected {
            let differs = (0..expected.len()).find(|i| bytes[*i] != expected[*i]);
            let i = differs.expect("lent and expected bytes are as many");
            let (ours, theirs) = (bytes[i], expected[i]);
            panic!(
                "{label}: {}: {what} byte {i} is {ours:#04x}, should be {theirs:#04x}",
                call()
            );
        }
        if !lent.guards_stand() {
            panic!("{label}: {}: a byte outside the {what} was changed", call());
        }
    }

    /// Holds that exactly these numbers were answered.
    pub fn hold_met(&self, numbers: impl IntoIterator<Item = usize>) {
        let met = (0..self.numbers.len()).filter(|number| self.numbers[*number] > 0);
        let (met, expected): (Vec<_>, Vec<_>) = (met.collect(), numbers.into_iter().collect());
        assert_eq!(met, expected, "{}: numbers met", self.label);
    }

    /// Holds that exactly these rules were pointed at.
    pub fn hold_pointed_at(&self, rules: impl IntoIterator<Item = usize>) {
        let met = (0..self.rules.len()).filter(|rule| self.rules[*rule] > 0);
        let (met, expected): (Vec<_>, Vec<_>) = (met.collect(), rules.into_iter().collect());
        assert_eq!(met, expected, "{}: rules pointed at", self.label);
    }

    /// "12 of 0, 3 of 1": how often each number was answered.
    pub fn numbers_met(&self) -> String {
        times_met(&self.numbers)
    }

    /// The same of the rules.
    pub fn rules_met(&self) -> String {
        times_met(&self.rules)
    }
}

fn times_met(counts: &[u64]) -> String {
    let met = counts.iter().enumerate().filter(|(_, times)| **times > 0);
    let parts: Vec<String> = met
        .map(|(number, times)| format!("{times} of {number}"))
        .collect();
    parts.join(", ")
}
