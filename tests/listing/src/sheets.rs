//! The sheets: fit ones of every shape, unfit ones by every rule, and files that
//! are no sheets.

use crate::edition::Edition;
use crate::random::Random;
use std::collections::BTreeMap;

const MARK: usize = 16;
const FIELD: usize = 192;
const CLASSES: [usize; 5] = [4, 6, 8, 21, 24];

/// A sheet, the group it is counted in, and what it is.
pub struct Sheet {
    pub group: String,
    pub what: String,
    pub bytes: Vec<u8>,
}

/// How many things each group has.
pub fn counts<'a>(groups: impl Iterator<Item = &'a str>) -> BTreeMap<&'a str, usize> {
    let mut counts = BTreeMap::new();
    for group in groups {
        *counts.entry(group).or_default() += 1;
    }
    counts
}

/// All sheets. Each group's are fit or unfit as its name says.
pub fn all() -> Vec<Sheet> {
    let mut sheets = Sheets {
        all: Vec::new(),
        random: Random::new(424),
        edition: Edition::BLANKED,
    };
    for edition in Edition::ALL {
        sheets.edition = edition;
        sheets.blank();
        sheets.written();
        sheets.digits();
        sheets.header_faults();
        if edition != Edition::One {
            sheets.serials();
            sheets.last_six_bytes();
        }
        sheets.relabelled();
        sheets.length_faults();
        sheets.mark_faults();
        sheets.changed_bytes();
        sheets.no_sheets();
    }
    for sheet in &sheets.all {
        let fit = reference::fit(&sheet.bytes);
        assert!(!sheet.group.starts_with("fit") || fit, "{}", sheet.what);
        assert!(!sheet.group.starts_with("unfit") || !fit, "{}", sheet.what);
    }
    sheets.all
}

struct Sheets {
    all: Vec<Sheet>,
    random: Random,
    /// The edition that is being gone through.
    edition: Edition,
}

impl Sheets {
    fn add(&mut self, group: &str, what: String, bytes: Vec<u8>) {
        self.all.push(Sheet {
            group: group.to_string(),
            what: format!("edition {:?}, {what}", self.edition),
            bytes,
        });
    }

    /// The values of byte 2 that the edition has; those of PRESENT are edition 3's.
    fn classes(&self) -> &'static [usize] {
        match self.edition {
            Edition::Three(_) => &CLASSES,
            _ => &CLASSES[..3],
        }
    }

    fn class(&mut self) -> usize {
        let classes = self.classes();
        classes[self.random.below(classes.len())]
    }

    // ---- Fit ----

    fn blank(&mut self) {
        for slots in [1, 2, 3, 9, 10, 11, 99, 100, 101, 255, 256] {
            for &t in self.classes() {
                let what = format!("blank, {slots} slots, t = {t}");
                let sheet = self.edition.blank_sheet(slots, t);
                self.add("fit: blank", what, sheet);
            }
        }
    }

    /// Sheets as writes and clears leave them.
    fn written(&mut self) {
        for round in 0..60 {
            let t = self.classes()[round % self.classes().len()];
            let slots = 1 + self.random.below(20);
            let bytes = reference::key_bytes(t).expect("a class");
            let keys = [self.random.bytes(bytes), self.random.bytes(bytes)];
            let mut sheet = self.blank_for(&keys, slots, t);
            for _ in 0..self.random.below(30) {
                let slot = self.random.below(slots);
                if self.random.below(5) == 0 {
                    reference::clear(&mut sheet, slot);
                } else {
                    let length = self.random.below(FIELD + 1);
                    let mut caption = self.random.bytes(length);
                    // ASCII, which a write takes.
                    caption.iter_mut().for_each(|byte| *byte %= 128);
                    let answer = reference::write(&keys[0], &keys[1], &mut sheet, slot, &caption);
                    assert_eq!(answer.number, 0);
                }
            }
            let what = format!("written and cleared, round {round}, {slots} slots, t = {t}");
            self.add("fit: written and cleared", what, sheet);
        }
    }

    /// A blank sheet that a pair of keys serves, in edition 3 with its key mark.
    fn blank_for(&self, keys: &[Vec<u8>; 2], slots: usize, t: usize) -> Vec<u8> {
        let mut sheet = self.edition.blank_sheet(slots, t);
        if let Edition::Three(serial) = self.edition {
            let mark = reference::key_mark(slots, t, serial, &keys[0], &keys[1]);
            sheet[10..16].copy_from_slice(&mark.expect("the pair has a mark"));
        }
        sheet
    }

    /// Numbers of every count of digits. A listing doesn't test the check.
    fn digits(&mut self) {
        let mut numbers = vec![1, u32::MAX];
        for power in 1..=9 {
            let ten = 10_u32.pow(power);
            numbers.extend([ten - 1, ten, ten + 1]);
        }
        numbers.extend([255, 256, 65535, 65536, 16777215, 16777216, 1 << 31]);
        for number in numbers {
            let mut sheet = self.marked(3, number);
            set_mark(self.edition, &mut sheet, 1, number, 192);
            let what = format!("write number {number}");
            self.add("fit: numbers of every size", what, sheet);
        }
        for length in 0..=192 {
            let mut sheet = self.marked(2, 7);
            set_mark(self.edition, &mut sheet, 1, 7, length);
            let what = format!("caption length {length}");
            self.add("fit: every caption length", what, sheet);
        }
        for slots in [255, 256] {
            let sheet = self.marked(slots, u32::MAX);
            let what = format!("{slots} slots, every one marked");
            self.add("fit: every slot marked", what, sheet);
        }
    }

    /// A sheet whose every slot is marked, by numbers up to w, over any field.
    fn marked(&mut self, slots: usize, w: u32) -> Vec<u8> {
        let t = self.class();
        let mut sheet = self.edition.blank_sheet(slots, t);
        sheet[4..8].copy_from_slice(&w.to_be_bytes());
        for slot in 0..slots {
            let number = 1 + self.random.next() as u32 % w;
            let length = self.random.below(FIELD + 1) as u16;
            set_mark(self.edition, &mut sheet, slot, number, length);
            for place in self.edition.field_place(slots, slot) {
                sheet[place] = self.random.next() as u8;
            }
        }
        sheet
    }

    // ---- Unfit, by each rule ----

    fn header_faults(&mut self) {
        for n in [0, 1, 3, 4, 257, 258, 512, 514, 65535] {
            let mut sheet = self.marked(2, 9);
            sheet[0..2].copy_from_slice(&(n as u16).to_be_bytes());
            self.add("unfit: slot count", format!("2 slots that say {n}"), sheet);
        }
        // The length that such a count would ask for, where it isn't 1 to 256.
        for n in [0, 257, 300] {
            let sheet = self.edition.blank_sheet(n, 4);
            self.add("unfit: slot count", format!("{n} slots"), sheet);
        }
        let classes = self.classes();
        for t in (0..=255).filter(|t| !classes.contains(&usize::from(*t))) {
            let mut sheet = self.marked(1, 9);
            sheet[2] = t;
            self.add("unfit: key class", format!("t = {t}"), sheet);
        }
        let own = self.edition.number();
        for edition in (0..=255).filter(|edition| *edition != own) {
            let mut sheet = self.marked(1, 9);
            sheet[3] = edition;
            // Edition 2's zero bytes are fit for a key mark.
            let group = match (own, edition) {
                (2, 3) => "fit: relabelled",
                _ => "unfit: edition",
            };
            self.add(group, format!("edition {edition}"), sheet);
        }
    }

    /// Any serial is fit.
    fn serials(&mut self) {
        for serial in Edition::SERIALS {
            let mut sheet = self.marked(2, 9);
            sheet[8..10].copy_from_slice(&serial.to_be_bytes());
            self.add("fit: serials", format!("serial {serial}"), sheet);
        }
    }

    /// The bytes after the serial are zero in edition 2, and any in edition 3.
    fn last_six_bytes(&mut self) {
        let group = match self.edition {
            Edition::Three(_) => "fit: key marks",
            _ => "unfit: zero bytes",
        };
        for place in 10..16 {
            for value in [1, 128, 255] {
                let mut sheet = self.marked(2, 9);
                sheet[place] = value;
                let what = format!("byte {place} is {value}");
                self.add(group, what, sheet);
            }
        }
    }

    /// Another edition's number and length: with bytes put on or taken off in
    /// the header, where the marks stay whole, or at the end.
    fn relabelled(&mut self) {
        let (own, header) = (self.edition.number(), self.edition.header());
        let others = Edition::ALL.into_iter();
        for other in others.filter(|other| other.number() != own) {
            for slots in [1, 3, 256] {
                let classes = [4, self.classes()[self.classes().len() - 1]];
                let [first, last] = classes.map(|t| self.edition.blank_sheet(slots, t));
                for mut sheet in [first, last, self.marked(slots, 9)] {
                    sheet[3] = other.number();
                    let group = match sheet[2] {
                        21 | 24 => "unfit: PRESENT in an older edition",
                        _ => "fit: relabelled",
                    };
                    let mut whole = sheet[..8].to_vec();
                    whole.resize(other.header(), 0);
                    whole.extend(&sheet[header..]);
                    let what = format!("{slots} slots, as {other:?}");
                    self.add(group, what.clone(), whole);
                    sheet.resize(other.sheet_length(slots), 0);
                    self.add("either: relabelled", what, sheet);
                }
            }
        }
    }

    fn length_faults(&mut self) {
        let header = self.edition.header();
        for length in 0..header {
            let sheet = self.edition.blank_sheet(1, 4)[..length].to_vec();
            self.add("unfit: a torn header", format!("{length} bytes"), sheet);
        }
        for slots in [1, 2, 3, 256] {
            let right = self.edition.sheet_length(slots);
            for length in [
                header,
                header + 1,
                right - 208,
                right - 8,
                right - 1,
                right + 1,
                right + 8,
                right + 16,
                right + 208,
            ] {
                let mut sheet = self.marked(slots, 9);
                sheet.resize(length, 0);
                let what = format!("{slots} slots in {length} bytes");
                self.add("unfit: length", what, sheet);
            }
        }
    }

    /// Each rule of a mark, in the first slot, one in the middle and the last.
    fn mark_faults(&mut self) {
        for slots in [1, 3, 256] {
            for slot in [0, slots / 2, slots - 1] {
                for (fault, break_it) in MARK_FAULTS {
                    let mut sheet = self.marked(slots, 300);
                    break_it(self.edition, &mut sheet, slots, slot);
                    let what = format!("{fault}, slot {slot} of {slots}");
                    self.add("unfit: a mark", what, sheet);
                }
            }
        }
    }

    // ---- Either ----

    fn changed_bytes(&mut self) {
        let header = self.edition.header();
        for round in 0..150 {
            let slots = 1 + self.random.below(3);
            let mut sheet = self.marked(slots, 40);
            let place = match round % 3 {
                0 => self.random.below(header),
                1 => header + self.random.below(MARK * slots),
                _ => self.random.below(sheet.len()),
            };
            sheet[place] ^= 1 << self.random.below(8);
            let what = format!("round {round}, a bit of byte {place} changed");
            self.add("either: one bit changed", what, sheet);
        }
        for round in 0..60 {
            let length = self.random.below(1000);
            let bytes = self.random.bytes(length);
            let what = format!("round {round}, {length} random bytes");
            self.add("unfit: random bytes", what, bytes);
        }
    }

    fn no_sheets(&mut self) {
        let largest = self.marked(256, u32::MAX);
        let most = largest.len();
        let fit = format!("fit: {}", bytes(most));
        self.add(&fit, bytes(most), largest.clone());
        for (length, group) in [
            (most + 1, &format!("unfit: {}", bytes(most + 1))[..]),
            (1 << 20, "unfit: a megabyte"),
        ] {
            let mut longer = largest.clone();
            longer.resize(length, 0);
            let what = format!("a largest sheet and zeros, {length} bytes");
            self.add(group, what, longer);
            self.add(group, format!("{length} zeros"), vec![0; length]);
            self.add(group, format!("{length} times 255"), vec![255; length]);
            let random = self.random.bytes(length);
            self.add(group, format!("{length} random bytes"), random);
        }
        // The listing would be that of two slots if the rest weren't there.
        let mut tail = self.edition.blank_sheet(2, 4);
        tail.resize(1 << 20, 0);
        self.add("unfit: a megabyte", "two slots and zeros".into(), tail);
    }
}

/// "53,256 bytes".
fn bytes(length: usize) -> String {
    format!("{},{:03} bytes", length / 1000, length % 1000)
}

type Break = fn(Edition, &mut [u8], usize, usize);

/// The ways to break a mark that was whole.
const MARK_FAULTS: [(&str, Break); 11] = [
    ("write number 0", |edition, sheet, _, slot| {
        set_mark(edition, sheet, slot, 0, 5)
    }),
    ("write number 0, length 0", |edition, sheet, _, slot| {
        set_mark(edition, sheet, slot, 0, 0)
    }),
    ("write number above w", |edition, sheet, _, slot| {
        set_mark(edition, sheet, slot, 301, 5)
    }),
    ("write number far above w", |edition, sheet, _, slot| {
        set_mark(edition, sheet, slot, u32::MAX, 5)
    }),
    ("length 193", |edition, sheet, _, slot| {
        set_mark(edition, sheet, slot, 1, 193)
    }),
    ("length 256", |edition, sheet, _, slot| {
        set_mark(edition, sheet, slot, 1, 256)
    }),
    ("length 65535", |edition, sheet, _, slot| {
        set_mark(edition, sheet, slot, 1, 65535)
    }),
    ("first zero byte", |edition, sheet, _, slot| {
        sheet[edition.mark_place(slot).start + 6] = 1
    }),
    ("second zero byte", |edition, sheet, _, slot| {
        sheet[edition.mark_place(slot).start + 7] = 128
    }),
    ("blank but for the check", |edition, sheet, slots, slot| {
        clear(edition, sheet, slots, slot);
        sheet[edition.mark_place(slot).start + 15] = 1;
    }),
    (
        "blank but for the field's last byte",
        |edition, sheet, slots, slot| {
            clear(edition, sheet, slots, slot);
            sheet[edition.field_place(slots, slot).end - 1] = 1;
        },
    ),
];

fn clear(edition: Edition, sheet: &mut [u8], slots: usize, slot: usize) {
    sheet[edition.mark_place(slot)].fill(0);
    sheet[edition.field_place(slots, slot)].fill(0);
}

/// Puts write number and length into a mark, with any check.
fn set_mark(edition: Edition, sheet: &mut [u8], slot: usize, number: u32, length: u16) {
    let mark = &mut sheet[edition.mark_place(slot)];
    mark[0..4].copy_from_slice(&number.to_be_bytes());
    mark[4..6].copy_from_slice(&length.to_be_bytes());
    mark[8..16].fill(0x5a);
}
