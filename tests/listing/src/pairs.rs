//! Caption sheets with their term sheets and a date: fit ones of every shape, unfit
//! ones of either kind, and dates that are none.

use crate::edition::Edition;
use crate::random::Random;
use crate::sheets;
use crate::term_sheet::{
    closing_place, opening_place, put_number, term_sheet, Term, ALWAYS, LAST_DAY, NEVER,
};
use reference::calendar::date_text;

/// Two files and a date, the group they are counted in, and what they are.
pub struct Pair {
    pub group: &'static str,
    pub what: String,
    pub sheet: Vec<u8>,
    pub terms: Vec<u8>,
    pub date: Vec<u8>,
}

/// The day on which most terms here are looked at, 2026-05-01.
const DAY: u16 = 9617;

/// All pairs. What a group's are stands in its name.
pub fn all() -> Vec<Pair> {
    let mut pairs = Pairs {
        all: Vec::new(),
        random: Random::new(1111),
        edition: Edition::BLANKED,
        t: 4,
    };
    pairs.sheets_of_the_listing();
    for (edition, t) in kinds() {
        (pairs.edition, pairs.t) = (edition, t);
        pairs.ends_of_terms();
        pairs.seeded();
        pairs.of_256_slots();
        pairs.altered();
        pairs.torn_headers();
        pairs.term_faults();
        pairs.exchanged();
    }
    pairs.dates();
    pairs.false_dates();
    pairs.all
}

/// Every edition with every class that it has.
fn kinds() -> impl Iterator<Item = (Edition, usize)> {
    Edition::ALL.into_iter().flat_map(|edition| {
        let classes: &[usize] = match edition {
            Edition::Three(_) => &[4, 6, 8, 21, 24],
            _ => &[4, 6, 8],
        };
        classes.iter().map(move |t| (edition, *t))
    })
}

/// The term of a slot.
type TermOf = fn(u16) -> Term;

struct Pairs {
    all: Vec<Pair>,
    random: Random,
    /// The edition and the class that are being gone through.
    edition: Edition,
    t: usize,
}

impl Pairs {
    fn add(&mut self, group: &'static str, what: String, pair: [&[u8]; 2], date: &[u8]) {
        let (edition, t) = (self.edition, self.t);
        let date_text = date.escape_ascii();
        let what = format!("{edition:?}, t = {t}, {group}, {what}, on {date_text}");
        self.push(group, what, pair, date);
    }

    fn push(&mut self, group: &'static str, what: String, pair: [&[u8]; 2], date: &[u8]) {
        self.all.push(Pair {
            group,
            what,
            sheet: pair[0].to_vec(),
            terms: pair[1].to_vec(),
            date: date.to_vec(),
        });
    }

    /// A slot with a length is written, over a field and a check that no key made;
    /// one without is blank.
    fn sheet_of(&self, lengths: &[Option<u16>]) -> Vec<u8> {
        let (edition, n) = (self.edition, lengths.len());
        let mut sheet = edition.blank_sheet(n, self.t);
        put_number(&mut sheet, 6, 300);
        for (slot, length) in lengths.iter().enumerate() {
            if let Some(length) = length {
                let mark = edition.mark_place(slot).start;
                put_number(&mut sheet, mark + 2, 300 - slot as u16);
                put_number(&mut sheet, mark + 4, *length);
                sheet[edition.field_place(n, slot)].fill(0x3c);
            }
        }
        sheet
    }

    fn three(&self) -> Vec<u8> {
        self.sheet_of(&[Some(5), Some(17), Some(192)])
    }

    /// Some slots blank, any lengths.
    fn some_sheet(&mut self, n: usize) -> Vec<u8> {
        let lengths: Vec<_> = (0..n)
            .map(|_| (self.random.below(4) > 0).then(|| self.random.below(193) as u16))
            .collect();
        self.sheet_of(&lengths)
    }

    /// Terms that end within a few days, either way round, and such a day.
    fn some_terms(&mut self, n: usize) -> (Vec<u8>, String) {
        let days = self.random.pick(&[1, 3, 20, 400]);
        let first = self.random.below(LAST_DAY + 2 - days);
        let mut day = || first + self.random.below(days);
        let terms: Vec<Term> = (0..n).map(|_| (day() as u16, day() as u16)).collect();
        (term_sheet(&terms), date_text(day()))
    }

    // ---- Fit ----

    /// Of the sheets that the listing program is run on, every fourth; those that are
    /// too short for an n have terms for one slot.
    fn sheets_of_the_listing(&mut self) {
        for sheet in sheets::all().iter().step_by(4) {
            let n = match sheet.bytes[..] {
                [high, low, ..] => usize::from(high) * 256 + usize::from(low),
                _ => 1,
            };
            let (terms, date) = self.some_terms(n.clamp(1, 256));
            let group = if reference::fit(&sheet.bytes) {
                "fit sheets of the listing's test"
            } else {
                "unfit sheets of the listing's test"
            };
            let what = format!("{}, on {date}", sheet.what);
            self.push(group, what, [&sheet.bytes, &terms], date.as_bytes());
        }
    }

    /// The day before a term, its first and its last day and the day after.
    fn ends_of_terms(&mut self) {
        let sheet = self.sheet_of(&[Some(100)]);
        for (opening, closing) in [(DAY, DAY), (DAY - 3, DAY), (0, 1), (36523, 36524), ALWAYS] {
            let terms = term_sheet(&[(opening, closing)]);
            for day in [opening.max(1) - 1, opening, closing, closing + 1] {
                let date = date_text(usize::from(day));
                let what = format!("term {opening} to {closing}");
                self.add("ends of terms", what, [&sheet, &terms], date.as_bytes());
            }
        }
    }

    fn seeded(&mut self) {
        for round in 0..20 {
            let n = [1, 2, 3, 11, 60, 256][round % 6];
            let sheet = self.some_sheet(n);
            let (terms, date) = self.some_terms(n);
            let what = format!("round {round}, {n} slots");
            self.add("seeded pairs", what, [&sheet, &terms], date.as_bytes());
        }
    }

    /// Openings that fall, are equal, and rise; the longest text; none on show.
    fn of_256_slots(&mut self) {
        let full = self.sheet_of(&[Some(192); 256]);
        let blank = self.edition.blank_sheet(256, self.t);
        let terms: [(&str, TermOf); 5] = [
            ("falling", |slot| (DAY - slot, DAY + slot)),
            ("equal", |_| ALWAYS),
            ("rising", |slot| (slot * 37, 36524)),
            ("never", |slot| (DAY + slot + 1, DAY + slot)),
            ("over", |slot| (slot, DAY - 1)),
        ];
        for (what, term) in terms {
            let terms = term_sheet(&(0..256).map(term).collect::<Vec<_>>());
            for sheet in [&full, &blank] {
                let what = what.to_string();
                self.add("256 slots", what, [sheet, &terms], b"2026-05-01");
            }
        }
    }

    /// Captions written with keys, and a byte of a check or a field changed.
    fn altered(&mut self) {
        let bytes = reference::key_bytes(self.t).expect("a class");
        let keys = [self.random.bytes(bytes), self.random.bytes(bytes)];
        let mut sheet = self.edition.blank_sheet(3, self.t);
        if let Edition::Three(serial) = self.edition {
            let mark = reference::key_mark(3, self.t, serial, &keys[0], &keys[1]);
            sheet[10..16].copy_from_slice(&mark.expect("the pair has a mark"));
        }
        for (slot, caption) in [(0, "urn"), (2, "a vase of the 5th century"), (0, "")] {
            let answer = reference::write(&keys[0], &keys[1], &mut sheet, slot, caption.as_bytes());
            assert_eq!(answer.number, 0);
        }
        let terms = term_sheet(&[ALWAYS; 3]);
        let mark = self.edition.mark_place(2);
        let field = self.edition.field_place(3, 2);
        let what = "written with keys".to_string();
        self.add("altered captions", what, [&sheet, &terms], b"2026-05-01");
        for place in [mark.start + 8, mark.end - 1, field.start, field.end - 1] {
            let mut altered = sheet.clone();
            altered[place] ^= 64;
            let what = format!("byte {place}");
            self.add("altered captions", what, [&altered, &terms], b"2026-05-01");
        }
    }

    // ---- Unfit ----

    /// Cut at each place of the header, each of its bytes changed, a byte too long.
    fn torn_headers(&mut self) {
        let (sheet, terms) = (self.three(), term_sheet(&[ALWAYS; 3]));
        for length in 0..=self.edition.header() {
            let what = format!("cut to {length}");
            self.add(
                "torn sheets",
                what,
                [&sheet[..length], &terms],
                b"2026-05-01",
            );
        }
        for place in 0..self.edition.header() {
            let mut changed = sheet.clone();
            changed[place] ^= 1 << self.random.below(8);
            let what = format!("byte {place} changed");
            self.add("headers changed", what, [&changed, &terms], b"2026-05-01");
        }
        let longer = [&sheet[..], &[0]].concat();
        let shorter = &sheet[..sheet.len() - 1];
        for sheet in [&longer[..], shorter] {
            for date in ["2026-05-01", "2026-02-30"] {
                let what = format!("{} bytes", sheet.len());
                self.add("torn sheets", what, [sheet, &terms], date.as_bytes());
            }
        }
    }

    fn term_faults(&mut self) {
        let (sheet, good) = (self.three(), term_sheet(&[ALWAYS; 3]));
        let mut faulty: Vec<Vec<u8>> = (0..14).map(|length| good[..length].to_vec()).collect();
        for more in [1, 2, 1013, 70000] {
            faulty.push([&good[..], &vec![0; more]].concat());
        }
        faulty.extend([1, 2, 4, 256].map(|n| term_sheet(&vec![ALWAYS; n])));
        for n in [0, 2, 4, 259, 768, 65535] {
            faulty.push(good.clone());
            put_number(faulty.last_mut().expect("pushed"), 0, n);
        }
        for place in [opening_place(0), closing_place(3, 2)] {
            for day in [36524, 36525, 65535] {
                faulty.push(good.clone());
                put_number(faulty.last_mut().expect("pushed"), place, day);
            }
        }
        for terms in &faulty {
            let what = format!("terms {:02x?}", &terms[..terms.len().min(14)]);
            self.add(
                "term sheets near to fit",
                what,
                [&sheet, terms],
                b"2026-05-01",
            );
        }
    }

    fn exchanged(&mut self) {
        let (sheet, terms) = (self.three(), term_sheet(&[ALWAYS; 3]));
        for pair in [
            [&terms[..], &sheet[..]],
            [&sheet, &sheet],
            [&terms, &terms],
            [&sheet, b""],
            [b"", &terms],
            [b"", b""],
        ] {
            for date in ["2026-05-01", "2026-02-30"] {
                let what = format!("{} and {} bytes", pair[0].len(), pair[1].len());
                self.add("exchanged and empty files", what, pair, date.as_bytes());
            }
        }
    }

    // ---- Dates ----

    /// The first and the last day of some months, and the day after by its text.
    fn dates(&mut self) {
        let sheet = self.three();
        let terms = term_sheet(&[(DAY, 36524), (0, DAY), NEVER]);
        for year in [2000, 2001, 2026, 2028, 2096, 2099] {
            for month in 1..=12 {
                for day in [1, 28, 29, 30, 31] {
                    let date = format!("{year}-{month:02}-{day:02}");
                    let what = String::new();
                    self.add("dates", what, [&sheet, &terms], date.as_bytes());
                }
            }
        }
    }

    fn false_dates(&mut self) {
        let (sheet, terms) = (self.three(), term_sheet(&[ALWAYS; 3]));
        let mut dates: Vec<Vec<u8>> = [
            "",
            "2026-2-03",
            "2026-02-30",
            "2100-01-01",
            "1999-12-31",
            " 2026-01-01",
            "2026-01-01 ",
            "2026-01-01\n",
            "\n2026-01-01",
            "2026/01/01",
            "rprv-pu-pq",
            "2026-01-0",
            "2026-01-011",
            "2026-04-2;",
            "1:26-05-01",
            "\u{ff12}6-05-01",
            "202\u{ff16}-05-01",
            "\u{ff12}\u{ff10}\u{ff12}\u{ff16}-\u{ff10}\u{ff15}-\u{ff10}\u{ff11}",
        ]
        .map(|date| date.as_bytes().to_vec())
        .to_vec();
        dates.extend([b"2026-05-0\xff".to_vec(), b"\xff".to_vec()]);
        dates.extend((0..=12).map(|length| b"2026-05-01-0"[..length].to_vec()));
        dates.extend([10, 2000].map(|length| vec![b'2'; length]));
        dates.push(b"2026-05-01".repeat(200));
        for place in 0..10 {
            for value in [b'0', b'9', b'-', b'/', b':', b' ', 0x10, 0xb0, 0xff] {
                dates.push(b"2026-05-01".to_vec());
                dates.last_mut().expect("pushed")[place] = value;
            }
        }
        for date in &dates {
            self.add("dates near to true", String::new(), [&sheet, &terms], date);
        }
    }
}
