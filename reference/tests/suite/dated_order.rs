//! The order of a dated read's tests, and what an undated read of the same call
//! settles of it (document 02, requests 1, 5, 7 and 10).

use crate::edition::Edition;
use crate::letters::good_text;
use crate::random::Random;
use crate::refusals::{call_for, Call, WAYS};
use crate::support::*;
use crate::term_sheet::*;
use reference::Pointed;

/// The numbers in the order of the tests; the first 4 is the caption sheet's,
/// the second the term sheet's.
const ORDER: [u8; 12] = [1, 2, 3, 4, 4, 5, 11, 14, 6, 9, 12, 10];
const UNFIT_TERMS: usize = 4;

/// A set of tests that shall apply, a bit for each place in the order.
#[derive(Clone, Copy, Debug)]
struct Set(u16);

impl Set {
    /// All sets but those with 9 and 10: a blank slot has no check.
    fn all() -> impl Iterator<Item = Set> {
        let sets = (0..1 << ORDER.len()).map(Set);
        sets.filter(|set| !(set.has(9) && set.has(10)))
    }

    fn has_place(self, place: usize) -> bool {
        self.0 >> place & 1 == 1
    }

    /// Whether the test of that number is in the set; for 4, the first.
    fn has(self, number: u8) -> bool {
        let place = ORDER.iter().position(|other| *other == number);
        self.has_place(place.unwrap())
    }

    /// The number of the first test, or 0.
    fn first(self) -> u8 {
        match self.0 {
            0 => 0,
            bits => ORDER[bits.trailing_zeros() as usize],
        }
    }

    /// The numbers that an undated read knows too.
    fn undated(self) -> Vec<u8> {
        let undated = [1, 2, 3, 4, 5, 14, 6, 9, 10].into_iter();
        undated.filter(|number| self.has(*number)).collect()
    }

    /// The editions of which a sheet can meet all of the set.
    fn editions(self) -> Vec<Edition> {
        let has_mark = |edition: &Edition| edition.number() == 3;
        let mut editions = Edition::ALL.to_vec();
        editions.retain(|edition| has_mark(edition) || !self.has(14));
        editions
    }

    /// A term sheet for the 3 slots of a call, and a day.
    fn terms_and_day(self, way: usize, random: &mut Random) -> (Vec<u8>, usize) {
        // A day above the last is off show by every term that fits.
        let term = match (self.has(12), way % 3) {
            (false, _) => (100, 200),
            (true, 0) => (100, 149),
            (true, 1) => (151, 200),
            (true, _) => (200, 100),
        };
        let mut terms = term_sheet(&[ALWAYS, term, NEVER]);
        if self.has_place(UNFIT_TERMS) {
            match way % 6 {
                0 => put_number(&mut terms, 0, random.pick(&[0, 1, 2, 4, 256, 65535])),
                1 => terms.truncate(random.below(14)),
                2 => terms.push(0),
                3 => put_number(&mut terms, opening_place(1), 36525),
                4 => put_number(&mut terms, closing_place(3, 2), 65535),
                _ => terms.clear(),
            }
        }
        let day = if self.has(11) {
            [36525, 65536 + 150, (1 << 32) + 150, usize::MAX][way % 4]
        } else {
            150
        };
        (terms, day)
    }
}

/// A dated read into the call's window.
fn dated(call: &Call, terms: &[u8], day: usize) -> (Pointed, Vec<u8>) {
    let mut window = call.window.clone();
    let answer = reference::dated_read(
        &call.sealing,
        &call.checking,
        &call.sheet,
        terms,
        call.slot,
        day,
        &mut window,
    );
    (answer, window)
}

/// The undated read of the same call.
fn undated(call: &Call) -> (Pointed, Vec<u8>) {
    let mut window = call.window.clone();
    let answer = reference::read(
        &call.sealing,
        &call.checking,
        &call.sheet,
        call.slot,
        &mut window,
    );
    (answer, window)
}

/// What a dated read shall answer: one of the three numbers that a term sheet
/// and a day bring with them, or what the undated read of the call answers.
fn by_the_law(call: &Call, terms: &[u8], day: usize) -> (Pointed, Vec<u8>) {
    let undated = undated(call);
    let u = undated.0.number;
    // Only past 4 there is an n, and only past 6 a slot.
    let n = || usize::from(call.sheet[0]) * 256 + usize::from(call.sheet[1]);
    let number = if (1..=4).contains(&u) {
        return undated;
    } else if !belongs(terms, n()) {
        4
    } else if day > LAST_DAY && u != 5 {
        11
    } else if day <= LAST_DAY && (u == 0 || u == 10) && !on_show(terms, n(), call.slot, day) {
        12
    } else {
        return undated;
    };
    let rule = if number == 4 { 12 } else { 0 };
    let answer = pointed(refused(number), (rule, 0, 0));
    (answer, vec![0; call.window.len()])
}

#[test]
fn a_dated_read_gives_the_first_refusal_of_every_set_and_zeroes_its_window() {
    let mut random = Random::new(110);
    let mut met = [0; 15];
    let with_edition = |set: Set| {
        set.editions()
            .into_iter()
            .map(move |edition| (set, edition))
    };
    for (set, edition) in Set::all().flat_map(with_edition) {
        for way in 0..WAYS {
            let classes = classes_of(edition);
            let kind = (edition, classes[(way + usize::from(set.0)) % classes.len()]);
            let call = call_for(&set.undated(), kind, way, &mut random);
            let (terms, day) = set.terms_and_day(way, &mut random);
            let (answer, window) = dated(&call, &terms, day);
            if set.first() == 0 {
                assert_eq!(unpointed(answer), accepted(40));
                assert_eq!(window, shown(&call.caption));
            } else {
                assert_eq!(unpointed(answer), refused(set.first()), "{set:?} {way}");
                assert!(window.iter().all(|byte| *byte == 0), "{set:?} {way}");
            }
            assert_eq!((answer, window), by_the_law(&call, &terms, day));
            met[usize::from(answer.number)] += 1;
        }
    }
    // A read never meets 7 and 8.
    let numbers: Vec<usize> = (0..15).filter(|number| met[*number] > 0).collect();
    assert_eq!(numbers, [0, 1, 2, 3, 4, 5, 6, 9, 10, 11, 12, 14]);
    // Sets without 14 on three editions, those with it on one.
    assert_eq!(met.iter().sum::<usize>(), WAYS * 1536 * 4);
}

/// A sheet of up to 4 slots, blank, written and altered ones in any mix.
fn some_sheet(random: &mut Random, edition: Edition, t: usize) -> (Vec<u8>, Call) {
    let keys = unlike(random, t);
    let n = 1 + random.below(4);
    let mut sheet = blank_for(edition, &keys, n, t);
    for slot in 0..n {
        let what = random.below(4);
        if what > 0 {
            let length = random.below(193);
            let caption = good_text(random, length);
            assert_eq!(write(&keys, &mut sheet, slot, &caption), accepted(0));
        }
        if what == 1 {
            sheet[edition.field_place(n, slot).start + random.below(192)] ^= 1;
        }
    }
    let terms: Vec<Term> = (0..n)
        .map(|_| (random.below(12) as u16, random.below(12) as u16))
        .collect();
    let call = Call {
        sealing: keys.0,
        checking: keys.1,
        sheet,
        slot: 0,
        caption: Vec::new(),
        window: vec![0xee; 192],
    };
    (term_sheet(&terms), call)
}

/// Things that go wrong, each one seldom, and any number of them at once.
fn spoil(random: &mut Random, call: &mut Call, terms: &mut Vec<u8>, day: &mut usize) {
    let mut seldom = |times| random.below(times) == 0;
    let spoilt: [bool; 9] = std::array::from_fn(|_| seldom(9));
    let [key, twins, span, unfit, unfit_terms, class, date, other_n, near] = spoilt;
    if key {
        call.checking.resize(random.below(20), 7);
    }
    if twins {
        call.checking = call.sealing.clone();
    }
    if span {
        call.window.resize(random.below(300), 1);
    }
    if class {
        let t = random.pick(&ALL_CLASSES);
        (call.sealing, call.checking) = unlike(random, t);
    }
    if near {
        let place = random.below(call.sealing.len());
        call.sealing[place] ^= 1;
    }
    if unfit {
        let place = random.below(call.sheet.len());
        call.sheet[place] = random.next() as u8;
    }
    if unfit_terms {
        let place = random.below(terms.len());
        terms[place] = random.next() as u8;
    }
    if other_n {
        let length = random.below(20);
        terms.resize(length, 0);
    }
    if date {
        *day = random.next() as usize >> random.below(64);
    }
}

#[test]
fn a_dated_read_keeps_to_the_undated_one() {
    let mut random = Random::new(111);
    let mut met = [0; 15];
    for (edition, t) in kinds() {
        for _ in 0..700 {
            let (terms, call) = some_sheet(&mut random, edition, t);
            for _ in 0..5 {
                let (mut call, mut terms) = (call.clone(), terms.clone());
                let mut day = random.below(12);
                call.slot = random.below(5);
                spoil(&mut random, &mut call, &mut terms, &mut day);
                let read = dated(&call, &terms, day);
                assert_eq!(read, by_the_law(&call, &terms, day));
                met[usize::from(read.0.number)] += 1;
            }
        }
    }
    let numbers: Vec<usize> = (0..15).filter(|number| met[*number] > 20).collect();
    assert_eq!(numbers, [0, 1, 2, 3, 4, 5, 6, 9, 10, 11, 12, 14], "{met:?}");
}

/// Bytes of every length in every place: a number is answered and no test
/// stumbles.
#[test]
fn any_bytes_and_any_numbers_are_answered() {
    let mut random = Random::new(112);
    for edition in Edition::ALL {
        let one_slot = edition.blank_sheet(1, 4);
        for length in 0..1500 {
            let lengths = [8, 10, 12, 16, random.below(20)];
            let key = random.pick(&lengths);
            let mut sheet = match random.below(3) {
                0 => random.bytes(length),
                1 => one_slot[..length.min(one_slot.len())].to_vec(),
                _ => {
                    let t = random.pick(&[4, 6, 8, 21, 24, key / 2]);
                    edition.blank_sheet(1 + length % 4, t)
                }
            };
            let keys = (random.bytes(key), random.bytes(key));
            if [8, 10, 12, 16].contains(&key) && sheet.len() >= 16 && random.below(2) == 0 {
                put_mark(&mut sheet, &keys);
            }
            let call = Call {
                sealing: keys.0,
                checking: keys.1,
                sheet,
                slot: random.next() as usize >> random.below(64),
                caption: Vec::new(),
                window: vec![0xee; random.pick(&[192, 192, length])],
            };
            let terms = match random.below(2) {
                0 => random.bytes(length % 20),
                _ => term_sheet(&vec![ALWAYS; 1 + length % 4]),
            };
            let day = random.next() as usize >> random.below(64);
            assert_eq!(dated(&call, &terms, day), by_the_law(&call, &terms, day));
        }
    }
}
