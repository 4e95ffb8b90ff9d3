//! Random lists of up to 40 calls on one sheet, with the model beside them:
//! strangers' writes among them (document 02, request 7), of which it isn't told.

use crate::{both, FAR_SLOTS};
use differential::both::Both;
use differential::edition::Edition;
use differential::random::{seed, Random};
use differential::report;
use differential::sheets::{
    caption_length, key_bytes, kinds, last_number, set_last_number, some_caption, some_serial,
    with_some_serial, Keys, CLASSES, FIELD, MCRYPTON,
};
use differential::term_sheet::{belongs, on_show, LAST_DAY};
use differential::terms::{day_near, some_terms};
use reference::{key_refusal, Answer, Book, NOT_ON_SHOW};

/// Lists for each edition and class of mCrypton; all nine make more than 20,000.
const LISTS: usize = 2_300;

/// The same of PRESENT, with which the second program takes long.
const PRESENT_LISTS: usize = 500;

/// A sheet, the keys that belong to it, and the model while it applies.
struct State {
    sheet: Vec<u8>,
    slots: usize,
    /// The pair of keys for each class, and which class the sheet has.
    pairs: [Keys; 5],
    class: usize,
    /// The sheet as it was blanked, and its model. None before the first blank
    /// sheet, and after a write by another pair of the right class on edition 1
    /// or 2, of which the model says nothing.
    begun: Option<(Vec<u8>, Book)>,
    /// One pair in so many is another's.
    others_once_in: usize,
    /// Whether other pairs of the right class may write on editions 1 and 2 too.
    over_old: bool,
}

/// What the model was asked, and the strangers of whom it wasn't told, by the
/// edition and the number that they met.
#[derive(Default)]
struct Asked {
    calls: u64,
    pages: u64,
    strangers: [[u64; 16]; 4],
}

fn list(both: &mut Both, random: &mut Random, (edition, t): (Edition, usize), asked: &mut Asked) {
    let slots = if random.once_in(250) {
        256
    } else {
        random.pick(&[1, 1, 2, 2, 3, 3, 4, 5, 9])
    };
    let mut state = State {
        sheet: random.bytes(edition.sheet_length(slots)),
        slots,
        pairs: CLASSES.map(|t| Keys::unlike(random, t)),
        class: place_of(t),
        begun: None,
        others_once_in: random.pick(&[3, 10]),
        over_old: random.once_in(4),
    };
    let calls = random.below(41);
    for call in 0..calls {
        if call == 0 && !random.once_in(20) {
            let keys = &state.pairs[state.class];
            both.begin(edition, keys, &mut state.sheet, slots, t);
            state.begin(slots, t);
        } else {
            state.call(both, random, asked);
        }
        if call == 0 && random.once_in(20) {
            wear(random, &mut state);
        }
    }
    state.read_all(both, asked);
}

/// Where a class stands among the pairs.
fn place_of(t: usize) -> usize {
    let place = CLASSES.iter().position(|class| *class == t);
    place.expect("a class")
}

/// A sheet that is nearly worn: as if that many writes and clears had been.
fn wear(random: &mut Random, state: &mut State) {
    if let Some((_, book)) = &mut state.begun {
        book.count = u32::MAX - random.below(6) as u32;
        set_last_number(&mut state.sheet, book.count);
    }
}

impl State {
    /// The sheet is a blank one: it has its class, and a new model.
    fn begin(&mut self, slots: usize, t: usize) {
        self.class = place_of(t);
        self.begun = Some((self.sheet.clone(), Book::new(slots)));
    }

    fn book(&self) -> Option<&Book> {
        self.begun.as_ref().map(|(_, book)| book)
    }

    fn call(&mut self, both: &mut Both, random: &mut Random, asked: &mut Asked) {
        match random.below(100) {
            0..45 => self.write(both, random, asked),
            45..60 => self.clear(both, random, asked),
            60..85 => self.read(both, random, asked),
            85..95 => self.dated_read(both, random, asked),
            _ => self.blank_somehow(both, random),
        }
    }

    fn some_slot(&self, random: &mut Random) -> usize {
        match random.below(12) {
            0 => self.slots + random.below(2),
            1 => random.pick(&FAR_SLOTS),
            _ => random.below(self.slots),
        }
    }

    /// The sheet's pair most often, else another: none at all for a sheet, twins,
    /// of another class, or of the right one. True for the sheet's pair.
    fn some_keys(&self, random: &mut Random) -> (Keys, bool) {
        let own = &self.pairs[self.class];
        if !random.once_in(self.others_once_in) {
            return (own.clone(), true);
        }
        let over = self.over_old || self.sheet[3] == 3;
        let other = match random.below(if over { 4 } else { 3 }) {
            0 => wrong_keys(random, own),
            1 => twins(random, own),
            2 => self.other_class(random, self.class, over),
            _ => another_pair(random, own),
        };
        (other, false)
    }

    /// The pair of another class. 16 bytes are two classes': such a pair is taken only
    /// where it may have the right length.
    fn other_class(&self, random: &mut Random, class: usize, right_length: bool) -> Keys {
        let bytes = |class: usize| self.pairs[class].sealing.len();
        let others: Vec<usize> = (0..CLASSES.len())
            .filter(|other| *other != class && (right_length || bytes(*other) != bytes(class)))
            .collect();
        self.pairs[random.pick(&others)].clone()
    }

    fn write(&mut self, both: &mut Both, random: &mut Random, asked: &mut Asked) {
        let slot = self.some_slot(random);
        let length = match random.below(20) {
            0 => random.pick(&[193, 194, 200, 448, 500]),
            _ => caption_length(random),
        };
        let caption = match random.below(6) {
            0 => vec![0; length],
            _ => some_caption(random, length),
        };
        let (keys, own) = self.some_keys(random);
        if !own {
            return self.write_as_other(both, &keys, slot, &caption, asked);
        }
        let answer = both.write(&keys, &mut self.sheet, slot, &caption);
        if let Some((_, book)) = &mut self.begun {
            let number = book.write(slot, &caption);
            asked.calls += 1;
            let given = (answer.number, answer.length);
            assert_eq!(given, (number, 0), "{}", both.label);
            assert_eq!(last_number(&self.sheet), book.count, "{}", both.label);
        }
    }

    /// A stranger's write answers what the stranger's keys meet with the sheet as
    /// it was blanked, changes no byte, and is left out of the model. The model
    /// ends where the keys meet nothing, on edition 1 or 2.
    fn write_as_other(
        &mut self,
        both: &mut Both,
        keys: &Keys,
        slot: usize,
        caption: &[u8],
        asked: &mut Asked,
    ) {
        let before = self.sheet.clone();
        let answer = both.write(keys, &mut self.sheet, slot, caption);
        let Some((blanked, _)) = &self.begun else {
            return;
        };
        let refusal = key_refusal(&keys.sealing, &keys.checking, blanked);
        if refusal == 0 {
            assert!(blanked[3] < 3, "{}: a mark by chance", both.label);
            self.begun = None;
            return;
        }
        assert_eq!(
            (answer.number, answer.length),
            (refusal, 0),
            "{}",
            both.label
        );
        assert!(self.sheet == before, "{}: changed", both.label);
        asked.strangers[usize::from(blanked[3])][usize::from(refusal)] += 1;
    }

    fn clear(&mut self, both: &mut Both, random: &mut Random, asked: &mut Asked) {
        let slot = self.some_slot(random);
        let answer = both.clear(&mut self.sheet, slot);
        if let Some((_, book)) = &mut self.begun {
            let number = book.clear(slot);
            asked.calls += 1;
            let given = (answer.number, answer.length);
            assert_eq!(given, (number, 0), "{}", both.label);
            assert_eq!(last_number(&self.sheet), book.count, "{}", both.label);
        }
    }

    fn read(&self, both: &mut Both, random: &mut Random, asked: &mut Asked) {
        let slot = self.some_slot(random);
        let (keys, own) = self.some_keys(random);
        if random.once_in(15) {
            let window = random.pick(&[0, 1, 191, 193, 256, 448]);
            both.read(&keys, &self.sheet, slot, window);
        } else if own {
            self.read_page(both, slot, asked);
        } else {
            both.read(&keys, &self.sheet, slot, FIELD);
        }
    }

    /// A read by the sheet's pair, which the model answers too for a slot
    /// below n.
    fn read_page(&self, both: &mut Both, slot: usize, asked: &mut Asked) {
        let keys = &self.pairs[self.class];
        let (answer, window) = both.read(keys, &self.sheet, slot, FIELD);
        let page = self.book().and_then(|book| book.reading(slot));
        if let Some((true_answer, true_window)) = page {
            asked.pages += 1;
            assert_eq!(answer.answer(), true_answer, "{}: read {slot}", both.label);
            assert_eq!(window, true_window, "{}: read {slot}", both.label);
        }
    }

    /// A read on a day. With the sheet's pair, a term sheet that belongs and a
    /// day of the calendar it shows the model's page, unless that is off show.
    fn dated_read(&self, both: &mut Both, random: &mut Random, asked: &mut Asked) {
        let slot = self.some_slot(random);
        let (keys, own) = self.some_keys(random);
        let terms = some_terms(random, self.slots);
        let day = day_near(random, &terms);
        let (answer, window) = both.dated_read(&keys, &self.sheet, &terms, slot, day, FIELD);
        let page = self.book().and_then(|book| book.reading(slot));
        if let Some((mut true_answer, mut true_window)) = page {
            if !own || !belongs(&terms, self.slots) || day > LAST_DAY {
                return;
            }
            if true_answer.number == 0 && !on_show(&terms, self.slots, slot, day) {
                (true_answer, true_window) = (Answer::refused(NOT_ON_SHOW), [0; FIELD]);
            }
            asked.pages += 1;
            assert_eq!(
                answer.answer(),
                true_answer,
                "{}: read {slot} on {day}",
                both.label
            );
            assert_eq!(window, true_window, "{}: read {slot} on {day}", both.label);
        }
    }

    /// The reads at the end; of the header only w has changed.
    fn read_all(&self, both: &mut Both, asked: &mut Asked) {
        if let Some((blanked, book)) = &self.begun {
            let header = if blanked[3] == 1 { 8 } else { 16 };
            let mut expected = blanked[..header].to_vec();
            set_last_number(&mut expected, book.count);
            assert_eq!(self.sheet[..header], expected, "{}", both.label);
        }
        for slot in 0..=self.slots {
            self.read_page(both, slot, asked);
        }
        both.list(&self.sheet);
    }

    /// A blanking, most often with something that doesn't fit, seldom the keys.
    fn blank_somehow(&mut self, both: &mut Both, random: &mut Random) {
        let slots = match random.below(3) {
            0 => random.pick(&[0, self.slots + 1, 257, 65_536 + self.slots]),
            _ => self.slots,
        };
        let t = match random.below(3) {
            0 => random.below(27),
            _ => random.pick(&CLASSES),
        };
        let class = CLASSES.iter().position(|class| *class == t);
        let class = class.unwrap_or(self.class);
        let own = &self.pairs[class];
        let keys = match random.below(8) {
            0 => wrong_keys(random, own),
            1 => twins(random, own),
            2 => self.other_class(random, class, false),
            _ => own.clone(),
        };
        let serial = some_serial(random);
        let answer = both.blank(&keys, &mut self.sheet, slots, t, serial);
        if answer.number == 0 {
            self.begin(slots, t);
        }
    }
}

/// A pair that meets 1.
fn wrong_keys(random: &mut Random, own: &Keys) -> Keys {
    let length = own.sealing.len();
    let mut wrong = own.clone();
    match random.below(5) {
        0 => wrong.sealing.truncate(random.below(8)),
        1 => wrong.checking.truncate(random.below(8)),
        2 => wrong.checking.extend([0; 4]),
        3 => wrong = Keys::of_lengths(random, length + 1, length + 1),
        _ => {
            let lengths = [random.below(21), random.below(21) | 1];
            wrong = Keys::of_lengths(random, lengths[0], lengths[1]);
        }
    }
    wrong
}

/// A pair that meets 2: one of the sheet's own keys twice, or another twice.
fn twins(random: &mut Random, own: &Keys) -> Keys {
    let length = key_bytes(random.pick(&CLASSES));
    let key = match random.below(3) {
        0 => own.sealing.clone(),
        1 => own.checking.clone(),
        _ => random.bytes(length),
    };
    Keys {
        sealing: key.clone(),
        checking: key,
    }
}

/// Another pair of the same class: exchanged, one bit off, or unlike altogether.
fn another_pair(random: &mut Random, own: &Keys) -> Keys {
    match random.below(3) {
        0 => own.swapped(),
        1 => own.flipped(random.below(own.bits())),
        _ => Keys::of_lengths(random, own.sealing.len(), own.checking.len()),
    }
}

fn lists(t: usize, lists: usize) {
    let mut random = Random::of_part(560 + t as u64);
    let mut both = both("lists");
    let mut asked = Asked::default();
    for (edition, _) in kinds().filter(|kind| kind.1 == t) {
        for number in 0..lists {
            let edition = with_some_serial(&mut random, edition);
            both.label = format!(
                "list {number} of edition {edition:?} and class {t}, seed {:#x}",
                seed()
            );
            list(&mut both, &mut random, (edition, t), &mut asked);
        }
    }
    // What a stranger wrote, another pair finds altered: on editions 1 and 2.
    let old = MCRYPTON.contains(&t);
    both.hold_met((0..=15).filter(|number| *number != 13 && (old || *number != 10)));
    for (edition, _) in kinds().filter(|kind| kind.1 == t) {
        let met = asked.strangers[usize::from(edition.number())];
        let numbers: Vec<usize> = (0..16).filter(|number| met[*number] > 100).collect();
        let expected: &[usize] = match edition {
            Edition::Three(_) => &[1, 2, 5, 14],
            _ => &[1, 2, 5],
        };
        assert_eq!(numbers, expected, "strangers on {edition:?}: {met:?}");
    }
    let (calls, met) = (both.calls, both.numbers_met());
    let strangers: u64 = asked.strangers.iter().flatten().sum();
    let on_third = asked.strangers[3][14];
    let Asked {
        calls: answers,
        pages,
        ..
    } = asked;
    report(&format!(
        "sheet: {lists} lists of calls for each edition, t = {t}, seed {:#x}: {calls} calls: {met}; the model: {answers} calls, {pages} pages; {strangers} strangers' writes, {on_third} of them 14",
        seed()
    ));
}

#[test]
fn lists_on_sheets_of_class_4() {
    lists(4, LISTS);
}

#[test]
fn lists_on_sheets_of_class_6() {
    lists(6, LISTS);
}

#[test]
fn lists_on_sheets_of_class_8() {
    lists(8, LISTS);
}

#[test]
fn lists_on_sheets_of_class_21() {
    lists(21, PRESENT_LISTS);
}

#[test]
fn lists_on_sheets_of_class_24() {
    lists(24, PRESENT_LISTS);
}
