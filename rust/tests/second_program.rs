//! Every function against the second program, on seeded calls about every edge.

/// The editions, from the second program's tests.
#[path = "../../reference/tests/suite/edition.rs"]
mod edition;
/// A seeded generator, from the second program's tests.
#[allow(dead_code)]
#[path = "../../reference/tests/suite/random.rs"]
mod random;

use captions::{sheet_len, sheet_len_1, Refusal, FIELD, HEADER, HEADER_1};
use edition::Edition;
use random::Random;
use reference::class::key_bytes;
use reference::{Answer, Pointed};

impl Random {
    /// A key, most often of a length that is taken.
    fn key(&mut self) -> Vec<u8> {
        let length = self.pick(&[8, 10, 12, 16, 8, 10, 12, 16, 8, 12, 16, 0, 7, 9, 13, 17]);
        self.bytes(length)
    }

    /// A pair of keys of a class; of what is no class, of eight bytes.
    fn keys(&mut self, class: usize) -> [Vec<u8>; 2] {
        let length = key_bytes(class).unwrap_or(8);
        [self.bytes(length), self.bytes(length)]
    }

    /// A class that an edition has.
    fn class(&mut self, edition: Edition) -> usize {
        match edition {
            Edition::Three(_) => self.pick(&[4, 6, 8, 21, 24]),
            _ => self.pick(&[4, 6, 8]),
        }
    }

    /// An edition of each kind.
    fn editions(&mut self) -> [Edition; 3] {
        let [two, three] = [self.serial(), self.serial()];
        [Edition::One, Edition::Two(two), Edition::Three(three)]
    }

    /// A serial: those about every edge, and any.
    fn serial(&mut self) -> u16 {
        match self.below(2) {
            0 => Edition::SERIALS[self.below(5)],
            _ => self.next() as u16,
        }
    }

    /// A caption of a length: most often well-formed text, else any bytes.
    fn caption(&mut self, length: usize) -> Vec<u8> {
        if self.below(4) == 0 {
            return self.bytes(length);
        }
        let mut caption = Vec::new();
        while caption.len() < length {
            let most = 0x11_0000 >> self.pick(&[0, 4, 9, 13]);
            let letter = char::from_u32(self.below(most) as u32).unwrap_or('~');
            match letter.len_utf8() <= length - caption.len() {
                true => caption.extend(letter.to_string().bytes()),
                false => caption.push(b'~'),
            }
        }
        caption
    }

    /// Bytes, most often 8 of them.
    fn some_block(&mut self) -> Vec<u8> {
        let length = self.pick(&[8, 8, 8, 8, 8, 0, 7, 9]);
        self.bytes(length)
    }
}

/// How often each answer was met, so that a test can see that it met them all.
#[derive(Default)]
struct Met([usize; 16]);

impl Met {
    /// Compares an answer with the second program's.
    fn compare(&mut self, answer: Result<usize, Refusal>, expected: Answer) {
        let (number, length) = match answer {
            Ok(length) => (0, length),
            Err(refusal) => (refusal.number(), 0),
        };
        let Answer {
            number: n,
            length: l,
        } = expected;
        assert_eq!((number, length), (n, usize::from(l)));
        self.0[usize::from(number)] += 1;
    }

    /// Compares an answer that points with the second program's.
    fn compare_pointed(&mut self, answer: Result<usize, Refusal>, expected: Pointed) {
        let numbers = match answer {
            Err(Refusal::UnfitSheet(fault)) => fault.numbers(),
            Err(Refusal::Altered(change)) => change.numbers(),
            _ => (0, 0, 0),
        };
        let Pointed {
            rule, slot, place, ..
        } = expected;
        assert_eq!(numbers, (rule, slot, place));
        self.compare(answer, expected.answer());
    }

    fn all_of(&self, numbers: &[usize]) {
        let met: Vec<usize> = (0..self.0.len())
            .filter(|number| self.0[*number] > 0)
            .collect();
        assert_eq!(met, numbers);
        println!("answers from 0 met so often: {:?}", self.0);
    }
}

#[test]
fn blocks() {
    let mut random = Random::new(1);
    let mut met = Met::default();
    for _ in 0..2000 {
        let (key, block, old) = (random.key(), random.some_block(), random.some_block());
        let path = random.next() as u16;
        let (mut out, mut expected) = (old.clone(), old.clone());
        let answer = captions::encrypt_block(&key, &block, path, &mut out).map(|()| 0);
        met.compare(
            answer,
            reference::encrypt_block(&key, &block, &mut expected),
        );
        assert_eq!(out, expected);
        let (mut out, mut expected) = (old.clone(), old);
        let answer = captions::decrypt_block(&key, &block, path, &mut out).map(|()| 0);
        met.compare(
            answer,
            reference::decrypt_block(&key, &block, &mut expected),
        );
        assert_eq!(out, expected);
    }
    met.all_of(&[0, 1, 3]);
}

/// The same of PRESENT, whose keys have other lengths.
#[test]
fn present_blocks() {
    let mut random = Random::new(7);
    let mut met = Met::default();
    for _ in 0..2000 {
        let (key, block, old) = (random.key(), random.some_block(), random.some_block());
        let (mut out, mut expected) = (old.clone(), old.clone());
        let answer = captions::present_encrypt_block(&key, &block, &mut out).map(|()| 0);
        let theirs = reference::present_encrypt_block(&key, &block, &mut expected);
        met.compare(answer, theirs);
        assert_eq!(out, expected);
        let (mut out, mut expected) = (old.clone(), old);
        let answer = captions::present_decrypt_block(&key, &block, &mut out).map(|()| 0);
        let theirs = reference::present_decrypt_block(&key, &block, &mut expected);
        met.compare(answer, theirs);
        assert_eq!(out, expected);
    }
    met.all_of(&[0, 1, 3]);
}

/// Every round, one above the last and the largest number.
#[test]
fn bench() {
    let mut random = Random::new(4);
    let mut met = Met::default();
    for round in (0..=captions::ROUNDS + 1)
        .chain([usize::MAX])
        .cycle()
        .take(3000)
    {
        let (key, wanted, old) = (random.key(), random.some_block(), random.some_block());
        let (mut out, mut expected) = (old.clone(), old);
        let answer = captions::bench_block(&key, round, &wanted, &mut out).map(|()| 0);
        met.compare(
            answer,
            reference::bench_block(&key, round, &wanted, &mut expected),
        );
        assert_eq!(out, expected);
    }
    met.all_of(&[0, 1, 3, 13]);
}

/// Lengths about every edge, from numbers at either end; an output of another length.
#[test]
fn panels() {
    let mut random = Random::new(5);
    let mut met = Met::default();
    for length in (0..=300).chain([65535, 65536, 65537]) {
        for first in [0, u64::from(u32::MAX), u64::MAX - 8191, u64::MAX] {
            let (key, panel) = (random.key(), random.bytes(length));
            let old = random.pick(&[length, length, length, length + 1, length.max(1) - 1]);
            let (mut out, mut expected) = (vec![5; old], vec![5; old]);
            let answer = captions::panel(&key, first, &panel, &mut out).map(|()| 0);
            let theirs = reference::panel::panel(&key, first, &panel, &mut expected);
            met.compare(answer, theirs);
            assert!(out == expected);
            assert_eq!(
                captions::panel_blocks(length),
                reference::panel::panel_blocks(length)
            );
        }
    }
    assert_eq!(captions::PANEL, reference::panel::MOST_PANEL_BYTES);
    assert_eq!(captions::panel_blocks(usize::MAX), 1 << 61);
    met.all_of(&[0, 1, 3, 7]);
}

#[test]
fn checks() {
    let mut random = Random::new(2);
    let mut met = Met::default();
    for length in (0..300).chain([4096, 65536]) {
        let (key, message, old) = (random.key(), random.bytes(length), random.some_block());
        let (mut out, mut expected) = (old.clone(), old);
        let answer = captions::cmac(&key, &message, &mut out).map(|()| 0);
        met.compare(answer, reference::cmac(&key, &message, &mut expected));
        assert_eq!(out, expected);
    }
    met.all_of(&[0, 1, 3]);
}

/// Every slot count, with keys that fit the class where there are such.
#[test]
fn blanking() {
    let edition = Edition::BLANKED;
    assert_eq!(HEADER, edition.header());
    assert_eq!(HEADER_1, Edition::One.header());
    let mut random = Random::new(3);
    let mut met = Met::default();
    for slots in (0..=257).chain([65536, usize::MAX / 208 + 1, usize::MAX]) {
        for class in [4, 6, 8, 21, 24, 0, 5, 7, 9, 22, 260, usize::MAX] {
            let near = slots.min(257);
            let [new, old] = [sheet_len(near), sheet_len_1(near)];
            assert_eq!(new, edition.sheet_length(near));
            assert_eq!(old, Edition::One.sheet_length(near));
            let length = random.pick(&[new, new, new, new + 1, old]);
            let keys = random.keys(class);
            let bytes = random.bytes(length);
            blank_both(&mut random, slots, class, &keys, bytes, &mut met);
        }
    }
    met.all_of(&[0, 1, 3]);
}

/// Every refusal of blanking beside every other, and beside none.
#[test]
fn blankings_refusals_in_every_combination() {
    let mut random = Random::new(6);
    let mut met = Met::default();
    for class in [4, 6, 8, 21, 24, 0, 3, 5, 7, 9, 20, 22, 260, usize::MAX] {
        for keys in blanking_keys(&mut random) {
            for slots in [0, 1, 2, 256, 257, usize::MAX] {
                let near = slots.min(257);
                let whole = sheet_len(near);
                for length in [whole, whole - 1, whole + 1, sheet_len_1(near), 0] {
                    let bytes = vec![0xa5; length];
                    blank_both(&mut random, slots, class, &keys, bytes, &mut met);
                }
            }
        }
    }
    met.all_of(&[0, 1, 2, 3, 5]);
}

/// Pairs with lengths that are taken and others, each with each: unlike keys, and
/// where the lengths are the same twins too.
fn blanking_keys(random: &mut Random) -> Vec<[Vec<u8>; 2]> {
    const LENGTHS: [usize; 8] = [8, 12, 16, 0, 7, 10, 17, 32];
    let mut pairs = Vec::new();
    for sealing in LENGTHS {
        let sealing = random.bytes(sealing);
        pairs.push([sealing.clone(), sealing.clone()]);
        for checking in LENGTHS {
            pairs.push([sealing.clone(), random.bytes(checking)]);
        }
    }
    pairs
}

/// A blanking by both, with some serial: the answer and every byte.
fn blank_both(
    random: &mut Random,
    slots: usize,
    class: usize,
    [sealing, checking]: &[Vec<u8>; 2],
    bytes: Vec<u8>,
    met: &mut Met,
) {
    let serial = random.serial();
    let (mut sheet, mut expected) = (bytes.clone(), bytes);
    let answer = captions::blank(&mut sheet, slots, class, serial, sealing, checking);
    met.compare(
        answer.map(|()| 0),
        reference::blank(&mut expected, slots, class, serial, sealing, checking),
    );
    assert!(sheet == expected);
}

/// A blank sheet that the keys serve.
fn blank_for(edition: Edition, slots: usize, class: usize, keys: &[Vec<u8>; 2]) -> Vec<u8> {
    let mut sheet = edition.blank_sheet(slots, class);
    if let Edition::Three(serial) = edition {
        let mark = reference::key_mark(slots, class, serial, &keys[0], &keys[1]);
        sheet[10..HEADER].copy_from_slice(&mark.unwrap());
    }
    sheet
}

/// Lists of calls on one sheet, now and then with a byte of it changed.
#[test]
fn sheets() {
    let mut random = Random::new(4);
    let mut met: [Met; 3] = Default::default();
    for _ in 0..250 {
        for (edition, met) in random.editions().into_iter().zip(&mut met) {
            list_of_calls(&mut random, edition, met);
        }
    }
    let [one, two, three] = met;
    for older in [one, two] {
        older.all_of(&[0, 1, 2, 3, 4, 5, 6, 7, 8, 9, 10, 15]);
    }
    three.all_of(&[0, 1, 2, 3, 4, 5, 6, 7, 8, 9, 10, 14, 15]);
}

/// A list of calls on a sheet of an edition.
fn list_of_calls(random: &mut Random, edition: Edition, met: &mut Met) {
    let (slots, class) = (1 + random.below(5), random.class(edition));
    let keys = random.keys(class);
    let mut sheet = blank_for(edition, slots, class, &keys);
    for _ in 0..20 {
        let slot = random.pick(&[0, 0, slots - 1, slots - 1, slots, usize::MAX]);
        let [sealing, checking] = pair(random, &keys);
        let mut expected = sheet.clone();
        match random.below(8) {
            0 => {
                let answer = captions::clear(&mut sheet, slot).map(|()| 0);
                met.compare(answer, reference::clear(&mut expected, slot));
            }
            1..=3 => {
                let length = random.pick(&[0, 1, 8, 17, 191, 192, 192, 193]);
                let caption = random.caption(length);
                assert_eq!(
                    captions::broken_at(&caption),
                    reference::breaks_at(&caption)
                );
                let answer = captions::write(&sealing, &checking, &mut sheet, slot, &caption);
                met.compare_pointed(
                    answer.map(|()| 0),
                    reference::write(&sealing, &checking, &mut expected, slot, &caption),
                );
            }
            4..=6 => {
                let length = random.pick(&[FIELD, FIELD, FIELD, FIELD, 0, 191, 193]);
                let (mut window, mut expected) = (vec![7; length], vec![7; length]);
                let answer = captions::read(&sealing, &checking, &sheet, slot, &mut window);
                met.compare_pointed(
                    answer,
                    reference::read(&sealing, &checking, &sheet, slot, &mut expected),
                );
                assert_eq!(window, expected);
            }
            _ => {
                let place = random.below(sheet.len());
                sheet[place] = random.pick(&[0, 1, 21, 24, 255]) as u8;
                expected = sheet.clone();
            }
        }
        assert!(sheet == expected);
        assert_eq!(captions::list(&sheet), reference::listing(&sheet));
        let fault = captions::first_fault(&sheet).map(|fault| fault.numbers());
        assert_eq!(
            fault,
            reference::first_fault(&sheet).map(|fault| fault.numbers())
        );
        // A sheet that a changed byte made unfit or worn is begun anew.
        if !reference::fit(&sheet) && random.below(2) == 0 {
            sheet = blank_for(edition, slots, class, &keys);
        }
        if random.below(20) == 0 {
            sheet[4..8].fill(255);
        }
    }
}

/// No function makes such a sheet any more.
#[test]
fn a_sheet_of_edition_1_is_read_written_cleared_and_listed() {
    let [sealing, checking] = [[1; 12], [2; 12]];
    let mut sheet = Edition::One.blank_sheet(2, 6);
    reference::write(&sealing, &checking, &mut sheet, 0, b"Vase, 1751");
    let terms = [2_u16, 9617, 0, 9800, 0].map(u16::to_be_bytes).concat();
    let mut window = [7; FIELD];
    let answer = captions::read(&sealing, &checking, &sheet, 0, &mut window);
    assert_eq!((answer, &window[..10]), (Ok(10), &b"Vase, 1751"[..]));
    for (day, answer) in [(9800, Ok(10)), (9801, Err(Refusal::NotOnShow))] {
        let dated = captions::dated_read(&sealing, &checking, &sheet, &terms, 0, day, &mut window);
        assert_eq!(dated, answer);
    }

    let mut expected = sheet.clone();
    reference::write(&sealing, &checking, &mut expected, 1, b"Clock");
    let answer = captions::write(&sealing, &checking, &mut sheet, 1, b"Clock");
    assert_eq!(answer, Ok(()));
    assert_eq!(sheet, expected);
    reference::clear(&mut expected, 0);
    assert_eq!(captions::clear(&mut sheet, 0), Ok(()));
    assert_eq!(sheet, expected);
    let listing = b"slots 2 key 96 last 2\n0 blank\n1 written 2 5\n";
    assert_eq!(captions::list(&sheet), listing);
    let blanked = captions::blank(&mut sheet, 2, 6, 0, &sealing, &checking);
    assert_eq!(blanked, Err(Refusal::WrongSpan));
    assert_eq!(sheet, expected);
}

/// Most often the sheet's own keys; else wrong, twin or other ones, of the same
/// class the keys exchanged and those with one bit changed too.
fn pair(random: &mut Random, keys: &[Vec<u8>; 2]) -> [Vec<u8>; 2] {
    let [sealing, checking] = keys.clone();
    match random.below(14) {
        0 => [random.key(), random.key()],
        1 => [sealing.clone(), sealing],
        2 => random.keys(21),
        3 => [checking, sealing],
        4 => {
            let mut keys = [sealing, checking];
            let key = &mut keys[random.below(2)];
            let place = random.below(key.len());
            key[place] ^= 1 << random.below(8);
            keys
        }
        _ => [sealing, checking],
    }
}

/// Reads of a slot on a day, by terms about that day, now and then unfit.
#[test]
fn dated_reads() {
    let mut random = Random::new(5);
    let mut met: [Met; 3] = Default::default();
    for _ in 0..150 {
        for (edition, met) in random.editions().into_iter().zip(&mut met) {
            dated_reads_of_a_sheet(&mut random, edition, met);
        }
    }
    let [one, two, three] = met;
    for older in [one, two] {
        older.all_of(&[0, 1, 2, 3, 4, 5, 6, 9, 10, 11, 12]);
    }
    three.all_of(&[0, 1, 2, 3, 4, 5, 6, 9, 10, 11, 12, 14]);
}

fn dated_reads_of_a_sheet(random: &mut Random, edition: Edition, met: &mut Met) {
    let (slots, class) = (1 + random.below(5), random.class(edition));
    let keys = random.keys(class);
    let mut sheet = blank_for(edition, slots, class, &keys);
    for slot in 0..slots.max(2) - 1 {
        captions::write(&keys[0], &keys[1], &mut sheet, slot, b"Clock").unwrap();
    }
    for _ in 0..20 {
        let day = random.pick(&[0, 1, 9000, 36523, 36524, 36525, usize::MAX]);
        let mut terms = (slots as u16).to_be_bytes().to_vec();
        for _ in 0..2 * slots {
            let near = random.pick(&[0, 0, 8999, 9000, 9001, 36524, 36524]);
            terms.extend((near as u16).to_be_bytes());
        }
        match random.below(12) {
            0 => terms[1] ^= 1,
            1 => terms.truncate(terms.len() - 1),
            2 => terms.push(0),
            3 => terms[2 * slots..][..2].copy_from_slice(&36525_u16.to_be_bytes()),
            4 => sheet[edition.mark_place(0)][15] ^= 1,
            _ => (),
        }
        let slot = random.pick(&[0, 0, slots - 1, slots - 1, slots, usize::MAX]);
        let [sealing, checking] = pair(random, &keys);
        let length = random.pick(&[FIELD, FIELD, FIELD, FIELD, 0, 191, 193]);
        let (mut window, mut expected) = (vec![7; length], vec![7; length]);
        let answer =
            captions::dated_read(&sealing, &checking, &sheet, &terms, slot, day, &mut window);
        met.compare_pointed(
            answer,
            reference::dated_read(
                &sealing,
                &checking,
                &sheet,
                &terms,
                slot,
                day,
                &mut expected,
            ),
        );
        assert_eq!(window, expected);
    }
}

/// Sheets of every edition by terms about a day, now and then unfit, on dates about
/// it, now and then none.
#[test]
fn running_orders() {
    let mut random = Random::new(11);
    let (mut lines, mut words) = (0, [0, 0, 0]);
    for _ in 0..400 {
        for edition in random.editions() {
            let (sheet, terms) = sheet_and_terms(&mut random, edition);
            let date = random.pick(&[
                "2026-04-30",
                "2026-05-01",
                "2026-05-01",
                "2026-05-02",
                "2099-12-31",
                "2026-04-31",
                "2026-5-1",
                "",
            ]);
            let expected = reference::running_order(&sheet, &terms, date.as_bytes());
            let length = random.pick(&[expected.len(), captions::RUNNING_ORDER, 12, 0]);
            let mut out = vec![7; length];
            let answer = captions::running_order(&sheet, &terms, date, &mut out);
            match expected.len() <= length {
                true => {
                    assert_eq!(answer, Ok(expected.len()));
                    assert_eq!(out[..expected.len()], expected);
                    assert!(out[expected.len()..].iter().all(|byte| *byte == 7));
                }
                false => {
                    assert_eq!(answer, Err(Refusal::WrongSpan));
                    assert_eq!(out, vec![7; length]);
                }
            }
            let order = captions::showings(&sheet, &terms, date);
            let text = match order {
                Ok(order) => order.iter().map(|line| format!("{line}\n")).collect(),
                Err(Refusal::UnfitSheet(_)) => "unfit\n".to_string(),
                Err(Refusal::NoSuchDate) => "no such date\n".to_string(),
                Err(refusal) => panic!("{refusal}"),
            };
            assert_eq!(text.as_bytes(), expected);
            match text.as_str() {
                "" => words[0] += 1,
                "unfit\n" => words[1] += 1,
                "no such date\n" => words[2] += 1,
                text => lines += text.lines().count(),
            }
        }
    }
    println!("{lines} lines; {words:?} times nothing, unfit and no such date");
    assert!(lines > 500 && words.iter().all(|count| *count > 50));
}

/// A sheet of an edition, partly written, and terms for it about 2026-05-01, day 9617.
fn sheet_and_terms(random: &mut Random, edition: Edition) -> (Vec<u8>, Vec<u8>) {
    let (slots, class) = (1 + random.below(12), random.class(edition));
    let keys = random.keys(class);
    let mut sheet = blank_for(edition, slots, class, &keys);
    for slot in 0..slots {
        if random.below(3) > 0 {
            let caption = vec![b'x'; random.below(193)];
            captions::write(&keys[0], &keys[1], &mut sheet, slot, &caption).unwrap();
        }
    }
    let mut terms = (slots as u16).to_be_bytes().to_vec();
    for _ in 0..2 * slots {
        let near = random.pick(&[0, 9615, 9616, 9617, 9617, 9618, 9619, 36524]);
        terms.extend((near as u16).to_be_bytes());
    }
    match random.below(16) {
        0 => terms[1] ^= 1,
        1 => terms.truncate(terms.len() - 1),
        2 => terms[2 * slots..][..2].copy_from_slice(&36525_u16.to_be_bytes()),
        3 => sheet[edition.mark_place(0)][6] ^= 1,
        _ => (),
    }
    (sheet, terms)
}

/// Numbers about the edges of a date, each with each, and days about the ends.
#[test]
fn conversions() {
    let years = [0, 1999, 2000, 2001, 2004, 2099, 2100, 67536, usize::MAX];
    for year in years {
        for month in (0..=13).chain([256, usize::MAX]) {
            for day in (0..=32).chain([256, usize::MAX]) {
                let expected = reference::day_of_date(year, month, day);
                match captions::day_of_date(year, month, day) {
                    Ok(number) => assert_eq!((0, number), (expected.number, expected.day)),
                    Err(refusal) => assert_eq!(refusal.number(), expected.number),
                }
            }
        }
    }
    for day in (0..=36530).chain([65535, 65536, usize::MAX]) {
        let expected = reference::date_of_day(day);
        match captions::date_of_day(day) {
            Ok(date) => {
                let expected = (expected.year, expected.month, expected.day);
                assert_eq!((date.year, date.month, date.day), expected);
            }
            Err(refusal) => assert_eq!(refusal.number(), expected.number),
        }
    }
}

#[test]
fn the_longest_listing_fits() {
    for edition in Edition::ALL {
        let mut sheet = edition.blank_sheet(256, 8);
        sheet[4..8].fill(255);
        for slot in 0..256 {
            let mark = &mut sheet[edition.mark_place(slot)];
            mark[..4].fill(255);
            mark[5] = FIELD as u8;
        }
        let listing = captions::list(&sheet);
        assert_eq!(listing.len(), captions::LISTING);
        assert_eq!(listing, reference::listing(&sheet));
        sheet.push(0);
        assert_eq!(captions::list(&sheet), b"unfit\n");
    }
}
