//! The baseline held to the second program before anything is timed: a
//! baseline that is wrong is no measure.

use crate::baseline::{self, Looped, SameIdeas, Style};
use crate::dates::{self, Conversions};
use crate::order;
use crate::present;
use differential::library;
use differential::random::Random;
use differential::sheets::{
    caption_length, fit_sheet, key_bytes, kinds, near_sheet, set_last_number, some_caption, Keys,
    CLASSES, FAULTS, FIELD, MCRYPTON,
};
use differential::term_sheet::{term_sheet, Term};
use differential::terms::{day_near, some_terms, FAR_DAYS};
use reference::calendar::date_text;
use reference::{Answer, WRONG_SPAN};

/// Panics where the two differ; else how many calls were compared.
pub fn check_baseline() -> u64 {
    let mut random = Random::of_part(900);
    blocks(&mut random) + check_style::<Looped>(&mut random) + check_style::<SameIdeas>(&mut random)
}

fn check_style<S: Style + Conversions>(random: &mut Random) -> u64 {
    cmacs::<S>(random)
        + panels::<S>(random)
        + sheets::<S>(random)
        + layouts::<S>(random)
        + conversions::<S>()
        + orders::<S>(random)
}

type BlockCall = fn(&[u8], &[u8], &mut [u8]) -> Answer;

/// The baseline's block calls, each with the second program's.
const BLOCK_CALLS: [(BlockCall, BlockCall); 6] = [
    (baseline::encrypt_block::<Looped>, reference::encrypt_block),
    (baseline::decrypt_block::<Looped>, reference::decrypt_block),
    (
        baseline::encrypt_block::<SameIdeas>,
        reference::encrypt_block,
    ),
    (
        baseline::decrypt_block::<SameIdeas>,
        reference::decrypt_block,
    ),
    (present::encrypt_block, reference::present_encrypt_block),
    (present::decrypt_block, reference::present_decrypt_block),
];

fn blocks(random: &mut Random) -> u64 {
    let mut compared = 0;
    let mut compare = |key: &[u8], block: &[u8], out: &[u8]| {
        for (ours, theirs) in BLOCK_CALLS {
            let (mut our_out, mut their_out) = (out.to_vec(), out.to_vec());
            assert_eq!(
                ours(key, block, &mut our_out),
                theirs(key, block, &mut their_out)
            );
            assert_eq!(our_out, their_out, "key {key:02x?}, block {block:02x?}");
            compared += 1;
        }
    };
    for bytes in [8, 10, 12, 16] {
        for _ in 0..5_000 {
            compare(&random.bytes(bytes), &random.block(), &[0; 8]);
        }
    }
    for key in 0..=18 {
        for (block, out) in [(8, 8), (7, 8), (9, 8), (8, 7), (8, 9)] {
            compare(&vec![1; key], &vec![2; block], &vec![3; out]);
        }
    }
    compared
}

fn cmacs<S: Style>(random: &mut Random) -> u64 {
    let mut compared = 0;
    for t in MCRYPTON {
        for length in (0..=210).chain([65_536]) {
            let (key, message) = (random.bytes(2 * t), random.bytes(length));
            let mut outs = [[0; 8]; 2];
            baseline::cmac::<S>(&key, &message, &mut outs[0]);
            reference::cmac(&key, &message, &mut outs[1]);
            assert_eq!(outs[0], outs[1], "CMAC of {length} bytes");
            compared += 1;
        }
    }
    compared
}

fn panels<S: Style>(random: &mut Random) -> u64 {
    let mut compared = 0;
    for key in [7, 8, 12, 16, 17] {
        for length in (0..=300).chain([65_535, 65_536, 65_537]) {
            for (first, longer) in [(0, 0), (0u64.wrapping_sub(9), 0), (u64::MAX, 1)] {
                let (key, panel) = (random.bytes(key), random.bytes(length));
                let mut outs = [vec![5; length + longer], vec![5; length + longer]];
                let ours = baseline::panel::<S>(&key, first, &panel, &mut outs[0]);
                let theirs = reference::panel::panel(&key, first, &panel, &mut outs[1]);
                assert_eq!(ours, theirs, "panel of {length} bytes");
                assert!(outs[0] == outs[1], "panel of {length} bytes");
                compared += 1;
            }
        }
    }
    compared
}

/// Lists of calls, each answer and every byte compared; some sheets wear out. Those of
/// PRESENT are shorter: the second program takes long with it.
fn sheets<S: Style>(random: &mut Random) -> u64 {
    let mut compared = 0;
    for (edition, t) in kinds() {
        for n in [1, 2, 3, 16] {
            let keys = Keys::unlike(random, t);
            let mut blank = keys.blank_sheet(edition, n, t);
            set_last_number(&mut blank, random.pick(&[0, u32::MAX - 20]));
            let mut sheets = [blank.clone(), blank];
            let calls = if MCRYPTON.contains(&t) { 150 } else { 40 };
            for _ in 0..calls {
                let slot = random.below(n + 1);
                let length = caption_length(random) + random.pick(&[0, 0, 0, 193]);
                let caption = some_caption(random, length);
                let keys = if random.once_in(8) {
                    Keys::unlike(random, t)
                } else {
                    keys.clone()
                };
                let [ours, theirs] = &mut sheets;
                let answers = if random.once_in(4) {
                    (
                        baseline::clear::<S>(ours, slot),
                        reference::clear(theirs, slot),
                    )
                } else {
                    let (sealing, checking) = (&keys.sealing, &keys.checking);
                    (
                        baseline::write::<S>(sealing, checking, ours, slot, &caption),
                        reference::write(sealing, checking, theirs, slot, &caption).answer(),
                    )
                };
                assert_eq!(answers.0, answers.1);
                assert!(ours == theirs, "a sheet of {n} slots");
                compare_reads::<S>(&keys, ours, slot);
                compare_dated_reads::<S>(random, &keys, ours, n);
                compared += 3;
            }
        }
    }
    compared
}

fn compare_reads<S: Style>(keys: &Keys, sheet: &[u8], slot: usize) -> Answer {
    let mut windows = [[1; FIELD]; 2];
    let (sealing, checking) = (&keys.sealing, &keys.checking);
    let answer = baseline::read::<S>(sealing, checking, sheet, slot, &mut windows[0]);
    let true_answer = reference::read(sealing, checking, sheet, slot, &mut windows[1]);
    assert_eq!(answer, true_answer.answer(), "a read of slot {slot}");
    assert_eq!(windows[0], windows[1], "a read of slot {slot}");
    answer
}

/// A read of any slot, with any term sheet, on a day near an end of its terms;
/// seldom with other keys or another window.
fn compare_dated_reads<S: Style>(random: &mut Random, own: &Keys, sheet: &[u8], n: usize) {
    let t = random.pick(&CLASSES);
    let keys = match random.below(12) {
        0 => &Keys::unlike(random, t),
        1 => &Keys::twins(random, key_bytes(t)),
        _ => own,
    };
    let terms = some_terms(random, n);
    let (slot, day) = (random.below(n + 1), day_near(random, &terms));
    let length = FIELD - usize::from(random.once_in(12));
    let mut windows = [vec![1; length], vec![1; length]];
    let [ours, theirs] = &mut windows;
    let (sealing, checking) = (&keys.sealing, &keys.checking);
    assert_eq!(
        baseline::dated_read::<S>(sealing, checking, sheet, &terms, slot, day, ours),
        reference::dated_read(sealing, checking, sheet, &terms, slot, day, theirs).answer(),
        "a read of slot {slot} on day {day}, terms {terms:02x?}"
    );
    assert_eq!(ours, theirs, "a read of slot {slot} on day {day}");
}

fn layouts<S: Style>(random: &mut Random) -> u64 {
    let mut compared = 0;
    for (edition, t) in kinds() {
        for n in [1, 2, 3, 256] {
            for fault in 0..FAULTS {
                for _ in 0..20 {
                    let near = near_sheet(random, edition, n, t, fault);
                    for sheet in [near, fit_sheet(random, edition, n, t)] {
                        let mut ours = sheet.clone();
                        let mut theirs = sheet;
                        assert_eq!(baseline::fit::<S>(&ours), reference::fit(&theirs));
                        let answer = baseline::clear::<S>(&mut ours, n);
                        assert_eq!(answer, reference::clear(&mut theirs, n));
                        compared += 2;
                    }
                }
            }
        }
    }
    compared
}

/// Every day and every date, those beside them, and far numbers.
fn conversions<C: Conversions>() -> u64 {
    let mut compared = 0;
    for day in (0..=36_600).chain(FAR_DAYS) {
        let ours = dates::date_of_day::<C>(day);
        assert_eq!(ours, reference::date_of_day(day), "day {day}");
        compared += 1;
    }
    for year in (1_999..=2_100).chain(FAR_DAYS) {
        for month in (0..=13).chain(FAR_DAYS) {
            for day in (0..=32).chain(FAR_DAYS) {
                let ours = dates::day_of_date::<C>(year, month, day);
                let theirs = reference::day_of_date(year, month, day);
                assert_eq!(ours, theirs, "year {year}, month {month}, day {day}");
                compared += 1;
            }
        }
    }
    compared
}

/// Pairs fit and near to it, on dates true and near to it, into outputs exactly large
/// enough, larger and a byte short. The library's answer and output are compared too.
fn orders<S: Style + Conversions>(random: &mut Random) -> u64 {
    let mut compared = 0;
    for (edition, t) in kinds() {
        for round in 0..240 {
            let n = [1, 2, 3, 40, 256][round % 5];
            let fault = random.below(FAULTS);
            let sheet = match random.below(8) {
                0 => near_sheet(random, edition, n, t, fault),
                _ => fit_sheet(random, edition, n, t),
            };
            let terms = match random.below(4) {
                0 => some_terms(random, n),
                _ => close_terms(random, n),
            };
            let mut date = date_text(day_near(random, &terms)).into_bytes();
            if random.once_in(8) {
                date[random.below(10)] = random.pick(b"0123456789-/:");
            }
            date.truncate(10 - usize::from(random.once_in(20)));
            compared += compare_orders::<S>(&sheet, &terms, &date);
        }
    }
    compared
}

/// Terms that end within a few days, so that many open alike.
fn close_terms(random: &mut Random, n: usize) -> Vec<u8> {
    let days = random.pick(&[1, 2, 5, 40, 300]);
    let first = random.below(36_526 - days);
    let mut day = || (first + random.below(days)) as u16;
    let terms: Vec<Term> = (0..n).map(|_| (day(), day())).collect();
    term_sheet(&terms)
}

fn compare_orders<S: Style + Conversions>(sheet: &[u8], terms: &[u8], date: &[u8]) -> u64 {
    let text = reference::running_order(sheet, terms, date);
    let mut compared = 0;
    let short = text.len().checked_sub(1);
    for length in [text.len(), text.len() + 9].into_iter().chain(short) {
        let mut outs = [vec![7; length], vec![7; length], vec![7; length]];
        let [ours, theirs, expected] = &mut outs;
        let answer = match expected.get_mut(..text.len()) {
            Some(start) => {
                start.copy_from_slice(&text);
                Answer::accepted(text.len() as u16)
            }
            None => Answer::refused(WRONG_SPAN),
        };
        let what = format!("terms {terms:02x?}, date {}", date.escape_ascii());
        let baseline = order::running_order::<S>(sheet, terms, date, ours);
        assert_eq!(baseline, answer, "{what}");
        let library = library::running_order(sheet, terms, date, theirs);
        assert_eq!(library, answer, "{what}");
        assert!(ours == expected && theirs == expected, "{what}");
        compared += 1;
    }
    compared
}

#[test]
fn the_baseline_agrees_with_the_second_program() {
    assert!(check_baseline() > 0);
}
