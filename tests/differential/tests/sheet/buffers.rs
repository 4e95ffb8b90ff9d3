//! Buffers of every length, filled with seeded bytes and with near-sheets.

use crate::both;
use differential::both::Both;
use differential::edition::Edition;
use differential::random::{seed, Random};
use differential::report;
use differential::sheets::{
    classes, fit_sheet, kinds, near_sheet, some_caption, some_serial, Keys, CLASSES, FAULTS, FIELD,
};
use differential::terms::{day_near, some_terms};

/// The slots of an edition's sheet that a length has room for.
fn room(edition: Edition, length: usize) -> usize {
    length.saturating_sub(edition.header()) / 208
}

/// Each call on a buffer, at the slots of such a sheet of an edition, with keys
/// that are most often a sheet's own.
pub fn each_call(both: &mut Both, random: &mut Random, edition: Edition, buffer: &[u8]) {
    let mut sheet = buffer.to_vec();
    let n = room(edition, sheet.len());
    let t = random.pick(&CLASSES);
    let class = match sheet.get(2) {
        Some(byte) if CLASSES.contains(&usize::from(*byte)) => usize::from(*byte),
        _ => t,
    };
    let keys = Keys::unlike(random, class);
    if !random.once_in(4) {
        keys.put_mark(&mut sheet);
    }
    both.list(&sheet);
    for slot in [0, n.saturating_sub(1), n] {
        let length = random.below(FIELD + 2);
        let caption = some_caption(random, length);
        both.read(&keys, &sheet, slot, FIELD);
        let terms = some_terms(random, n.max(1));
        let day = day_near(random, &terms);
        both.dated_read(&keys, &sheet, &terms, slot, day, FIELD);
        both.write(&keys, &mut sheet.clone(), slot, &caption);
        both.clear(&mut sheet.clone(), slot);
    }
    for slots in [n, n + 1] {
        both.blank(&keys, &mut sheet.clone(), slots, t, some_serial(random));
    }
}

/// A buffer of a length with the header of a sheet of about that length, so
/// that more than the first test is reached.
fn with_header(random: &mut Random, edition: Edition, length: usize) -> Vec<u8> {
    let mut buffer = random.bytes(length);
    let n = (room(edition, length) + random.below(2)) as u16;
    let [high, low] = n.to_be_bytes();
    let t = random.pick(classes(edition)) as u8;
    let header = [high, low, t, edition.number()];
    for (place, byte) in buffer.iter_mut().zip(header) {
        *place = byte;
    }
    if let Edition::Two(_) = edition {
        for byte in buffer.iter_mut().take(edition.header()).skip(10) {
            *byte = 0;
        }
    }
    buffer
}

/// A sheet of the nearest count of slots, cut or made longer to a length.
fn resized(random: &mut Random, edition: Edition, length: usize, filling: u8) -> Vec<u8> {
    let nearest = (length.saturating_sub(edition.header()) + 104) / 208;
    let t = random.pick(classes(edition));
    let mut sheet = fit_sheet(random, edition, nearest.clamp(1, 256), t);
    sheet.resize(length, filling);
    sheet
}

/// The buffers of a length, some with a header of an edition.
pub fn buffers(random: &mut Random, edition: Edition, length: usize) -> Vec<Vec<u8>> {
    let mut zero_after_header = with_header(random, edition, length);
    for byte in zero_after_header.iter_mut().skip(4) {
        *byte = 0;
    }
    vec![
        vec![0; length],
        vec![0xff; length],
        random.bytes(length),
        with_header(random, edition, length),
        zero_after_header,
        resized(random, edition, length, 0),
        resized(random, edition, length, 1),
    ]
}

/// The lengths of each edition.
fn each_length(name: &str, part: u64, lengths: impl Fn(Edition) -> Vec<usize>) {
    let mut random = Random::of_part(part);
    let mut both = both(name);
    let (mut count, mut fit) = (0, 0);
    for edition in Edition::ALL {
        for length in lengths(edition) {
            both.label = format!("{name}, length {length}, seed {:#x}", seed());
            for buffer in buffers(&mut random, edition, length) {
                each_call(&mut both, &mut random, edition, &buffer);
                count += 1;
                fit += usize::from(reference::fit(&buffer));
            }
        }
    }
    let (calls, met) = (both.calls, both.numbers_met());
    report(&format!(
        "sheet: {name}: {count} buffers, {fit} of them fit, {calls} calls: {met}"
    ));
}

#[test]
fn every_length_from_0_to_700() {
    each_length("lengths 0 to 700", 540, |_| (0..=700).collect());
}

#[test]
fn lengths_around_the_longest() {
    each_length("lengths around the longest", 541, |edition| {
        let [shorter, longest, longer] = [255, 256, 257].map(|n| edition.sheet_length(n));
        (longest - 12..=longest + 14)
            .chain(shorter - 1..=shorter + 1)
            .chain(longer - 1..=longer + 1)
            .collect()
    });
}

/// Fit sheets with one rule broken, of several counts of slots.
#[test]
fn near_sheets() {
    let mut random = Random::of_part(542);
    let mut both = both("near-sheets");
    let (mut count, mut fit) = (0, 0);
    for (edition, t) in kinds() {
        for n in [1, 2, 3, 9, 256] {
            for fault in 0..FAULTS {
                let repeats = if n == 256 { 2 } else { 12 };
                for _ in 0..repeats {
                    let sheet = near_sheet(&mut random, edition, n, t, fault);
                    each_call(&mut both, &mut random, edition, &sheet);
                    count += 1;
                    fit += usize::from(reference::fit(&sheet));
                }
            }
        }
    }
    let (calls, met) = (both.calls, both.numbers_met());
    report(&format!(
        "sheet: near-sheets: {count} sheets, {fit} of them fit, {calls} calls: {met}"
    ));
}

/// A rule of marks or fields broken in each slot of the longest sheet.
#[test]
fn a_fault_in_each_slot() {
    let mut random = Random::of_part(543);
    let mut both = both("a fault in each slot");
    for edition in Edition::ALL {
        let keys = Keys::unlike(&mut random, 4);
        let sheet = keys.blank_sheet(edition, 256, 4);
        for slot in 0..256 {
            let (mark, field) = (edition.mark_place(slot), edition.field_place(256, slot));
            for byte in [mark.start, mark.end - 1, field.start, field.end - 1] {
                let mut faulty = sheet.clone();
                faulty[byte] = 1;
                assert!(!reference::fit(&faulty));
                both.clear(&mut faulty, slot);
                both.read(&keys, &faulty, 0, FIELD);
                both.write(&keys, &mut faulty, 255, b"caption");
            }
        }
    }
    let (calls, met) = (both.calls, both.numbers_met());
    report(&format!(
        "sheet: a fault in each of 256 slots, {calls} calls: {met}"
    ));
}
