//! The calls over memory with an untouchable page right before or right
//! behind every lent buffer: a load outside, which leaves no trace in guard
//! bytes, ends the run by a signal.

use crate::buffers::{buffers, each_call};
use differential::both::{Both, Direction};
use differential::edition::Edition;
use differential::lent::Place;
use differential::random::{seed, Random};
use differential::report;
use differential::sheets::{caption_length, kinds, some_caption, Keys, FIELD};
use differential::terms::{day_near, some_terms};

fn blocks_and_messages(both: &mut Both, random: &mut Random) {
    for key in 0..=17 {
        for block in 0..=9 {
            let (key, block) = (random.bytes(key), random.bytes(block));
            for direction in [Direction::Encrypt, Direction::Decrypt] {
                for out in 7..=9 {
                    both.block(direction, &key, &block, random.path(), &random.bytes(out));
                    both.present_block(direction, &key, &block, &random.bytes(out));
                }
            }
        }
        for message in 0..=66 {
            let (key, message) = (random.bytes(key), random.bytes(message));
            both.cmac(&key, &message, &[0; 8]);
        }
    }
}

/// Sheets on both sides of a page, and the longest: every slot written, read
/// and listed, some cleared.
fn written_sheets(both: &mut Both, random: &mut Random) {
    for (edition, t) in kinds() {
        for n in [1, 2, 3, 19, 20, 256] {
            let keys = Keys::unlike(random, t);
            let mut sheet = random.bytes(edition.sheet_length(n));
            both.begin(edition, &keys, &mut sheet, n, t);
            for slot in (0..n).take(20).chain([n - 1]) {
                let length = caption_length(random);
                let caption = some_caption(random, length);
                both.write(&keys, &mut sheet, slot, &caption);
            }
            both.clear(&mut sheet, n / 2);
            for slot in (0..n).take(20).chain([n - 1, n]) {
                both.read(&keys, &sheet, slot, FIELD);
                let terms = some_terms(random, n);
                let day = day_near(random, &terms);
                both.dated_read(&keys, &sheet, &terms, slot, day, FIELD);
            }
            both.list(&sheet);
        }
    }
}

fn fenced(place: Place, part: u64) {
    let mut random = Random::of_part(part);
    let mut both = Both::new(place, &format!("{place:?}, seed {:#x}", seed()));
    blocks_and_messages(&mut both, &mut random);
    written_sheets(&mut both, &mut random);
    for edition in Edition::ALL {
        let longest = edition.sheet_length(256);
        for length in (0..=20)
            .chain((21..=640).step_by(11))
            .chain([1, 2].map(|n| edition.sheet_length(n)))
            .chain(4_095..=4_097)
            .chain(longest - 1..=longest + 1)
        {
            for buffer in buffers(&mut random, edition, length) {
                each_call(&mut both, &mut random, edition, &buffer);
            }
        }
    }
    let (calls, met) = (both.calls, both.numbers_met());
    report(&format!(
        "sheet: {place:?}: {calls} calls of every kind: {met}"
    ));
}

#[test]
fn nothing_before_a_buffer_is_touched() {
    fenced(Place::FenceBefore, 550);
}

#[test]
fn nothing_behind_a_buffer_is_touched() {
    fenced(Place::FenceBehind, 551);
}
