//! Panels in counter mode: every length about every edge, first numbers about the
//! wrap, a second time, and the refusals.

use differential::both::{Both, Direction};
use differential::lent::Place;
use differential::random::{seed, Random};
use differential::report;
use differential::sheets::MCRYPTON;
use reference::panel::{panel_blocks, MOST_PANEL_BYTES};
use reference::Answer;

/// Numbers at either end, at a carry of 32 bits, and about where a panel of 65536
/// bytes, of 256 and of 192 meets the wrap.
const FIRSTS: [u64; 16] = [
    0,
    1,
    255,
    0xffff_ffff,
    0x1_0000_0000,
    1 << 63,
    u64::MAX - 8192,
    u64::MAX - 8191,
    u64::MAX - 8190,
    u64::MAX - 32,
    u64::MAX - 31,
    u64::MAX - 30,
    u64::MAX - 23,
    u64::MAX - 7,
    u64::MAX - 1,
    u64::MAX,
];

fn both(place: Place, test: &str) -> Both {
    Both::new(place, &format!("{test}, seed {:#x}", seed()))
}

/// Sealed, and sealed a second time, which gives the panel.
fn twice(both: &mut Both, random: &mut Random, key: &[u8], first: u64, length: usize) {
    let (panel, out) = (random.bytes(length), random.bytes(length));
    let (answer, sealed) = both.panel(key, first, &panel, &out);
    assert_eq!(answer, Answer::accepted(0));
    let (_, opened) = both.panel(key, first, &sealed, &out);
    assert!(opened == panel, "{length} bytes from {first:#x}");
}

fn every_length(t: usize) {
    let mut random = Random::of_part(1000 + t as u64);
    let mut both = both(Place::Guarded, "lengths of panels");
    for length in (0..=300).chain([511, 512, 513, 4096]) {
        for first in FIRSTS {
            let key = random.bytes(2 * t);
            twice(&mut both, &mut random, &key, first, length);
        }
        let (key, first) = (random.bytes(2 * t), random.number());
        twice(&mut both, &mut random, &key, first, length);
    }
    for length in [65_528, 65_535, 65_536] {
        for first in [0, u64::MAX - 8191, u64::MAX - 8190, u64::MAX] {
            let key = random.bytes(2 * t);
            twice(&mut both, &mut random, &key, first, length);
        }
    }
    let (calls, bytes) = (both.calls, 2 * t);
    report(&format!(
        "panel: keys of {bytes} bytes, each length from 0 to 300 and up to 65536 from {} numbers and any, each twice, {calls} calls, seed {:#x}",
        FIRSTS.len(),
        seed()
    ));
}

#[test]
fn every_length_with_keys_of_8_bytes() {
    every_length(4);
}

#[test]
fn every_length_with_keys_of_12_bytes() {
    every_length(6);
}

#[test]
fn every_length_with_keys_of_16_bytes() {
    every_length(8);
}

/// Right before and right behind an untouchable page.
#[test]
fn nothing_outside_is_touched() {
    let mut random = Random::of_part(1001);
    let mut calls = 0;
    for place in [Place::FenceBefore, Place::FenceBehind] {
        let mut both = both(place, "panels beside a page");
        for t in MCRYPTON {
            for length in (0..=40).chain([191, 192, 193, 255, 256, 257, 300, 65_535, 65_536]) {
                let key = random.bytes(2 * t);
                twice(&mut both, &mut random, &key, u64::MAX - 2, length);
            }
        }
        calls += both.calls;
    }
    report(&format!("panel: beside untouchable pages, {calls} calls"));
}

/// Byte i is byte i of the panel and byte i mod 8 of a block that the library itself
/// seals, added: the panel call beside the block call, by every sort of path.
#[test]
fn key_blocks_are_the_block_call_s() {
    let mut random = Random::of_part(1002);
    let mut both = both(Place::Guarded, "key blocks");
    for t in MCRYPTON {
        for first in FIRSTS {
            let (key, panel) = (random.bytes(2 * t), random.bytes(301));
            let (_, sealed) = both.panel(&key, first, &panel, &[0; 301]);
            for block in 0..38 {
                let counter = first.wrapping_add(block as u64).to_be_bytes();
                let path = random.path();
                let (_, key_block) = both.block(Direction::Encrypt, &key, &counter, path, &[0; 8]);
                for i in 8 * block..301.min(8 * block + 8) {
                    assert_eq!(sealed[i], panel[i] ^ key_block[i % 8], "byte {i}");
                }
            }
        }
    }
    let calls = both.calls;
    report(&format!(
        "panel: key blocks by the block call, {calls} calls"
    ));
}

/// A second panel that begins where the first one's numbers end: after whole blocks
/// the two are sealed as one.
#[test]
fn one_after_the_other() {
    let mut random = Random::of_part(1003);
    let mut both = both(Place::Guarded, "one after the other");
    for first in FIRSTS {
        for (front, back) in [(0, 9), (8, 0), (8, 8), (248, 17), (256, 300), (264, 1)] {
            let (key, panel) = (random.bytes(16), random.bytes(front + back));
            let (_, whole) = both.panel(&key, first, &panel, &vec![0; front + back]);
            let (_, head) = both.panel(&key, first, &panel[..front], &vec![0; front]);
            let next = first.wrapping_add(panel_blocks(front));
            let (_, tail) = both.panel(&key, next, &panel[front..], &vec![0; back]);
            assert!(whole == [head, tail].concat(), "{front} and {back} bytes");
        }
    }
    let calls = both.calls;
    report(&format!("panel: one after the other, {calls} calls"));
}

/// 1, then 3, then 7, each from both sides, and no byte changed.
#[test]
fn every_refusal_from_both_sides() {
    let mut random = Random::of_part(1004);
    let mut both = both(Place::Guarded, "lengths of keys and outputs");
    for key in (0..=20).chain([8 + 256, 12 + 256, 16 + 65_536]) {
        for panel in [
            0_usize, 1, 7, 8, 9, 256, 65_535, 65_536, 65_537, 65_544, 131_072,
        ] {
            for out in [
                panel,
                panel + 1,
                panel.saturating_sub(1),
                0,
                8,
                panel + 65_536,
            ] {
                let (key, panel) = (random.bytes(key), random.bytes(panel));
                let before = random.bytes(out);
                let first = random.pick(&FIRSTS);
                let (answer, after) = both.panel(&key, first, &panel, &before);
                let number = match key.len() {
                    8 | 12 | 16 if out != panel.len() => reference::WRONG_SPAN,
                    8 | 12 | 16 if panel.len() > MOST_PANEL_BYTES => reference::OVERLONG,
                    8 | 12 | 16 => 0,
                    _ => reference::WRONG_KEY,
                };
                assert_eq!(answer, Answer { number, length: 0 });
                assert!(number == 0 || after == before);
            }
        }
    }
    let (calls, met) = (both.calls, both.numbers_met());
    report(&format!(
        "panel: keys of 0 to 20 bytes and longer, outputs of other lengths, {calls} calls: {met}"
    ));
}
