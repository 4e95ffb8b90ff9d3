//! CMAC of messages of many lengths, its refusals, and the second program's
//! CMAC with DES-EDE3 beside openssl's, its chaining values too.

use differential::both::Both;
use differential::lent::Place;
use differential::random::{seed, Random};
use differential::sheets::MCRYPTON;
use differential::{des, openssl, report};
use reference::modes::{cmac_steps, cmac_with};
use reference::Answer;

fn both(test: &str) -> Both {
    Both::new(Place::Guarded, &format!("{test}, seed {:#x}", seed()))
}

#[test]
fn every_length_to_300_and_65536() {
    const KEYS: usize = 8;
    let mut random = Random::of_part(200);
    let mut both = both("lengths of messages");
    for t in MCRYPTON {
        for length in (0..=300).chain([65_535, 65_536, 65_537]) {
            let keys = if length <= 300 { KEYS } else { 1 };
            for _ in 0..keys {
                let key = random.bytes(2 * t);
                let message = random.bytes(length);
                let (answer, _) = both.cmac(&key, &message, &random.block());
                assert_eq!(answer, Answer::accepted(0));
            }
        }
    }
    let calls = both.calls;
    report(&format!(
        "cmac: each length from 0 to 300 with {KEYS} keys of each size, and 65535 to 65537: {calls} calls, seed {:#x}",
        seed()
    ));
}

/// Messages of one byte value, which a slip in padding would confuse with
/// another length's.
#[test]
fn messages_that_look_like_padding() {
    let mut random = Random::of_part(201);
    let mut both = both("messages that look like padding");
    for t in MCRYPTON {
        let key = random.bytes(2 * t);
        for length in 0..=24 {
            for filling in [0, 0x80, 0xff] {
                let mut message = vec![filling; length];
                both.cmac(&key, &message, &[0; 8]);
                if let Some(last) = message.last_mut() {
                    *last = 0x80;
                }
                both.cmac(&key, &message, &[0; 8]);
            }
        }
    }
    let calls = both.calls;
    report(&format!("cmac: zeros, 0x80 and 0xff, {calls} calls"));
}

#[test]
fn every_refusal_from_both_sides() {
    let mut random = Random::of_part(202);
    let mut both = both("lengths of keys and outputs");
    let spans = || (0..=20).chain([8 + 256, 12 + 256, 16 + 256, 8 + 65_536]);
    for key in spans() {
        for out in spans() {
            for message in [0, 1, 8, 200] {
                let (key, message) = (random.bytes(key), random.bytes(message));
                let before = random.bytes(out);
                let (answer, after) = both.cmac(&key, &message, &before);
                let number = match (key.len(), out) {
                    (8 | 12 | 16, 8) => 0,
                    (8 | 12 | 16, _) => reference::WRONG_SPAN,
                    _ => reference::WRONG_KEY,
                };
                assert_eq!(answer, Answer { number, length: 0 });
                assert!(number == 0 || after == before);
            }
        }
    }
    let (calls, met) = (both.calls, both.numbers_met());
    report(&format!(
        "cmac: keys and outputs of 0 to 20 bytes and longer by 256 and 65536, {calls} calls: {met}"
    ));
}

/// The second program's CMAC apart from its cipher.
#[test]
fn the_second_program_s_cmac_with_des_ede3_is_openssl_s() {
    let Some(version) = openssl::version() else {
        report("cmac: skipped: no openssl with DES-EDE3 and CMAC here");
        return;
    };
    let mut random = Random::of_part(203);
    let mut compared = 0;
    for length in (0..=41).chain([63, 64, 65, 199, 200, 201, 4096, 10_001]) {
        let key = [random.number(), random.number(), random.number()];
        let message = random.bytes(length);
        let ours = cmac_with(&|block| des::ede_encrypt(key, block), &message);
        let theirs = openssl::cmac(key, &message).expect("openssl answers");
        assert_eq!(ours, theirs, "length {length}, seed {:#x}", seed());
        compared += 1;
    }
    report(&format!(
        "cmac: the second program's with DES-EDE3 equals that of {version}, {compared} messages"
    ));
}

/// Each chaining value with a cipher that openssl has: C_1 to C_n are CBC of M_1
/// to M_n from C_0, and L is one block.
#[test]
fn the_second_program_s_chaining_values_with_des_ede3_are_openssl_s() {
    let Some(version) = openssl::version() else {
        report("cmac: skipped: no openssl with DES-EDE3 and CBC here");
        return;
    };
    let mut random = Random::of_part(204);
    let mut compared = 0;
    for length in [0, 1, 7, 8, 9, 15, 16, 17, 200, 300] {
        let key = [random.number(), random.number(), random.number()];
        let steps = cmac_steps(&|block| des::ede_encrypt(key, block), &random.bytes(length));
        let at = format!("length {length}, seed {:#x}", seed());
        let l = openssl::blocks(key, &[0; 8]).expect("openssl answers");
        assert_eq!(steps.l.to_vec(), l, "{at}");
        assert_eq!(steps.chain[0], [0; 8], "{at}");
        let values = openssl::cbc(key, steps.chain[0], &steps.blocks.concat(), true);
        assert_eq!(Some(steps.chain[1..].concat()), values, "{at}");
        compared += steps.chain.len();
    }
    report(&format!(
        "cmac: the second program's L and C_i with DES-EDE3 equal those of {version}, {compared} values"
    ));
}
