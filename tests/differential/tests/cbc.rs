//! CBC. The library has no call for it alone: the second program's is held to
//! the library's block calls and to openssl, and a sheet's sealed field and
//! check are put together again from the library's block and CMAC calls.

use differential::edition::Edition;
use differential::letters::good_text;
use differential::random::{seed, Random};
use differential::sheets::{classes, key_bytes, Keys, CLASSES, FIELD};
use differential::{des, library, openssl, report};
use reference::cipher::Block;
use reference::modes::{cbc_decrypt, cbc_encrypt};
use reference::SheetCipher;

fn xor(a: Block, b: Block) -> Block {
    std::array::from_fn(|i| a[i] ^ b[i])
}

fn blocks(random: &mut Random, count: usize) -> Vec<Block> {
    (0..count).map(|_| random.block()).collect()
}

/// A class's cipher in the second program.
fn cipher_of(t: usize, key: &[u8]) -> SheetCipher {
    SheetCipher::of_class(t, key).expect("a key of the class")
}

#[test]
fn the_second_program_s_cbc_of_0_to_30_blocks_is_the_library_s_blocks_chained() {
    let mut random = Random::of_part(300);
    let mut compared = 0;
    for t in CLASSES {
        for count in 0..=30 {
            for _ in 0..10 {
                let key = random.bytes(key_bytes(t));
                let cipher = cipher_of(t, &key);
                let start = random.block();
                let text = blocks(&mut random, count);
                let sealed = cbc_encrypt(&|block| cipher.encrypt(block), start, &text);
                let opened = cbc_decrypt(&|block| cipher.decrypt(block), start, &text);
                assert_eq!((sealed.len(), opened.len()), (count, count));
                let (mut before_sealed, mut before_opened) = (start, start);
                for j in 0..count {
                    let chained = xor(text[j], before_sealed);
                    assert_eq!(
                        sealed[j],
                        library::encrypted(t, &key, chained, random.path())
                    );
                    let unchained = library::decrypted(t, &key, text[j], random.path());
                    assert_eq!(opened[j], xor(unchained, before_opened));
                    (before_sealed, before_opened) = (sealed[j], text[j]);
                }
                compared += 2 * count;
            }
        }
    }
    report(&format!(
        "cbc: the second program's of 0 to 30 blocks both ways, {compared} blocks, seed {:#x}",
        seed()
    ));
}

#[test]
fn the_second_program_s_cbc_with_des_ede3_is_openssl_s() {
    let Some(version) = openssl::version() else {
        report("cbc: skipped: no openssl with DES-EDE3 here");
        return;
    };
    let mut random = Random::of_part(301);
    let mut compared = 0;
    for count in 0..=30 {
        let key = [random.number(), random.number(), random.number()];
        let start = random.block();
        let text = blocks(&mut random, count);
        let sealed = cbc_encrypt(&|block| des::ede_encrypt(key, block), start, &text);
        let opened = cbc_decrypt(&|block| des::ede_decrypt(key, block), start, &text);
        for (ours, encrypt) in [(sealed, true), (opened, false)] {
            let theirs = openssl::cbc(key, start, &text.concat(), encrypt);
            assert_eq!(Some(ours.concat()), theirs, "{count} blocks");
            compared += 1;
        }
    }
    report(&format!(
        "cbc: the second program's with DES-EDE3 equals that of {version}, {compared} texts of 0 to 30 blocks"
    ));
}

/// The block function by itself, so that the comparisons above stand on it.
#[test]
fn des_ede3_is_openssl_s() {
    const BLOCKS: usize = 500;
    if openssl::version().is_none() {
        report("cbc: skipped: no openssl with DES-EDE3 here");
        return;
    }
    let mut random = Random::of_part(302);
    for _ in 0..4 {
        let key = [random.number(), random.number(), random.number()];
        let text = blocks(&mut random, BLOCKS);
        let sealed: Vec<Block> = text.iter().map(|b| des::ede_encrypt(key, *b)).collect();
        assert_eq!(Some(sealed.concat()), openssl::blocks(key, &text.concat()));
        let opened: Vec<Block> = sealed.iter().map(|b| des::ede_decrypt(key, *b)).collect();
        assert_eq!(opened, text);
    }
    report(&format!(
        "cbc: DES-EDE3 equals openssl's on {} blocks",
        4 * BLOCKS
    ));
}

/// The plain start block: write number, slot, and the serial or two zero bytes.
fn plain_start(edition: Edition, number: u32, slot: usize) -> Block {
    let [a, b, c, d] = number.to_be_bytes();
    let [e, f] = (slot as u16).to_be_bytes();
    let [g, h] = edition.start_tail();
    [a, b, c, d, e, f, g, h]
}

/// A sealed field opened by the second program's cipher and CBC.
fn opened(cipher: SheetCipher, plain_start: Block, field: &[u8]) -> Vec<u8> {
    let start = cipher.encrypt(plain_start);
    let blocks = field.as_chunks::<8>().0;
    cbc_decrypt(&|block| cipher.decrypt(block), start, blocks).concat()
}

/// Edition 1, and editions 2 and 3 with serials about every edge; every class of each.
fn kinds_by_serial() -> Vec<(Edition, usize)> {
    let with_serial = [Edition::Two, Edition::Three]
        .into_iter()
        .flat_map(|edition| Edition::SERIALS.map(edition));
    let editions = std::iter::once(Edition::One).chain(with_serial);
    editions
        .flat_map(|edition| classes(edition).iter().map(move |t| (edition, *t)))
        .collect()
}

/// The 208 bytes that a write stores, from the papers' words and the library's
/// own block and CMAC calls; the second program's CBC opens them again.
#[test]
fn a_write_stores_the_field_and_the_check_of_the_papers() {
    const WRITES: usize = 220;
    let mut random = Random::of_part(303);
    for (edition, t) in kinds_by_serial() {
        let keys = Keys::unlike(&mut random, t);
        let mut sheet = keys.blank_sheet(edition, 5, t);
        for number in 1..=WRITES as u32 {
            let slot = random.below(5);
            let length = random.below(FIELD + 1);
            let caption = good_text(&mut random, length);
            let answer = library::write(&keys.sealing, &keys.checking, &mut sheet, slot, &caption);
            assert_eq!(answer.number, 0);

            let start = plain_start(edition, number, slot);
            let [a, b, c, d, e, f, ..] = start;
            let mut plain = caption.clone();
            plain.resize(FIELD, 0);
            let mut sealed = |block| library::encrypted(t, &keys.sealing, block, random.path());
            let mut before = sealed(start);
            let mut field = Vec::new();
            for block in plain.as_chunks::<8>().0 {
                before = sealed(xor(*block, before));
                field.extend(before);
            }
            let [g, h] = (length as u16).to_be_bytes();
            let message = [&[a, b, c, d, e, f, g, h], &field[..]].concat();
            let check = library::check(t, &keys.checking, &message);
            let mark = [&[a, b, c, d, g, h, 0, 0], &check[..]].concat();

            assert_eq!(sheet[4..8], [a, b, c, d]);
            assert_eq!(sheet[edition.mark_place(slot)], mark);
            assert_eq!(sheet[edition.field_place(5, slot)], field);
            assert_eq!(opened(cipher_of(t, &keys.sealing), start, &field), plain);
        }
    }
    report(&format!(
        "cbc: {} writes put together again from block and CMAC calls, and opened",
        kinds_by_serial().len() * WRITES
    ));
}
