//! Keys that belong to the sheet: whose mark it is, whom 14 is given to, where it
//! stands among the refusals, and that older editions never give it.

use captions::{
    blank, clear, dated_read, first_fault, list, read, sheet_len, sheet_len_1, write, Break,
    BreakKind, Change, Cipher, Fault, Refusal, FIELD, LAST_DAY,
};

const SLOTS: usize = 2;
const MCRYPTON: [Cipher; 3] = [Cipher::Mcrypton64, Cipher::Mcrypton96, Cipher::Mcrypton128];
/// Every slot is on show on every day.
const TERMS: [u8; 10] = [0, 2, 0, 0, 0, 0, 0x8e, 0xac, 0x8e, 0xac];

type Pair = [Vec<u8>; 2];

/// Unlike keys of so many bytes.
fn pair(bytes: usize) -> Pair {
    [3, 90].map(|first| (first..).take(bytes).collect())
}

/// A sheet that a pair serves, with a caption in slot 0.
fn own_sheet(cipher: Cipher, keys: &Pair, serial: u16) -> Vec<u8> {
    let mut sheet = vec![0; sheet_len(SLOTS)];
    blank(&mut sheet, SLOTS, cipher, serial, &keys[0], &keys[1]).unwrap();
    write(&keys[0], &keys[1], &mut sheet, 0, b"Vase, 1751").unwrap();
    sheet
}

/// The same of an older edition, laid out here: no function makes one any more.
fn older_sheet(keys: &Pair, edition: u8) -> Vec<u8> {
    let mut sheet = match edition {
        1 => vec![0; sheet_len_1(SLOTS)],
        _ => vec![0; sheet_len(SLOTS)],
    };
    let key_words = keys[0].len() / 2;
    sheet[..4].copy_from_slice(&[0, SLOTS as u8, key_words as u8, edition]);
    write(&keys[0], &keys[1], &mut sheet, 0, b"Vase, 1751").unwrap();
    sheet
}

/// What a read, a dated read and a write answer, after a look at the bytes: a
/// refused read has zeroed its window, a refused write has changed nothing.
fn answers(keys: &Pair, sheet: &[u8], slot: usize) -> [Option<Refusal>; 3] {
    let [sealing, checking] = keys;
    let (mut plain, mut dated) = ([7; FIELD], [7; FIELD]);
    let mut written = sheet.to_vec();
    let answers = [
        read(sealing, checking, sheet, slot, &mut plain).err(),
        dated_read(sealing, checking, sheet, &TERMS, slot, 9000, &mut dated).err(),
        write(sealing, checking, &mut written, slot, b"Clock").err(),
    ];
    for (answer, window) in answers.iter().zip([plain, dated]) {
        assert_eq!(answer.is_some(), window == [0; FIELD]);
    }
    assert_eq!(answers[2].is_some(), written == sheet);
    answers
}

const OTHER_KEYS: [Option<Refusal>; 3] = [Some(Refusal::OtherKeys); 3];

/// Other pairs of the same class: the keys exchanged, one of them or both others,
/// and every one that differs in one bit.
fn strangers(keys: &Pair) -> Vec<Pair> {
    let [sealing, checking] = keys.clone();
    let other = |first: u8| vec![first; sealing.len()];
    let mut strangers = vec![
        [checking.clone(), sealing.clone()],
        [sealing.clone(), other(7)],
        [other(7), checking.clone()],
        [other(7), other(8)],
    ];
    for key in 0..2 {
        for bit in 0..8 * sealing.len() {
            let mut pair = keys.clone();
            pair[key][bit / 8] ^= 1 << (bit % 8);
            strangers.push(pair);
        }
    }
    strangers
}

/// A block sealed by a cipher.
fn sealed(cipher: Cipher, key: &[u8], block: [u8; 8]) -> [u8; 8] {
    let mut out = [0; 8];
    match cipher {
        Cipher::Present80 | Cipher::Present128 => {
            captions::present_encrypt_block(key, &block, &mut out).unwrap()
        }
        _ => captions::encrypt_block(key, &block, 0, &mut out).unwrap(),
    }
    out
}

/// CMAC of one block: L doubled is added. [`captions::cmac`] is mCrypton's alone.
fn mac_of_block(cipher: Cipher, key: &[u8], block: [u8; 8]) -> [u8; 8] {
    let l = u64::from_be_bytes(sealed(cipher, key, [0; 8]));
    let k1 = l << 1 ^ if l >> 63 == 1 { 0x1b } else { 0 };
    let last = k1 ^ u64::from_be_bytes(block);
    sealed(cipher, key, last.to_be_bytes())
}

#[test]
fn the_mark_is_the_pairs_by_the_definition() {
    for cipher in Cipher::ALL {
        let [sealing, checking] = pair(cipher.key_bytes());
        for serial in [0, 1, 255, 256, 0x5a04, 65535] {
            for slots in [1, 2, 255, 256] {
                let mut sheet = vec![0xff; sheet_len(slots)];
                blank(&mut sheet, slots, cipher, serial, &sealing, &checking).unwrap();
                let [[a, b], [e, f]] = [slots as u16, serial].map(u16::to_be_bytes);
                let sealed = sealed(cipher, &sealing, [a, b, cipher.class(), 3, e, f, 0, 0]);
                let check = mac_of_block(cipher, &checking, sealed);
                if MCRYPTON.contains(&cipher) {
                    let mut public = [0; 8];
                    captions::cmac(&checking, &sealed, &mut public).unwrap();
                    assert_eq!(check, public);
                }
                assert_eq!(sheet[..8], [a, b, cipher.class(), 3, 0, 0, 0, 0]);
                assert_eq!(sheet[8..10], [e, f]);
                assert_eq!(sheet[10..16], check[..6]);
                assert!(sheet[16..].iter().all(|byte| *byte == 0));
            }
        }
    }
}

/// Slots of n and more too: 14 comes before 6.
#[test]
fn a_stranger_is_refused_at_every_slot() {
    let mut count = 0;
    for cipher in Cipher::ALL {
        let keys = pair(cipher.key_bytes());
        let sheet = own_sheet(cipher, &keys, 7);
        assert_eq!(answers(&keys, &sheet, 0), [None; 3]);
        for stranger in strangers(&keys) {
            for slot in [0, 1, SLOTS, 255, 256, usize::MAX] {
                assert_eq!(answers(&stranger, &sheet, slot), OTHER_KEYS);
            }
            count += 1;
        }
    }
    println!("{count} strangers, each at 6 slots");
}

/// A mark is never a rule of the layout: it gives 14 and nothing else, and the
/// sheet is fit, listed and cleared.
#[test]
fn every_bit_of_a_mark() {
    for cipher in Cipher::ALL {
        let keys = pair(cipher.key_bytes());
        let whole = own_sheet(cipher, &keys, 7);
        for bit in 0..48 {
            let mut sheet = whole.clone();
            sheet[10 + bit / 8] ^= 1 << (bit % 8);
            for slot in [0, 1, SLOTS] {
                assert_eq!(answers(&keys, &sheet, slot), OTHER_KEYS);
            }
            assert_eq!(first_fault(&sheet), None);
            assert_eq!(list(&sheet), list(&whole));
            assert_eq!(clear(&mut sheet, 0), Ok(()));
        }
    }
}

/// The serial is covered by the mark, the last write number isn't.
#[test]
fn every_bit_of_the_serial_and_of_the_last_write_number() {
    let keys = pair(8);
    let whole = own_sheet(Cipher::Mcrypton64, &keys, 7);
    for bit in 0..16 {
        let mut sheet = whole.clone();
        sheet[8 + bit / 8] ^= 1 << (bit % 8);
        assert_eq!(answers(&keys, &sheet, 0), OTHER_KEYS);
    }
    for w in [2_u32, 255, 65536, u32::MAX - 1] {
        let mut sheet = whole.clone();
        sheet[4..8].copy_from_slice(&w.to_be_bytes());
        assert_eq!(answers(&keys, &sheet, 0), [None; 3]);
    }
}

/// As before: another pair of the right class writes, and what it wrote is
/// altered to the first.
#[test]
fn older_editions_take_any_pair_of_their_class() {
    let altered = Some(Refusal::Altered(Change::Check { slot: 0 }));
    for edition in [1, 2] {
        for cipher in MCRYPTON {
            let keys = pair(cipher.key_bytes());
            let sheet = older_sheet(&keys, edition);
            for stranger in strangers(&keys) {
                // Under the same checking key the check agrees, and what opens is
                // no caption.
                let [plain, dated, written] = answers(&stranger, &sheet, 0);
                assert_eq!(plain.map(Refusal::number), Some(10));
                assert_eq!((dated, written), (plain, None));
                let blank = Some(Refusal::Blank);
                assert_eq!(answers(&stranger, &sheet, 1), [blank, blank, None]);
                let none = Some(Refusal::NoSuchSlot);
                assert_eq!(answers(&stranger, &sheet, SLOTS), [none; 3]);
            }
            let [sealing, checking] = &strangers(&keys)[0];
            let mut sheet = sheet;
            write(sealing, checking, &mut sheet, 0, b"Clock").unwrap();
            assert_eq!(answers(&keys, &sheet, 0), [altered, altered, None]);
        }
    }
}

/// A sheet of edition 2 that is called one of edition 3 is fit: its zeros are a
/// mark, and nobody's but by chance.
#[test]
fn an_older_sheet_called_edition_3_is_nobodys() {
    let keys = pair(8);
    let mut sheet = older_sheet(&keys, 2);
    sheet[3] = 3;
    assert_eq!(first_fault(&sheet), None);
    assert_eq!(answers(&keys, &sheet, 0), OTHER_KEYS);
    // The other way round the mark is what edition 2 keeps zero.
    let mut sheet = own_sheet(Cipher::Mcrypton64, &keys, 7);
    sheet[3] = 2;
    let place = (10..16).find(|place| sheet[*place] != 0).unwrap();
    let unfit = Some(Refusal::UnfitSheet(Fault::HeaderByte { place }));
    assert_eq!(answers(&keys, &sheet, 0), [unfit; 3]);
}

/// Strangers' calls among the pair's leave the pair's as they would be alone.
#[test]
fn a_strangers_write_leaves_no_trace() {
    let keys = pair(10);
    let [sealing, checking] = &keys;
    let [mut among, mut alone] = [(); 2].map(|()| own_sheet(Cipher::Present80, &keys, 9));
    for (round, stranger) in strangers(&keys).iter().enumerate() {
        let caption = format!("Clock {round}");
        let refused = write(&stranger[0], &stranger[1], &mut among, round % 3, b"Mine");
        assert_eq!(refused, Err(Refusal::OtherKeys));
        for sheet in [&mut among, &mut alone] {
            write(sealing, checking, sheet, round % 2, caption.as_bytes()).unwrap();
        }
        assert_eq!(among, alone);
    }
}

// ---- The order of the tests ----

/// A read or a write that is accepted as it stands.
#[derive(Clone)]
struct Call {
    keys: Pair,
    sheet: Vec<u8>,
    slot: usize,
    caption: Vec<u8>,
    window: usize,
}

impl Call {
    fn new() -> Call {
        let keys = pair(8);
        Call {
            sheet: own_sheet(Cipher::Mcrypton64, &keys, 7),
            keys,
            slot: 0,
            caption: b"Clock".to_vec(),
            window: FIELD,
        }
    }

    fn write(mut self) -> Result<(), Refusal> {
        let [sealing, checking] = &self.keys;
        write(sealing, checking, &mut self.sheet, self.slot, &self.caption)
    }

    fn read(self) -> Result<(), Refusal> {
        let [sealing, checking] = &self.keys;
        let mut window = vec![7; self.window];
        read(sealing, checking, &self.sheet, self.slot, &mut window).map(|_| ())
    }
}

/// A way in which a call is refused, with the refusal. Doing it twice, or before
/// an earlier one of its table, leaves both done.
type Way = (Refusal, fn(&mut Call));

const WRONG_KEY: Way = (Refusal::WrongKey, |call| call.keys = pair(11));
const TWIN_KEYS: Way = (Refusal::TwinKeys, |call| {
    call.keys[1] = call.keys[0].clone()
});
const UNFIT: Way = (Refusal::UnfitSheet(Fault::Edition { edition: 4 }), |call| {
    call.sheet[3] = 4
});
const OTHER_CLASS: Way = (Refusal::OtherKeyClass, |call| call.keys = pair(12));
const STRANGE_KEYS: Way = (Refusal::OtherKeys, |call| call.keys[0] = vec![9; 8]);
const STRANGE_MARK: Way = (Refusal::OtherKeys, |call| {
    call.sheet[15] = call.sheet[15].wrapping_add(1)
});
const NO_SUCH_SLOT: Way = (Refusal::NoSuchSlot, |call| call.slot = SLOTS);
const BROKEN_TEXT: Refusal = Refusal::BrokenText(Break {
    at: 0,
    kind: BreakKind::NoLetter,
});

#[test]
fn the_order_of_a_write() {
    let ways: [Way; 10] = [
        WRONG_KEY,
        TWIN_KEYS,
        UNFIT,
        OTHER_CLASS,
        STRANGE_KEYS,
        STRANGE_MARK,
        NO_SUCH_SLOT,
        (Refusal::Overlong, |call| call.caption = vec![0xff; 193]),
        (BROKEN_TEXT, |call| call.caption = vec![0xff; 192]),
        (Refusal::Worn, |call| call.sheet[4..8].fill(255)),
    ];
    first_of(&ways, Call::write);
}

#[test]
fn the_order_of_a_read() {
    let ways: [Way; 10] = [
        WRONG_KEY,
        TWIN_KEYS,
        (Refusal::WrongSpan, |call| call.window = 191),
        UNFIT,
        OTHER_CLASS,
        STRANGE_KEYS,
        STRANGE_MARK,
        NO_SUCH_SLOT,
        (Refusal::Blank, |call| call.slot = 1),
        (Refusal::Altered(Change::Check { slot: 0 }), |call| {
            let field = sheet_len(SLOTS) - 2 * FIELD;
            call.sheet[field] = call.sheet[field].wrapping_add(1);
        }),
    ];
    first_of(&ways, Call::read);
}

/// Each way beside each later one: the earlier refusal is given.
fn first_of(ways: &[Way], run: fn(Call) -> Result<(), Refusal>) {
    assert_eq!(run(Call::new()), Ok(()));
    for (place, (refusal, way)) in ways.iter().enumerate() {
        for (_, later) in &ways[place..] {
            // The earlier last, so that it isn't undone.
            let mut call = Call::new();
            later(&mut call);
            way(&mut call);
            assert_eq!(run(call), Err(*refusal), "{place}");
        }
    }
}

/// In a dated read 14 comes after 11.
#[test]
fn a_stranger_on_no_day() {
    let keys = pair(8);
    let sheet = own_sheet(Cipher::Mcrypton64, &keys, 7);
    let [sealing, checking] = &strangers(&keys)[0];
    let on = |day| dated_read(sealing, checking, &sheet, &TERMS, 0, day, &mut [7; FIELD]);
    let last = usize::from(LAST_DAY);
    assert_eq!(on(last), Err(Refusal::OtherKeys));
    assert_eq!(on(last + 1), Err(Refusal::NoSuchDate));
}
