//! The two ciphers: PRESENT's published vectors, the table of ciphers beside what the
//! library takes, and a sheet of each through every function.

use captions::{
    blank, clear, dated_read, first_fault, list, present_decrypt_block, present_encrypt_block,
    read, sheet_len, sheet_len_1, write, Cipher, Fault, Refusal, FIELD,
};

/// The vectors of PRESENT's authors: bytes of the key, the byte that it is made of,
/// that of the block, and the sealed block.
const VECTORS: [(usize, u8, u8, u64); 8] = [
    (10, 0x00, 0x00, 0x5579c1387b228445),
    (10, 0xff, 0x00, 0xe72c46c0f5945049),
    (10, 0x00, 0xff, 0xa112ffc72f68417b),
    (10, 0xff, 0xff, 0x3333dcd3213210d2),
    (16, 0x00, 0x00, 0x96db702a2e6900af),
    (16, 0xff, 0x00, 0x13238c710272a5d8),
    (16, 0x00, 0xff, 0x3c6019e5e5edd563),
    (16, 0xff, 0xff, 0x628d9fbd4218e5b4),
];

#[test]
fn the_vectors_of_presents_authors() {
    for (length, key, block, sealed) in VECTORS {
        let (key, block, sealed) = (vec![key; length], [block; 8], sealed.to_be_bytes());
        let mut out = [0; 8];
        assert_eq!(present_encrypt_block(&key, &block, &mut out), Ok(()));
        assert_eq!(out, sealed);
        assert_eq!(present_decrypt_block(&key, &sealed, &mut out), Ok(()));
        assert_eq!(out, block);
    }
}

/// Unlike keys of so many bytes.
fn pair(bytes: usize) -> [Vec<u8>; 2] {
    [3, 90].map(|first| (first..).take(bytes).collect())
}

/// Of all numbers and key lengths the library takes those that the table has, and the
/// listing's key bits are the table's.
#[test]
fn the_ciphers_are_those_that_the_library_takes() {
    for class in (0..=600).chain([65557, usize::MAX]) {
        let cipher = u8::try_from(class).ok().and_then(Cipher::of_class);
        for length in 0..=32 {
            let [sealing, checking] = pair(length);
            let mut sheet = vec![7; sheet_len(1)];
            let answer = blank(&mut sheet, 1, class, 1, &sealing, &checking);
            let expected = match cipher {
                Some(cipher) if cipher.key_bytes() == length => Ok(()),
                Some(_) if [8, 10, 12, 16].contains(&length) => Err(Refusal::OtherKeyClass),
                _ => Err(Refusal::WrongKey),
            };
            assert_eq!(answer, expected, "{class} {length}");
            if let (Ok(()), Some(cipher)) = (answer, cipher) {
                assert_eq!(sheet[2], cipher.class());
                let line = format!("slots 1 key {} last 0\n0 blank\n", cipher.key_bits());
                assert_eq!(list(&sheet), line.as_bytes());
            }
        }
    }
    for cipher in Cipher::ALL {
        assert_eq!(Cipher::of_class(cipher.class()), Some(cipher));
    }
    let names = Cipher::ALL.map(|cipher| cipher.to_string());
    assert_eq!(names[1], "mCrypton with 96 bits");
    assert_eq!(names[3], "PRESENT with 80 bits");
}

/// By the cipher and by its number alike.
#[test]
fn a_sheet_of_each_cipher_through_every_function() {
    let terms = [2_u16, 0, 0, 9, 9].map(u16::to_be_bytes).concat();
    for cipher in Cipher::ALL {
        let [sealing, checking] = pair(cipher.key_bytes());
        let [mut sheet, mut other] = [(); 2].map(|()| vec![0xff; sheet_len(2)]);
        blank(&mut sheet, 2, cipher, 1, &sealing, &checking).unwrap();
        let class = usize::from(cipher.class());
        blank(&mut other, 2, class, 1, &sealing, &checking).unwrap();
        assert_eq!(sheet, other);

        write(&sealing, &checking, &mut sheet, 1, "Café".as_bytes()).unwrap();
        let mut window = [7; FIELD];
        assert_eq!(read(&sealing, &checking, &sheet, 1, &mut window), Ok(5));
        assert_eq!(&window[..5], "Café".as_bytes());
        let mut on = |day| dated_read(&sealing, &checking, &sheet, &terms, 1, day, &mut window);
        assert_eq!((on(9), on(10)), (Ok(5), Err(Refusal::NotOnShow)));
        let exchanged = read(&checking, &sealing, &sheet, 1, &mut window);
        assert_eq!(exchanged, Err(Refusal::OtherKeys));
        clear(&mut sheet, 1).unwrap();
        let answer = read(&sealing, &checking, &sheet, 1, &mut window);
        assert_eq!(answer, Err(Refusal::Blank));
        let bits = cipher.key_bits();
        let listing = format!("slots 2 key {bits} last 1\n0 blank\n1 blank\n");
        assert_eq!(list(&sheet), listing.as_bytes());
    }
}

/// Keys of 16 bytes belong to the sheet that was blanked with them, whichever cipher
/// that has: the mark is the class's too.
#[test]
fn keys_of_sixteen_bytes_are_of_one_cipher_on_a_sheet() {
    let [sealing, checking] = pair(16);
    for (one, other) in [
        (Cipher::Mcrypton128, Cipher::Present128),
        (Cipher::Present128, Cipher::Mcrypton128),
    ] {
        let mut sheet = vec![0; sheet_len(1)];
        blank(&mut sheet, 1, one, 1, &sealing, &checking).unwrap();
        write(&sealing, &checking, &mut sheet, 0, b"Clock").unwrap();
        let mut window = [7; FIELD];
        let strange = read(&[9; 16], &checking, &sheet, 0, &mut window);
        assert_eq!(strange, Err(Refusal::OtherKeys));
        sheet[2] = other.class();
        let answer = read(&sealing, &checking, &sheet, 0, &mut window);
        assert_eq!(answer, Err(Refusal::OtherKeys));
    }
}

/// PRESENT's numbers are fit in edition 3 alone; byte 2 is held to its rule before
/// byte 3 is.
#[test]
fn byte_2_at_every_value_in_every_edition() {
    for edition in [0, 1, 2, 3, 4, 255] {
        for class in 0..=255 {
            let mut sheet = match edition {
                1 => vec![0; sheet_len_1(1)],
                _ => vec![0; sheet_len(1)],
            };
            sheet[..4].copy_from_slice(&[0, 1, class, edition]);
            let fits = match Cipher::of_class(class) {
                Some(Cipher::Present80 | Cipher::Present128) => edition == 3,
                cipher => cipher.is_some(),
            };
            let fault = match (fits, edition) {
                (false, _) => Some(Fault::KeyWords { words: class }),
                (true, 1..=3) => None,
                (true, _) => Some(Fault::Edition { edition }),
            };
            assert_eq!(first_fault(&sheet), fault);
        }
    }
}
