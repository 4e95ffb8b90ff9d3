//! Lists of writes and clears against the book, with reads at the end
//! (document 01, "The book of demand 3"; document 02, requests 3, 7, 9 and 10).

use crate::edition::Edition;
use crate::letters::{any_text, bad_text, good_text};
use crate::random::Random;
use crate::strangers::stranger;
use crate::support::*;
use reference::Book;

/// A slot: most often one of the sheet, else n or more.
fn random_slot(random: &mut Random, n: usize) -> usize {
    if random.below(8) == 0 {
        random.pick(&[n, n + 1, n + 256, n + 65536, usize::MAX])
    } else {
        random.below(n)
    }
}

/// A caption: lengths about every edge, and others; well formed and broken ones.
fn random_caption(random: &mut Random) -> Vec<u8> {
    let any = random.below(220);
    let length = random.pick(&[0, 1, 7, 8, 9, 191, 192, 193, 1000, any, any, any]);
    match random.below(8) {
        0 => vec![0; length],
        1 => random.bytes(length),
        2 => any_text(random, 80),
        3 if length > 0 => bad_text(random, length),
        _ => good_text(random, length),
    }
}

/// How many writes gave each number.
type Numbers = [usize; 16];

/// Runs a list of calls on a blank sheet with some w and on a book with that
/// count. Where `strangers` says so, about one call in three is a stranger's
/// write, of which the book hears nothing.
fn run(
    random: &mut Random,
    (edition, t): (Edition, usize),
    (n, w): (usize, u32),
    calls: usize,
    mut strangers: Option<&mut Numbers>,
) -> Numbers {
    let keys = unlike(random, t);
    let blanked = blank_for(edition, &keys, n, t);
    let mut sheet = blanked.clone();
    set_w(&mut sheet, w);
    let mut book = Book::new(n);
    book.count = w;
    let mut given = [0; 16];
    for _ in 0..calls {
        let slot = random_slot(random, n);
        if let Some(met) = strangers.as_mut().filter(|_| random.below(3) == 0) {
            let caption = random_caption(random);
            let number = strange_write(random, &keys, &blanked, &mut sheet, slot, &caption);
            met[usize::from(number)] += 1;
        } else if random.below(4) == 0 {
            let answer = reference::clear(&mut sheet, slot);
            assert_eq!(answer, refused(book.clear(slot)));
        } else {
            let caption = random_caption(random);
            let answer = write(&keys, &mut sheet, slot, &caption);
            assert_eq!(answer, refused(book.write(slot, &caption)));
            given[usize::from(answer.number)] += 1;
        }
        assert!(reference::fit(&sheet));
    }
    assert_eq!(w_of(&sheet), book.count);
    let mut header = blanked[..edition.header()].to_vec();
    set_w(&mut header, book.count);
    assert_eq!(sheet[..edition.header()], header);
    for slot in 0..n {
        let (answer, window) = read(&keys, &sheet, slot);
        assert_eq!(Some((answer, window)), book.reading(slot));
        let caption = &window[..usize::from(answer.length)];
        assert!(std::str::from_utf8(caption).is_ok());
    }
    given
}

/// A stranger's write: it gives the refusal that the stranger's keys meet with
/// the sheet as blanked, and changes nothing.
fn strange_write(
    random: &mut Random,
    keys: &(Vec<u8>, Vec<u8>),
    blanked: &[u8],
    sheet: &mut [u8],
    slot: usize,
    caption: &[u8],
) -> u8 {
    let (stranger, number) = stranger(random, blanked[3], keys);
    let refusal = reference::key_refusal(&stranger.0, &stranger.1, blanked);
    assert_eq!(refusal, number);
    let before = sheet.to_vec();
    assert_eq!(write(&stranger, sheet, slot, caption), refused(number));
    assert_eq!(sheet, before);
    number
}

#[test]
fn random_lists_on_small_sheets() {
    let mut random = Random::new(90);
    for kind in kinds() {
        for _ in 0..40 {
            let n = 1 + random.below(6);
            let calls = random.below(40);
            run(&mut random, kind, (n, 0), calls, None);
        }
    }
}

/// The book hears of a broken caption, gives 15 and changes nothing; so does the
/// sheet. Every number of a write is met many times.
#[test]
fn random_lists_with_broken_captions() {
    let mut random = Random::new(97);
    let mut given = [0; 16];
    for kind in kinds() {
        for w in [0, u32::MAX - 3] {
            for _ in 0..60 {
                let n = 1 + random.below(4);
                let numbers = run(&mut random, kind, (n, w), 30, None);
                given = std::array::from_fn(|number| given[number] + numbers[number]);
            }
        }
    }
    report(&format!("writes of random lists by number: {given:?}"));
    let any: Vec<usize> = (0..16).filter(|number| given[*number] > 0).collect();
    assert_eq!(any, [0, 6, 7, 8, 15]);
    assert!(any.iter().all(|number| given[*number] > 1000));
}

#[test]
fn random_lists_with_every_serial() {
    let mut random = Random::new(94);
    for serial in Edition::SERIALS {
        for edition in [Edition::Two(serial), Edition::Three(serial)] {
            for t in classes_of(edition) {
                for _ in 0..5 {
                    run(&mut random, (edition, *t), (3, 0), 20, None);
                }
            }
        }
    }
}

#[test]
fn the_empty_list() {
    let mut random = Random::new(91);
    for kind in kinds() {
        for n in [1, 2, 256] {
            run(&mut random, kind, (n, 0), 0, None);
        }
    }
}

#[test]
fn random_lists_on_the_longest_sheet() {
    let mut random = Random::new(92);
    for kind in kinds() {
        run(&mut random, kind, (256, 0), 300, None);
    }
}

/// Not from a blank sheet's w, but from one that is near its end.
#[test]
fn random_lists_on_a_sheet_that_wears_out() {
    let mut random = Random::new(93);
    for kind in kinds() {
        for left in [0, 1, 2, 5] {
            run(&mut random, kind, (3, u32::MAX - left), 25, None);
        }
    }
}

/// Strangers of every kind, on small sheets, long ones and worn ones.
#[test]
fn random_lists_with_strangers() {
    let mut random = Random::new(95);
    for edition in Edition::ALL {
        let mut met = [0; 16];
        for &t in classes_of(edition) {
            for _ in 0..60 {
                let n = 1 + random.below(6);
                let calls = random.below(40);
                run(&mut random, (edition, t), (n, 0), calls, Some(&mut met));
            }
            run(&mut random, (edition, t), (256, 0), 100, Some(&mut met));
            for left in [0, 1, 2, 5] {
                let w = u32::MAX - left;
                run(&mut random, (edition, t), (3, w), 25, Some(&mut met));
            }
        }
        report(&format!(
            "strangers' writes by number, {edition:?}: {met:?}"
        ));
        let numbers: &[usize] = match edition {
            Edition::Three(_) => &[1, 2, 5, 14],
            _ => &[1, 2, 5],
        };
        let any: Vec<usize> = (0..16).filter(|number| met[*number] > 0).collect();
        assert_eq!(any, numbers);
        assert!(any.iter().all(|number| met[*number] > 100));
    }
}

/// A list of strangers alone leaves a blank sheet.
#[test]
fn a_list_of_strangers_alone() {
    let mut random = Random::new(96);
    for (edition, t) in kinds() {
        let keys = unlike(&mut random, t);
        let blanked = blank_for(edition, &keys, 2, t);
        let mut sheet = blanked.clone();
        for _ in 0..100 {
            let slot = random_slot(&mut random, 2);
            strange_write(&mut random, &keys, &blanked, &mut sheet, slot, b"mine");
        }
        assert_eq!(sheet, blanked);
        for slot in 0..2 {
            assert_eq!(read(&keys, &sheet, slot), (refused(9), [0; 192]));
        }
    }
}

#[test]
fn the_book_itself() {
    let mut book = Book::new(2);
    assert_eq!(book.reading(0), Some((refused(9), [0; 192])));
    assert_eq!(book.reading(2), None);
    assert_eq!(book.write(0, b"abc"), 0);
    assert_eq!(book.write(0, b""), 0);
    assert_eq!(book.write(1, b"abc"), 0);
    assert_eq!(book.count, 3);
    assert_eq!(book.reading(0), Some((accepted(0), [0; 192])));
    assert_eq!(book.reading(1), Some((accepted(3), shown(b"abc"))));
    assert_eq!(book.clear(1), 0);
    assert_eq!(book.clear(1), 0);
    assert_eq!(book.reading(1), Some((refused(9), [0; 192])));
    assert_eq!(book.count, 3);

    let before = book.clone();
    assert_eq!(book.write(0, b"caf\xc3"), 15);
    assert_eq!(book.write(1, b"\x80"), 15);
    assert_eq!(book, before);

    book.count = u32::MAX;
    let before = book.clone();
    assert_eq!(book.write(2, &[0; 193]), 6);
    assert_eq!(book.write(2, &[0xff; 193]), 6);
    assert_eq!(book.write(2, &[0xff; 192]), 6);
    assert_eq!(book.write(1, &[0; 193]), 7);
    assert_eq!(book.write(1, &[0xff; 193]), 7);
    assert_eq!(book.write(1, &[0xff; 192]), 15);
    assert_eq!(book.write(1, &[0; 192]), 8);
    assert_eq!(book.clear(2), 6);
    assert_eq!(book.clear(usize::MAX), 6);
    assert_eq!(book, before);
    assert_eq!(book.clear(0), 0);
}

#[test]
fn a_book_of_any_size_is_taken() {
    let mut book = Book::new(usize::MAX);
    assert_eq!(book.write(usize::MAX - 1, b"far"), 0);
    assert_eq!(book.write(usize::MAX, b"far"), 6);
    let mut empty = Book::new(0);
    assert_eq!(empty.write(0, b""), 6);
    assert_eq!(empty.clear(0), 6);
}
