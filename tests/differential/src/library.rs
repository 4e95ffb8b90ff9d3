//! The calls of the static library, over slices.

use reference::modes::cmac_with;
use reference::{Answer, DateAnswer, DayAnswer, Pointed};

mod c {
    #[repr(C)]
    pub struct Answer {
        pub number: u8,
        pub length: u16,
    }

    #[repr(C)]
    pub struct Pointed {
        pub number: u8,
        pub rule: u8,
        pub length: u16,
        pub slot: u16,
        pub place: u16,
    }

    #[repr(C)]
    pub struct Day {
        pub number: u8,
        pub day: u16,
    }

    #[repr(C)]
    pub struct Date {
        pub number: u8,
        pub year: u16,
        pub month: u8,
        pub day: u8,
    }

    extern "C" {
        pub fn captions_encrypt_block(
            key: *const u8,
            key_len: usize,
            block: *const u8,
            block_len: usize,
            path: u16,
            out: *mut u8,
            out_len: usize,
        ) -> Answer;
        pub fn captions_decrypt_block(
            key: *const u8,
            key_len: usize,
            block: *const u8,
            block_len: usize,
            path: u16,
            out: *mut u8,
            out_len: usize,
        ) -> Answer;
        pub fn captions_present_encrypt_block(
            key: *const u8,
            key_len: usize,
            block: *const u8,
            block_len: usize,
            out: *mut u8,
            out_len: usize,
        ) -> Answer;
        pub fn captions_present_decrypt_block(
            key: *const u8,
            key_len: usize,
            block: *const u8,
            block_len: usize,
            out: *mut u8,
            out_len: usize,
        ) -> Answer;
        pub fn captions_bench_block(
            key: *const u8,
            key_len: usize,
            round: usize,
            wanted: *const u8,
            wanted_len: usize,
            out: *mut u8,
            out_len: usize,
        ) -> Answer;
        pub fn captions_cmac(
            key: *const u8,
            key_len: usize,
            message: *const u8,
            message_len: usize,
            out: *mut u8,
            out_len: usize,
        ) -> Answer;
        pub fn captions_panel(
            key: *const u8,
            key_len: usize,
            first: u64,
            panel: *const u8,
            panel_len: usize,
            out: *mut u8,
            out_len: usize,
        ) -> Answer;
        pub fn captions_blank(
            sheet: *mut u8,
            sheet_len: usize,
            slots: usize,
            key_words: usize,
            serial: u16,
            sealing_key: *const u8,
            sealing_len: usize,
            checking_key: *const u8,
            checking_len: usize,
        ) -> Answer;
        pub fn captions_write(
            sealing_key: *const u8,
            sealing_len: usize,
            checking_key: *const u8,
            checking_len: usize,
            sheet: *mut u8,
            sheet_len: usize,
            slot: usize,
            caption: *const u8,
            caption_len: usize,
        ) -> Pointed;
        pub fn captions_clear(sheet: *mut u8, sheet_len: usize, slot: usize) -> Answer;
        pub fn captions_read(
            sealing_key: *const u8,
            sealing_len: usize,
            checking_key: *const u8,
            checking_len: usize,
            sheet: *const u8,
            sheet_len: usize,
            slot: usize,
            window: *mut u8,
            window_len: usize,
        ) -> Pointed;
        pub fn captions_dated_read(
            sealing_key: *const u8,
            sealing_len: usize,
            checking_key: *const u8,
            checking_len: usize,
            sheet: *const u8,
            sheet_len: usize,
            terms: *const u8,
            terms_len: usize,
            slot: usize,
            day: usize,
            window: *mut u8,
            window_len: usize,
        ) -> Pointed;
        pub fn captions_broken_at(text: *const u8, text_len: usize) -> usize;
        pub fn captions_day_of_date(year: usize, month: usize, day: usize) -> Day;
        pub fn captions_date_of_day(day: usize) -> Date;
        pub fn captions_list(
            sheet: *const u8,
            sheet_len: usize,
            out: *mut u8,
            out_len: usize,
        ) -> usize;
        pub fn captions_running_order(
            sheet: *const u8,
            sheet_len: usize,
            terms: *const u8,
            terms_len: usize,
            date: *const u8,
            date_len: usize,
            out: *mut u8,
            out_len: usize,
        ) -> Answer;
    }
}

/// The second program's type of answer, so that the two can be compared.
#[inline]
fn answer(answer: c::Answer) -> Answer {
    Answer {
        number: answer.number,
        length: answer.length,
    }
}

/// The same of an answer that points.
#[inline]
fn pointed(answer: c::Pointed) -> Pointed {
    Pointed {
        number: answer.number,
        rule: answer.rule,
        length: answer.length,
        slot: answer.slot,
        place: answer.place,
    }
}

// In each call a slice's pointer and length go together, which is all that
// the library asks; an exclusive slice overlaps no other.

#[inline]
pub fn encrypt_block(key: &[u8], block: &[u8], path: u16, out: &mut [u8]) -> Answer {
    answer(unsafe {
        c::captions_encrypt_block(
            key.as_ptr(),
            key.len(),
            block.as_ptr(),
            block.len(),
            path,
            out.as_mut_ptr(),
            out.len(),
        )
    })
}

#[inline]
pub fn decrypt_block(key: &[u8], block: &[u8], path: u16, out: &mut [u8]) -> Answer {
    answer(unsafe {
        c::captions_decrypt_block(
            key.as_ptr(),
            key.len(),
            block.as_ptr(),
            block.len(),
            path,
            out.as_mut_ptr(),
            out.len(),
        )
    })
}

#[inline]
pub fn present_encrypt_block(key: &[u8], block: &[u8], out: &mut [u8]) -> Answer {
    answer(unsafe {
        c::captions_present_encrypt_block(
            key.as_ptr(),
            key.len(),
            block.as_ptr(),
            block.len(),
            out.as_mut_ptr(),
            out.len(),
        )
    })
}

#[inline]
pub fn present_decrypt_block(key: &[u8], block: &[u8], out: &mut [u8]) -> Answer {
    answer(unsafe {
        c::captions_present_decrypt_block(
            key.as_ptr(),
            key.len(),
            block.as_ptr(),
            block.len(),
            out.as_mut_ptr(),
            out.len(),
        )
    })
}

#[inline]
pub fn bench_block(key: &[u8], round: usize, wanted: &[u8], out: &mut [u8]) -> Answer {
    answer(unsafe {
        c::captions_bench_block(
            key.as_ptr(),
            key.len(),
            round,
            wanted.as_ptr(),
            wanted.len(),
            out.as_mut_ptr(),
            out.len(),
        )
    })
}

#[inline]
pub fn cmac(key: &[u8], message: &[u8], out: &mut [u8]) -> Answer {
    answer(unsafe {
        c::captions_cmac(
            key.as_ptr(),
            key.len(),
            message.as_ptr(),
            message.len(),
            out.as_mut_ptr(),
            out.len(),
        )
    })
}

#[inline]
pub fn panel(key: &[u8], first: u64, panel: &[u8], out: &mut [u8]) -> Answer {
    answer(unsafe {
        c::captions_panel(
            key.as_ptr(),
            key.len(),
            first,
            panel.as_ptr(),
            panel.len(),
            out.as_mut_ptr(),
            out.len(),
        )
    })
}

#[inline]
pub fn blank(
    sheet: &mut [u8],
    slots: usize,
    key_words: usize,
    serial: u16,
    sealing_key: &[u8],
    checking_key: &[u8],
) -> Answer {
    answer(unsafe {
        c::captions_blank(
            sheet.as_mut_ptr(),
            sheet.len(),
            slots,
            key_words,
            serial,
            sealing_key.as_ptr(),
            sealing_key.len(),
            checking_key.as_ptr(),
            checking_key.len(),
        )
    })
}

#[inline]
pub fn write(
    sealing_key: &[u8],
    checking_key: &[u8],
    sheet: &mut [u8],
    slot: usize,
    caption: &[u8],
) -> Pointed {
    pointed(unsafe {
        c::captions_write(
            sealing_key.as_ptr(),
            sealing_key.len(),
            checking_key.as_ptr(),
            checking_key.len(),
            sheet.as_mut_ptr(),
            sheet.len(),
            slot,
            caption.as_ptr(),
            caption.len(),
        )
    })
}

/// Where a text breaks: the place of the first byte at which no well-formed text
/// can go on, or its length.
#[inline]
pub fn broken_at(text: &[u8]) -> usize {
    unsafe { c::captions_broken_at(text.as_ptr(), text.len()) }
}

#[inline]
pub fn clear(sheet: &mut [u8], slot: usize) -> Answer {
    answer(unsafe { c::captions_clear(sheet.as_mut_ptr(), sheet.len(), slot) })
}

#[inline]
pub fn read(
    sealing_key: &[u8],
    checking_key: &[u8],
    sheet: &[u8],
    slot: usize,
    window: &mut [u8],
) -> Pointed {
    pointed(unsafe {
        c::captions_read(
            sealing_key.as_ptr(),
            sealing_key.len(),
            checking_key.as_ptr(),
            checking_key.len(),
            sheet.as_ptr(),
            sheet.len(),
            slot,
            window.as_mut_ptr(),
            window.len(),
        )
    })
}

#[inline]
pub fn dated_read(
    sealing_key: &[u8],
    checking_key: &[u8],
    sheet: &[u8],
    terms: &[u8],
    slot: usize,
    day: usize,
    window: &mut [u8],
) -> Pointed {
    pointed(unsafe {
        c::captions_dated_read(
            sealing_key.as_ptr(),
            sealing_key.len(),
            checking_key.as_ptr(),
            checking_key.len(),
            sheet.as_ptr(),
            sheet.len(),
            terms.as_ptr(),
            terms.len(),
            slot,
            day,
            window.as_mut_ptr(),
            window.len(),
        )
    })
}

#[inline]
pub fn day_of_date(year: usize, month: usize, day: usize) -> DayAnswer {
    let c::Day { number, day } = unsafe { c::captions_day_of_date(year, month, day) };
    DayAnswer { number, day }
}

#[inline]
pub fn date_of_day(day: usize) -> DateAnswer {
    let date = unsafe { c::captions_date_of_day(day) };
    DateAnswer {
        number: date.number,
        year: date.year,
        month: date.month,
        day: date.day,
    }
}

/// The bytes of the listing written; 0, and `out` as it was, where it is too
/// small.
#[inline]
pub fn list(sheet: &[u8], out: &mut [u8]) -> usize {
    unsafe { c::captions_list(sheet.as_ptr(), sheet.len(), out.as_mut_ptr(), out.len()) }
}

#[inline]
pub fn running_order(sheet: &[u8], terms: &[u8], date: &[u8], out: &mut [u8]) -> Answer {
    answer(unsafe {
        c::captions_running_order(
            sheet.as_ptr(),
            sheet.len(),
            terms.as_ptr(),
            terms.len(),
            date.as_ptr(),
            date.len(),
            out.as_mut_ptr(),
            out.len(),
        )
    })
}

// ---- By the class of a sheet ----

/// A block encrypted with the cipher of a class, mCrypton's by a path number.
pub fn encrypted(t: usize, key: &[u8], block: [u8; 8], path: u16) -> [u8; 8] {
    let mut out = [0; 8];
    let answer = match t {
        21 | 24 => present_encrypt_block(key, &block, &mut out),
        _ => encrypt_block(key, &block, path, &mut out),
    };
    assert_eq!(answer.number, 0);
    out
}

/// A block decrypted with the cipher of a class, mCrypton's by a path number.
pub fn decrypted(t: usize, key: &[u8], block: [u8; 8], path: u16) -> [u8; 8] {
    let mut out = [0; 8];
    let answer = match t {
        21 | 24 => present_decrypt_block(key, &block, &mut out),
        _ => decrypt_block(key, &block, path, &mut out),
    };
    assert_eq!(answer.number, 0);
    out
}

/// CMAC with the cipher of a class. For PRESENT's there is no call: it is the second
/// program's, over the library's blocks.
pub fn check(t: usize, key: &[u8], message: &[u8]) -> [u8; 8] {
    if let 21 | 24 = t {
        return cmac_with(&|block| encrypted(t, key, block, 0), message);
    }
    let mut out = [0; 8];
    assert_eq!(cmac(key, message, &mut out).number, 0);
    out
}
