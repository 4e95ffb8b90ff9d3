//! The proved library's functions, each lent slices: the only unsafe code.
//!
//! What the library asks of a caller (`include/captions.h`) holds of every
//! slice: its pointer isn't null, also where it is empty, it is good for its
//! length, and a `&mut` slice overlaps no other. The library keeps no pointer.

/// `captions_answer`.
#[repr(C)]
pub struct Answer {
    pub number: u8,
    pub length: u16,
}

/// `captions_pointed`.
#[repr(C)]
pub struct Pointed {
    pub number: u8,
    pub rule: u8,
    pub length: u16,
    pub slot: u16,
    pub place: u16,
}

/// `captions_day`.
#[repr(C)]
pub struct Day {
    pub number: u8,
    pub day: u16,
}

/// `captions_date`.
#[repr(C)]
pub struct Date {
    pub number: u8,
    pub year: u16,
    pub month: u8,
    pub day: u8,
}

mod c {
    use super::{Answer, Date, Day, Pointed};

    extern "C" {
        pub fn captions_encrypt_block(
            key: *const u8,
            key_len: usize,
            block: *const u8,
            block_len: usize,
            path: u16,
            out: *mut u8,
            out_len: usize,
        ) -> Answer;
        pub fn captions_decrypt_block(
            key: *const u8,
            key_len: usize,
            block: *const u8,
            block_len: usize,
            path: u16,
            out: *mut u8,
            out_len: usize,
        ) -> Answer;
        pub fn captions_present_encrypt_block(
            key: *const u8,
            key_len: usize,
            block: *const u8,
            block_len: usize,
            out: *mut u8,
            out_len: usize,
        ) -> Answer;
        pub fn captions_present_decrypt_block(
            key: *const u8,
            key_len: usize,
            block: *const u8,
            block_len: usize,
            out: *mut u8,
            out_len: usize,
        ) -> Answer;
        pub fn captions_bench_block(
            key: *const u8,
            key_len: usize,
            round: usize,
            wanted: *const u8,
            wanted_len: usize,
            out: *mut u8,
            out_len: usize,
        ) -> Answer;
        pub fn captions_cmac(
            key: *const u8,
            key_len: usize,
            message: *const u8,
            message_len: usize,
            out: *mut u8,
            out_len: usize,
        ) -> Answer;
        pub fn captions_panel(
            key: *const u8,
            key_len: usize,
            first: u64,
            panel: *const u8,
            panel_len: usize,
            out: *mut u8,
            out_len: usize,
        ) -> Answer;
        pub fn captions_blank(
            sheet: *mut u8,
            sheet_len: usize,
            slots: usize,
            key_class: usize,
            serial: u16,
            sealing_key: *const u8,
            sealing_len: usize,
            checking_key: *const u8,
            checking_len: usize,
        ) -> Answer;
        pub fn captions_write(
            sealing_key: *const u8,
            sealing_len: usize,
            checking_key: *const u8,
            checking_len: usize,
            sheet: *mut u8,
            sheet_len: usize,
            slot: usize,
            caption: *const u8,
            caption_len: usize,
        ) -> Pointed;
        pub fn captions_broken_at(text: *const u8, text_len: usize) -> usize;
        pub fn captions_clear(sheet: *mut u8, sheet_len: usize, slot: usize) -> Answer;
        pub fn captions_read(
            sealing_key: *const u8,
            sealing_len: usize,
            checking_key: *const u8,
            checking_len: usize,
            sheet: *const u8,
            sheet_len: usize,
            slot: usize,
            window: *mut u8,
            window_len: usize,
        ) -> Pointed;
        pub fn captions_dated_read(
            sealing_key: *const u8,
            sealing_len: usize,
            checking_key: *const u8,
            checking_len: usize,
            sheet: *const u8,
            sheet_len: usize,
            terms: *const u8,
            terms_len: usize,
            slot: usize,
            day: usize,
            window: *mut u8,
            window_len: usize,
        ) -> Pointed;
        pub fn captions_day_of_date(year: usize, month: usize, day: usize) -> Day;
        pub fn captions_date_of_day(day: usize) -> Date;
        pub fn captions_list(
            sheet: *const u8,
            sheet_len: usize,
            out: *mut u8,
            out_len: usize,
        ) -> usize;
        pub fn captions_running_order(
            sheet: *const u8,
            sheet_len: usize,
            terms: *const u8,
            terms_len: usize,
            date: *const u8,
            date_len: usize,
            out: *mut u8,
            out_len: usize,
        ) -> Answer;
    }
}

pub fn encrypt_block(key: &[u8], block: &[u8], path: u16, out: &mut [u8]) -> Answer {
    // SAFETY: as at the head of this file.
    unsafe {
        c::captions_encrypt_block(
            key.as_ptr(),
            key.len(),
            block.as_ptr(),
            block.len(),
            path,
            out.as_mut_ptr(),
            out.len(),
        )
    }
}

pub fn decrypt_block(key: &[u8], block: &[u8], path: u16, out: &mut [u8]) -> Answer {
    // SAFETY: as at the head of this file.
    unsafe {
        c::captions_decrypt_block(
            key.as_ptr(),
            key.len(),
            block.as_ptr(),
            block.len(),
            path,
            out.as_mut_ptr(),
            out.len(),
        )
    }
}

pub fn present_encrypt_block(key: &[u8], block: &[u8], out: &mut [u8]) -> Answer {
    // SAFETY: as at the head of this file.
    unsafe {
        c::captions_present_encrypt_block(
            key.as_ptr(),
            key.len(),
            block.as_ptr(),
            block.len(),
            out.as_mut_ptr(),
            out.len(),
        )
    }
}

pub fn present_decrypt_block(key: &[u8], block: &[u8], out: &mut [u8]) -> Answer {
    // SAFETY: as at the head of this file.
    unsafe {
        c::captions_present_decrypt_block(
            key.as_ptr(),
            key.len(),
            block.as_ptr(),
            block.len(),
            out.as_mut_ptr(),
            out.len(),
        )
    }
}

pub fn bench_block(key: &[u8], round: usize, wanted: &[u8], out: &mut [u8]) -> Answer {
    // SAFETY: as at the head of this file.
    unsafe {
        c::captions_bench_block(
            key.as_ptr(),
            key.len(),
            round,
            wanted.as_ptr(),
            wanted.len(),
            out.as_mut_ptr(),
            out.len(),
        )
    }
}

pub fn cmac(key: &[u8], message: &[u8], out: &mut [u8]) -> Answer {
    // SAFETY: as at the head of this file.
    unsafe {
        c::captions_cmac(
            key.as_ptr(),
            key.len(),
            message.as_ptr(),
            message.len(),
            out.as_mut_ptr(),
            out.len(),
        )
    }
}

pub fn panel(key: &[u8], first: u64, panel: &[u8], out: &mut [u8]) -> Answer {
    unsafe {
        c::captions_panel(
            key.as_ptr(),
            key.len(),
            first,
            panel.as_ptr(),
            panel.len(),
            out.as_mut_ptr(),
            out.len(),
        )
    }
}

pub fn blank(
    sheet: &mut [u8],
    slots: usize,
    key_class: usize,
    serial: u16,
    sealing_key: &[u8],
    checking_key: &[u8],
) -> Answer {
    // SAFETY: as at the head of this file.
    unsafe {
        c::captions_blank(
            sheet.as_mut_ptr(),
            sheet.len(),
            slots,
            key_class,
            serial,
            sealing_key.as_ptr(),
            sealing_key.len(),
            checking_key.as_ptr(),
            checking_key.len(),
        )
    }
}

pub fn write(
    sealing_key: &[u8],
    checking_key: &[u8],
    sheet: &mut [u8],
    slot: usize,
    caption: &[u8],
) -> Pointed {
    // SAFETY: as at the head of this file.
    unsafe {
        c::captions_write(
            sealing_key.as_ptr(),
            sealing_key.len(),
            checking_key.as_ptr(),
            checking_key.len(),
            sheet.as_mut_ptr(),
            sheet.len(),
            slot,
            caption.as_ptr(),
            caption.len(),
        )
    }
}

pub fn broken_at(text: &[u8]) -> usize {
    // SAFETY: as at the head of this file.
    unsafe { c::captions_broken_at(text.as_ptr(), text.len()) }
}

pub fn clear(sheet: &mut [u8], slot: usize) -> Answer {
    // SAFETY: as at the head of this file.
    unsafe { c::captions_clear(sheet.as_mut_ptr(), sheet.len(), slot) }
}

pub fn read(
    sealing_key: &[u8],
    checking_key: &[u8],
    sheet: &[u8],
    slot: usize,
    window: &mut [u8],
) -> Pointed {
    // SAFETY: as at the head of this file.
    unsafe {
        c::captions_read(
            sealing_key.as_ptr(),
            sealing_key.len(),
            checking_key.as_ptr(),
            checking_key.len(),
            sheet.as_ptr(),
            sheet.len(),
            slot,
            window.as_mut_ptr(),
            window.len(),
        )
    }
}

pub fn dated_read(
    sealing_key: &[u8],
    checking_key: &[u8],
    sheet: &[u8],
    terms: &[u8],
    slot: usize,
    day: usize,
    window: &mut [u8],
) -> Pointed {
    // SAFETY: as at the head of this file.
    unsafe {
        c::captions_dated_read(
            sealing_key.as_ptr(),
            sealing_key.len(),
            checking_key.as_ptr(),
            checking_key.len(),
            sheet.as_ptr(),
            sheet.len(),
            terms.as_ptr(),
            terms.len(),
            slot,
            day,
            window.as_mut_ptr(),
            window.len(),
        )
    }
}

pub fn day_of_date(year: usize, month: usize, day: usize) -> Day {
    // SAFETY: numbers alone, any of which may be given.
    unsafe { c::captions_day_of_date(year, month, day) }
}

pub fn date_of_day(day: usize) -> Date {
    // SAFETY: a number alone, and any may be given.
    unsafe { c::captions_date_of_day(day) }
}

pub fn list(sheet: &[u8], out: &mut [u8]) -> usize {
    // SAFETY: as at the head of this file.
    unsafe { c::captions_list(sheet.as_ptr(), sheet.len(), out.as_mut_ptr(), out.len()) }
}

pub fn running_order(sheet: &[u8], terms: &[u8], date: &[u8], out: &mut [u8]) -> Answer {
    // SAFETY: as at the head of this file.
    unsafe {
        c::captions_running_order(
            sheet.as_ptr(),
            sheet.len(),
            terms.as_ptr(),
            terms.len(),
            date.as_ptr(),
            date.len(),
            out.as_mut_ptr(),
            out.len(),
        )
    }
}
