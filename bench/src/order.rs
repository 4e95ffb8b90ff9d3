//! The baseline's running order: one number for each slot on show, sorted by Rust's own
//! `sort_unstable`, and each line written into the output at once. The text's length is
//! known before its first byte, so that nothing is copied and nothing taken from the heap.

use crate::baseline::{fit_header, fit_terms, load, Style};
use crate::dates::Conversions;
use reference::{Answer, WRONG_SPAN};

/// A line but its slot's and its length's digits: three spaces, two dates, a line feed.
const FIXED: usize = 24;

pub fn running_order<S: Style + Conversions>(
    sheet: &[u8],
    terms: &[u8],
    date: &[u8],
    out: &mut [u8],
) -> Answer {
    let Some(header) = fit_header::<S>(sheet) else {
        return note(b"unfit\n", out);
    };
    let Some(days) = fit_terms(terms, header.n) else {
        return note(b"unfit\n", out);
    };
    let Some(day) = day_of_text::<S>(date) else {
        return note(b"no such date\n", out);
    };
    let (openings, closings) = days.split_at(header.n);
    let marks = sheet[header.mark(0)..].chunks_exact(16);
    // Opening, slot and length, of which the length has no say: slots are unlike.
    let (mut keys, mut shown, mut total) = ([0u32; 256], 0, 0);
    for (slot, ((opening, closing), mark)) in openings.iter().zip(closings).zip(marks).enumerate() {
        let [opening, closing] = [*opening, *closing].map(u16::from_be_bytes);
        let numbers = load(mark);
        let on = numbers >> 32 != 0 && opening <= day && day <= closing;
        let length = (numbers >> 16) as u8;
        keys[shown & 255] = u32::from(opening) << 16 | (slot as u32) << 8 | u32::from(length);
        shown += usize::from(on);
        let line = FIXED + digits(slot as u8) + digits(length);
        total += if on { line } else { 0 };
    }
    if out.len() < total {
        return Answer::refused(WRONG_SPAN);
    }
    let keys = &mut keys[..shown];
    keys.sort_unstable();
    let mut rest = &mut out[..total];
    for key in keys {
        let slot = (*key >> 8) as u8;
        let closing = u16::from_be_bytes(closings[usize::from(slot)]);
        rest = put_number(rest, slot, b' ');
        rest = put_date::<S>(rest, (*key >> 16) as u16);
        rest = put_date::<S>(rest, closing);
        rest = put_number(rest, *key as u8, b'\n');
    }
    Answer::accepted(total as u16)
}

fn note(text: &[u8], out: &mut [u8]) -> Answer {
    let Some(start) = out.get_mut(..text.len()) else {
        return Answer::refused(WRONG_SPAN);
    };
    start.copy_from_slice(text);
    Answer::accepted(text.len() as u16)
}

#[inline(always)]
fn digits(number: u8) -> usize {
    1 + usize::from(number >= 10) + usize::from(number >= 100)
}

/// The digits of a number and the byte after them; what is left of the output.
#[inline(always)]
fn put_number(out: &mut [u8], number: u8, end: u8) -> &mut [u8] {
    let [hundreds, tens, ones] = [number / 100, number / 10 % 10, number % 10].map(|d| b'0' + d);
    match number {
        100.. => put(out, [hundreds, tens, ones, end]),
        10.. => put(out, [tens, ones, end]),
        _ => put(out, [ones, end]),
    }
}

#[inline(always)]
fn put<const N: usize>(out: &mut [u8], bytes: [u8; N]) -> &mut [u8] {
    let (start, rest) = out.split_at_mut(N);
    start.copy_from_slice(&bytes);
    rest
}

/// The date of a day up to the last, and a space.
#[inline(always)]
fn put_date<S: Conversions>(out: &mut [u8], day: u16) -> &mut [u8] {
    let [y0, y1, y2, y3, h, m0, m1, i, d0, d1] = date_text::<S>(day);
    put(out, [y0, y1, y2, y3, h, m0, m1, i, d0, d1, b' '])
}

/// Years here are of 2000 to 2099.
#[inline(always)]
fn date_text<S: Conversions>(day: u16) -> [u8; 10] {
    let (year, month, day) = S::date(usize::from(day));
    let two = |number: u8| [b'0' + number / 10, b'0' + number % 10];
    let ([y2, y3], [m0, m1], [d0, d1]) = (two((year - 2000) as u8), two(month), two(day));
    [b'2', b'0', y2, y3, b'-', m0, m1, b'-', d0, d1]
}

#[inline(always)]
fn day_of_text<S: Conversions>(text: &[u8]) -> Option<u16> {
    let [b'2', b'0', y2, y3, b'-', m0, m1, b'-', d0, d1] = *text else {
        return None;
    };
    let two = |tens: u8, ones: u8| {
        let [tens, ones] = [tens, ones].map(|digit| usize::from(digit.wrapping_sub(b'0')));
        (tens < 10 && ones < 10).then_some(10 * tens + ones)
    };
    S::day(2000 + two(y2, y3)?, two(m0, m1)?, two(d0, d1)?)
}
