//! The baseline's conversions: the days before a month stand in a table, and
//! the years are arithmetic. `SameIdeas` has what the library has in place of
//! the table: in a year whose February has 30 days the months start along a
//! line.
//!
//! They are called as the library is: never inlined, and with answers that
//! cross the C interface.

use crate::baseline::{Looped, SameIdeas};
use reference::{DateAnswer, DayAnswer, NO_SUCH_DATE};

const FIRST_YEAR: usize = 2000;
const YEARS: usize = 100;
const LAST_DAY: usize = 36_524;

pub trait Conversions {
    /// The day of a date, if it is one.
    fn day(year: usize, month: usize, day: usize) -> Option<u16>;
    /// Year, month and day of a day up to the last.
    fn date(day: usize) -> (u16, u8, u8);
}

/// A row for common years and one for leap years.
static DAYS_BEFORE: [[u16; 13]; 2] = [
    [0, 31, 59, 90, 120, 151, 181, 212, 243, 273, 304, 334, 365],
    [0, 31, 60, 91, 121, 152, 182, 213, 244, 274, 305, 335, 366],
];

/// The days of a year before month k, counted from 0; its end is month 12.
#[inline(always)]
fn days_before(leap: bool, k: usize) -> u16 {
    DAYS_BEFORE[usize::from(leap)][k]
}

impl Conversions for Looped {
    #[inline(always)]
    fn day(year: usize, month: usize, day: usize) -> Option<u16> {
        // A number below the first wraps far above the last.
        let years = year.wrapping_sub(FIRST_YEAR);
        let months = month.wrapping_sub(1);
        let days = day.wrapping_sub(1);
        if years >= YEARS || months >= 12 {
            return None;
        }
        let leap = years.is_multiple_of(4);
        let start = days_before(leap, months);
        if days >= usize::from(days_before(leap, months + 1) - start) {
            return None;
        }
        // Of four years, which are 1461 days, the first has one more.
        Some(((1461 * years + 3) >> 2) as u16 + start + days as u16)
    }

    #[inline(always)]
    fn date(day: usize) -> (u16, u8, u8) {
        let quarters = 4 * day as u32;
        let (years, days) = (quarters / 1461, (quarters % 1461 / 4) as u16);
        let leap = years.is_multiple_of(4);
        // No month has more than 32 days: so many have passed, or one more.
        let least = usize::from(days / 32);
        let months = least + usize::from(days >= days_before(leap, least + 1));
        let day = days - days_before(leap, months);
        (
            FIRST_YEAR as u16 + years as u16,
            months as u8 + 1,
            day as u8 + 1,
        )
    }
}

/// The start of a month where February has 30 days.
#[inline(always)]
fn long_start(month: usize) -> usize {
    (489 * month - 481) / 16
}

/// Whether a month has a day.
#[inline(always)]
fn month_has(year: usize, month: usize, day: usize) -> bool {
    match month {
        _ if day <= 28 => true,
        2 => day == 29 && year.is_multiple_of(4),
        _ => day <= 30 + (month + month / 8) % 2,
    }
}

impl Conversions for SameIdeas {
    #[inline(always)]
    fn day(year: usize, month: usize, day: usize) -> Option<u16> {
        let within = (FIRST_YEAR..FIRST_YEAR + YEARS).contains(&year);
        if !within || !(1..=12).contains(&month) || day < 1 || !month_has(year, month, day) {
            return None;
        }
        let quarters = 1461 * (year - FIRST_YEAR) + if month <= 2 { 11 } else { 4 };
        Some((quarters / 4 + long_start(month) + day - 3) as u16)
    }

    #[inline(always)]
    fn date(day: usize) -> (u16, u8, u8) {
        let (years, days) = (4 * day / 1461, 4 * day % 1461 / 4);
        let long = match years.is_multiple_of(4) {
            true => days + usize::from(days >= 60),
            false => days + 2 * usize::from(days >= 59),
        };
        let month = (67 * long + 2075) / 2048;
        let day = long - long_start(month) + 1;
        ((FIRST_YEAR + years) as u16, month as u8, day as u8)
    }
}

#[repr(C)]
struct Day {
    number: u8,
    day: u16,
}

#[repr(C)]
struct Date {
    number: u8,
    year: u16,
    month: u8,
    day: u8,
}

#[inline(always)]
pub fn day_of_date<C: Conversions>(year: usize, month: usize, day: usize) -> DayAnswer {
    let Day { number, day } = called_day_of_date::<C>(year, month, day);
    DayAnswer { number, day }
}

#[inline(always)]
pub fn date_of_day<C: Conversions>(day: usize) -> DateAnswer {
    let date = called_date_of_day::<C>(day);
    DateAnswer {
        number: date.number,
        year: date.year,
        month: date.month,
        day: date.day,
    }
}

#[inline(never)]
extern "C" fn called_day_of_date<C: Conversions>(year: usize, month: usize, day: usize) -> Day {
    match C::day(year, month, day) {
        Some(day) => Day { number: 0, day },
        None => Day {
            number: NO_SUCH_DATE,
            day: 0,
        },
    }
}

#[inline(never)]
extern "C" fn called_date_of_day<C: Conversions>(day: usize) -> Date {
    if day > LAST_DAY {
        return Date {
            number: NO_SUCH_DATE,
            year: 0,
            month: 0,
            day: 0,
        };
    }
    let (year, month, day) = C::date(day);
    Date {
        number: 0,
        year,
        month,
        day,
    }
}
