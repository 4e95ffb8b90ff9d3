//! Days and dates (document 02, requests 1 and 11): day 0 is 2000-01-01 of the
//! Gregorian calendar, and the last day is 36524, 2099-12-31.

use crate::NO_SUCH_DATE;
use std::fmt::Write;

/// The year of day 0.
pub const FIRST_YEAR: usize = 2000;
/// The year of the last day.
pub const LAST_YEAR: usize = 2099;
/// The last day.
pub const LAST_DAY: usize = 36524;

/// What the conversion of a date hands back: number 0 and its day, or number
/// 11 and day 0.
#[derive(Clone, Copy, Debug, PartialEq, Eq)]
pub struct DayAnswer {
    pub number: u8,
    pub day: u16,
}

/// What the conversion of a day hands back: number 0 and its date, or number
/// 11 and zeros.
#[derive(Clone, Copy, Debug, PartialEq, Eq)]
pub struct DateAnswer {
    pub number: u8,
    pub year: u16,
    pub month: u8,
    pub day: u8,
}

/// The leap rule of the Gregorian calendar: years that 400 divides are leap,
/// others that 100 divides aren't, others that 4 divides are.
pub fn is_leap_year(year: usize) -> bool {
    match (year % 400, year % 100, year % 4) {
        (0, _, _) => true,
        (_, 0, _) => false,
        (_, _, rest) => rest == 0,
    }
}

/// The days of a month; 0 for a month that no year has.
pub fn days_of_month(year: usize, month: usize) -> usize {
    match month {
        1 | 3 | 5 | 7 | 8 | 10 | 12 => 31,
        4 | 6 | 9 | 11 => 30,
        2 if is_leap_year(year) => 29,
        2 => 28,
        _ => 0,
    }
}

/// The days of a year, month by month.
pub fn days_of_year(year: usize) -> usize {
    (1..=12).map(|month| days_of_month(year, month)).sum()
}

/// Whether there is such a date from 2000-01-01 to 2099-12-31.
fn is_date(year: usize, month: usize, day: usize) -> bool {
    (FIRST_YEAR..=LAST_YEAR).contains(&year) && (1..=days_of_month(year, month)).contains(&day)
}

/// The day of a date: all days of the years before, of the months before and
/// of the month before that date. Refusal 11.
pub fn day_of_date(year: usize, month: usize, day: usize) -> DayAnswer {
    if !is_date(year, month, day) {
        return DayAnswer {
            number: NO_SUCH_DATE,
            day: 0,
        };
    }
    let years_before: usize = (FIRST_YEAR..year).map(days_of_year).sum();
    let months_before: usize = (1..month).map(|month| days_of_month(year, month)).sum();
    DayAnswer {
        number: 0,
        day: (years_before + months_before + day - 1) as u16,
    }
}

/// The date of a day: whole years, then whole months are counted down, and the
/// days that are left are those of the month before that date. Refusal 11.
pub fn date_of_day(day: usize) -> DateAnswer {
    if day > LAST_DAY {
        return DateAnswer {
            number: NO_SUCH_DATE,
            year: 0,
            month: 0,
            day: 0,
        };
    }
    let mut left = day;
    let mut year = FIRST_YEAR;
    while left >= days_of_year(year) {
        left -= days_of_year(year);
        year += 1;
    }
    let mut month = 1;
    while left >= days_of_month(year, month) {
        left -= days_of_month(year, month);
        month += 1;
    }
    DateAnswer {
        number: 0,
        year: year as u16,
        month: month as u8,
        day: (left + 1) as u8,
    }
}

// ---- Dates as text (document 02, request 11) ----

/// The date of a day as YYYY-MM-DD; 0000-00-00, which is no date, for a day
/// above the last.
pub fn date_text(day: usize) -> String {
    let date = date_of_day(day);
    format!("{:04}-{:02}-{:02}", date.year, date.month, date.day)
}

/// The day of a date as YYYY-MM-DD, exactly ten ASCII characters; none for any
/// other text and where there is no such date.
pub fn day_of_text(text: &[u8]) -> Option<usize> {
    let [y0, y1, y2, y3, b'-', m0, m1, b'-', d0, d1] = *text else {
        return None;
    };
    let year = decimal(&[y0, y1, y2, y3])?;
    let month = decimal(&[m0, m1])?;
    let day = decimal(&[d0, d1])?;
    let answer = day_of_date(year, month, day);
    (answer.number == 0).then_some(usize::from(answer.day))
}

/// The number of some decimal digits; none if one of them isn't a digit.
fn decimal(digits: &[u8]) -> Option<usize> {
    digits.iter().try_fold(0, |number, digit| match digit {
        b'0'..=b'9' => Some(10 * number + usize::from(digit - b'0')),
        _ => None,
    })
}

/// A line for each day from 0 to 36524: the day and its date, as in
/// "0 2000-01-01".
pub fn all_dates() -> String {
    let mut text = String::new();
    for day in 0..=LAST_DAY {
        let _ = writeln!(text, "{day} {}", date_text(day));
    }
    text
}
