//! Dates of the Gregorian calendar.

use std::fmt;

/// A date, as [`date_of_day`](crate::date_of_day) gives it. Shown as YYYY-MM-DD;
/// an earlier date is less than a later one.
///
/// ```
/// use captions::{date_of_day, Date, Refusal};
///
/// let leap_day = Date { year: 2000, month: 2, day: 29 };
/// assert_eq!(date_of_day(59)?, leap_day);
/// assert_eq!(leap_day.to_string(), "2000-02-29");
/// assert!(leap_day < date_of_day(60)?);
/// # Ok::<(), Refusal>(())
/// ```
#[derive(Clone, Copy, Debug, PartialEq, Eq, PartialOrd, Ord, Hash)]
pub struct Date {
    /// 2000 to 2099.
    pub year: u16,
    /// 1 to 12.
    pub month: u8,
    /// 1 to 31.
    pub day: u8,
}

impl Date {
    /// Of a date that the library printed, YYYY-MM-DD.
    pub(crate) fn of_text(text: &str) -> Option<Date> {
        let words: Vec<&str> = text.split('-').collect();
        let [year, month, day] = words[..] else {
            return None;
        };
        Some(Date {
            year: year.parse().ok()?,
            month: month.parse().ok()?,
            day: day.parse().ok()?,
        })
    }
}

impl fmt::Display for Date {
    fn fmt(&self, f: &mut fmt::Formatter<'_>) -> fmt::Result {
        let Date { year, month, day } = self;
        write!(f, "{year:04}-{month:02}-{day:02}")
    }
}
