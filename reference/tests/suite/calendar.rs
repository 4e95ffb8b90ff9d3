//! Days and dates (document 02, request 1).

use crate::random::Random;
use reference::calendar::{days_of_month, days_of_year, is_leap_year};
use reference::{date_of_day, day_of_date, DateAnswer, DayAnswer};

const DAYS: usize = 36525;

/// The refusals: number 11 and zeros.
const NO_DAY: DayAnswer = DayAnswer { number: 11, day: 0 };
const NO_DATE: DateAnswer = DateAnswer {
    number: 11,
    year: 0,
    month: 0,
    day: 0,
};

/// Months of a year that isn't leap.
const LENGTHS: [usize; 12] = [31, 28, 31, 30, 31, 30, 31, 31, 30, 31, 30, 31];

/// Whether there is such a date, read off a wall calendar: from 2000 to 2099
/// every fourth year is leap.
pub fn on_the_wall(year: usize, month: usize, day: usize) -> bool {
    let in_range = (2000..2100).contains(&year) && (1..=12).contains(&month);
    in_range && day >= 1 && {
        let leap_day = usize::from(month == 2 && year & 3 == 0);
        day <= LENGTHS[month - 1] + leap_day
    }
}

/// Holds that a date and a day are each other's.
fn pair(day: usize, (year, month, day_of_month): (usize, usize, usize)) {
    let to_day = DayAnswer {
        number: 0,
        day: day as u16,
    };
    let to_date = DateAnswer {
        number: 0,
        year: year as u16,
        month: month as u8,
        day: day_of_month as u8,
    };
    assert_eq!(day_of_date(year, month, day_of_month), to_day);
    assert_eq!(date_of_day(day), to_date);
}

#[test]
fn both_ends() {
    pair(0, (2000, 1, 1));
    pair(36524, (2099, 12, 31));
    assert_eq!(day_of_date(1999, 12, 31), NO_DAY);
    assert_eq!(day_of_date(2100, 1, 1), NO_DAY);
    assert_eq!(date_of_day(36525), NO_DATE);
}

/// Counted by hand: four years have 1461 days.
#[test]
fn ends_of_months_and_years() {
    pair(30, (2000, 1, 31));
    pair(31, (2000, 2, 1));
    pair(58, (2000, 2, 28));
    pair(59, (2000, 2, 29));
    pair(60, (2000, 3, 1));
    pair(365, (2000, 12, 31));
    pair(366, (2001, 1, 1));
    pair(366 + 58, (2001, 2, 28));
    pair(366 + 59, (2001, 3, 1));
    pair(1460, (2003, 12, 31));
    pair(1461, (2004, 1, 1));
    pair(1461 + 59, (2004, 2, 29));
    pair(24 * 1461 + 59, (2096, 2, 29));
    pair(25 * 1461 - 365, (2099, 1, 1));
}

/// Every day both ways, each date the next of the one before.
#[test]
fn all_days_both_ways() {
    let (mut year, mut month, mut day) = (2000, 1, 1);
    for number in 0..DAYS {
        pair(number, (year, month, day));
        day += 1;
        if !on_the_wall(year, month, day) {
            (month, day) = (month + 1, 1);
        }
        if !on_the_wall(year, month, day) {
            (year, month) = (year + 1, 1);
        }
    }
    assert_eq!((year, month, day), (2100, 1, 1));
}

/// Months 0 to 14 and days 0 to 33 of the years of the range and beside it,
/// and of years that are leap or not by the rules of 100 and 400.
#[test]
fn every_date_near_an_edge() {
    let beside = [
        0, 1, 4, 99, 100, 1600, 1900, 1904, 2104, 2200, 2400, 9999, 20000,
    ];
    let mut taken = 0;
    for year in (1990..=2110).chain(beside) {
        for month in 0..=14 {
            for day in 0..=33 {
                let answer = day_of_date(year, month, day);
                if on_the_wall(year, month, day) {
                    assert_eq!(answer.number, 0, "{year}-{month}-{day}");
                    assert_eq!(usize::from(answer.day), taken, "{year}-{month}-{day}");
                    taken += 1;
                } else {
                    assert_eq!(answer, NO_DAY, "{year}-{month}-{day}");
                }
            }
        }
    }
    assert_eq!(taken, DAYS);
}

#[test]
fn the_29th_of_february_by_year() {
    for year in 1500..=2500 {
        let number = day_of_date(year, 2, 29).number;
        let leap = (2000..2100).contains(&year) && year & 3 == 0;
        assert_eq!(number, if leap { 0 } else { 11 }, "{year}");
    }
}

/// The whole rule, of which the range alone shows only a part.
#[test]
fn leap_years_of_four_hundred_years() {
    for year in [1600, 1996, 2000, 2004, 2096, 2400, 4, 400, 0] {
        assert!(is_leap_year(year), "{year}");
        assert_eq!((days_of_year(year), days_of_month(year, 2)), (366, 29));
    }
    for year in [1700, 1800, 1900, 1999, 2001, 2002, 2100, 2200, 2300, 100] {
        assert!(!is_leap_year(year), "{year}");
        assert_eq!((days_of_year(year), days_of_month(year, 2)), (365, 28));
    }
    assert_eq!((2000..2400).filter(|year| is_leap_year(*year)).count(), 97);
    assert_eq!((2000..2100).map(days_of_year).sum::<usize>(), DAYS);
}

/// Numbers about powers of two, among them those that a narrower count would
/// take for a small one.
fn large_numbers(small: usize) -> impl Iterator<Item = usize> {
    let powers = [8, 15, 16, 31, 32, 62, 63].map(|bits| 1usize << bits);
    let near = powers.into_iter().chain([0]).flat_map(|power| {
        let steps = [0usize, 1, 2, 400].into_iter();
        steps.flat_map(move |step| [power.wrapping_add(step), power.wrapping_sub(step)])
    });
    let like_small = powers.map(|power| power + small);
    // A year whose days, 365 or 1461 of four, come to few in 64 bits.
    let wrapping = [365, 366, 1461, 146097].map(|days| usize::MAX / days + small);
    near.chain(like_small).chain(wrapping)
}

#[test]
fn large_numbers_in_every_place() {
    for (year, month, day) in [(2000, 1, 1), (2024, 2, 29), (2099, 12, 31)] {
        for large in large_numbers(year) {
            assert_eq!(day_of_date(large, month, day), NO_DAY, "{large}");
        }
        for (place, small) in [(1, month), (2, day)] {
            for large in large_numbers(small).filter(|large| *large > 31) {
                let mut date = [year, month, day];
                date[place] = large;
                assert_eq!(day_of_date(date[0], date[1], date[2]), NO_DAY, "{date:?}");
            }
        }
        for large in large_numbers(year) {
            assert_eq!(day_of_date(large, large, large), NO_DAY, "{large}");
        }
    }
    for small in [0, 1, 59, 366, 36524] {
        for large in large_numbers(small).filter(|large| *large > 36524) {
            assert_eq!(date_of_day(large), NO_DATE, "{large}");
        }
    }
    for day in 36525..200_000 {
        assert_eq!(date_of_day(day), NO_DATE, "{day}");
    }
}

#[test]
fn random_numbers_are_taken_exactly_if_they_are_a_date() {
    let mut random = Random::new(80);
    let mut taken = 0;
    for _ in 0..100_000 {
        let bits = random.below(64);
        let year = random.next() as usize >> bits;
        let date = match random.below(3) {
            0 => [year, random.below(14), random.below(33)],
            1 => [1995 + random.below(110), random.below(14), year],
            _ => [1995 + random.below(110), random.below(14), random.below(33)],
        };
        let [year, month, day] = date;
        let number = day_of_date(year, month, day).number;
        let wall = on_the_wall(year, month, day);
        assert_eq!(number, if wall { 0 } else { 11 }, "{date:?}");
        taken += usize::from(wall);
        let day = random.next() as usize >> bits;
        assert_eq!(date_of_day(day).number == 0, day <= 36524, "{day}");
    }
    assert!(taken > 10_000);
}
