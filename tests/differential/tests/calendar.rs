//! Conversions between dates and days on both programs (document 02, request
//! 1), with the numbers of the papers beside the second program's.

use differential::both::Both;
use differential::lent::Place;
use differential::random::{seed, Random};
use differential::report;
use differential::terms::FAR_DAYS;
use reference::{DateAnswer, DayAnswer};

const DAYS: usize = 36_525;

/// The refusals: number 11 and zeros.
const NO_DAY: DayAnswer = DayAnswer { number: 11, day: 0 };
const NO_DATE: DateAnswer = DateAnswer {
    number: 11,
    year: 0,
    month: 0,
    day: 0,
};

fn both(test: &str) -> Both {
    Both::new(Place::Guarded, &format!("{test}, seed {:#x}", seed()))
}

fn done(both: &Both, what: &str) {
    let (calls, met) = (both.calls, both.numbers_met());
    report(&format!("calendar: {what}: {calls} calls: {met}"));
}

#[test]
fn both_ends() {
    let mut both = both("both ends");
    for (day, (year, month, day_of_month)) in [(0, (2000, 1, 1)), (36_524, (2099, 12, 31))] {
        let date = DateAnswer {
            number: 0,
            year,
            month,
            day: day_of_month,
        };
        assert_eq!(both.date_of_day(usize::from(day)), date);
        let answer = both.day_of_date(year.into(), month.into(), day_of_month.into());
        assert_eq!(answer, DayAnswer { number: 0, day });
    }
    assert_eq!(both.day_of_date(1999, 12, 31), NO_DAY);
    assert_eq!(both.day_of_date(2100, 1, 1), NO_DAY);
    assert_eq!(both.date_of_day(DAYS), NO_DATE);
    both.hold_met([0, 11]);
    done(&both, "2000-01-01, 2099-12-31 and the days beside them");
}

/// Every day to its date and back, and further days to none.
#[test]
fn all_days_both_ways() {
    let mut both = both("all days");
    for number in 0..DAYS {
        let date = both.date_of_day(number);
        assert_eq!(date.number, 0, "{number}");
        let [year, month, day] = [date.year, date.month.into(), date.day.into()];
        let back = both.day_of_date(year.into(), month.into(), day.into());
        assert_eq!((back.number, usize::from(back.day)), (0, number));
    }
    for number in DAYS..2 * 65_536 + DAYS {
        assert_eq!(both.date_of_day(number), NO_DATE, "{number}");
    }
    both.hold_met([0, 11]);
    assert_eq!(both.numbers[0], 2 * DAYS as u64);
    done(&both, "36525 days both ways, and later ones");
}

/// Months 0 to 14 and days 0 to 33 of the years of the range and beside it: a
/// day for each of 36525 dates, in their order, and none for any other.
#[test]
fn dates_near_an_edge() {
    let mut both = both("dates near an edge");
    let beside = [
        0, 1, 4, 100, 400, 1600, 1900, 1904, 2104, 2200, 2400, 9999, 20_000,
    ];
    let mut days = Vec::new();
    for year in (1990..=2110).chain(beside) {
        for month in 0..=14 {
            for day in 0..=33 {
                let answer = both.day_of_date(year, month, day);
                if answer.number == 0 {
                    days.push(usize::from(answer.day));
                } else {
                    assert_eq!(answer, NO_DAY);
                }
            }
        }
    }
    assert!(days.into_iter().eq(0..DAYS));
    both.hold_met([0, 11]);
    done(
        &both,
        "months 0 to 14, days 0 to 33, years beside the range",
    );
}

#[test]
fn the_29th_of_february_by_year() {
    let mut both = both("29 February");
    for year in 0..=4000 {
        let taken = both.day_of_date(year, 2, 29).number == 0;
        assert_eq!(taken, (2000..2100).contains(&year) && year % 4 == 0);
        assert_eq!(both.day_of_date(year, 2, 30), NO_DAY);
    }
    both.hold_met([0, 11]);
    done(&both, "29 and 30 February of the years 0 to 4000");
}

/// Numbers about powers of two, and those that a narrower count would take
/// for `small`.
fn large_numbers(small: usize) -> Vec<usize> {
    let powers = [8, 15, 16, 31, 32, 62, 63].map(|bits| 1usize << bits);
    let near = powers.into_iter().chain([0]).flat_map(|power| {
        [0, 1, 2, 400].map(|step: usize| [power.wrapping_add(step), power.wrapping_sub(step)])
    });
    let like_small = powers.map(|power| power + small);
    // Years whose days, counted by years, by fours or by four hundreds, come
    // to few in 64 bits.
    let wrapping = [365, 366, 1461, 146_097].map(|days| usize::MAX / days + small);
    near.flatten().chain(like_small).chain(wrapping).collect()
}

#[test]
fn large_numbers_in_every_place() {
    let mut both = both("large numbers");
    for (year, month, day) in [(2000, 1, 1), (2024, 2, 29), (2099, 12, 31)] {
        for large in large_numbers(year) {
            assert_eq!(both.day_of_date(large, month, day), NO_DAY);
            assert_eq!(both.day_of_date(large, large, large), NO_DAY);
        }
        for large in large_numbers(month) {
            both.day_of_date(year, large, day);
        }
        for large in large_numbers(day) {
            both.day_of_date(year, month, large);
        }
    }
    for small in [0, 1, 59, 366, 36_524] {
        for large in large_numbers(small) {
            both.date_of_day(large);
        }
    }
    for day in FAR_DAYS {
        assert_eq!(both.date_of_day(day), NO_DATE);
    }
    both.hold_met([0, 11]);
    done(&both, "numbers near 2^8 to 2^64");
}

/// Numbers of every count of bits, and dates of the range.
#[test]
fn random_numbers() {
    const CALLS: usize = 200_000;
    let mut random = Random::of_part(600);
    let mut both = both("random numbers");
    for _ in 0..CALLS {
        let large = random.number() as usize >> random.below(64);
        both.date_of_day(large);
        let mut date = [1995 + random.below(110), random.below(14), random.below(33)];
        match random.below(6) {
            place @ 0..3 => date[place] = large,
            3 => date.swap(1, 2),
            _ => {}
        }
        let [year, month, day] = date;
        both.day_of_date(year, month, day);
    }
    both.hold_met([0, 11]);
    done(&both, &format!("random numbers, seed {:#x}", seed()));
}
