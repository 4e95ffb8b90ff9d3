//! All days and dates beside calendars by other hands: `date` of coreutils and
//! Python's datetime.

use crate::support::report;
use reference::calendar::all_dates;
use reference::{date_of_day, day_of_date};
use std::io::Write;
use std::process::{Command, Stdio};

/// What a program prints when it reads `input`; none where it isn't there.
/// It may call some of its input wrong, and say so on standard error.
fn printed(program: &str, arguments: &[&str], input: String) -> Option<String> {
    let mut child = Command::new(program)
        .args(arguments)
        .env("LC_ALL", "C")
        .stdin(Stdio::piped())
        .stdout(Stdio::piped())
        .stderr(Stdio::null())
        .spawn()
        .ok()?;
    let mut stdin = child.stdin.take()?;
    let writer = std::thread::spawn(move || {
        let _ = stdin.write_all(input.as_bytes());
    });
    let output = child.wait_with_output().ok()?;
    writer.join().ok()?;
    String::from_utf8(output.stdout).ok()
}

/// The seconds of 2000-01-01, and of a day.
const START: u64 = 946_684_800;
const DAY: u64 = 86_400;

/// What coreutils' `date` prints of each line of dates; none, with a line that
/// says so, where there is another `date` or none.
fn coreutils_date(form: &str, lines: String) -> Option<String> {
    let version = printed("date", &["--version"], String::new()).unwrap_or_default();
    if !version.contains("coreutils") {
        report("calendars: skipped: no date of coreutils here");
        return None;
    }
    printed("date", &["-u", "-f", "-", form], lines)
}

/// Every true and false date of the range as YYYY-MM-DD, months 00 to 13, days
/// 00 to 32.
fn true_and_false_dates() -> impl Iterator<Item = (usize, usize, usize)> {
    (2000..2100).flat_map(|year| {
        (0..=13).flat_map(move |month| (0..=32).map(move |day| (year, month, day)))
    })
}

#[test]
fn coreutils_date_gives_the_date_of_every_day() {
    let seconds = (0..36525).map(|day| format!("@{}\n", START + DAY * day));
    let Some(dates) = coreutils_date("+%F", seconds.collect()) else {
        return;
    };
    assert_eq!(dates.lines().count(), 36525);
    for (day, line) in dates.lines().enumerate() {
        let date = date_of_day(day);
        let ours = format!("{:04}-{:02}-{:02}", date.year, date.month, date.day);
        assert_eq!((date.number, ours.as_str()), (0, line));
    }
}

#[test]
fn coreutils_date_takes_the_same_dates_and_gives_their_days() {
    let dates = || true_and_false_dates();
    let lines = dates().map(|(year, month, day)| format!("{year}-{month:02}-{day:02}\n"));
    let Some(theirs) = coreutils_date("+%F %s", lines.collect()) else {
        return;
    };
    let mut ours = String::new();
    for (year, month, day) in dates() {
        let answer = day_of_date(year, month, day);
        if answer.number == 0 {
            let seconds = START + DAY * u64::from(answer.day);
            ours += &format!("{year}-{month:02}-{day:02} {seconds}\n");
        }
    }
    assert_eq!(ours.lines().count(), 36525);
    assert!(ours == theirs, "{}", first_difference(&ours, &theirs));
}

const EVERY_DAY: &str = "
import datetime
start = datetime.date(2000, 1, 1)
for day in range(36525):
    print(day, start + datetime.timedelta(day))
";

/// The days of true dates, and 11 for false ones and those beside the range.
const EVERY_DATE: &str = "
import datetime
start = datetime.date(2000, 1, 1).toordinal()
for year in range(1990, 2111):
    for month in range(15):
        for day in range(34):
            try:
                number = datetime.date(year, month, day).toordinal() - start
                true = 0 <= number <= 36524
            except ValueError:
                true = False
            print(year, month, day, f'0 {number}' if true else '11 0')
";

/// What Python prints; none, with a line that says so, where it isn't there.
fn python(program: &str) -> Option<String> {
    let text = printed("python3", &["-c", program], String::new());
    if text.is_none() {
        report("calendars: skipped: no python3 here");
    }
    text
}

#[test]
fn python_s_datetime_gives_the_date_of_every_day() {
    if let Some(theirs) = python(EVERY_DAY) {
        let ours = all_dates();
        assert_eq!(ours.lines().count(), 36525);
        assert!(ours == theirs, "{}", first_difference(&ours, &theirs));
    }
}

#[test]
fn python_s_datetime_takes_the_same_dates_and_gives_their_days() {
    let Some(theirs) = python(EVERY_DATE) else {
        return;
    };
    let mut ours = String::new();
    for year in 1990..=2110 {
        for month in 0..15 {
            for day in 0..34 {
                let answer = day_of_date(year, month, day);
                ours += &format!("{year} {month} {day} {} {}\n", answer.number, answer.day);
            }
        }
    }
    assert!(ours == theirs, "{}", first_difference(&ours, &theirs));
}

fn first_difference(ours: &str, theirs: &str) -> String {
    let pairs = || ours.lines().zip(theirs.lines());
    match pairs().find(|(ours, theirs)| ours != theirs) {
        Some((ours, theirs)) => format!("{ours:?}, not {theirs:?}"),
        None => format!("{} bytes, not {}", ours.len(), theirs.len()),
    }
}
