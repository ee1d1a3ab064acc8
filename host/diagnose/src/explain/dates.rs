//! Refusals 10 and 11: numbers that are no day, and dates out of order.

use super::Row;
use crate::words::{self, sentence};

const FEBRUARY: u32 = 2;

/// Why the number in a column is no day.
pub fn no_day(row: &Row, column: u32) -> Option<String> {
    let found = *row.get((column as usize).checked_sub(1)?)?;
    let [year, month, day] = parts(found);
    let Some((name, days)) = words::month(month) else {
        return Some(sentence(
            "no month",
            &[("found", &found), ("month", &month)],
        ));
    };
    if day == 0 {
        return Some(sentence("no day", &[("found", &found)]));
    }
    let days = days + u32::from(month == FEBRUARY && is_leap_year(year));
    Some(sentence(
        "days",
        &[
            ("found", &found),
            ("month", &name),
            ("year", &year),
            ("days", &days),
        ],
    ))
}

/// A date that is before the one to its left.
pub fn order(row: &Row, column: u32) -> Option<String> {
    let left = column.checked_sub(1)?;
    let found = *row.get(left as usize)?;
    let before = *row.get((left as usize).checked_sub(1)?)?;
    let name = words::column(row[0], left)?.name;
    Some(sentence(
        "before",
        &[
            ("found", &date(found)),
            ("name", &name),
            ("before", &date(before)),
        ],
    ))
}

/// The year, the month and the day of the month in a number.
fn parts(number: u32) -> [u32; 3] {
    [number / 10_000, number / 100 % 100, number % 100]
}

fn date(number: u32) -> String {
    let [year, month, day] = parts(number).map(|part| format!("{part:02}"));
    sentence("date", &[("year", &year), ("month", &month), ("day", &day)])
}

/// A year that ends in 00 is a leap year where its other digits are a multiple of 4.
fn is_leap_year(year: u32) -> bool {
    let years = if year.is_multiple_of(100) {
        year / 100
    } else {
        year
    };
    years.is_multiple_of(4)
}
