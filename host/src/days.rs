//! Every day that a dates row may hold, counted forward one at a time from 1 January 1900 to 31 December 2199.
//!
//! The makers of houses take their days from here, and tests hold the library and the model against it. It shares no
//! code with either, and tells a day from another number by having counted it alone.

use std::sync::LazyLock;

/// The first day and the last, as numbers of eight digits, like all days here.
pub const FIRST: u32 = 19_000_101;
pub const LAST: u32 = 21_991_231;

/// How many days there are: 300 years, of which 73 are leap years.
pub const COUNT: usize = 300 * 365 + 73;

/// All of them, in order.
pub fn all() -> &'static [u32] {
    static DAYS: LazyLock<Vec<u32>> = LazyLock::new(counted);
    &DAYS
}

/// Those that are 29 February, in order.
pub fn leap_days() -> &'static [u32] {
    static LEAP_DAYS: LazyLock<Vec<u32>> = LazyLock::new(|| {
        let leap_day = |day: &u32| day % 10_000 == 229;
        all().iter().copied().filter(leap_day).collect()
    });
    &LEAP_DAYS
}

fn counted() -> Vec<u32> {
    let mut days = Vec::with_capacity(COUNT);
    for year in 1900..=2199 {
        // Of the fourth years, these two end a century and are no leap years; 2000 is one.
        let leap = year % 4 == 0 && year != 1900 && year != 2100;
        let february = if leap { 29 } else { 28 };
        let lengths = [31, february, 31, 30, 31, 30, 31, 31, 30, 31, 30, 31];
        for (month, length) in (1..).zip(lengths) {
            for day in 1..=length {
                days.push(10_000 * year + 100 * month + day);
            }
        }
    }
    days
}

/// How many days come before a number, which need not be a day itself.
pub fn before(number: u32) -> usize {
    all().partition_point(|&day| day < number)
}

/// The day before another; the first where there is none.
pub fn previous(day: u32) -> u32 {
    all()[before(day).saturating_sub(1)]
}

/// The day after another; the last where there is none.
pub fn next(day: u32) -> u32 {
    all()[(before(day) + 1).min(COUNT - 1)]
}

/// The day on which a house completed on a day is ten. The date has the year ten later; 29 February, where that year
/// has none, gives way to the day that comes next, 1 March. None where it would be after the last day.
pub fn ten_years_after(completion: u32) -> Option<u32> {
    all().get(before(completion + 100_000)).copied()
}
