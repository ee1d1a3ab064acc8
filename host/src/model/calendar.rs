//! Document 02, "Dates instead of an age": days of the Gregorian calendar, and what a house's dates say.

/// A day. The fields stand in the order in which two days are compared.
#[derive(Debug, Clone, Copy, PartialEq, Eq, PartialOrd, Ord)]
pub struct Day {
    year: u32,
    month: u32,
    of_month: u32,
}

/// The grant's last day.
const LAST_DAY_OF_THE_GRANT: Day = Day {
    year: 1981,
    month: 5,
    of_month: 31,
};

impl Day {
    /// The day whose digits are a number's: four of the year, two of the month, two of the day of the month. None where
    /// the calendar has no such day.
    pub fn from_digits(number: u32) -> Option<Self> {
        Self::new(number / 10_000, number / 100 % 100, number % 100)
    }

    fn new(year: u32, month: u32, of_month: u32) -> Option<Self> {
        let day = Self {
            year,
            month,
            of_month,
        };
        (1..=days_of_month(year, month))
            .contains(&of_month)
            .then_some(day)
    }

    /// The day on which a house completed on this one is ten: "the same date ten years after", and 1 March where that
    /// year has no 29 February.
    pub fn ten_years_after(self) -> Self {
        let year = self.year + 10;
        Self::new(year, self.month, self.of_month).unwrap_or(Self {
            year,
            month: 3,
            of_month: 1,
        })
    }
}

/// How many days a month has; none where there is no such month.
fn days_of_month(year: u32, month: u32) -> u32 {
    match month {
        2 if is_leap_year(year) => 29,
        2 => 28,
        4 | 6 | 9 | 11 => 30,
        1..=12 => 31,
        _ => 0,
    }
}

/// A year that ends in 00 is a leap year where its other digits are a multiple of 4, any other where its last two are.
fn is_leap_year(year: u32) -> bool {
    match (year / 100, year % 100) {
        (century, 0) => century % 4 == 0,
        (_, of_century) => of_century % 4 == 0,
    }
}

/// The days of a house: when work on it started, when it was completed and when it was surveyed.
#[derive(Debug, Clone, Copy)]
pub struct Dates {
    pub start: Day,
    pub completion: Day,
    pub survey: Day,
}

impl Dates {
    /// The age on the survey day, by document 01's numbers: 1 under ten years, 2 ten or more.
    pub fn age(&self) -> u32 {
        if self.survey < self.completion.ten_years_after() {
            1
        } else {
            2
        }
    }

    /// Whether work started on 31 May 1981 or before.
    pub fn started_by_31_may_1981(&self) -> bool {
        self.start <= LAST_DAY_OF_THE_GRANT
    }
}
