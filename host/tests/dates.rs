//! The dates row. Every number that may stand in it, and every day as a completion, by the library and by the model,
//! against a calendar that counts days forward one at a time; and the cases that document 02's request 3 names.

use girderbasil::{MOST_REPORT_BYTES, MOST_ROWS, MOST_WALLS, ROW};
use girderbasil::{Record, Refusal};
use girderbasil_tests::model::calendar::Day;
use girderbasil_tests::worked::{self, changed};
use girderbasil_tests::{days, model};

/// P1's dates row, counted from 1.
const DATES_ROW: usize = 12;

/// P1's scores with the corridor floor alone marked, by its age: under ten years the factor is 1, then 23/24.
const CORRIDOR_SCORES: [[u32; 6]; 2] = [[57, 100, 0, 0, 0, 0], [55, 95, 0, 0, 0, 0]];

/// What the library and the model both answer for a table.
fn scored(table: &[u32]) -> Result<Record, Refusal> {
    let answer = girderbasil::score(table);
    assert_eq!(answer, model::score(table), "{table:?}");
    answer
}

fn refused(number: u32, row: usize, column: usize) -> Result<Record, Refusal> {
    Err(model::refusal_at(number, row, column))
}

/// Puts every number from 19000101 to 21991231 into a column of P1's dates row, beside dates with which any day is in
/// order there. The numbers that the library accepts are the days counted, each once; every other is refused with 10.
fn every_number_is_a_day_where_it_is_counted(column: usize, others: [u32; 3]) {
    let mut table = worked::with_dates(others);
    let mut accepted = Vec::with_capacity(days::COUNT);
    for number in days::FIRST..=days::LAST {
        table[(DATES_ROW - 1) * ROW + column - 1] = number;
        match girderbasil::score(&table) {
            Ok(record) => {
                let by_then = u32::from(table[(DATES_ROW - 1) * ROW + 1] <= 19_810_531);
                assert_eq!(record.started_by_31_may_1981, by_then, "{number}");
                accepted.push(number);
            }
            refusal => {
                let expected = refused(Refusal::NO_SUCH_DAY, DATES_ROW, column);
                assert_eq!(refusal, expected, "{number}");
            }
        }
    }
    assert_eq!(accepted.len(), 109_573);
    let differ = accepted.iter().zip(days::all()).find(|(a, b)| a != b);
    assert!(accepted == days::all(), "accepted and counted: {differ:?}");
}

#[test]
fn every_number_as_start_of_work() {
    every_number_is_a_day_where_it_is_counted(2, [0, days::LAST, days::LAST]);
}

#[test]
fn every_number_as_completion() {
    every_number_is_a_day_where_it_is_counted(3, [days::FIRST, 0, days::LAST]);
}

#[test]
fn every_number_as_survey_day() {
    every_number_is_a_day_where_it_is_counted(4, [days::FIRST, days::FIRST, 0]);
}

/// With the corridor floor alone marked, a house's scores tell its age on a survey day.
fn age(completion: u32, survey: u32) -> u32 {
    let record = girderbasil::score(&worked::corridor_marked([days::FIRST, completion, survey]));
    let scores = record.expect("the dates are in order").scores;
    let age = CORRIDOR_SCORES.iter().position(|it| *it == scores);
    age.expect("one of the two factors") as u32 + 1
}

/// For every day as completion: the house is under ten on its completion and on the day before the one counted, and ten
/// on that day and on the last. One completed in the calendar's last ten years is never ten.
#[test]
fn every_completion_is_ten_on_the_day_counted() {
    let mut never = 0;
    for &completion in days::all() {
        assert_eq!(age(completion, completion), 1, "{completion}");
        let last = match days::ten_years_after(completion) {
            Some(ten) => {
                assert_eq!(age(completion, days::previous(ten)), 1, "{completion}");
                assert_eq!(age(completion, ten), 2, "{completion}");
                2
            }
            None => {
                never += 1;
                1
            }
        };
        assert_eq!(age(completion, days::LAST), last, "{completion}");
    }
    assert_eq!(never, 3_652);
}

#[test]
fn the_model_has_the_days_that_are_counted() {
    let known = (days::FIRST..=days::LAST).filter(|&number| Day::from_digits(number).is_some());
    assert!(known.eq(days::all().iter().copied()));
    let day = |number| Day::from_digits(number).expect("it is a day");
    for pair in days::all().windows(2) {
        assert!(day(pair[0]) < day(pair[1]), "{pair:?}");
    }
    for &completion in days::all() {
        if let Some(ten) = days::ten_years_after(completion) {
            assert_eq!(day(completion).ten_years_after(), day(ten), "{completion}");
        }
    }
}

/// Days whose days of the week are known: 1 January 1900 was a Monday.
#[test]
fn the_days_are_counted_right() {
    assert_eq!(days::all().len(), 109_573);
    assert_eq!(days::all().first_chunk(), Some(&[days::FIRST]));
    assert_eq!(days::all().last_chunk(), Some(&[days::LAST]));
    let week = ["Mon", "Tue", "Wed", "Thu", "Fri", "Sat", "Sun"];
    for (day, name) in [
        (19_000_301, "Thu"),
        (19_810_531, "Sun"),
        (20_000_101, "Sat"),
        (20_000_229, "Tue"),
        (20_120_401, "Sun"),
        (21_000_301, "Mon"),
        (21_991_231, "Tue"),
    ] {
        assert_eq!(week[days::before(day) % 7], name, "{day}");
    }
}

/// The ends of months: what is a day, and what is refused with 10, where the number stands in any of the three columns.
#[test]
fn the_ends_of_months() {
    let answers = |number| {
        [
            [number, days::LAST, days::LAST],
            [days::FIRST, number, days::LAST],
            [days::FIRST, days::FIRST, number],
        ]
        .map(|dates| scored(&worked::with_dates(dates)).map(drop))
    };
    for day in [
        days::FIRST,
        19_000_228,
        20_000_229,
        20_010_131,
        20_010_228,
        20_010_430,
        20_040_229,
        20_011_231,
        21_000_228,
        days::LAST,
    ] {
        assert_eq!(answers(day), [Ok(()); 3], "{day}");
    }
    let at_each =
        |number| [2, 3, 4].map(|column| Err(model::refusal_at(number, DATES_ROW, column)));
    for no_day in [
        19_000_229, 21_000_229, 20_010_229, 20_000_230, 20_010_132, 20_010_431, 20_011_232,
        20_010_100, 20_010_001, 20_010_000, 20_011_301, 20_019_999,
    ] {
        assert_eq!(answers(no_day), at_each(Refusal::NO_SUCH_DAY), "{no_day}");
    }
    for outside in [0, 18_991_231, 19_000_100, 21_991_232, 22_000_101, u32::MAX] {
        assert_eq!(
            answers(outside),
            at_each(Refusal::OUT_OF_RANGE),
            "{outside}"
        );
    }
}

#[test]
fn refusals_of_the_dates_row_in_their_order() {
    let dates = |start, completion, survey| {
        changed(&[(12, 2, start), (12, 3, completion), (12, 4, survey)])
    };
    for (changes, answer) in [
        (&[(12, 2, 20_010_231)][..], refused(10, 12, 2)),
        (&[(12, 2, 20_010_231), (12, 8, 1)], refused(4, 12, 8)),
        (&[(12, 2, 20_010_231), (12, 4, 0)], refused(4, 12, 4)),
        (
            &[(12, 3, 20_010_231), (12, 4, 20_010_231)],
            refused(10, 12, 3),
        ),
        (&[(12, 5, 1), (12, 8, 1)], refused(4, 12, 5)),
        (&[(12, 1, 9), (12, 2, 0)], refused(3, 12, 1)),
        (&[(11, 3, 0), (11, 2, 0), (12, 2, 0)], refused(8, 11, 2)),
    ] {
        assert_eq!(scored(&changed(changes)), answer, "{changes:?}");
    }
    // 10 comes before 11, also where its column is further to the right.
    let table = dates(20_010_101, 20_001_231, 20_010_229);
    assert_eq!(scored(&table), refused(10, 12, 4));
    let table = dates(20_010_101, 20_001_231, 20_010_228);
    assert_eq!(scored(&table), refused(11, 12, 3));
    let table = dates(20_010_101, 20_001_231, 20_001_230);
    assert_eq!(scored(&table), refused(11, 12, 3));
    let table = dates(19_800_401, 20_010_101, 20_001_231);
    assert_eq!(scored(&table), refused(11, 12, 4));
    // Completion and survey are compared, not the survey with the start.
    let table = dates(19_800_401, 20_010_102, 20_010_101);
    assert_eq!(scored(&table), refused(11, 12, 4));
    for day in [days::FIRST, 19_810_531, 20_000_229, days::LAST] {
        assert!(scored(&dates(day, day, day)).is_ok(), "equal days, {day}");
    }
}

#[test]
fn where_the_dates_row_stands() {
    let rows = |order: &[usize]| -> Vec<u32> {
        let row = |row: &usize| worked::TABLE[(row - 1) * ROW..row * ROW].iter().copied();
        order.iter().flat_map(row).collect()
    };
    let to = |last| (1..=last).collect::<Vec<usize>>();
    assert_eq!(scored(&rows(&to(11))), refused(3, 12, 1), "no dates row");
    let mut aged = rows(&to(11));
    aged[6] = 2;
    assert_eq!(scored(&aged), refused(4, 1, 7), "an age and no dates row");
    let twice = rows(&[to(12), vec![12]].concat());
    assert_eq!(scored(&twice), refused(3, 13, 1), "a second dates row");
    let more = rows(&[to(12), vec![11]].concat());
    assert_eq!(scored(&more), refused(3, 13, 1), "parts after the dates");
    let in_place = rows(&[to(10), vec![12]].concat());
    assert_eq!(scored(&in_place), refused(3, 11, 1), "dates for parts");
    let before = rows(&[to(10), vec![12, 11]].concat());
    assert_eq!(scored(&before), refused(3, 11, 1), "dates before parts");
    let among_walls = rows(&[to(9), vec![12, 10, 11]].concat());
    assert_eq!(scored(&among_walls), refused(3, 10, 1), "dates for a wall");
}

#[test]
fn no_age_may_be_given() {
    for age in [1, 2, 3, u32::MAX] {
        assert_eq!(scored(&changed(&[(1, 7, age)])), refused(4, 1, 7), "{age}");
    }
}

/// The report that the library and the model both write for a table.
fn report(table: &[u32]) -> String {
    let mut report = [0; MOST_REPORT_BYTES];
    let count = girderbasil::write_report(table, &mut report).expect("the house is accepted");
    let written = report[..count].to_vec();
    assert_eq!(model::write_report(table, count).as_ref(), Ok(&written));
    String::from_utf8(written).expect("it is text")
}

#[test]
fn a_corridor_floor_counts_from_the_day_the_house_is_ten() {
    let [young, old] = worked::CORRIDOR_REPORTS;
    for (completion, survey, expected) in [
        // There is no 29 February 2010.
        (20_000_229, 20_100_228, young),
        (20_000_229, 20_100_301, old),
        (20_000_301, 20_100_228, young),
        (20_000_301, 20_100_301, old),
        (20_000_228, 20_100_227, young),
        (20_000_228, 20_100_228, old),
        // Ten years after are a leap year here.
        (19_900_228, 20_000_227, young),
        (19_900_228, 20_000_228, old),
        (19_900_228, 20_000_229, old),
        (19_900_301, 20_000_229, young),
        (19_900_301, 20_000_301, old),
        // Over the end of a year and of a century.
        (19_991_231, 20_091_230, young),
        (19_991_231, 20_091_231, old),
        (20_980_101, 21_071_231, young),
        (20_980_101, 21_080_101, old),
        (21_891_231, 21_991_230, young),
        (21_891_231, 21_991_231, old),
        (21_900_101, 21_991_231, young),
        (21_950_101, 21_991_231, young),
    ] {
        let written = report(&worked::corridor_marked([completion, completion, survey]));
        assert_eq!(written, expected, "{completion}, {survey}");
    }
}

/// The record says it, and not the report.
#[test]
fn the_record_says_whether_work_started_by_31_may_1981() {
    for (start, started_by_then) in [
        (days::FIRST, 1),
        (19_801_231, 1),
        (19_810_430, 1),
        (19_810_530, 1),
        (19_810_531, 1),
        (19_810_601, 0),
        (19_820_101, 0),
        (days::LAST, 0),
    ] {
        let table = worked::with_dates([start, days::LAST, days::LAST]);
        let record = scored(&table).expect("the dates are in order");
        assert_eq!(record.started_by_31_may_1981, started_by_then, "{start}");
        assert_eq!(report(&table), worked::REPORT);
    }
    // A refused table's record is all 0, though work on the house started by then.
    let refused = girderbasil::raw::score(&changed(&[(12, 8, 1)]));
    assert_eq!((refused.number, refused.started_by_31_may_1981), (4, 0));
}

/// P1's house with three storeys like its own and so many walls, without its dates row.
fn three_storeys(walls: usize) -> Vec<u32> {
    let mut table = worked::TABLE[..ROW].to_vec();
    table[1] = 3;
    for storey in 1..=3 {
        table.extend([2, storey, 4000, 5000, 1, 0, 0, 0]);
    }
    for storey in 1..=3 {
        for direction in [1, 2] {
            table.extend([3, storey, direction, 1000, 1000, 3, 3, 0]);
        }
    }
    for _ in 0..walls {
        table.extend([4, 3, 1, 2, 20, 1000, 1, 1]);
    }
    table.extend([5, 8191, 0, 0, 0, 0, 0, 0]);
    table
}

/// The longest table has its dates row. One wall more is told as such only where the dates row is missing.
#[test]
fn the_longest_table() {
    let dates = &worked::TABLE[11 * ROW..];
    let longest = [&three_storeys(MOST_WALLS), dates].concat();
    assert_eq!((longest.len(), MOST_ROWS), (312 * ROW, 312));
    assert!(scored(&longest).is_ok());
    let without_dates = three_storeys(MOST_WALLS + 1);
    assert_eq!(without_dates.len(), 312 * ROW);
    assert_eq!(scored(&without_dates), refused(5, 311, 1));
    let too_long = [&without_dates, dates].concat();
    assert_eq!(scored(&too_long), refused(1, 0, 0));
}
