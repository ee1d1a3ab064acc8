//! The model on the houses of crates/run_houses: it gives the output that is expected of the program there.

mod common;

use std::fs;

use girderbasil::{MOST_REPORT_BYTES, MOST_ROWS, ROW};
use girderbasil::{Record, Refusal};
use girderbasil_tests::model::{self, sheet};
use girderbasil_tests::random::house;

/// The least houses that are run, so that an empty list does not pass.
const LEAST: usize = 80;

/// The least of them that are scored in each snow, at each age, repaired and not, and with work started by 31 May 1981 and
/// later.
const LEAST_OF_EACH: usize = 3;

/// What is answered for a sheet with so many bytes lent for its report.
fn answer(sheet: &[u8], lent: usize) -> Result<usize, Refusal> {
    let table = model::read(sheet, MOST_ROWS * ROW)?;
    Ok(model::write_report(&table, lent)?.len())
}

/// What the program prints of a record, a line for each score: score, whole hundredths, remainder, divisor.
fn print_record(record: &Record, printed: &mut Vec<u8>) {
    for at in 0..record.count as usize {
        let (score, hundredths) = (record.scores[at], record.hundredths[at]);
        let (remainder, divisor) = (record.remainders[at], record.divisors[at]);
        printed.extend(format!("{score} {hundredths} {remainder} {divisor}\n").bytes());
    }
}

/// An answer as the program prints it: number, row, column, count.
fn print_answer(answer: Result<usize, Refusal>, printed: &mut Vec<u8>) {
    let row = match answer {
        Ok(count) => [0, 0, 0, count as u32, 0, 0, 0, 0],
        Err(refusal) => [refusal.number, refusal.row, refusal.column, 0, 0, 0, 0, 0],
    };
    sheet::write_row(&row, printed);
}

#[test]
fn the_model_prints_what_is_expected_of_the_program() {
    let folder = common::top().join("crates/run_houses");
    let names = fs::read_to_string(folder.join("args")).expect("the houses' names");
    let mut printed = Vec::new();
    let (mut snow, mut ages, mut repaired, mut started_by_then) = ([0; 4], [0; 2], [0; 2], [0; 2]);
    for name in names.lines() {
        let sheet = fs::read(folder.join("data").join(name)).expect("a house's sheet");
        printed.extend(name.bytes());
        printed.push(b'\n');
        printed.extend(model::diagnose(&sheet));
        if let Ok(count) = answer(&sheet, MOST_REPORT_BYTES) {
            let table = model::read(&sheet, MOST_ROWS * ROW).expect("it was scored");
            print_record(&model::score(&table).expect("it was scored"), &mut printed);
            snow[house::snow_of(&table)] += 1;
            let dates = model::judge(&table).expect("it was scored").dates;
            ages[dates.age() as usize - 1] += 1;
            repaired[house::repaired_of(&table)] += 1;
            started_by_then[usize::from(dates.started_by_31_may_1981())] += 1;
            print_answer(answer(&sheet, count), &mut printed);
            print_answer(answer(&sheet, count - 1), &mut printed);
        }
        print_answer(answer(&sheet, 0), &mut printed);
    }
    let expected = fs::read(folder.join("stdout")).expect("what the program must print");
    assert_eq!(
        String::from_utf8(printed).expect("it is text"),
        String::from_utf8(expected).expect("it is text")
    );
    assert!(names.lines().count() >= LEAST);
    for met in [&snow[..], &ages, &repaired, &started_by_then] {
        assert!(met.iter().all(|&met| met >= LEAST_OF_EACH), "{met:?}");
    }
}
