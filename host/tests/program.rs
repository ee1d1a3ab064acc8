//! The scoring program against the model: what it prints, byte for byte.

mod common;

use std::fs::File;
use std::process::{Child, Command, Stdio};

use common::calls::NUMBERS;
use girderbasil::{LINE, MOST_ROWS, ROW};
use girderbasil_tests::random::{Random, house};
use girderbasil_tests::{model, worked};

const SHEETS: usize = 800;

/// What the program prints for a sheet; it must end well and say nothing else.
fn printed(sheet: &[u8]) -> Vec<u8> {
    let output = common::run_scoring_program(sheet);
    assert_eq!(output.status.code(), Some(0));
    assert_eq!(output.stderr, b"");
    output.stdout
}

/// The number of the refusal that was printed; 0 for a report.
fn refusal_number(printed: &[u8]) -> usize {
    let fields: Vec<usize> = str::from_utf8(&printed[..LINE])
        .expect("digits and spaces")
        .split_whitespace()
        .map(|field| field.parse().expect("a number"))
        .collect();
    if fields[0] == 0 { fields[1] } else { 0 }
}

#[test]
fn the_program_prints_what_the_model_does() {
    let mut random = Random::new(10);
    let mut met = [0; NUMBERS];
    let mut snow = [0; 4];
    let mut ages = [0; 3];
    let mut repaired = [0; 2];
    for _ in 0..SHEETS {
        let sheet = common::any_sheet(&mut random);
        let printed = printed(&sheet);
        assert_eq!(
            printed,
            model::diagnose(&sheet),
            "{}",
            String::from_utf8_lossy(&sheet)
        );
        let number = refusal_number(&printed);
        met[number] += 1;
        if number == 0 {
            let table = model::read(&sheet, MOST_ROWS * ROW).expect("it was scored");
            snow[house::snow_of(&table)] += 1;
            let survey = model::judge(&table).expect("it was scored");
            ages[survey.dates.age() as usize] += 1;
            repaired[house::repaired_of(&table)] += 1;
        }
    }
    assert!(met[0] >= SHEETS / 5, "{met:?}");
    for (number, met) in met.into_iter().enumerate() {
        // The program lends room for every report, so it never tells 9, and it deletes and adds no wall, so never 12.
        let never = matches!(number, 9 | 12);
        let enough = if never { met == 0 } else { met >= 2 };
        assert!(enough, "number {number} was met {met} times");
    }
    for met in [&snow[..], &ages[1..], &repaired] {
        assert!(met.iter().all(|&met| met >= 5), "{met:?}");
    }
}

#[test]
fn worked_houses() {
    assert_eq!(printed(worked::SHEET), worked::REPORT.as_bytes());
    let sheet = model::write(&worked::MANUAL_TABLE, usize::MAX).expect("it has a sheet");
    assert_eq!(printed(&sheet), worked::MANUAL_REPORT.as_bytes());
    let sheet = model::write(&worked::in_snow(3), usize::MAX).expect("it has a sheet");
    assert_eq!(printed(&sheet), worked::REPORT_IN_DEEP_SNOW.as_bytes());
    let sheet = model::write(&worked::unmarked(true), usize::MAX).expect("it has a sheet");
    assert_eq!(printed(&sheet), worked::REPAIRED_REPORT.as_bytes());
    for (survey, report) in [20_100_228, 20_100_301]
        .into_iter()
        .zip(worked::CORRIDOR_REPORTS)
    {
        let table = worked::corridor_marked([19_990_401, 20_000_229, survey]);
        let sheet = model::write(&table, usize::MAX).expect("it has a sheet");
        assert_eq!(String::from_utf8_lossy(&printed(&sheet)), report);
    }
}

#[test]
fn refused_sheets_are_told_with_row_before_column() {
    for (sheet, line) in worked::refused() {
        assert_eq!(String::from_utf8_lossy(&printed(&sheet)), line);
    }
}

#[test]
fn the_longest_sheet_is_scored() {
    let mut random = Random::new(11);
    let table = house::with_walls(&mut random, 3, 300);
    let sheet = model::write(&table, usize::MAX).expect("it has a sheet");
    assert_eq!(sheet.len(), MOST_ROWS * LINE);
    let printed = printed(&sheet);
    assert_eq!(printed, model::diagnose(&sheet));
    assert_eq!(refusal_number(&printed), 0);
}

#[test]
fn longer_input_has_the_length_of_no_sheet() {
    let mut random = Random::new(12);
    let table = house::with_walls(&mut random, 3, 300);
    let longest = model::write(&table, usize::MAX).expect("it has a sheet");
    let line_more = longest.len() + LINE;
    for length in [
        longest.len() + 1,
        line_more,
        65_536,
        65_537,
        65_585,
        1_000_000,
        1 << 20,
    ] {
        let sheet: Vec<u8> = longest.iter().copied().cycle().take(length).collect();
        let printed = printed(&sheet);
        assert_eq!(printed, model::diagnose(&sheet), "{length} bytes");
        assert_eq!(refusal_number(&printed), 1, "{length} bytes");
    }
}

#[test]
fn no_input_has_the_length_of_no_sheet() {
    assert_eq!(refusal_number(&printed(b"")), 1);
}

#[test]
fn a_read_or_a_write_that_fails_is_told() {
    let top = common::top();
    let open = |path| File::open(top.join(path)).expect("it can be opened");
    let full = File::options().write(true).open("/dev/full");
    let full = full.expect("a device that is always full");
    for (input, printed, words) in [
        (
            open("examples"),
            Stdio::piped(),
            "standard input can't be read",
        ),
        (
            open("examples/p1.sheet"),
            full.into(),
            "the report can't be written",
        ),
    ] {
        let mut program = Command::new(common::scoring_program());
        let started = program.stdin(input).stdout(printed).stderr(Stdio::piped());
        let output = started.spawn().and_then(Child::wait_with_output);
        let output = output.expect("the program runs");
        assert_eq!(output.status.code(), Some(1));
        assert_eq!(output.stdout, b"");
        let said = String::from_utf8_lossy(&output.stderr);
        assert!(
            said.starts_with(&format!("diagnose: {words}\nError: ")),
            "{said}"
        );
    }
}
