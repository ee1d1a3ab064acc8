//! The C boundary against the model, on pseudo-random sheets and tables.
//!
//! Whatever is lent stands inside a larger buffer of random contents, and after each call the whole buffer is compared
//! with what it must then hold. So a changed byte is seen wherever it is: in what was lent, after a refusal, after the
//! last one written, or beside it.

mod common;

use std::collections::BTreeMap;
use std::fmt::Debug;
use std::ptr;

use common::calls::{
    DATES_REFUSALS, Diagnose, NUMBERS, PARTS_REFUSALS, Read, Score, WriteReport, raw_answer,
    sheet_of,
};
use common::remainders::Scores;
use girderbasil::raw;
use girderbasil::{LINE, MOST_REPORT_BYTES, MOST_ROWS, ROW};
use girderbasil::{Record, Refusal};
use girderbasil_tests::model::{self, score::Diagnosis};
use girderbasil_tests::random::{Random, damage, house};
use girderbasil_tests::{days, worked};

const HOUSES: usize = 200_000;
const DAMAGED_TABLES: usize = 300_000;
const SHEETS: usize = 200_000;
const DAMAGED_SHEETS: usize = 300_000;

/// The kinds of rows whose refusals are counted by themselves.
const PARTS: u32 = 5;
const DATES: u32 = 8;

/// How often each kind of answer and house was met.
#[derive(Debug, Default)]
struct Tally {
    cases: usize,
    /// By number; 0 counts what was accepted.
    read: [usize; NUMBERS],
    scored: [usize; NUMBERS],
    reported: [usize; NUMBERS],
    printed: [usize; NUMBERS],
    /// Sheets refused for lent space that have a misprint too.
    short_before_misprint: usize,
    /// Tables refused on another ground for whose report no space was lent.
    other_before_short: usize,
    /// Tables refused for a number just over the range of snow.
    just_over_snow: usize,
    /// Tables refused for an age in the house row.
    age_given: usize,
    /// Tables refused at a parts row and at a dates row, by the refusal's number and column.
    parts_refused: BTreeMap<(u32, u32), usize>,
    dates_refused: BTreeMap<(u32, u32), usize>,
    /// Parts rows refused for the number just over repaired and not; and those refused for a column from the fourth on
    /// that have a mark on an absent part, or no part, too.
    just_over_repaired: usize,
    range_before_sets: usize,
    /// Dates rows refused for a column out of range that have a date that is no day, and those refused for such a date
    /// whose dates are out of order too.
    range_before_day: usize,
    day_before_order: usize,
    /// By snow, then by storeys.
    storeys: [[usize; 4]; 4],
    /// By which of their storeys are narrow: a house of one storey, of two and of three, then the set of them in which the
    /// ground storey is worth 1, each next storey twice the one before.
    narrow: [[usize; 8]; 3],
    verdicts: [usize; 5],
    /// By the age on the survey day, from 1.
    ages: [usize; 3],
    /// By whether the house is repaired.
    repaired: [usize; 2],
    /// By whether work started by 31 May 1981.
    started_by_then: [usize; 2],
    /// By the lower band and the higher.
    bands: [[usize; 5]; 5],
    scores: Scores,
}

impl Tally {
    fn count_house(&mut self, table: &[u32], record: &Record) {
        self.storeys[house::snow_of(table)][record.count as usize / 2] += 1;
        self.verdicts[record.verdict as usize] += 1;
        self.started_by_then[record.started_by_31_may_1981 as usize] += 1;
        let diagnosis = Diagnosis::of(table).expect("the model scored it");
        self.ages[diagnosis.survey.dates.age() as usize] += 1;
        self.repaired[house::repaired_of(table)] += 1;
        let sides = house::short_sides_of(table);
        let narrow = sides
            .iter()
            .rev()
            .fold(0, |set, &side| 2 * set + usize::from(side < 4_000));
        self.narrow[sides.len() - 1][narrow] += 1;
        self.scores.check(&diagnosis, record);
        for assessment in diagnosis.assessments() {
            let [a, b] = assessment.bands.map(|band| band as usize);
            self.bands[a.min(b)][a.max(b)] += 1;
        }
    }

    fn count_refusal(&mut self, table: &[u32], refusal: &Refusal) {
        match (refusal.number, refusal.row, refusal.column) {
            (Refusal::OUT_OF_RANGE, 1, 7) => self.age_given += 1,
            (Refusal::OUT_OF_RANGE, 1, 8) => {
                self.just_over_snow += usize::from(house::snow_of(table) == 4);
            }
            _ => {}
        }
        // There is no row where the refusal has no place, or where the table ends early.
        let rows = table.as_chunks::<ROW>().0;
        let index = (refusal.row as usize).checked_sub(1);
        match index.and_then(|index| rows.get(index)) {
            Some(row @ [PARTS, ..]) => self.count_parts_refusal(row, refusal),
            Some(row @ [DATES, ..]) => self.count_dates_refusal(row, refusal),
            _ => {}
        }
    }

    fn count_parts_refusal(&mut self, row: &[u32; ROW], refusal: &Refusal) {
        let place = (refusal.number, refusal.column);
        *self.parts_refused.entry(place).or_default() += 1;
        let [_, present, marked, repaired, ..] = *row;
        if let (Refusal::OUT_OF_RANGE, 4..) = place {
            let wrong_sets = present == 0 || marked & !present != 0;
            self.range_before_sets += usize::from(wrong_sets);
            self.just_over_repaired += usize::from(repaired == 2);
        }
    }

    fn count_dates_refusal(&mut self, row: &[u32; ROW], refusal: &Refusal) {
        let place = (refusal.number, refusal.column);
        *self.dates_refused.entry(place).or_default() += 1;
        let dates = &row[1..4];
        let no_day = |date: &u32| {
            let in_range = (days::FIRST..=days::LAST).contains(date);
            in_range && days::all().binary_search(date).is_err()
        };
        match refusal.number {
            Refusal::OUT_OF_RANGE => {
                self.range_before_day += usize::from(dates.iter().any(no_day));
            }
            Refusal::NO_SUCH_DAY => self.day_before_order += usize::from(!dates.is_sorted()),
            _ => {}
        }
    }

    fn assert_houses(&self, least: usize) {
        for storeys in &self.storeys {
            assert!(storeys[1..].iter().all(|&met| met >= least), "{self:?}");
        }
        for met in [
            &self.verdicts[1..],
            &self.ages[1..],
            &self.started_by_then,
            &self.repaired,
        ] {
            assert!(met.iter().all(|&met| met >= least), "{self:?}");
        }
        for (narrow, sets) in self.narrow.iter().zip([2, 4, 8]) {
            assert!(narrow[..sets].iter().all(|&met| met >= least), "{self:?}");
        }
        for lower in 0..5 {
            for higher in lower..5 {
                assert!(self.bands[lower][higher] >= least);
            }
        }
        self.scores.assert_met(least);
    }

    /// Asserts that rows of parts and of dates were refused with 3, with 4 at each column after the first, and with
    /// numbers of their own at each of their columns, and nowhere else.
    fn assert_last_rows_refused(&self, least: usize) {
        for (refused, own) in [
            (&self.parts_refused, &PARTS_REFUSALS[..]),
            (&self.dates_refused, &DATES_REFUSALS),
        ] {
            let out_of_range = (2..=8).map(|column| (Refusal::OUT_OF_RANGE, column));
            let mut places = vec![(Refusal::ROW_OUT_OF_ORDER, 1)];
            places.extend(out_of_range.chain(own.iter().copied()));
            assert!(refused.keys().eq(&places), "{self:?}");
            assert!(refused.values().all(|&met| met >= least), "{self:?}");
        }
        let met = [
            self.just_over_repaired,
            self.range_before_sets,
            self.range_before_day,
            self.day_before_order,
        ];
        assert!(met.iter().all(|&met| met >= least), "{self:?}");
    }

    fn assert_answers(&self, answers: &[usize; NUMBERS], numbers: &[usize], least: usize) {
        for (number, &met) in answers.iter().enumerate() {
            if numbers.contains(&number) {
                assert!(met >= least, "number {number} was met {met} times");
            } else {
                assert_eq!(met, 0, "number {number} has no business here");
            }
        }
    }
}

fn number_of<T>(answer: &Result<T, Refusal>) -> usize {
    answer
        .as_ref()
        .err()
        .map_or(0, |refusal| refusal.number as usize)
}

/// Compares buffers without printing thousands of numbers where they differ.
fn assert_same<T: PartialEq + Debug>(found: &[T], expected: &[T], of_what: &str) {
    let first = found
        .iter()
        .zip(expected)
        .position(|(one, other)| one != other);
    if let Some(index) = first {
        panic!(
            "{of_what}: the first difference is at {index} of the buffer, {:?} where {:?} is due",
            found[index], expected[index]
        );
    }
    assert_eq!(found.len(), expected.len());
}

/// Has a sheet read; the table where it was.
fn check_read(random: &mut Random, sheet: &[u8], tally: &mut Tally) -> Option<Vec<u32>> {
    let mut call = Read::new(random, sheet);
    let sheet_after = call.sheet.buffer.clone();

    let answer = raw::read(call.sheet.slice(), call.table.slice_mut());

    assert_eq!(answer, call.answer());
    assert_same(&call.table.buffer, &call.table_after, "the table");
    assert_same(&call.sheet.buffer, &sheet_after, "the sheet");
    let number = number_of(&call.expected);
    tally.read[number] += 1;
    if number == 9 && number_of(&model::read(sheet, MOST_ROWS * ROW)) == 2 {
        tally.short_before_misprint += 1;
    }
    call.expected.ok()
}

/// Has a table scored, and its report written.
fn check_table(random: &mut Random, table: &[u32], tally: &mut Tally) {
    let call = Score::new(random, table);
    let after = call.table.buffer.clone();

    let scored = girderbasil::score(call.table.slice());
    tally.cases += 1;
    tally.scored[number_of(&call.expected)] += 1;
    // What the library answers is checked by itself before it is compared, so that this doesn't rest on the model's record.
    match (&scored, &call.expected) {
        (Ok(record), Ok(_)) => tally.count_house(table, record),
        (_, Err(refusal)) => tally.count_refusal(table, refusal),
        (Err(_), Ok(_)) => {}
    }
    assert_eq!(scored, call.expected);
    assert_eq!(raw::score(call.table.slice()), call.answer());
    assert_same(&call.table.buffer, &after, "the table that was scored");
    check_report(random, table, tally);
}

fn check_report(random: &mut Random, table: &[u32], tally: &mut Tally) {
    let mut call = WriteReport::new(random, table);
    let table_after = call.table.buffer.clone();

    let answer = raw::write_report(call.table.slice(), call.report.slice_mut());

    assert_eq!(answer, call.answer());
    assert_same(&call.report.buffer, &call.report_after, "the report");
    assert_same(&call.table.buffer, &table_after, "the table");
    let number = number_of(&call.expected);
    tally.reported[number] += 1;
    if !matches!(number, 0 | 9) && call.report.slice().len() < 3 * LINE {
        tally.other_before_short += 1;
    }
}

/// Has the library tell what is printed for a sheet.
fn check_output(random: &mut Random, sheet: &[u8], tally: &mut Tally) {
    let call = Diagnose::new(random, sheet);
    let after = call.sheet.buffer.clone();

    assert_eq!(raw::diagnose(call.sheet.slice()), call.answer());
    assert_eq!(girderbasil::diagnose(call.sheet.slice()), call.printed);
    let output = girderbasil::output(call.sheet.slice());
    assert_eq!(output.refusal(), call.expected.err());

    assert_same(&call.sheet.buffer, &after, "the sheet");
    tally.printed[number_of(&call.expected)] += 1;
}

/// Has so many tables of a maker scored and reported.
fn check_tables(seed: u64, count: usize, make: fn(&mut Random) -> Vec<u32>) -> Tally {
    let mut random = Random::new(seed);
    let mut tally = Tally::default();
    for _ in 0..count {
        let table = make(&mut random);
        check_table(&mut random, &table, &mut tally);
    }
    println!("{tally:?}");
    tally
}

/// Has so many sheets of a maker read and diagnosed, and the tables scored and reported that they have.
fn check_sheets(seed: u64, count: usize, make: fn(&mut Random) -> Vec<u8>) -> Tally {
    let mut random = Random::new(seed);
    let mut tally = Tally::default();
    for _ in 0..count {
        let sheet = make(&mut random);
        if let Some(table) = check_read(&mut random, &sheet, &mut tally) {
            check_table(&mut random, &table, &mut tally);
        }
        check_output(&mut random, &sheet, &mut tally);
    }
    println!("{tally:?}");
    tally
}

#[test]
fn houses_are_scored_as_by_the_model() {
    let tally = check_tables(1, HOUSES, house::house);
    assert_eq!(tally.scored[0], HOUSES);
    tally.assert_houses(1_000);
    tally.assert_answers(&tally.reported, &[0, 9], 10_000);
}

#[test]
fn damaged_tables_are_refused_as_by_the_model() {
    let tally = check_tables(2, DAMAGED_TABLES, |random| {
        let mut table = house::house(random);
        damage::damage_table(random, &mut table);
        table
    });
    tally.assert_answers(&tally.scored, &[0, 1, 3, 4, 5, 6, 7, 8, 10, 11], 500);
    tally.assert_answers(&tally.reported, &[0, 1, 3, 4, 5, 6, 7, 8, 9, 10, 11], 500);
    assert!(tally.other_before_short >= 1_000);
    assert!(tally.just_over_snow >= 1_000, "{tally:?}");
    assert!(tally.age_given >= 1_000, "{tally:?}");
    tally.assert_last_rows_refused(200);
    tally.assert_houses(50);
}

#[test]
fn sheets_are_read_and_scored_as_by_the_model() {
    let tally = check_sheets(3, SHEETS, |random| sheet_of(&damage::any_table(random)));
    tally.assert_answers(&tally.read, &[0, 1, 9], 500);
    tally.assert_answers(&tally.scored, &[0, 3, 4, 5, 6, 7, 8, 10, 11], 100);
    tally.assert_answers(&tally.printed, &[0, 1, 3, 4, 5, 6, 7, 8, 10, 11], 1_000);
    assert!(tally.read[0] >= SHEETS / 2);
    tally.assert_last_rows_refused(50);
    tally.assert_houses(100);
}

#[test]
fn damaged_sheets_are_refused_as_by_the_model() {
    let tally = check_sheets(4, DAMAGED_SHEETS, |random| {
        let mut sheet = sheet_of(&house::house(random));
        damage::damage_sheet(random, &mut sheet);
        sheet
    });
    tally.assert_answers(&tally.read, &[0, 1, 2, 9], 5_000);
    assert!(tally.short_before_misprint >= 1_000);
    assert!(tally.printed[2] >= 10_000);
    assert!(tally.cases >= 5_000);
}

#[test]
fn worked_houses_are_printed_as_the_papers_have_them() {
    assert_eq!(
        girderbasil::diagnose(worked::SHEET),
        worked::REPORT.as_bytes()
    );
    let sheet = sheet_of(&worked::MANUAL_TABLE);
    assert_eq!(
        girderbasil::diagnose(&sheet),
        worked::MANUAL_REPORT.as_bytes()
    );
    let in_x = [90, 100]
        .map(|zone| girderbasil::score(&worked::better_end_falls(zone)).map(|it| it.scores[0]));
    assert_eq!(in_x, [Ok(11), Ok(14)]);
}

#[test]
fn worked_houses_have_their_records() {
    for (name, table, record) in worked::with_records() {
        assert_eq!(girderbasil::score(&table), Ok(record), "{name}");
    }
}

#[test]
fn worked_houses_in_snow() {
    let leasts = [0, 1, 2, 3].map(|snow| {
        let record = girderbasil::score(&worked::in_snow(snow)).expect("it is accepted");
        record.scores[0].min(record.scores[1])
    });
    assert_eq!(leasts, worked::LEAST_IN_SNOW);
    let printed = girderbasil::diagnose(&sheet_of(&worked::in_snow(3)));
    assert_eq!(printed, worked::REPORT_IN_DEEP_SNOW.as_bytes());
    let scores = [0, 1]
        .map(|snow| girderbasil::score(&worked::weak_joints(snow)).map(|record| record.scores));
    assert_eq!(scores, worked::WEAK_JOINTS_SCORES.map(Ok));
}

#[test]
fn p1_repaired() {
    let printed = girderbasil::diagnose(&sheet_of(&worked::unmarked(true)));
    assert_eq!(printed, worked::REPAIRED_REPORT.as_bytes());
}

#[test]
fn refused_sheets_are_told_with_row_before_column() {
    for (sheet, line) in worked::refused() {
        assert_eq!(
            String::from_utf8_lossy(&girderbasil::diagnose(&sheet)),
            line
        );
    }
}

/// An empty slice of Rust has a pointer that isn't null; one of C may be null.
#[test]
fn nothing_lent_may_be_null() {
    let refused = |number| raw_answer(Err(&Refusal::without_place(number)));
    let mut random = Random::new(5);
    let mut table = worked::TABLE;
    let mut report = [7; MOST_REPORT_BYTES];
    // SAFETY: each pointer is null with length 0, or comes from a slice of the length given; none overlap.
    unsafe {
        let (sheet, length) = (worked::SHEET.as_ptr(), worked::SHEET.len());
        let answer = raw::girderbasil_read(ptr::null(), 0, table.as_mut_ptr(), table.len());
        assert_eq!(answer, refused(Refusal::SHEET_LENGTH));
        let answer = raw::girderbasil_read(sheet, length, ptr::null_mut(), 0);
        assert_eq!(answer, refused(Refusal::LENT_SPACE_SHORT));
        let scoring = raw::girderbasil_score(ptr::null(), 0);
        assert_eq!(scoring, Score::new(&mut random, &[]).answer());
        let output = raw::girderbasil_diagnose(ptr::null(), 0);
        assert_eq!(output, Diagnose::new(&mut random, &[]).answer());
        let answer =
            raw::girderbasil_write_report(ptr::null(), 0, report.as_mut_ptr(), report.len());
        assert_eq!(answer, refused(Refusal::SHEET_LENGTH));
        let answer = raw::girderbasil_write_report(table.as_ptr(), table.len(), ptr::null_mut(), 0);
        assert_eq!(answer, refused(Refusal::LENT_SPACE_SHORT));
    }
    assert_eq!(table, worked::TABLE);
    assert_eq!(report, [7; MOST_REPORT_BYTES]);
}
