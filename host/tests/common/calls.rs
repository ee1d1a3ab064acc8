//! Calls of the library's functions, each with all that it is lent and with what the model says of it: the whole answer,
//! and what every buffer holds afterwards. A buffer that is only read must stay as it is.

use girderbasil::Totals;
use girderbasil::raw;
use girderbasil::{LINE, MOST_REPORT_BYTES, MOST_ROWS, ROW};
use girderbasil::{Record, Refusal};
use girderbasil_tests::model;
use girderbasil_tests::random::Random;
use girderbasil_tests::site::Change;

use super::lent::{Lent, lent_length};

/// How many numbers an answer may begin with: a refusal's, up to 12, or 0.
pub const NUMBERS: usize = 13;

/// The refusals that parts alone get, by number and column.
pub const PARTS_REFUSALS: [(u32, u32); 2] = [(7, 3), (8, 2)];

/// The same of dates.
pub const DATES_REFUSALS: [(u32, u32); 5] = [(10, 2), (10, 3), (10, 4), (11, 3), (11, 4)];

/// `girderbasil_read`.
pub struct Read {
    pub sheet: Lent<u8>,
    pub table: Lent<u32>,
    /// The table that the sheet has, if the sheet is read.
    pub expected: Result<Vec<u32>, Refusal>,
    pub table_after: Vec<u32>,
}

impl Read {
    pub fn new(random: &mut Random, sheet: &[u8]) -> Self {
        let length = lent_length(random, sheet.len() / LINE * ROW, MOST_ROWS * ROW);
        let expected = model::read(sheet, length);
        let sheet = Lent::copy_of(random, sheet, Random::bytes);
        let table = Lent::new(random, length, Random::numbers);
        let table_after = table.after_writing(expected.as_deref().unwrap_or_default());
        Self {
            sheet,
            table,
            expected,
            table_after,
        }
    }

    pub fn answer(&self) -> raw::Answer {
        raw_answer(self.expected.as_ref().map(|table| table.len() / ROW))
    }
}

/// `girderbasil_score`.
pub struct Score {
    pub table: Lent<u32>,
    pub expected: Result<Record, Refusal>,
}

impl Score {
    pub fn new(random: &mut Random, table: &[u32]) -> Self {
        Self {
            table: Lent::copy_of(random, table, Random::numbers),
            expected: model::score(table),
        }
    }

    pub fn answer(&self) -> raw::Scoring {
        raw_scoring(&self.expected)
    }
}

/// `girderbasil_write_report`.
pub struct WriteReport {
    pub table: Lent<u32>,
    pub report: Lent<u8>,
    pub expected: Result<Vec<u8>, Refusal>,
    pub report_after: Vec<u8>,
}

impl WriteReport {
    pub fn new(random: &mut Random, table: &[u32]) -> Self {
        let needed =
            model::write_report(table, MOST_REPORT_BYTES).map_or(3 * LINE, |report| report.len());
        let length = lent_length(random, needed, MOST_REPORT_BYTES);
        let expected = model::write_report(table, length);
        let table = Lent::copy_of(random, table, Random::numbers);
        let report = Lent::new(random, length, Random::bytes);
        let report_after = report.after_writing(expected.as_deref().unwrap_or_default());
        Self {
            table,
            report,
            expected,
            report_after,
        }
    }

    pub fn answer(&self) -> raw::Answer {
        raw_answer(self.expected.as_ref().map(Vec::len))
    }
}

/// `girderbasil_diagnose`.
pub struct Diagnose {
    pub sheet: Lent<u8>,
    /// Whether the sheet is scored.
    pub expected: Result<(), Refusal>,
    /// The report, or the refusal's line.
    pub printed: Vec<u8>,
}

impl Diagnose {
    pub fn new(random: &mut Random, sheet: &[u8]) -> Self {
        Self {
            sheet: Lent::copy_of(random, sheet, Random::bytes),
            expected: model::read(sheet, MOST_ROWS * ROW)
                .and_then(|table| model::write_report(&table, MOST_REPORT_BYTES))
                .map(drop),
            printed: model::diagnose(sheet),
        }
    }

    /// What is printed stands at the front, and the bytes after it are 0.
    pub fn answer(&self) -> raw::Output {
        let (number, row, column) = refusal_fields(self.expected.as_ref().err());
        let mut bytes = [0; MOST_REPORT_BYTES];
        bytes[..self.printed.len()].copy_from_slice(&self.printed);
        raw::Output {
            number,
            row,
            column,
            count: self.printed.len() as u32,
            bytes,
        }
    }
}

/// `girderbasil_start`, `girderbasil_add_wall` or `girderbasil_delete_wall`.
pub struct OnSite {
    pub change: Change,
    pub table: Lent<u32>,
    pub totals: Totals,
    pub expected: Result<Record, Refusal>,
    pub table_after: Vec<u32>,
    pub totals_after: Totals,
}

impl OnSite {
    pub fn new(random: &mut Random, lent: &[u32], totals: Totals, change: Change) -> Self {
        let (mut lent_after, mut totals_after) = (lent.to_vec(), totals);
        let expected = model::site::change(&mut totals_after, &mut lent_after, &change);
        let table = Lent::copy_of(random, lent, Random::numbers);
        let table_after = table.after_writing(&lent_after);
        Self {
            change,
            table,
            totals,
            expected,
            table_after,
            totals_after,
        }
    }

    pub fn answer(&self) -> raw::Scoring {
        raw_scoring(&self.expected)
    }
}

/// A record or a refusal as it crosses. Where it is a refusal the record is all 0.
pub fn raw_scoring(scored: &Result<Record, Refusal>) -> raw::Scoring {
    let (number, row, column) = refusal_fields(scored.as_ref().err());
    let record = scored.unwrap_or_default();
    raw::Scoring {
        number,
        row,
        column,
        scores: record.scores,
        count: record.count,
        verdict: record.verdict,
        started_by_31_may_1981: record.started_by_31_may_1981,
        hundredths: record.hundredths,
        remainders: record.remainders,
        divisors: record.divisors,
    }
}

/// A count or a refusal as it crosses.
pub fn raw_answer(answer: Result<usize, &Refusal>) -> raw::Answer {
    let (number, row, column) = refusal_fields(answer.err());
    raw::Answer {
        number,
        row,
        column,
        count: answer.map_or(0, |count| count as u32),
    }
}

/// The three fields that every answer begins with; all 0 where there is no refusal.
fn refusal_fields(refusal: Option<&Refusal>) -> (u32, u32, u32) {
    refusal.map_or((0, 0, 0), |refusal| {
        (refusal.number, refusal.row, refusal.column)
    })
}

/// A sheet from a table, which may be damaged. Numbers that no field holds are cut to what one does.
pub fn sheet_of(table: &[u32]) -> Vec<u8> {
    let held: Vec<u32> = table.iter().map(|number| number % 100_000_000).collect();
    model::write(&held, usize::MAX).unwrap_or_default()
}
