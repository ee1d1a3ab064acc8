//! Earthquake diagnosis sheets of Japanese wooden houses, scored by the proved library (general diagnosis, method 1).
//!
//! A sheet's bytes are read into a table of numbers, eight a row, and a table is scored or reported. The caller owns all
//! storage; room for the longest sheet is `MOST_ROWS * ROW` numbers, and for the longest report `MOST_REPORT_BYTES` bytes.
//!
//! ```
//! use girderbasil::{MOST_ROWS, ROW};
//!
//! let sheet = include_bytes!("../examples/p1.sheet");
//! let mut table = [0; MOST_ROWS * ROW];
//! let rows = girderbasil::read(sheet, &mut table)?;
//! let record = girderbasil::score(&table[..rows * ROW])?;
//! assert_eq!((record.verdict, record.scores()), (4, &[47, 83][..]));
//! # Ok::<(), girderbasil::Refusal>(())
//! ```
//!
//! The functions of this package are safe: a Rust slice is what the boundary ([`raw`]) asks of a pointer
//! with a length, and the borrow checker sees to it that storage lent to be filled overlaps nothing else. None keeps anything
//! between calls, so any threads may call them.
//!
//! The build links the archive of the proved library that the environment's `GIRDERBASIL_ARCHIVE` names by its whole path. It
//! has to be the archive of the version that this package has ([`VERSION`]), since nothing in it tells its version. Cargo goes
//! by its time, as with a source file: one that is replaced by an older is linked anew once it is touched. Without the
//! variable the build links an archive that the repository's `tools/archive` makes, for which the Rattle kit has to be there.
#![warn(missing_docs)]

mod answers;
pub mod raw;
mod site;

pub use answers::{Record, Refusal};
pub use site::{Site, Totals};

/// The version of this package and of the library that belongs to it.
pub const VERSION: &str = env!("CARGO_PKG_VERSION");
/// The bytes of a sheet's line: eight fields, then a line feed.
pub const LINE: usize = 65;
/// The characters of a field.
pub const FIELD: usize = 8;
/// The numbers of a table's row.
pub const ROW: usize = 8;
/// The most walls of a house.
pub const MOST_WALLS: usize = 300;
/// The most lines of a sheet, and rows of a table: the house, three storeys, six rows of ends, the walls, the parts and
/// the dates.
pub const MOST_ROWS: usize = 1 + 3 + 6 + MOST_WALLS + 1 + 1;
/// The bytes of the longest report: two lines for each of three storeys, and the verdict's.
pub const MOST_REPORT_BYTES: usize = 7 * LINE;

/// Reads a sheet into a lent table: how many rows were read, at its front. What is after them stays as it was.
///
/// # Errors
///
/// Refused with [`SHEET_LENGTH`](Refusal::SHEET_LENGTH), [`LENT_SPACE_SHORT`](Refusal::LENT_SPACE_SHORT) or
/// [`MISPRINT`](Refusal::MISPRINT), tested in that order. A refusal leaves the table as it was.
///
/// ```
/// let line = format!("{:8}{:8}{:8}{:8}{:8}{:8}{:8}{:8}\n", 1, 1, 2, 100, 1, 1, 0, 0);
/// let mut table = [9; 10];
/// assert_eq!(girderbasil::read(line.as_bytes(), &mut table), Ok(1));
/// assert_eq!(table, [1, 1, 2, 100, 1, 1, 0, 0, 9, 9]);
/// ```
pub fn read(sheet: &[u8], table: &mut [u32]) -> Result<usize, Refusal> {
    count_or_refusal(raw::read(sheet, table))
}

/// Scores a table.
///
/// # Errors
///
/// Refused with [`SHEET_LENGTH`](Refusal::SHEET_LENGTH), [`ROW_OUT_OF_ORDER`](Refusal::ROW_OUT_OF_ORDER),
/// [`OUT_OF_RANGE`](Refusal::OUT_OF_RANGE), [`TOO_MANY_WALLS`](Refusal::TOO_MANY_WALLS),
/// [`ENDS_EXCEED_STOREY`](Refusal::ENDS_EXCEED_STOREY), [`MARK_ON_ABSENT_PART`](Refusal::MARK_ON_ABSENT_PART),
/// [`NO_PARTS`](Refusal::NO_PARTS), [`NO_SUCH_DAY`](Refusal::NO_SUCH_DAY) or
/// [`DATES_OUT_OF_ORDER`](Refusal::DATES_OUT_OF_ORDER), in the order that the repository's docs/REFUSALS.md has.
///
/// ```
/// use girderbasil::Refusal;
///
/// let house = [1, 1, 2, 95, 1, 1, 0, 0];
/// assert_eq!(girderbasil::score(&house), Err(Refusal::at(Refusal::OUT_OF_RANGE, 1, 4)));
/// ```
pub fn score(table: &[u32]) -> Result<Record, Refusal> {
    record_or_refusal(raw::score(table))
}

/// Writes a table's report into lent bytes: how many were written, at their front. What is after them stays as it was.
///
/// # Errors
///
/// Refused as [`score`] refuses; else with [`LENT_SPACE_SHORT`](Refusal::LENT_SPACE_SHORT) where the report is longer than what
/// was lent. A refusal leaves the bytes as they were.
///
/// ```
/// use girderbasil::{LINE, MOST_REPORT_BYTES, Refusal, write_report};
///
/// # let sheet = include_bytes!("../examples/p1.sheet");
/// # let mut table = vec![0; sheet.len() / LINE * girderbasil::ROW];
/// # girderbasil::read(sheet, &mut table)?;
/// let mut report = [0; MOST_REPORT_BYTES];
/// let bytes = write_report(&table, &mut report)?;
/// assert_eq!(report[..bytes], girderbasil::diagnose(sheet));
/// let short = Refusal::without_place(Refusal::LENT_SPACE_SHORT);
/// assert_eq!(write_report(&table, &mut report[..LINE]), Err(short));
/// # Ok::<(), Refusal>(())
/// ```
pub fn write_report(table: &[u32], report: &mut [u8]) -> Result<usize, Refusal> {
    count_or_refusal(raw::write_report(table, report))
}

/// What the scoring program prints for a sheet: its report, or the line of its refusal alone.
///
/// ```
/// let printed = girderbasil::diagnose(b"no sheet");
/// assert_eq!(printed, b"       0       1       0       0       0       0       0       0\n");
/// ```
pub fn diagnose(sheet: &[u8]) -> Vec<u8> {
    output(sheet).bytes().to_vec()
}

/// The same, with the refusal that it tells.
///
/// ```
/// let mut sheet = *include_bytes!("../examples/p1.sheet");
/// sheet[24..32].copy_from_slice(b"      95");
/// let output = girderbasil::output(&sheet);
/// let refusal = output.refusal().expect("95 is no zone");
/// assert_eq!(refusal.to_string(), "refused 4, row 1, column 4");
/// assert_eq!(output.bytes().len(), girderbasil::LINE);
/// ```
pub fn output(sheet: &[u8]) -> Output {
    Output(raw::diagnose(sheet))
}

/// What the scoring program prints for a sheet.
#[derive(Debug, Clone, Copy, PartialEq, Eq)]
pub struct Output(raw::Output);

impl Output {
    /// The report's bytes, or those of the refusal's line.
    pub fn bytes(&self) -> &[u8] {
        &self.0.bytes[..self.0.count as usize]
    }

    /// The refusal that the line tells; none where it is a report.
    pub fn refusal(&self) -> Option<Refusal> {
        accepted(self.0.number, self.0.row, self.0.column).err()
    }
}

fn record_or_refusal(scoring: raw::Scoring) -> Result<Record, Refusal> {
    accepted(scoring.number, scoring.row, scoring.column)?;
    Ok(Record {
        scores: scoring.scores,
        count: scoring.count,
        verdict: scoring.verdict,
        started_by_31_may_1981: scoring.started_by_31_may_1981,
        hundredths: scoring.hundredths,
        remainders: scoring.remainders,
        divisors: scoring.divisors,
    })
}

fn count_or_refusal(answer: raw::Answer) -> Result<usize, Refusal> {
    accepted(answer.number, answer.row, answer.column)?;
    Ok(answer.count as usize)
}

/// The fields that every answer begins with: a refusal unless the number is 0.
fn accepted(number: u32, row: u32, column: u32) -> Result<(), Refusal> {
    match number {
        0 => Ok(()),
        _ => Err(Refusal::at(number, row, column)),
    }
}
