//! "Score and verdict", the report and the program.

use super::score::{Assessment, Diagnosis, verdict};
use super::sheet::{Row, read_into, write_row};
use girderbasil::Refusal;
use girderbasil::{LINE, MOST_REPORT_BYTES, MOST_ROWS, ROW};

const REFUSED: u32 = 0;
const ASSESSED: u32 = 6;
const VERDICT: u32 = 7;

/// The report of a table, where `lent_bytes` are lent for it.
pub fn write_report(table: &[u32], lent_bytes: usize) -> Result<Vec<u8>, Refusal> {
    let mut report = Vec::new();
    write_report_into(table, lent_bytes, &mut report)?;
    Ok(report)
}

/// Does the same into a vector that the caller uses again; where it is refused, what it holds is no report.
pub fn write_report_into(
    table: &[u32],
    lent_bytes: usize,
    report: &mut Vec<u8>,
) -> Result<(), Refusal> {
    let diagnosis = Diagnosis::of(table)?;
    let lines = diagnosis.count() as usize + 1;
    if lines * LINE > lent_bytes {
        return Err(Refusal::without_place(Refusal::LENT_SPACE_SHORT));
    }
    report.clear();
    let mut least = u32::MAX;
    for assessment in diagnosis.assessments() {
        write_row(&assessment_row(&assessment), report);
        least = least.min(assessment.score().limited());
    }
    write_row(&[VERDICT, verdict(least), least, 0, 0, 0, 0, 0], report);
    Ok(())
}

/// Held is printed in 0.01 kN rounded down, required in 0.01 kN rounded up.
fn assessment_row(assessment: &Assessment) -> Row {
    [
        ASSESSED,
        assessment.storey,
        assessment.direction,
        (assessment.held / 10_000) as u32,
        assessment.required.div_ceil(10_000_000) as u32,
        assessment.layout as u32,
        assessment.deterioration.in_hundredths(),
        assessment.score().limited(),
    ]
}

/// What the scoring program prints for a sheet: its report, or the line of its refusal alone.
pub fn diagnose(sheet: &[u8]) -> Vec<u8> {
    let (mut table, mut printed) = (Vec::new(), Vec::new());
    diagnose_into(sheet, &mut table, &mut printed);
    printed
}

/// Does the same with vectors that the caller uses again.
pub fn diagnose_into(sheet: &[u8], table: &mut Vec<u32>, printed: &mut Vec<u8>) {
    let answer = read_into(sheet, MOST_ROWS * ROW, table)
        .and_then(|()| write_report_into(table, MOST_REPORT_BYTES, printed));
    if let Err(Refusal {
        number,
        row,
        column,
    }) = answer
    {
        printed.clear();
        write_row(&[REFUSED, number, row, column, 0, 0, 0, 0], printed);
    }
}
