//! The boundary as it is (`include/girderbasil.h`), for those who need every field of an answer or have pointers of their own.

use crate::{MOST_REPORT_BYTES, ROW, Totals};

/// `girderbasil_answer`: a count or a refusal.
#[repr(C)]
#[derive(Debug, Clone, Copy, PartialEq, Eq)]
pub struct Answer {
    /// 0 where accepted, else the refusal's number.
    pub number: u32,
    /// The refusal's row, counted from 1; 0 where it has no place.
    pub row: u32,
    /// The refusal's column, likewise.
    pub column: u32,
    /// Rows read or bytes written; 0 where refused.
    pub count: u32,
}

/// `girderbasil_scoring`: a record or a refusal.
#[repr(C)]
#[derive(Debug, Clone, Copy, PartialEq, Eq)]
pub struct Scoring {
    /// 0 where scored, else the refusal's number; then the record is all 0.
    pub number: u32,
    /// The refusal's row, counted from 1; 0 where it has no place.
    pub row: u32,
    /// The refusal's column, likewise.
    pub column: u32,
    /// The fields from here on are those of [`Record`](crate::Record).
    pub scores: [u32; 6],
    /// How many scores there are.
    pub count: u32,
    /// The verdict, 1 to 4.
    pub verdict: u32,
    /// 1 where work started by that day; else 0.
    pub started_by_31_may_1981: u32,
    /// The scores before their limit.
    pub hundredths: [u64; 6],
    /// What is left over.
    pub remainders: [u64; 6],
    /// What was divided by.
    pub divisors: [u64; 6],
}

/// `girderbasil_output`: what the scoring program prints, with the refusal that it tells.
#[repr(C)]
#[derive(Debug, Clone, Copy, PartialEq, Eq)]
pub struct Output {
    /// 0 where it is the report, else the refusal's number; then it is the refusal's line.
    pub number: u32,
    /// The refusal's row, counted from 1; 0 where it has no place.
    pub row: u32,
    /// The refusal's column, likewise.
    pub column: u32,
    /// How many bytes are printed, for a refusal too.
    pub count: u32,
    /// The bytes that are printed, and 0 after them.
    pub bytes: [u8; MOST_REPORT_BYTES],
}

// The caller of each sees to it that a pointer stands for as many elements as the length beside it says, or
// for none with length 0; that `totals` stands for one record, and `wall` for a row; and that what is lent as
// `*mut` overlaps no other argument.
unsafe extern "C" {
    /// Reads a sheet into a lent table.
    pub fn girderbasil_read(
        sheet: *const u8,
        sheet_length: usize,
        table: *mut u32,
        table_length: usize,
    ) -> Answer;

    /// Scores a table.
    pub fn girderbasil_score(table: *const u32, table_length: usize) -> Scoring;

    /// Writes a table's report into lent bytes.
    pub fn girderbasil_write_report(
        table: *const u32,
        table_length: usize,
        report: *mut u8,
        report_length: usize,
    ) -> Answer;

    /// What the scoring program prints for a sheet.
    pub fn girderbasil_diagnose(sheet: *const u8, sheet_length: usize) -> Output;

    /// Fills in the totals of the rows in use.
    pub fn girderbasil_start(
        totals: *mut Totals,
        table: *const u32,
        table_length: usize,
    ) -> Scoring;

    /// Adds a wall to the rows in use.
    pub fn girderbasil_add_wall(
        totals: *mut Totals,
        table: *mut u32,
        table_length: usize,
        wall: *const u32,
    ) -> Scoring;

    /// Deletes the wall at a row.
    pub fn girderbasil_delete_wall(
        totals: *mut Totals,
        table: *mut u32,
        table_length: usize,
        row: u32,
    ) -> Scoring;
}

/// The whole answer of `girderbasil_read`.
pub fn read(sheet: &[u8], table: &mut [u32]) -> Answer {
    // SAFETY: both pointers come from slices of the lengths given, and `table` is borrowed alone, so it doesn't
    // overlap `sheet`.
    unsafe { girderbasil_read(sheet.as_ptr(), sheet.len(), table.as_mut_ptr(), table.len()) }
}

/// The whole answer of `girderbasil_score`, so that the record of a refused table can be seen.
pub fn score(table: &[u32]) -> Scoring {
    // SAFETY: the pointer comes from a slice of the length given, and nothing is written through it.
    unsafe { girderbasil_score(table.as_ptr(), table.len()) }
}

/// The whole answer of `girderbasil_write_report`.
pub fn write_report(table: &[u32], report: &mut [u8]) -> Answer {
    // SAFETY: both pointers come from slices of the lengths given, and `report` is borrowed alone, so it doesn't
    // overlap `table`.
    unsafe {
        girderbasil_write_report(
            table.as_ptr(),
            table.len(),
            report.as_mut_ptr(),
            report.len(),
        )
    }
}

/// The whole answer of `girderbasil_diagnose`, so that the bytes after those printed can be seen.
pub fn diagnose(sheet: &[u8]) -> Output {
    // SAFETY: the pointer comes from a slice of the length given, and nothing is written through it.
    unsafe { girderbasil_diagnose(sheet.as_ptr(), sheet.len()) }
}

/// The whole answer of `girderbasil_start`.
pub fn start(totals: &mut Totals, table: &[u32]) -> Scoring {
    // SAFETY: one pointer comes from a record that is borrowed alone, the other from a slice of the length given.
    unsafe { girderbasil_start(totals, table.as_ptr(), table.len()) }
}

/// The whole answer of `girderbasil_add_wall`.
pub fn add_wall(totals: &mut Totals, table: &mut [u32], wall: &[u32; ROW]) -> Scoring {
    // SAFETY: the pointers come from a record, a slice of the length given and a row; the first two are borrowed alone, so
    // neither overlaps another.
    unsafe { girderbasil_add_wall(totals, table.as_mut_ptr(), table.len(), wall.as_ptr()) }
}

/// The whole answer of `girderbasil_delete_wall`.
pub fn delete_wall(totals: &mut Totals, table: &mut [u32], row: u32) -> Scoring {
    // SAFETY: the pointers come from a record and a slice of the length given, both borrowed alone.
    unsafe { girderbasil_delete_wall(totals, table.as_mut_ptr(), table.len(), row) }
}
