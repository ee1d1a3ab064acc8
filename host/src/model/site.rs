//! "Walls rubbed out and drawn in", document 02's request 7: the running totals, and one wall added or deleted.

use std::ops::Range;

use super::held;
use super::score::Diagnosis;
use super::sheet::Row;
use super::survey::{self, Survey, Wall};
use crate::site::{Change, place_of};
use girderbasil::ROW;
use girderbasil::Totals;
use girderbasil::{Record, Refusal};

/// The most that "any total of the house, moved or not," may be.
pub const MOST_TOTAL: u64 = 60_000_000_000;

/// Does any of the three to a record and a lent table.
pub fn change(totals: &mut Totals, table: &mut [u32], change: &Change) -> Result<Record, Refusal> {
    match change {
        Change::Start => start(totals, table),
        Change::Add(wall) => add_wall(totals, table, wall),
        Change::Delete(row) => delete_wall(totals, table, *row),
    }
}

/// "a start, once those rows pass the check below, fills in every sum and answers the scores".
pub fn start(totals: &mut Totals, table: &[u32]) -> Result<Record, Refusal> {
    let diagnosis = Diagnosis::of(rows_in_use(totals, table)?)?;
    totals.held = diagnosis.sums();
    Ok(diagnosis.record())
}

/// Adds a wall after the last whose storey isn't above its own.
pub fn add_wall(totals: &mut Totals, table: &mut [u32], wall: &Row) -> Result<Record, Refusal> {
    let survey = survey::judge(rows_in_use(totals, table)?)?;
    let index = survey.index_for_wall(wall[1]);
    survey::judge_wall(index, wall, survey.house.storeys)?;
    survey::judge_number_of_walls(survey.walls().count(), index)?;
    let end = ROW * totals.rows as usize;
    if table.len() < end + ROW {
        return Err(Refusal::without_place(Refusal::LENT_SPACE_SHORT));
    }
    let held = moved(totals, &survey, wall, u64::checked_add)?;

    let taken = numbers_of(index);
    table.copy_within(taken.start..end, taken.end);
    table[taken].copy_from_slice(wall);
    *totals = Totals {
        held,
        rows: totals.rows + 1,
    };
    Ok(changed(totals, table))
}

/// Deletes the wall at a row, counted from 1.
pub fn delete_wall(totals: &mut Totals, table: &mut [u32], row: u32) -> Result<Record, Refusal> {
    let survey = survey::judge(rows_in_use(totals, table)?)?;
    let no_such_wall = Refusal::at(Refusal::NO_SUCH_WALL, row, 0);
    let index = (row as usize).checked_sub(1).ok_or(no_such_wall)?;
    let wall = survey.wall_at(index).ok_or(no_such_wall)?;
    let held = moved(totals, &survey, wall, u64::checked_sub)?;

    let deleted = numbers_of(index);
    let last = numbers_of(totals.rows as usize - 1);
    table.copy_within(deleted.end..last.end, deleted.start);
    table[last].fill(0);
    *totals = Totals {
        held,
        rows: totals.rows - 1,
    };
    Ok(changed(totals, table))
}

/// "rows beyond them aren't read", and "a count beyond the lent table is 1".
fn rows_in_use<'table>(totals: &Totals, table: &'table [u32]) -> Result<&'table [u32], Refusal> {
    table
        .get(..ROW * totals.rows as usize)
        .ok_or(Refusal::without_place(Refusal::SHEET_LENGTH))
}

/// Where the numbers of a row stand, by its index from 0.
fn numbers_of(index: usize) -> Range<usize> {
    ROW * index..ROW * (index + 1)
}

/// The totals with one moved by a wall's share alone, unless "any total of the house, moved or not, would then lie
/// outside 0 to 60,000,000,000".
fn moved(
    totals: &Totals,
    survey: &Survey,
    wall: &Row,
    by: fn(u64, u64) -> Option<u64>,
) -> Result<[u64; 6], Refusal> {
    let outside = Refusal::without_place(Refusal::NO_SUCH_WALL);
    let wall = Wall::from(wall);
    let share = u64::from(held::wall_strength(&survey.house, &wall));
    let mut held = totals.held;
    let total = &mut held[place_of(wall.storey, wall.direction)];
    // What 64 bits don't hold is outside too.
    *total = by(*total, share).ok_or(outside)?;
    let of_the_house = &held[..2 * survey.house.storeys as usize];
    if of_the_house.iter().any(|&total| total > MOST_TOTAL) {
        return Err(outside);
    }
    Ok(held)
}

/// The answer after a change: "the scores of those totals".
fn changed(totals: &Totals, table: &[u32]) -> Record {
    let rows = rows_in_use(totals, table).expect("the rows of a change fit");
    let diagnosis = Diagnosis::of(rows).expect("a change leaves a table that is accepted");
    diagnosis.with_held(&totals.held).record()
}
