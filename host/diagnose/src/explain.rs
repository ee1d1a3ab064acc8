//! The line that finds the mistake in a refused sheet. Its number, row and column are the library's; the sheet is looked
//! at only for the words.

mod characters;
mod dates;
mod field;
mod house;
mod length;
mod lines;
mod order;
mod range;

use girderbasil::{MOST_ROWS, ROW, Refusal};

use crate::words::{self, sentence};

type Row = [u32; ROW];

const HOUSE: u32 = 1;
const STOREY: u32 = 2;
const ENDS: u32 = 3;
const WALL: u32 = 4;
const PARTS: u32 = 5;
const DATES: u32 = 8;

/// The line for a sheet that the library refuses, without a newline. Where nothing more can be said of the sheet, it has
/// the general sentence of the refusal.
pub fn explain(file: &str, sheet: &[u8], refusal: Refusal) -> String {
    let number = refusal.number;
    let found = match number {
        Refusal::SHEET_LENGTH => lines::explain(sheet),
        _ => mistake(sheet, refusal).map(|what| (refusal.row, what)),
    };
    let (row, what) = found.unwrap_or_else(|| (refusal.row, general(refusal)));
    let name = match row {
        0 => "of the sheet",
        _ => "of a row",
    };
    let word = words::refusal(number);
    sentence(
        name,
        &[
            ("file", &file),
            ("row", &row),
            ("what", &what),
            ("number", &number),
            ("refusal", &word),
        ],
    )
}

/// What is wrong in the row that the library names; none where the sheet does not show it.
fn mistake(sheet: &[u8], refusal: Refusal) -> Option<String> {
    let Refusal {
        number,
        row,
        column,
    } = refusal;
    if number == Refusal::MISPRINT {
        return lines::in_line(sheet, row, column).or_else(|| field::explain(sheet, row, column));
    }
    let rows = rows(sheet)?;
    let place = (row as usize).checked_sub(1)?;
    if number == Refusal::ROW_OUT_OF_ORDER {
        return order::explain(&rows, place);
    }
    let found = rows.get(place)?;
    let what = match number {
        Refusal::TOO_MANY_WALLS => return house::too_many_walls(&rows, row),
        Refusal::ENDS_EXCEED_STOREY => house::ends(&rows, found, column),
        Refusal::OUT_OF_RANGE => range::explain(&rows, found, column),
        Refusal::MARK_ON_ABSENT_PART => Some(house::absent_parts(found)),
        Refusal::NO_PARTS => Some(sentence("no parts", &[])),
        Refusal::NO_SUCH_DAY => dates::no_day(found, column),
        Refusal::DATES_OUT_OF_ORDER => dates::order(found, column),
        _ => None,
    };
    Some(of_column(&column_named(Some(found[0]), column), &what?))
}

/// The rows of a sheet's table; none where reading refuses the sheet.
fn rows(sheet: &[u8]) -> Option<Vec<Row>> {
    let mut table = vec![0; MOST_ROWS * ROW];
    let rows = girderbasil::read(sheet, &mut table).ok()?;
    let (all, _) = table.as_chunks();
    Some(all[..rows].to_vec())
}

/// What is wrong with the number in a column.
fn of_column(column: &str, what: &str) -> String {
    sentence("of a column", &[("column", &column), ("what", &what)])
}

/// A column by its number, and its name where the kind of the row is known.
fn column_named(kind: Option<u32>, column: u32) -> String {
    match kind.and_then(|kind| words::column(kind, column)) {
        Some(named) => sentence("column", &[("column", &column), ("name", &named.name)]),
        None => sentence("no name", &[("column", &column)]),
    }
}

fn general(refusal: Refusal) -> String {
    let when = words::when(refusal.number).to_owned();
    match refusal.column {
        0 => when,
        column => of_column(&column_named(None, column), &when),
    }
}

/// The house's storeys in words.
fn storeys(storeys: u32) -> String {
    match storeys {
        1 => sentence("1 storey", &[]),
        _ => sentence("storeys", &[("storeys", &storeys)]),
    }
}

/// Words one after the other, the last two joined by a word of its own, `or` or `and`.
fn list(words: &[String], last: &str) -> String {
    let joined = |name: &str, before: &str, after: &String| {
        sentence(name, &[("before", &before), ("after", after)])
    };
    let Some((first, rest)) = words.split_first() else {
        return String::new();
    };
    let Some((end, middle)) = rest.split_last() else {
        return first.clone();
    };
    let before = middle.iter().fold(first.clone(), |before, after| {
        joined("comma", &before, after)
    });
    joined(last, &before, end)
}
