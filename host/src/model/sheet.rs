//! "The sheet and the table": the reader and the writer.

use super::refusal_at;
use girderbasil::Refusal;
use girderbasil::{FIELD, LINE, MOST_ROWS, ROW};

/// A row of a table.
pub type Row = [u32; ROW];

/// The largest number that eight characters hold.
const LARGEST: u32 = 99_999_999;

/// The table of a sheet, where `lent_numbers` are lent for it.
pub fn read(sheet: &[u8], lent_numbers: usize) -> Result<Vec<u32>, Refusal> {
    let mut table = Vec::new();
    read_into(sheet, lent_numbers, &mut table)?;
    Ok(table)
}

/// Does the same into a vector that the caller uses again; where the sheet is refused, what it holds is no table.
pub fn read_into(sheet: &[u8], lent_numbers: usize, table: &mut Vec<u32>) -> Result<(), Refusal> {
    let lines = whole_rows::<u8, LINE>(sheet)?;
    if lines.len() * ROW > lent_numbers {
        return Err(Refusal::without_place(Refusal::LENT_SPACE_SHORT));
    }
    table.clear();
    for (row, line) in (1..).zip(lines) {
        read_line(row, line, table)?;
    }
    Ok(())
}

/// The lines of a sheet or the rows of a table, unless its length alone has it refused.
pub fn whole_rows<T, const LENGTH: usize>(lent: &[T]) -> Result<&[[T; LENGTH]], Refusal> {
    let (rows, rest) = lent.as_chunks();
    if rows.is_empty() || rows.len() > MOST_ROWS || !rest.is_empty() {
        return Err(Refusal::without_place(Refusal::SHEET_LENGTH));
    }
    Ok(rows)
}

fn read_line(row: usize, line: &[u8; LINE], table: &mut Vec<u32>) -> Result<(), Refusal> {
    let (fields, last) = line.as_chunks();
    for (column, field) in (1..).zip(fields) {
        let number = read_field(field).ok_or(refusal_at(Refusal::MISPRINT, row, column))?;
        table.push(number);
    }
    if last != b"\n" {
        return Err(refusal_at(Refusal::MISPRINT, row, ROW + 1));
    }
    Ok(())
}

/// A field's number; none where the field is blank or holds anything but a decimal number right-justified,
/// without sign or leading zero.
fn read_field(field: &[u8; FIELD]) -> Option<u32> {
    let start = field.iter().position(|&byte| byte != b' ')?;
    let digits = &field[start..];
    if digits[0] == b'0' && digits.len() > 1 {
        return None;
    }
    digits.iter().try_fold(0, |number, digit| {
        digit
            .is_ascii_digit()
            .then(|| 10 * number + u32::from(digit - b'0'))
    })
}

/// The sheet of a table, where `lent_bytes` are lent for it.
pub fn write(table: &[u32], lent_bytes: usize) -> Result<Vec<u8>, Refusal> {
    let rows = whole_rows::<u32, ROW>(table)?;
    if let Some(place) = table.iter().position(|&number| number > LARGEST) {
        let (row, column) = (place / ROW + 1, place % ROW + 1);
        return Err(refusal_at(Refusal::OUT_OF_RANGE, row, column));
    }
    if rows.len() * LINE > lent_bytes {
        return Err(Refusal::without_place(Refusal::LENT_SPACE_SHORT));
    }
    let mut sheet = Vec::with_capacity(rows.len() * LINE);
    for row in rows {
        write_row(row, &mut sheet);
    }
    Ok(sheet)
}

/// Adds a row's line. No number of the row may be over 99,999,999.
pub fn write_row(row: &Row, sheet: &mut Vec<u8>) {
    for &number in row {
        sheet.extend_from_slice(&write_field(number));
    }
    sheet.push(b'\n');
}

fn write_field(mut number: u32) -> [u8; FIELD] {
    let mut field = [b' '; FIELD];
    for digit in field.iter_mut().rev() {
        *digit = b'0' + (number % 10) as u8;
        number /= 10;
        if number == 0 {
            break;
        }
    }
    field
}
