//! A spreadsheet's text as a sheet: eight whole numbers a line, between commas, semicolons or tabs.

use girderbasil::{FIELD, LINE, ROW};

use crate::input::MOST_BYTES;
use crate::numbers::grouped;

/// The largest number that a field of the sheet has room for.
const MOST: &str = "99999999";
/// Spreadsheets write it before the first line.
const BYTE_ORDER_MARK: &[u8] = "\u{feff}".as_bytes();
const SEPARATORS: [char; 3] = [',', ';', '\t'];
/// So much of a field is shown, of which anything may have been read.
const MOST_SHOWN: usize = 20;

/// Makes a sheet of it, in bytes that are used again, or says what is wrong with it: behind the file's name, where in it,
/// and what.
pub fn write_sheet(text: &[u8], sheet: &mut Vec<u8>) -> Result<(), String> {
    sheet.clear();
    if is_utf_16(text) {
        return Err(String::from(": is in UTF-16; save it as UTF-8"));
    }
    if text.contains(&0) {
        return Err(String::from(": is no plain text"));
    }
    if text.len() > MOST_BYTES {
        return Err(format!(": more than {} bytes", grouped(MOST_BYTES)));
    }
    let unmarked = text.strip_prefix(BYTE_ORDER_MARK).unwrap_or(text);
    // What is no text is no number either, and is shown as far as it can be.
    let unmarked = String::from_utf8_lossy(unmarked);
    let mut lines: Vec<&str> = unmarked.lines().collect();
    while lines.last().is_some_and(|line| line.is_empty()) {
        lines.pop();
    }
    match lines.first() {
        Some(line) if is_of_sheet(line) => {
            return Err(String::from(": is a sheet already: leave --csv out"));
        }
        // Nothing at all is an empty sheet, which the library refuses. This is not empty, though a sheet of it would be.
        None if !text.is_empty() => return Err(String::from(": no numbers")),
        _ => {}
    }
    sheet.reserve(LINE * lines.len());
    for (number, line) in (1..).zip(lines) {
        write_line(line, sheet).map_err(|what| format!(":{number}: {what}"))?;
    }
    Ok(())
}

/// By its mark, or where it has none by each other byte of the first two characters: it is 0 where they are of ASCII.
pub fn is_utf_16(text: &[u8]) -> bool {
    match text {
        // UTF-32 begins with the same mark.
        [0xff, 0xfe, 0, 0, ..] => false,
        [0xff, 0xfe, ..] | [0xfe, 0xff, ..] => true,
        [1..=0xff, 0, 1..=0xff, 0, ..] | [0, 1..=0xff, 0, 1..=0xff, ..] => true,
        _ => false,
    }
}

/// Whether a line is one that sheets have: as long, of digits and spaces.
fn is_of_sheet(line: &str) -> bool {
    let is_known = |byte: u8| byte == b' ' || byte.is_ascii_digit();
    line.len() == LINE - 1 && line.bytes().all(is_known) && !line.trim_start().is_empty()
}

fn write_line(line: &str, sheet: &mut Vec<u8>) -> Result<(), String> {
    if line.is_empty() {
        return Err(String::from("an empty line among others"));
    }
    if line.contains('\r') {
        return Err(String::from("CR alone ends no line; save with LF or CR LF"));
    }
    // The first separator is the line's. Another kind is then seen as a part of a number, where it is none.
    let separator = line
        .chars()
        .find(|character| SEPARATORS.contains(character))
        .ok_or("no commas, semicolons or tabs")?;
    let fields: Vec<&str> = line.split(separator).collect();
    for (number, field) in (1..=ROW).zip(&fields) {
        let digits = field.trim_matches(' ');
        if !is_number(digits) {
            let field = shown(field);
            return Err(format!(
                "field {number}: {field} is not a whole number in digits alone, without leading zeros, up to {MOST}"
            ));
        }
        sheet.resize(sheet.len() + FIELD - digits.len(), b' ');
        sheet.extend_from_slice(digits.as_bytes());
    }
    sheet.push(b'\n');
    match fields.len() {
        ROW => Ok(()),
        count => Err(format!("{count} fields, not {ROW}")),
    }
}

/// Whether it is a number as a sheet has it, with no sign and no leading zero. Eight digits are at most the largest.
fn is_number(digits: &str) -> bool {
    (1..=FIELD).contains(&digits.len())
        && digits.bytes().all(|byte| byte.is_ascii_digit())
        && (digits == "0" || !digits.starts_with('0'))
}

/// A field in quotes, with what can't be seen made visible.
fn shown(field: &str) -> String {
    match field.char_indices().nth(MOST_SHOWN) {
        Some((end, _)) => format!("{:?}..", &field[..end]),
        None => format!("{field:?}"),
    }
}
