//! Why a line has another length than 65 bytes.

use girderbasil::{FIELD, LINE, ROW};

use super::{STOREY, characters, column_named, field};
use crate::words::{self, Bound, Range, sentence};

/// The bytes of a line before its newline.
const TEXT: usize = LINE - 1;

/// What is wrong with a line, which is given with its newline where it has one.
pub fn explain(line: &[u8]) -> String {
    let bytes = line.len();
    let is_ended = line.ends_with(b"\n");
    let text = line.strip_suffix(b"\n").unwrap_or(line);
    let visible = text.strip_suffix(b"\r").unwrap_or(text);
    if visible.is_empty() {
        return sentence("empty line", &[]);
    }
    if visible.iter().all(|&byte| byte == b' ') {
        return sentence("only spaces", &[]);
    }
    if !is_ended && bytes == TEXT {
        return sentence("no newline", &[]);
    }
    if !is_ended && bytes < TEXT {
        return sentence("cut", &[("bytes", &bytes), ("line", &LINE)]);
    }
    let why = why(visible, visible.len() < text.len());
    sentence(
        "length",
        &[("bytes", &bytes), ("line", &LINE), ("why", &why)],
    )
}

/// The reason, as it stands in the sentence. A carriage return at the end is no part of the text.
fn why(text: &[u8], has_return: bool) -> String {
    let spaces = text.iter().rev().take_while(|&&byte| byte == b' ').count();
    // What stands after the last field is the mistake only where the fields before it are whole.
    match text.len().checked_sub(TEXT) {
        Some(0) if has_return => return sentence("CR at end", &[]),
        Some(1) if spaces == 1 => return sentence("1 space", &[]),
        Some(more) if more == spaces => return sentence("spaces", &[("spaces", &spaces)]),
        _ => {}
    }
    if are_rows(text) {
        return sentence("run together", &[]);
    }
    if let Some(column) = shifted(text) {
        return in_column(text, column);
    }
    match text.as_chunks::<FIELD>() {
        (fields, []) if fields.iter().all(|it| field::number(it).is_some()) => {
            sentence("columns", &[("columns", &fields.len()), ("row", &ROW)])
        }
        _ => sentence(
            "beyond",
            &[("rest", &field::quoted(&text[TEXT..])), ("row", &ROW)],
        ),
    }
}

/// What is wrong in the first column that does not end in its place.
fn in_column(text: &[u8], column: u32) -> String {
    let named = column_named(field::kind(text, column), column);
    // A number that is too long goes on in the next column.
    let start = (column as usize - 1) * FIELD;
    let near = &text[start..text.len().min(start + 2 * FIELD)];
    // Characters before it there are none, and one of several bytes shows only in the whole.
    match characters::odd(near).and_then(|_| characters::odd(text)) {
        Some(name) => sentence(
            "in column",
            &[("what", &sentence(name, &[])), ("column", &named)],
        ),
        None => sentence("shifted", &[("column", &named)]),
    }
}

/// Whether whole rows stand there, two or more, with no byte or with one between each and the next.
fn are_rows(text: &[u8]) -> bool {
    let is_row = |row: &[u8]| {
        row.len() >= TEXT
            && row[..TEXT]
                .chunks(FIELD)
                .all(|it| field::number(it).is_some())
    };
    let is_more = text.len() >= 2 * TEXT;
    is_more && (text.chunks(TEXT).all(is_row) || text.chunks(LINE).all(is_row))
}

/// The column that is named of a line, which is given with its newline; none where it is another reason.
pub fn column(line: &[u8]) -> Option<u32> {
    let text = line.strip_suffix(b"\n").unwrap_or(line);
    shifted(text.strip_suffix(b"\r").unwrap_or(text))
}

/// The first column whose number does not end where the column ends.
fn shifted(text: &[u8]) -> Option<u32> {
    let kind = field::kind(text, 2);
    let goes_on = |column: u32| {
        let next = text.get(column as usize * FIELD);
        next.is_some_and(u8::is_ascii_digit)
    };
    let mut fields = (1..).zip(text.chunks(FIELD)).take(ROW);
    let (column, field) =
        fields.find(|&(column, field)| !is_in_place(kind, column, field, goes_on(column)))?;
    if column == 1 || field.starts_with(b" ") || text.len().abs_diff(TEXT) >= FIELD {
        return Some(column);
    }
    // Its number may be whole, but moved by what the line has too much or too little: the cause is then before it.
    let start = (column as usize - 1) * FIELD + text.len();
    let moved = start
        .checked_sub(TEXT)
        .and_then(|it| text.get(it..it + FIELD));
    let is_moved = moved.is_some_and(|moved| is_in_place(kind, column, moved, true));
    Some(column - u32::from(is_moved))
}

/// The least number of a column of days. They have eight digits, and so no space between them.
const LEAST_DAY: u32 = 10_000_000;

/// Whether a field has a number that ends with it, where a digit comes after it or none.
fn is_in_place(kind: Option<u32>, column: u32, field: &[u8], goes_on: bool) -> bool {
    let Some(number) = field::number(field) else {
        return false;
    };
    if column == 1 {
        // A day follows the kind of its own row without a space.
        return number < 10 && !(goes_on && number <= STOREY);
    }
    let words = kind.and_then(|kind| words::column(kind, column));
    let range = match words.map(|words| words.range) {
        Some(Range::Between(Bound::Number(least), Bound::Number(greatest))) => least..=greatest,
        _ => 0..=0,
    };
    if field.starts_with(b" ") {
        return !(goes_on && *range.start() >= LEAST_DAY);
    }
    !goes_on || range.contains(&number)
}
