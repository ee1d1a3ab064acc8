//! Refusals 1 and 2, by the bytes: files that are no sheet, and lines that are not 65 bytes.

use girderbasil::{FIELD, LINE, MOST_ROWS, MOST_WALLS};

use super::{DATES, field, length};
use crate::csv;
use crate::input::MOST_BYTES;
use crate::words::sentence;

/// The columns of a row have as many separators between them.
const SEPARATORS: usize = 7;
/// A text may have that many control bytes by mistake. Other files have more: UTF-16 a NUL for each digit.
const MOST_CONTROLS: usize = 8;

/// Why a sheet has no length that a sheet has, and its line where one shows it, or 0.
pub fn explain(sheet: &[u8]) -> Option<(u32, String)> {
    if sheet.is_empty() {
        return Some((0, sentence("empty", &[])));
    }
    if let Some(what) = whole(sheet) {
        return Some((0, what));
    }
    // No more was read of it, so the end of its last line is not known.
    let is_cut = sheet.len() >= MOST_BYTES;
    let odd = if is_cut { None } else { odd_line(sheet) };
    let odd = odd.map(|(row, line)| (row, of_odd_line(sheet, row, line)));
    odd.or_else(|| (sheet.len() > MOST_ROWS * LINE).then(|| (0, too_long())))
}

/// The same of a sheet whose length happens to be one that sheets have, where reading it ended in a row and column. What is
/// wrong with the line's length is said only where it names no other column.
pub fn in_line(sheet: &[u8], row: u32, column: u32) -> Option<String> {
    whole(sheet).or_else(|| {
        let (odd, line) = odd_line(sheet)?;
        let is_there = odd == row && length::column(line).is_none_or(|named| named == column);
        is_there.then(|| of_odd_line(sheet, odd, line))
    })
}

fn too_long() -> String {
    sentence(
        "too long",
        &[
            ("most", &MOST_ROWS),
            ("line", &LINE),
            ("walls", &MOST_WALLS),
        ],
    )
}

/// What is wrong with all lines alike.
fn whole(sheet: &[u8]) -> Option<String> {
    if let Some(name) = no_text(sheet) {
        return Some(sentence(name, &[]));
    }
    if !sheet.contains(&b'\n') && sheet.contains(&b'\r') {
        return Some(sentence("CR", &[]));
    }
    if let Some(separators) = separators(sheet) {
        // Of a longer file no more is known, and --csv takes none.
        let is_whole = sheet.len() < MOST_BYTES;
        let name = match csv::write_sheet(sheet, &mut Vec::new()) {
            Ok(()) if is_whole => "separators",
            _ => "no table",
        };
        let separators = sentence(separators, &[]);
        return Some(sentence(name, &[("separators", &separators)]));
    }
    if sheet.starts_with(b"\xef\xbb\xbf") {
        return Some(sentence("mark", &[]));
    }
    let mut ended = lines(sheet).filter_map(|line| line.strip_suffix(b"\n"));
    let all_with_return = sheet.contains(&b'\n') && ended.all(|line| line.ends_with(b"\r"));
    all_with_return.then(|| sentence("CR LF", &[]))
}

/// The name of the sentence for a file whose bytes are no text, or text of another kind.
fn no_text(sheet: &[u8]) -> Option<&'static str> {
    if csv::is_utf_16(sheet) {
        return Some("UTF-16");
    }
    let is_control = |byte: &&u8| byte.is_ascii_control() && !b"\t\n\r".contains(byte);
    (sheet.iter().filter(is_control).count() > MOST_CONTROLS).then_some("no text")
}

/// What stands between the numbers of the first line in place of spaces.
fn separators(sheet: &[u8]) -> Option<&'static str> {
    let first = lines(sheet).next()?;
    let count = |separator| first.iter().filter(|&&byte| byte == separator).count();
    let mut kinds = [(b'\t', "tabs"), (b',', "commas"), (b';', "semicolons")].into_iter();
    let (_, name) = kinds.find(|&(separator, _)| count(separator) >= SEPARATORS)?;
    Some(name)
}

/// The first line that is not 65 bytes, and its row. Lines that ran together for want of a newline are no such line where
/// they are whole: what stands in the newline's place is then the mistake.
fn odd_line(sheet: &[u8]) -> Option<(u32, &[u8])> {
    let (row, line) = (1..)
        .zip(lines(sheet))
        .find(|(_, line)| line.len() != LINE)?;
    let is_whole = line.len().is_multiple_of(LINE) && sheet.len().is_multiple_of(LINE);
    (!is_whole).then_some((row, line))
}

/// What is wrong with that line.
fn of_odd_line(sheet: &[u8], row: u32, line: &[u8]) -> String {
    let before = &sheet[..(row as usize - 1) * LINE];
    after_sheet(before, line).unwrap_or_else(|| length::explain(line))
}

/// A few bytes that follow a whole sheet, whose last row is that of the dates.
fn after_sheet(before: &[u8], rest: &[u8]) -> Option<String> {
    let last = before.as_chunks::<LINE>().0.last()?;
    let is_whole = field::number(&last[..FIELD]) == Some(DATES);
    let is_little = rest.len() < FIELD && !rest.iter().any(u8::is_ascii_digit);
    let is_line = rest.ends_with(b"\n");
    (is_whole && is_little && !is_line)
        .then(|| sentence("after", &[("rest", &field::quoted(rest))]))
}

/// The lines of a sheet, each with its newline.
fn lines(sheet: &[u8]) -> impl Iterator<Item = &[u8]> {
    sheet.split_inclusive(|&byte| byte == b'\n')
}
