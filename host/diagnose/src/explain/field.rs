//! Refusal 2: a field that is no number right-justified in 8 characters, or a line that does not end.

use girderbasil::{FIELD, LINE, ROW};

use super::{characters, column_named, of_column};
use crate::words::sentence;

/// What is wrong with a field; at column 9, what stands in the newline's place.
pub fn explain(sheet: &[u8], row: u32, column: u32) -> Option<String> {
    let place = (row as usize).checked_sub(1)?;
    let line: &[u8; LINE] = sheet.as_chunks().0.get(place)?;
    let (fields, last) = line.as_chunks::<FIELD>();
    let index = (column as usize).checked_sub(1)?;
    if index == ROW {
        return Some(sentence(
            "line end",
            &[("row", &ROW), ("column", &column), ("field", &quoted(last))],
        ));
    }
    let field = fields.get(index)?;
    let what = match why(field)? {
        "blank" => sentence("blank", &[]),
        name => sentence(
            "misprint",
            &[("field", &quoted(field)), ("why", &sentence(name, &[]))],
        ),
    };
    Some(of_column(&column_named(kind(line, column), column), &what))
}

/// The kind of a line's row, by its first field. Column 1 is the kind, whichever that is.
pub fn kind(line: &[u8], column: u32) -> Option<u32> {
    match column {
        1 => Some(1),
        _ => number(line.get(..FIELD)?),
    }
}

/// The number in a field; none where it has none.
pub fn number(field: &[u8]) -> Option<u32> {
    let text = str::from_utf8(field).ok()?.trim_start_matches(' ');
    (why(field).is_none() && field.len() == FIELD).then(|| text.parse().ok())?
}

/// The name of the sentence that says why a field is no number; none where it is one.
fn why(field: &[u8]) -> Option<&'static str> {
    let text = field.trim_ascii();
    if field.iter().all(|&byte| byte == b' ') {
        Some("blank")
    } else if let Some(odd) = characters::odd(field) {
        Some(odd)
    } else if text.contains(&b' ') {
        Some("space between")
    } else if field.ends_with(b" ") {
        Some("space after")
    } else {
        (text.len() > 1 && text.starts_with(b"0")).then_some("leading zero")
    }
}

/// Bytes in quotes, with those that can't be printed made visible; of more than a field has, the first.
pub fn quoted(bytes: &[u8]) -> String {
    if let Some((first, [_, ..])) = bytes.split_at_checked(FIELD) {
        return quoted(first) + "..";
    }
    let visible = |character: char| match character {
        '"' | '\'' => character.to_string(),
        _ => character.escape_debug().to_string(),
    };
    let chunks = bytes.utf8_chunks().map(|chunk| {
        let valid: String = chunk.valid().chars().map(visible).collect();
        format!("{valid}{}", chunk.invalid().escape_ascii())
    });
    format!("\"{}\"", chunks.collect::<String>())
}
