//! Refusal 3: which row is due, and which is there.

use girderbasil::MOST_WALLS;

use super::{DATES, ENDS, HOUSE, PARTS, Row, STOREY, WALL, storeys};
use crate::words::{self, sentence};

/// What is wrong at a place, counted from 0, whose rows before have no fault.
pub fn explain(rows: &[Row], place: usize) -> Option<String> {
    let [_, count, ..] = *rows.first()?;
    let found = rows.get(place);
    let first_ends = 1 + count as usize;
    let first_wall = 1 + 3 * count as usize;
    if place == 0 {
        return due("due", HOUSE, name(HOUSE), found, count);
    }
    if place < first_ends {
        let row = sentence("of storey", &[("row", &name(STOREY)), ("storey", &place)]);
        return due("due by house", STOREY, &row, found, count);
    }
    if place < first_wall {
        let ends_before = place - first_ends;
        let storey = ends_before / 2 + 1;
        let direction = direction(ends_before as u32 % 2 + 1);
        let places: [(&str, &dyn ToString); 3] = [
            ("row", &name(ENDS)),
            ("storey", &storey),
            ("direction", &direction),
        ];
        let row = sentence("of direction", &places);
        return due("due by house", ENDS, &row, found, count);
    }
    let walls = rows.get(first_wall..)?.iter();
    let walls = walls.take_while(|row| row[0] == WALL).count();
    match place.checked_sub(first_wall + walls) {
        None => falls(rows, place),
        // Another wall would be one too many.
        Some(0) if walls == MOST_WALLS => due("due", PARTS, name(PARTS), found, count),
        Some(0) => due("due after walls", PARTS, name(PARTS), found, count),
        Some(1) => due("due", DATES, name(DATES), found, count),
        Some(_) => Some(sentence("none due", &[("kind", found?.first()?)])),
    }
}

fn name(kind: u32) -> &'static str {
    words::row(kind).unwrap_or_default()
}

/// A direction by its letter, or by its number where it is none.
fn direction(number: u32) -> String {
    let mut choices = words::choices(ENDS, 3).into_iter();
    let named = choices.find(|choice| choice.number == number);
    named.map_or(number.to_string(), |choice| choice.name.to_owned())
}

/// A sentence of that name, which says the kind and the words of the row that is due, and what is found.
fn due(name_of: &str, kind: u32, row: &str, found: Option<&Row>, count: u32) -> Option<String> {
    let found = match found {
        None => sentence("sheet ends", &[]),
        Some([STOREY, storey, ..]) if kind == STOREY => {
            sentence("found storey", &[("storey", storey)])
        }
        Some([ENDS, storey, found, ..]) if kind == ENDS => {
            let direction = direction(*found);
            sentence(
                "found direction",
                &[("storey", storey), ("direction", &direction)],
            )
        }
        Some([kind, ..]) => sentence("found", &[("kind", kind)]),
    };
    Some(sentence(
        name_of,
        &[
            ("kind", &kind),
            ("row", &row),
            ("found", &found),
            ("storeys", &storeys(count)),
            ("wall", &WALL),
            ("wall row", &name(WALL)),
        ],
    ))
}

/// A wall whose storey falls.
fn falls(rows: &[Row], place: usize) -> Option<String> {
    let [_, before, ..] = rows.get(place.checked_sub(1)?)?;
    let [_, storey, ..] = rows.get(place)?;
    Some(sentence("falls", &[("storey", storey), ("before", before)]))
}
