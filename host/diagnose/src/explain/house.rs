//! Refusals 5 to 7: what shows only where numbers of a house are held against each other.

use girderbasil::MOST_WALLS;

use super::{Row, list};
use crate::words::{self, sentence};

/// Which wall is one too many; its row counts from 1.
pub fn too_many_walls(rows: &[Row], row: u32) -> Option<String> {
    let [_, storeys, ..] = *rows.first()?;
    // Before the walls stand the house, and of each storey a row of its own and two of its ends.
    let wall = row.checked_sub(1 + 3 * storeys)?;
    Some(sentence("wall", &[("wall", &wall), ("most", &MOST_WALLS)]))
}

/// Ends that exceed their storey, whose row is the one after the house's for storey 1, and so on.
pub fn ends(rows: &[Row], found: &Row, column: u32) -> Option<String> {
    let [_, storey, _, a, b, ..] = *found;
    let [_, _, area, ..] = *rows.get(storey as usize)?;
    Some(sentence(
        "ends",
        &[
            ("end a", &a),
            ("end b", &b),
            ("sum", &(a + b)),
            ("storey", &storey),
            ("area", &area),
            ("line", &(storey + 1)),
            ("unit", &words::column(found[0], column)?.unit),
        ],
    ))
}

/// The parts that are marked and not present.
pub fn absent_parts(found: &Row) -> String {
    let [_, present, marked, ..] = *found;
    let absent = marked & !present;
    let parts = words::parts().into_iter();
    let names: Vec<String> = parts
        .filter(|part| absent & part.number != 0)
        .map(|part| part.name.to_owned())
        .collect();
    sentence("absent", &[("parts", &list(&names, "and"))])
}
