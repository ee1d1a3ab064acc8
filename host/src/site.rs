//! What is done on site: document 02's request 7, shared by the library and the model.

use girderbasil::{ROW, Totals, raw};

/// One call on site.
#[derive(Debug, Clone, Copy, PartialEq, Eq)]
pub enum Change {
    Start,
    /// Adds a wall, by its row.
    Add([u32; ROW]),
    /// Deletes the wall at a row, counted from 1.
    Delete(u32),
}

impl Change {
    /// Has the library make it: the whole answer.
    pub fn made(&self, totals: &mut Totals, table: &mut [u32]) -> raw::Scoring {
        match self {
            Self::Start => raw::start(totals, table),
            Self::Add(wall) => raw::add_wall(totals, table, wall),
            Self::Delete(row) => raw::delete_wall(totals, table, *row),
        }
    }
}

/// The place of a storey and direction, both counted from 1, among the six.
pub const fn place_of(storey: u32, direction: u32) -> usize {
    (2 * (storey - 1) + direction - 1) as usize
}
