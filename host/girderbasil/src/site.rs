//! Changes on site: document 02's request 7.

use crate::answers::{Record, Refusal};
use crate::{MOST_ROWS, ROW, raw, record_or_refusal};

/// "the caller's own record: one held strength for each storey and direction", and its count of rows in use. It is
/// `girderbasil_totals`, so its fields stand as the header has them.
#[repr(C)]
#[derive(Debug, Clone, Copy, Default, PartialEq, Eq)]
pub struct Totals {
    /// In 0.000001 kN, from the ground up, in each storey X, then Y.
    pub held: [u64; 6],
    /// How many rows of the lent table are in use, from its first.
    pub rows: u32,
}

/// A house on site, from a start on: its table and its totals. Nothing else writes to either, so the totals are always
/// the sums over its walls, and each answer is what scoring the table anew would give.
///
/// It has room for as many walls as a house may have, so an addition is never refused for want of it.
///
/// ```
/// use girderbasil::{LINE, ROW, Refusal, Site};
///
/// # let sheet = include_bytes!("../examples/p1.sheet");
/// # let mut table = vec![0; sheet.len() / LINE * ROW];
/// # girderbasil::read(sheet, &mut table)?;
/// let (mut site, record) = Site::start(&table)?;
/// assert_eq!(record.scores(), [47, 83]);
/// assert_eq!(site.add_wall(&[4, 1, 1, 2, 20, 2000, 1, 1])?.scores(), [68, 83]);
/// assert_eq!(site.delete_wall(6)?.scores(), [62, 83]);
/// assert_eq!(site.delete_wall(4), Err(Refusal::at(Refusal::NO_SUCH_WALL, 4, 0)));
/// # Ok::<(), Refusal>(())
/// ```
#[derive(Debug, Clone, PartialEq, Eq)]
pub struct Site {
    table: Vec<u32>,
    totals: Totals,
}

impl Site {
    /// Starts with a copy of a table, all of whose rows are in use.
    ///
    /// # Errors
    ///
    /// Refused where [`score`](crate::score) refuses the table.
    pub fn start(table: &[u32]) -> Result<(Self, Record), Refusal> {
        // What is left over of a length counts as a row, which doesn't fit. More rows than 32 bits count are as many too
        // many.
        let rows = u32::try_from(table.len().div_ceil(ROW)).unwrap_or(u32::MAX);
        let mut totals = Totals { held: [0; 6], rows };
        let record = record_or_refusal(raw::start(&mut totals, table))?;
        let mut table = table.to_vec();
        table.resize(MOST_ROWS * ROW, 0);
        Ok((Self { table, totals }, record))
    }

    /// Adds a wall after the last whose storey isn't above its own: the record of the house with it.
    ///
    /// # Errors
    ///
    /// Refused with [`OUT_OF_RANGE`](Refusal::OUT_OF_RANGE) for a column of the wall, or with
    /// [`TOO_MANY_WALLS`](Refusal::TOO_MANY_WALLS) where the house has [`MOST_WALLS`](crate::MOST_WALLS) walls, both at the
    /// row that the wall would take. A refusal leaves the house as it was.
    pub fn add_wall(&mut self, wall: &[u32; ROW]) -> Result<Record, Refusal> {
        record_or_refusal(raw::add_wall(&mut self.totals, &mut self.table, wall))
    }

    /// Deletes the wall at a row, counted from 1: the record of the house without it.
    ///
    /// # Errors
    ///
    /// Refused with [`NO_SUCH_WALL`](Refusal::NO_SUCH_WALL) at that row where it is no wall's. A refusal leaves the house as it
    /// was.
    pub fn delete_wall(&mut self, row: u32) -> Result<Record, Refusal> {
        record_or_refusal(raw::delete_wall(&mut self.totals, &mut self.table, row))
    }

    /// How many rows the table has.
    pub fn rows(&self) -> usize {
        self.totals.rows as usize
    }

    /// The table as it is now.
    pub fn table(&self) -> &[u32] {
        &self.table[..self.rows() * ROW]
    }

    /// What is held in each storey and direction, from the ground up, X before Y, in 0.000001 kN.
    pub fn totals(&self) -> &[u64; 6] {
        &self.totals.held
    }
}
