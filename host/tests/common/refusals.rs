//! The tables of docs/REFUSALS.md, read as text.

use super::cells;

const PAGE: &str = include_str!("../../../docs/REFUSALS.md");

/// The page's refusals in its order: the number of each, and the cells after it.
pub fn refusals() -> Vec<(u32, Vec<&'static str>)> {
    numbered("")
}

/// The page's verdicts, likewise.
pub fn verdicts() -> Vec<(u32, Vec<&'static str>)> {
    numbered("verdict ")
}

/// The rows whose first cell is such a start and a number.
fn numbered(start: &str) -> Vec<(u32, Vec<&'static str>)> {
    let rows = PAGE.lines().map(cells).filter_map(|cells| {
        let number = cells.get(1)?.strip_prefix(start)?.parse().ok()?;
        Some((number, cells[2..cells.len() - 1].to_vec()))
    });
    rows.collect()
}
