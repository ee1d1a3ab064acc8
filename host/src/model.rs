//! Document 01 as a program, a file for each of its sections, with the snow, the dates, the remainders, the repairs and the
//! changes on site of document 02.
//!
//! It shares no code and no table with the proved library, so that the two can be compared.

pub mod calendar;
pub mod deterioration;
pub mod held;
pub mod layout;
pub mod report;
pub mod required;
pub mod score;
pub mod sheet;
pub mod site;
pub mod survey;

pub use report::{diagnose, write_report};
pub use score::score;
pub use sheet::{read, write};
pub use survey::judge;

use girderbasil::Refusal;

/// A refusal at a place that is counted as the rows and columns of a table are.
pub fn refusal_at(number: u32, row: usize, column: usize) -> Refusal {
    let place = [row, column].map(|count| u32::try_from(count).expect("a place of a table"));
    Refusal::at(number, place[0], place[1])
}
