//! The summary: a line a file, and the totals.

use crate::name::width;
use crate::numbers::decimal;
use crate::outcome::{Outcome, place};

/// How many files came to what.
#[derive(Default)]
pub struct Totals {
    scored: usize,
    refused: usize,
    not_read: usize,
}

impl Totals {
    pub fn count(&mut self, outcome: &Outcome) {
        *match outcome {
            Outcome::Scored(_) => &mut self.scored,
            Outcome::Refused(_) => &mut self.refused,
            Outcome::NotRead(_) | Outcome::NoTable(_) => &mut self.not_read,
        } += 1;
    }

    pub fn files(&self) -> usize {
        self.scored + self.refused + self.not_read
    }

    /// The last line.
    pub fn line(&self) -> String {
        let files = self.files();
        let sheets = if files == 1 { "sheet" } else { "sheets" };
        let not_read = match self.not_read {
            0 => String::new(),
            count => format!(", {count} not read"),
        };
        format!(
            "{files} {sheets}: {} scored, {} refused{not_read}\n",
            self.scored, self.refused
        )
    }
}

/// A file's line, its name padded to so many columns.
pub fn line(name: &str, columns: usize, outcome: &Outcome) -> String {
    let padding = columns.saturating_sub(width(name));
    let outcome = match outcome {
        Outcome::Scored(verdict) => {
            format!(
                "verdict {}  {}",
                verdict.number,
                decimal(verdict.least_score)
            )
        }
        Outcome::Refused(refusal) => format!("refused {}  {}", refusal.number, place(*refusal)),
        Outcome::NotRead(_) => String::from("can't be read"),
        Outcome::NoTable(_) => String::from("no table"),
    };
    format!("{name}{:padding$}  {outcome}\n", "")
}
