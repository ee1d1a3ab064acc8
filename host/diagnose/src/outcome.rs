//! What came of one file.

use girderbasil::{Output, Refusal};

use crate::lines;
use crate::numbers::decimal;
use crate::words;

pub enum Outcome {
    Scored(Verdict),
    Refused(Refusal),
    /// Why the file can't be read, as it goes on behind its name.
    NotRead(String),
    /// Why a file that was read is no table, and so has no sheet; in the same form.
    NoTable(String),
}

pub struct Verdict {
    pub number: u32,
    /// In hundredths.
    pub least_score: u32,
}

impl Outcome {
    /// That of a sheet that was read, and the proved lines.
    pub fn of(output: &Output) -> (Self, Vec<u8>) {
        let proved = output.bytes().to_vec();
        match output.refusal() {
            Some(refusal) => (Self::Refused(refusal), proved),
            None => (Self::Scored(Verdict::of(&proved)), proved),
        }
    }

    /// The exit status for it. Of several files' the greatest counts.
    pub fn status(&self) -> u8 {
        match self {
            Self::Scored(_) => 0,
            Self::Refused(_) => 1,
            Self::NotRead(_) | Self::NoTable(_) => 2,
        }
    }
}

impl Verdict {
    fn of(report: &[u8]) -> Self {
        let [_, number, least_score, ..] = lines::numbers(lines::split(report).1);
        Self {
            number,
            least_score,
        }
    }

    /// The line that explains it.
    pub fn explained(&self, name: &str) -> String {
        let words = words::verdict(self.number);
        format!(
            "{name}: verdict {}, least score {}. {} {}",
            self.number,
            decimal(self.least_score),
            words.english,
            words.japanese
        )
    }
}

/// The line that names a refused file and says no more of it.
pub fn refused(name: &str, refusal: Refusal) -> String {
    format!("{name}: refused {}, {}", refusal.number, place(refusal))
}

pub fn place(refusal: Refusal) -> String {
    match (refusal.row, refusal.column) {
        (0, 0) => String::from("the sheet as a whole"),
        (row, column) => format!("row {row}, column {column}"),
    }
}
