//! Files scored one after the other.

use std::io;

use crate::csv;
use crate::explain::explain;
use crate::input::{MOST_BYTES, Source};
use crate::name::width;
use crate::options::{Form, Options};
use crate::outcome::{self, Outcome};
use crate::output::{Output, reason};
use crate::report::report;
use crate::summary::{self, Totals};

/// Scores every file, and answers the exit status. An error is one of standard output.
pub fn score_all(options: &Options) -> io::Result<u8> {
    let mut desk = Desk::open(options)?;
    for (done, source) in (1..).zip(&options.sources) {
        desk.score(source)?;
        desk.output.show_progress(done);
    }
    desk.close()
}

struct Desk<'a> {
    options: &'a Options,
    output: Output,
    totals: Totals,
    /// The greatest so far.
    status: u8,
    /// The columns of the longest name.
    name_width: usize,
    /// A spreadsheet's text, and a sheet: bytes that are used again for each file.
    text: Vec<u8>,
    sheet: Vec<u8>,
}

impl<'a> Desk<'a> {
    fn open(options: &'a Options) -> io::Result<Self> {
        let widths = options.sources.iter().map(|it| width(&it.name()));
        Ok(Self {
            options,
            output: Output::open(options.sources.len())?,
            totals: Totals::default(),
            status: 0,
            name_width: widths.max().unwrap_or(0),
            text: Vec::new(),
            sheet: Vec::new(),
        })
    }

    fn score(&mut self, source: &Source) -> io::Result<()> {
        let name = source.name();
        let (outcome, proved) = match self.read(source) {
            Ok(()) => Outcome::of(&girderbasil::output(&self.sheet)),
            Err(outcome) => (outcome, Vec::new()),
        };
        self.output.print(&self.printed(&name, &outcome, proved))?;
        if let Some(line) = self.said(&name, &outcome) {
            self.output.say(&line)?;
        }
        self.totals.count(&outcome);
        self.status = self.status.max(outcome.status());
        Ok(())
    }

    /// Reads a file's sheet. Where there is none it answers what came of the file.
    fn read(&mut self, source: &Source) -> Result<(), Outcome> {
        let bytes = match self.options.csv {
            true => &mut self.text,
            false => &mut self.sheet,
        };
        source
            .read(bytes)
            .map_err(|error| Outcome::NotRead(format!(": can't be read: {}", reason(&error))))?;
        if self.options.csv {
            return csv::write_sheet(&self.text, &mut self.sheet).map_err(Outcome::NoTable);
        }
        self.sheet.truncate(MOST_BYTES);
        Ok(())
    }

    /// What is printed for a file.
    fn printed(&self, name: &str, outcome: &Outcome, proved: Vec<u8>) -> Vec<u8> {
        match (self.options.form, outcome) {
            (Form::Summary, _) => summary::line(name, self.name_width, outcome).into_bytes(),
            (Form::Lines, _) => proved,
            (Form::Sheet, Outcome::NotRead(_) | Outcome::NoTable(_)) => Vec::new(),
            (Form::Sheet, _) => self.sheet.clone(),
            (Form::Report, _) => {
                let between = if self.totals.files() > 0 { "\n" } else { "" };
                let report = report(name, &self.sheet, outcome, &proved);
                (between.to_owned() + &report).into_bytes()
            }
        }
    }

    /// What is said of a file on standard error.
    fn said(&self, name: &str, outcome: &Outcome) -> Option<String> {
        // A summary and a report tell a refusal by themselves, and of one sheet alone so do the proved lines.
        let named = match self.options.form {
            Form::Lines => self.options.sources.len() > 1,
            Form::Sheet => true,
            Form::Summary | Form::Report => false,
        };
        match outcome {
            Outcome::NotRead(what) | Outcome::NoTable(what) => {
                Some(format!("diagnose: {name}{what}"))
            }
            Outcome::Scored(verdict) if self.options.explain => Some(verdict.explained(name)),
            Outcome::Refused(refusal) if self.options.explain => {
                Some(explain(name, &self.sheet, *refusal))
            }
            Outcome::Refused(refusal) if named => Some(outcome::refused(name, *refusal)),
            _ => None,
        }
    }

    fn close(mut self) -> io::Result<u8> {
        if self.options.form == Form::Summary {
            self.output.print(self.totals.line().as_bytes())?;
        }
        self.output.flush()?;
        Ok(self.status)
    }
}
