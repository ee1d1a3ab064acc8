//! What is printed on standard output and said on standard error.

use std::fs::File;
use std::io::{self, Write};
use std::os::fd::AsFd;

use crate::progress::Progress;
use crate::waiting::Waiting;

/// As much is kept before it is written.
const KEPT: usize = 1 << 16;

/// Standard output, with the line of progress that may stand on the same terminal. Each error is one of standard output.
pub struct Output {
    /// Written as a file, since Rust's own takes a descriptor that can't be written for one that took everything.
    standard: Waiting<File>,
    /// Whole lines that are still to be written.
    kept: Vec<u8>,
    progress: Progress,
}

impl Output {
    /// For so many sheets.
    pub fn open(sheets: usize) -> io::Result<Self> {
        Ok(Self {
            standard: Waiting(io::stdout().as_fd().try_clone_to_owned()?.into()),
            kept: Vec::new(),
            progress: Progress::new(sheets),
        })
    }

    /// Prints whole lines.
    pub fn print(&mut self, lines: &[u8]) -> io::Result<()> {
        self.kept.extend_from_slice(lines);
        if self.kept.len() < KEPT {
            return Ok(());
        }
        self.flush()
    }

    /// Says a line on standard error, after all that was printed before, since both may be one terminal.
    pub fn say(&mut self, line: &str) -> io::Result<()> {
        self.flush()?;
        say(&format!("{line}\n"));
        Ok(())
    }

    /// Shows that so many sheets are done.
    pub fn show_progress(&mut self, done: usize) {
        self.progress.show(done);
    }

    /// Writes what is kept, in the place of the line of progress.
    pub fn flush(&mut self) -> io::Result<()> {
        self.progress.erase();
        let written = self.standard.write_all(&self.kept);
        self.kept.clear();
        written
    }
}

/// Writes to standard error. Where it can't be written there is nobody to tell.
pub fn say(text: &str) {
    let _ = Waiting(io::stderr()).write_all(text.as_bytes());
}

/// An error's reason in words alone: Rust puts the system's number behind them.
pub fn reason(error: &io::Error) -> String {
    let words = error.to_string();
    let number = error.raw_os_error().map(|it| format!(" (os error {it})"));
    match number.and_then(|number| words.strip_suffix(&number)) {
        Some(words) => words.to_owned(),
        None => words,
    }
}
