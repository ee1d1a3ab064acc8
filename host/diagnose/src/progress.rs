//! How many sheets are done, on a line of the terminal that is written over.

use std::io::{self, IsTerminal};
use std::time::{Duration, Instant};

use crate::numbers::grouped;
use crate::output;

/// Between two writes of the line.
const PAUSE: Duration = Duration::from_millis(100);
/// How long the first sheets are watched, to tell from them how long all will take.
const WATCHED: Duration = Duration::from_millis(200);
/// With less work ahead than that there is no line.
const LONG: Duration = Duration::from_secs(1);

pub struct Progress {
    begun: Instant,
    /// Nothing is due before.
    next: Instant,
    total: usize,
    on_terminal: bool,
    /// The line that stands on the terminal; empty where there is none.
    shown: String,
}

impl Progress {
    pub fn new(total: usize) -> Self {
        let begun = Instant::now();
        Self {
            begun,
            next: begun + WATCHED,
            total,
            on_terminal: io::stderr().is_terminal(),
            shown: String::new(),
        }
    }

    /// Writes the line anew, after so many sheets, where it is time and enough is left to do.
    pub fn show(&mut self, done: usize) {
        let now = Instant::now();
        if !self.on_terminal || now < self.next {
            return;
        }
        self.next = now + PAUSE;
        let left = self.total - done;
        let ahead = (now - self.begun).as_secs_f64() / done as f64 * left as f64;
        if !self.shown.is_empty() || ahead > LONG.as_secs_f64() {
            // The count only grows, so the line covers the one before.
            self.shown = format!("{} of {} sheets", grouped(done), grouped(self.total));
            output::say(&format!("\r{}", self.shown));
        }
    }

    /// Takes the line away, so that something else can be written in its place.
    pub fn erase(&mut self) {
        if !self.shown.is_empty() {
            output::say(&format!("\r{:1$}\r", "", self.shown.len()));
            self.shown.clear();
        }
    }
}
