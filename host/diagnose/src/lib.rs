//! The desk's command. What it says of a sheet is the library's; only the words are its own.

mod csv;
mod desk;
pub mod explain;
mod input;
mod lines;
mod name;
mod numbers;
mod options;
mod outcome;
mod output;
mod progress;
mod report;
mod run;
mod summary;
mod waiting;
pub mod words;

pub use run::run;
