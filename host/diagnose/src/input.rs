//! Where sheets come from: files and standard input.

use std::ffi::OsString;
use std::fs::File;
use std::io::{self, Read};
use std::os::fd::AsFd;

use crate::name::shown;
use crate::waiting::Waiting;

/// A sheet is cut there, as `crates/diagnose` does. What is left still has the length of no sheet.
pub const MOST_BYTES: usize = 65_536;

pub enum Source {
    StandardInput,
    File(OsString),
}

impl Source {
    /// The one that an argument names.
    pub fn named(argument: OsString) -> Self {
        if argument == "-" {
            Self::StandardInput
        } else {
            Self::File(argument)
        }
    }

    /// As it is shown.
    pub fn name(&self) -> String {
        match self {
            Self::StandardInput => String::from("standard input"),
            Self::File(path) => shown(path),
        }
    }

    /// Reads it into bytes that are used again: one byte over the most, where it is longer, so that this can be seen.
    pub fn read(&self, bytes: &mut Vec<u8>) -> io::Result<()> {
        bytes.clear();
        Waiting(self.open()?)
            .take(MOST_BYTES as u64 + 1)
            .read_to_end(bytes)?;
        Ok(())
    }

    /// Standard input is read as a file, since Rust's own takes a descriptor that can't be read for one at its end.
    fn open(&self) -> io::Result<File> {
        match self {
            Self::StandardInput => Ok(io::stdin().as_fd().try_clone_to_owned()?.into()),
            Self::File(path) => File::open(path),
        }
    }
}
