//! What is asked for, done: from the arguments to the exit status.

use std::ffi::OsString;
use std::io::{self, ErrorKind};

use crate::desk;
use crate::options::{self, HELP, Request, USAGE, VERSION};
use crate::output::{self, Output, reason};

const MISUSE: u8 = 2;
const CANNOT_PRINT: u8 = 3;

/// Does what the arguments ask for, and answers the exit status.
pub fn run(arguments: impl IntoIterator<Item = OsString>) -> u8 {
    let done = match options::parse(arguments) {
        Ok(Request::Help) => print(HELP),
        Ok(Request::Version) => print(VERSION),
        Ok(Request::Score(options)) => desk::score_all(&options),
        Err(what) => {
            output::say(&format!("diagnose: {what}\n{USAGE}\n"));
            Ok(MISUSE)
        }
    };
    done.unwrap_or_else(|error| {
        // Whoever closed a pipe, as `head` does, wants no more.
        if error.kind() != ErrorKind::BrokenPipe {
            output::say(&format!("diagnose: can't print: {}\n", reason(&error)));
        }
        CANNOT_PRINT
    })
}

fn print(text: &str) -> io::Result<u8> {
    let mut output = Output::open(0)?;
    output.print(text.as_bytes())?;
    output.flush()?;
    Ok(0)
}
