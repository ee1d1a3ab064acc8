//! The desk's command as a person runs it: what it prints and says, and its exit status.

#[path = "../common/mod.rs"]
mod common;

mod csv;
mod examples;
mod explain;
mod lines;
mod misuse;
mod names;
mod no_table;
mod non_blocking;
mod pile;
mod progress;
mod report;
mod streams;
mod summary;

use std::ffi::OsStr;
use std::path::{Path, PathBuf};
use std::process::Command;

use girderbasil_tests::command::command;
use girderbasil_tests::worked::{REPORT, SHEET};

/// The line for a sheet of a length that no sheet has.
const NO_SHEET: &str = "       0       1       0       0       0       0       0       0\n";
/// The line for `examples/refused.sheet`.
const REFUSED: &str = "       0       6       3       4       0       0       0       0\n";

/// What a run of the command gave.
#[derive(Debug, PartialEq, Eq)]
struct Run {
    status: i32,
    printed: String,
    said: String,
}

/// A run that gave this.
fn gave(status: i32, printed: &str, said: &str) -> Run {
    Run {
        status,
        printed: printed.to_owned(),
        said: said.to_owned(),
    }
}

/// Runs the command at the repository's top.
fn diagnose<Argument: AsRef<OsStr>>(arguments: &[Argument], input: &[u8]) -> Run {
    run(command().args(arguments), input)
}

/// The same among files of a test's own.
fn diagnose_in<Argument: AsRef<OsStr>>(folder: &Path, arguments: &[Argument]) -> Run {
    run(command().current_dir(folder).args(arguments), b"")
}

/// The command as `"$0"` in a line of the shell, for what only a shell can arrange. P1 is on standard input.
fn shell(line: &str) -> Run {
    run(&mut in_shell("sh", line), SHEET)
}

fn in_shell(shell: &str, line: &str) -> Command {
    let mut started = Command::new(shell);
    let program = command().get_program().to_owned();
    started.args(["-c", line]).arg(program);
    started.current_dir(common::top());
    started
}

fn run(command: &mut Command, input: &[u8]) -> Run {
    let output = common::run(command, input);
    Run {
        status: output.status.code().expect("the command exits"),
        printed: String::from_utf8(output.stdout).expect("it prints text"),
        said: String::from_utf8(output.stderr).expect("it says text"),
    }
}

/// A folder of a test's own with files in it.
fn folder_with<Bytes: AsRef<[u8]>>(name: &str, files: &[(&str, Bytes)]) -> PathBuf {
    let folder = common::empty_folder(&format!("command-{name}"));
    for (file, bytes) in files {
        std::fs::write(folder.join(file), bytes).expect("a file for the test");
    }
    folder
}

/// The sheet that `examples/refused.sheet` is.
fn refused_sheet() -> Vec<u8> {
    let [_, (sheet, line)] = girderbasil_tests::worked::refused();
    assert_eq!(line, REFUSED);
    sheet
}
