//! The commands of README.md and of docs/SHEET.md, run at the top as they stand there. What a page shows of one's output is
//! what it prints, and then what it says on standard error; its exit status is 0, or the one that its comment names.

mod common;

use std::fs;
use std::process::Command;
use std::sync::Once;

const README: &str = include_str!("../../README.md");
const SHEET: &str = include_str!("../../docs/SHEET.md");

/// The gate, which runs this test, and what takes a proof: the archive that the tests link stands for that.
const NOT_RUN: [&str; 2] = [".ci/run", "tools/archive"];
const ARCHIVE: &str = "target/archive/x86_64-linux-gnu/libgirderbasil.a";

/// A command of a page, and what the page shows of its output.
struct Shown {
    command: &'static str,
    output: String,
}

impl Shown {
    fn is_run(&self) -> bool {
        !NOT_RUN.iter().any(|name| self.words() == *name)
    }

    /// The command without its comment.
    fn words(&self) -> &str {
        let words = self.command.split_once(" #");
        words.map_or(self.command, |(words, _)| words.trim_end())
    }

    fn status(&self) -> i32 {
        let comment = self.command.split_once("# exit status ");
        comment.map_or(0, |(_, status)| status.parse().expect("a status"))
    }
}

/// A page's pieces of code that are indented, with the empty lines in them.
fn pieces(page: &'static str) -> Vec<Vec<&'static str>> {
    let mut pieces: Vec<Vec<&str>> = vec![];
    let mut inside = false;
    let mut empty = 0;
    for line in page.lines() {
        match line.strip_prefix("    ") {
            _ if line.is_empty() => empty += 1,
            Some(code) if inside => {
                let piece = pieces.last_mut().expect("a piece was begun");
                piece.extend(vec![""; empty]);
                piece.push(code);
                empty = 0;
            }
            // Code between fences is indented inside it, and no piece of its own.
            Some(code) if empty > 0 => {
                pieces.push(vec![code]);
                inside = true;
                empty = 0;
            }
            _ => {
                inside = false;
                empty = 0;
            }
        }
    }
    pieces
}

fn commands(page: &'static str) -> Vec<Shown> {
    let mut commands: Vec<Shown> = vec![];
    for piece in pieces(page) {
        assert!(piece[0].starts_with("$ "), "no command: {}", piece[0]);
        for line in piece {
            match (line.strip_prefix("$ "), commands.last_mut()) {
                (None, Some(shown)) => shown.output += &format!("{line}\n"),
                (command, _) => commands.push(Shown {
                    command: command.unwrap_or(line),
                    output: String::new(),
                }),
            }
        }
    }
    commands
}

/// Sees to it that the archive stands where the page has it, and that the command is built: the run that builds it says so.
fn prepare() {
    static PREPARED: Once = Once::new();
    PREPARED.call_once(|| {
        let archive = common::top().join(ARCHIVE);
        if !archive.exists() {
            fs::create_dir_all(archive.parent().expect("its folder")).expect("a folder");
            fs::copy(env!("GIRDERBASIL_ARCHIVE"), archive).expect("the archive is copied");
        }
        common::output(Command::new(common::top().join("diagnose")).arg("--version"));
    });
}

/// Runs a command of a page, and compares.
fn check(shown: &Shown) {
    let mut shell = Command::new("sh");
    shell.args(["-c", shown.command]);
    let output = common::output(shell.current_dir(common::top()));
    let printed = String::from_utf8_lossy(&output.stdout);
    let printed = printed + String::from_utf8_lossy(&output.stderr);
    if !shown.output.is_empty() {
        assert_eq!(printed, shown.output, "{}", shown.command);
    }
    let status = output.status.code();
    assert_eq!(status, Some(shown.status()), "{}: {printed}", shown.command);
}

#[test]
fn every_command_of_the_readme_does_what_it_shows() {
    prepare();
    let (run, left): (Vec<_>, Vec<_>) = commands(README).into_iter().partition(Shown::is_run);
    assert!(left.iter().map(Shown::words).eq(NOT_RUN));
    assert!(run.len() >= 8);
    run.iter().for_each(check);
}

#[test]
fn every_command_of_the_page_on_sheets_does_what_it_shows() {
    prepare();
    let commands = commands(SHEET);
    assert!(commands.len() >= 5);
    commands.iter().for_each(check);
}

/// Code of no other kind is on the pages: `package.rs` builds and runs that of Rust.
#[test]
fn all_other_code_is_rust() {
    let lines = README.lines().chain(SHEET.lines());
    let fences: Vec<&str> = lines.filter(|line| line.starts_with("```")).collect();
    assert_eq!(fences, ["```rust", "```"]);
}
