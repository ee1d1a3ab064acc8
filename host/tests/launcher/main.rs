//! `./diagnose`, which builds the command where it is missing or older than its source, and starts it.
//!
//! All but the first run are in a copy of the repository in which another script stands for `tools/archive`: it hands out the
//! archive that these tests are linked with.

#[path = "../common/mod.rs"]
mod common;

mod changes;
mod failures;
mod first;
mod interrupts;
mod streams;
mod waiting;

use std::fs::{self, File};
use std::io::{BufRead, BufReader, Lines};
use std::os::unix::fs::PermissionsExt;
use std::path::{Path, PathBuf};
use std::process::{Child, ChildStderr, Command, Output, Stdio};
use std::thread;
use std::time::{Duration, SystemTime};

use girderbasil_tests::worked::{REPORT, SHEET};

const BUILDING: &str = "diagnose: building the command\n";
/// What the script in the place of `tools/archive` says.
const PROVING: &str = "archive: proving\n";
const WAITING: &str = "diagnose: waiting for another build\n";
/// Has the script hand out the archive.
const HAND_OUT: &str =
    "mkdir -p \"$copy/target/archive/$1\" && cp \"$linked\" \"$copy/target/archive/$1/\"";

/// A copy of the repository, built or not.
struct Copy(PathBuf);

impl Copy {
    fn new(name: &str) -> Self {
        let folder = common::empty_folder(&format!("launcher-{name}"));
        let commands = r#"
            cp -R diagnose crates.txt words.txt "$0"
            tar -c --exclude=target host | tar -x -C "$0"
            mkdir "$0"/crates "$0"/tools
            cp -R --parents crates/*/src crates/*/specs crates/*/proofs "$0"
        "#;
        let mut copying = Command::new("sh");
        copying.args(["-ec", commands]).arg(&folder);
        let output = common::output(copying.current_dir(common::top()));
        common::assert_silent(&output, "a copy");
        let copy = Self(folder);
        copy.prove_by(HAND_OUT);
        copy
    }

    /// One in which the command is built.
    fn built(name: &str) -> Self {
        let copy = Self::new(name);
        assert_scored(&copy.run(), &[BUILDING, PROVING].concat());
        copy
    }

    /// Has a script of these lines in the place of `tools/archive`.
    fn prove_by(&self, lines: &str) {
        let script = format!(
            "#!/bin/bash\necho archive: proving >&2 2>/dev/null\ncopy='{}' linked='{}'\n{lines}\n",
            self.0.display(),
            env!("GIRDERBASIL_ARCHIVE")
        );
        let tool = self.0.join("tools/archive");
        fs::write(&tool, script).expect("the script is written");
        make_executable(&tool, true);
    }

    /// The launcher, which heeds every signal whatever these tests were told to ignore.
    fn command(&self) -> Command {
        let mut command = Command::new("/usr/bin/env");
        command.arg("--default-signal=INT,TERM,HUP,QUIT");
        command.arg(self.0.join("diagnose"));
        command
    }

    /// Runs the command on P1.
    fn run(&self) -> Output {
        common::run(&mut self.command(), SHEET)
    }

    /// A line of the shell in the copy, with P1 on standard input.
    fn shell(&self, line: &str) -> Output {
        shell(line, &self.0)
    }

    /// Starts the command on P1's file, and reads what it says line by line.
    fn start(&self) -> (Child, Lines<BufReader<ChildStderr>>) {
        let mut command = self.command();
        command.arg(common::top().join("examples/p1.sheet"));
        command.stdout(Stdio::piped()).stderr(Stdio::piped());
        let mut child = command.spawn().expect("it runs");
        let said = child.stderr.take().expect("it is piped");
        (child, BufReader::new(said).lines())
    }

    /// Makes a file of the copy as new as can be.
    fn change(&self, file: &str) {
        let file = File::options().append(true).open(self.0.join(file));
        let file = file.expect("the file is there");
        let now = SystemTime::now();
        file.set_modified(now).expect("its time can be set");
    }

    fn program(&self) -> PathBuf {
        self.0.join("target/bin/diagnose")
    }
}

/// Looks for something that comes within a minute.
fn wait_for<Found>(what: &str, mut look: impl FnMut() -> Option<Found>) -> Found {
    for _ in 0..6_000 {
        if let Some(found) = look() {
            return found;
        }
        thread::sleep(Duration::from_millis(10));
    }
    panic!("{what} does not come");
}

/// A process that a build leaves running, by the file with its number. It is ended with the test.
struct Left(PathBuf);

impl Left {
    fn number(&self) -> String {
        wait_for("the number of a process", || {
            let text = fs::read_to_string(&self.0).ok()?;
            Some(text.strip_suffix('\n')?.to_owned())
        })
    }
}

impl Drop for Left {
    fn drop(&mut self) {
        // It may never have been started, or have ended.
        if let Ok(number) = fs::read_to_string(&self.0) {
            let _ = Command::new("kill")
                .arg(number.trim())
                .stderr(Stdio::null())
                .status();
        }
    }
}

/// A line of the shell in a folder, for what only a shell can arrange. P1 is on standard input.
fn shell(line: &str, folder: &Path) -> Output {
    let mut shell = Command::new("sh");
    common::run(shell.args(["-c", line]).current_dir(folder), SHEET)
}

fn make_executable(file: &Path, executable: bool) {
    let mode = if executable { 0o755 } else { 0o644 };
    fs::set_permissions(file, fs::Permissions::from_mode(mode)).expect("its mode can be set");
}

fn said(output: &Output) -> String {
    String::from_utf8_lossy(&output.stderr).into_owned()
}

/// The next line that is said, with its end.
fn next(lines: &mut Lines<BufReader<ChildStderr>>) -> String {
    lines.next().expect("a line").expect("text") + "\n"
}

/// Asserts that P1 was scored, and what was said.
fn assert_scored(output: &Output, expected: &str) {
    assert_eq!(said(output), expected);
    assert_eq!(String::from_utf8_lossy(&output.stdout), REPORT);
    assert_eq!(output.status.code(), Some(0));
}

/// Asserts that nothing could be built: the status, and the end of what was said.
fn assert_not_built(output: &Output, end: &str) {
    assert!(said(output).ends_with(end), "{}", said(output));
    assert_eq!(output.stdout, b"");
    assert_eq!(output.status.code(), Some(3));
}
