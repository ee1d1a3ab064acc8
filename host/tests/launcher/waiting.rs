//! Builds at the same time, of which one waits for the other.

use std::io::Write;
use std::process::{ChildStdin, ChildStdout};
use std::thread;
use std::time::Duration;

use super::*;

/// Another build: it has the lock until a line is written to it.
struct Other {
    child: Child,
    input: ChildStdin,
}

impl Other {
    /// Begins it. At its end it runs a line of the shell.
    fn begin(copy: &Copy, end: &str) -> Self {
        fs::create_dir_all(copy.0.join("target")).expect("a folder");
        let mut child = Command::new("flock")
            .arg(copy.0.join("target/diagnose.log"))
            .args(["sh", "-c", &format!("echo; read line; {end}")])
            .stdin(Stdio::piped())
            .stdout(Stdio::piped())
            .spawn()
            .expect("flock runs");
        let begun: ChildStdout = child.stdout.take().expect("it is piped");
        let mut line = String::new();
        BufReader::new(begun)
            .read_line(&mut line)
            .expect("it has the lock");
        let input = child.stdin.take().expect("it is piped");
        Self { child, input }
    }

    fn end(mut self) {
        writeln!(self.input).expect("it is told");
        self.child.wait().expect("it ends");
    }
}

/// What is said until the end, and that P1 was scored.
fn rest(child: Child, lines: Lines<BufReader<ChildStderr>>) -> String {
    let output = child.wait_with_output().expect("it ends");
    assert_eq!(String::from_utf8_lossy(&output.stdout), REPORT);
    assert_eq!(output.status.code(), Some(0));
    lines.map(|line| line.expect("text") + "\n").collect()
}

#[test]
fn a_build_waits_for_another() {
    let copy = Copy::new("waits");
    let other = Other::begin(&copy, "true");
    let (mut child, mut lines) = copy.start();
    assert_eq!(next(&mut lines), WAITING);
    thread::sleep(Duration::from_millis(300));
    let waiting = child.try_wait().expect("its state");
    assert_eq!(waiting, None);
    assert!(!copy.0.join("target/archive").exists());
    other.end();
    assert_eq!(rest(child, lines), [BUILDING, PROVING].concat());
}

/// What the other has built is not built again.
#[test]
fn the_other_may_have_built_it() {
    let copy = Copy::built("waits-built");
    let program = copy.program();
    let aside = program.with_extension("aside");
    fs::rename(&program, &aside).expect("it is put aside");
    let end = format!("mv '{}' '{}'", aside.display(), program.display());
    let other = Other::begin(&copy, &end);
    let (child, mut lines) = copy.start();
    assert_eq!(next(&mut lines), WAITING);
    other.end();
    assert_eq!(rest(child, lines), "");
}

/// Neither what a build leaves running nor the program that it starts keeps the next build waiting.
#[test]
fn nothing_else_has_the_lock() {
    let copy = Copy::new("lock");
    let lines = "sleep 1000 >/dev/null 2>&1 & echo $! >\"$copy/sleeping\"";
    copy.prove_by(&format!("{HAND_OUT}\n{lines}"));
    let _sleeping = Left(copy.0.join("sleeping"));
    let mut command = copy.command();
    command.stdin(Stdio::piped()).stdout(Stdio::piped());
    let mut reading = command.stderr(Stdio::null()).spawn().expect("it runs");
    wait_for("the lock", || {
        let mut flock = Command::new("flock");
        flock
            .arg("-n")
            .arg(copy.0.join("target/diagnose.log"))
            .arg("true");
        let is_free = flock.status().expect("flock runs").success();
        (is_free && copy.program().exists()).then_some(())
    });
    copy.change("words.txt");
    assert_scored(&copy.run(), BUILDING);
    let mut input = reading.stdin.take().expect("it is piped");
    input.write_all(SHEET).expect("it still reads");
    drop(input);
    let output = reading.wait_with_output().expect("it ends");
    assert_eq!(String::from_utf8_lossy(&output.stdout), REPORT);
}
