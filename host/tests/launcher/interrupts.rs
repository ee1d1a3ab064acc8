//! Builds that are interrupted.

use std::os::unix::process::ExitStatusExt;
use std::process::ExitStatus;
use std::thread;
use std::time::Duration;

use super::*;

const SIGNALS: [(&str, i32); 4] = [("INT", 2), ("TERM", 15), ("HUP", 1), ("QUIT", 3)];

/// Sends a signal to the launcher alone, and asserts that it ends by it. By QUIT no shell ends; it has the exit status for it.
fn interrupt(mut child: Child, (signal, number): (&str, i32)) {
    let mut kill = Command::new("kill");
    let launcher = child.id().to_string();
    let output = common::output(kill.args(["-s", signal, &launcher]));
    common::assert_silent(&output, "kill");
    let status = ended(&mut child);
    let by = match signal {
        "QUIT" => status.code().map(|code| code - 128),
        _ => status.signal(),
    };
    assert_eq!(by, Some(number), "{status:?}");
}

/// How a launcher ends. One that does not is killed before the test fails.
fn ended(child: &mut Child) -> ExitStatus {
    for _ in 0..2_000 {
        if let Some(status) = child.try_wait().expect("its state") {
            return status;
        }
        thread::sleep(Duration::from_millis(10));
    }
    child.kill().expect("it is killed");
    panic!("the launcher does not end");
}

/// Whether a process is gone within two seconds, or is only still to be taken note of by its parent.
fn ends_soon(process: &str) -> bool {
    (0..200).any(|_| {
        let state = fs::read_to_string(format!("/proc/{process}/stat")).unwrap_or_default();
        let gone = state.is_empty() || state.contains(") Z ");
        if !gone {
            thread::sleep(Duration::from_millis(10));
        }
        gone
    })
}

#[test]
fn a_proof_ends_with_all_that_it_started() {
    let copy = Copy::new("interrupted");
    copy.prove_by("sleep 1000 & echo $! >\"$copy/sleeping\"; wait");
    for signal in SIGNALS {
        let _ = fs::remove_file(copy.0.join("sleeping"));
        let (child, mut lines) = copy.start();
        assert_eq!(next(&mut lines), BUILDING);
        assert_eq!(next(&mut lines), PROVING);
        let sleeping = Left(copy.0.join("sleeping"));
        let number = sleeping.number();
        interrupt(child, signal);
        assert!(ends_soon(&number), "{signal:?}");
        assert!(!copy.program().exists());
    }
    // The next run begins anew.
    copy.prove_by(HAND_OUT);
    assert_scored(&copy.run(), &[BUILDING, PROVING].concat());
}

/// The Rust part of the build is another process, here one that its build script starts.
#[test]
fn cargo_ends_with_all_that_it_started() {
    let copy = Copy::new("interrupted-cargo");
    let script = copy.0.join("host/girderbasil/build.rs");
    let process = copy.0.join("process");
    let lines = format!(
        "fn main() {{ std::process::Command::new(\"sh\").args([\"-c\", \"echo $$ >'{}'; exec sleep 1000\"]).status().unwrap(); }}",
        process.display()
    );
    fs::write(script, lines).expect("it is written");
    let (child, _lines) = copy.start();
    let sleeping = Left(process);
    let number = sleeping.number();
    interrupt(child, ("TERM", 15));
    assert!(ends_soon(&number));
}

#[test]
fn a_build_that_waits_for_another_ends() {
    let copy = Copy::new("interrupted-waiting");
    fs::create_dir(copy.0.join("target")).expect("a folder");
    let other = Command::new("flock")
        .arg("--no-fork")
        .arg(copy.0.join("target/diagnose.log"))
        .args(["sleep", "1000"])
        .spawn()
        .expect("flock runs");
    let mut other = Killed(other);
    for signal in SIGNALS {
        let mut waiting = copy.start();
        // The other may still have to take the lock.
        while next(&mut waiting.1) != WAITING {
            waiting.0.kill().expect("it is ended");
            waiting = copy.start();
        }
        interrupt(waiting.0, signal);
    }
    other.0.kill().expect("it still has the lock");
}

/// A process that is ended with the test.
struct Killed(Child);

impl Drop for Killed {
    fn drop(&mut self) {
        let _ = self.0.kill();
        let _ = self.0.wait();
    }
}

/// Whoever is impatient sends two: a terminal that is closed, and then the shell in it.
#[test]
fn two_signals_at_once_end_the_build_too() {
    let copy = Copy::new("interrupted-twice");
    copy.prove_by("sleep 1000 & echo $! >\"$copy/sleeping\"; wait");
    for _ in 0..10 {
        let _ = fs::remove_file(copy.0.join("sleeping"));
        let (mut child, _lines) = copy.start();
        let sleeping = Left(copy.0.join("sleeping"));
        let number = sleeping.number();
        let line = format!("kill -s HUP {0}; kill -s TERM {0}", child.id());
        shell(&line, &copy.0);
        ended(&mut child);
        assert!(ends_soon(&number));
    }
}
