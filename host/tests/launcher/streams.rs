//! Standard input, output and error that are closed or full, while it builds and after that.

use super::first::first_run;
use super::*;

#[test]
fn closed_input_and_output_are_told() {
    first_run();
    for (line, words, status) in [
        ("./diagnose <&-", "standard input: can't be read", 2),
        ("./diagnose - <&-", "standard input: can't be read", 2),
        ("./diagnose >&-", "can't print", 3),
        ("./diagnose --help >&-", "can't print", 3),
    ] {
        let output = shell(line, common::top());
        let words = format!("diagnose: {words}: Bad file descriptor\n");
        assert_eq!(said(&output), words, "{line}");
        assert_eq!(output.stdout, b"");
        assert_eq!(output.status.code(), Some(status), "{line}");
    }
    // What is not needed may be closed.
    for line in ["./diagnose 2>&-", "./diagnose examples/p1.sheet <&-"] {
        assert_scored(&shell(line, common::top()), "");
    }
}

/// What can't be said changes nothing: neither that it is built nor its status.
#[test]
fn a_build_needs_no_standard_error() {
    let copy = Copy::new("silent");
    for line in ["./diagnose 2>&-", "./diagnose 2>/dev/full"] {
        copy.change("tools/archive");
        assert_scored(&copy.shell(line), "");
        assert_scored(&copy.run(), "");
    }
    // A pipe whose reader has gone.
    copy.change("tools/archive");
    let output = copy.shell("{ sleep 0.1; ./diagnose; echo $? >status; } 2>&1 >report | true; sleep 0.1; cat report status");
    let expected = format!("{REPORT}0\n");
    assert_eq!(String::from_utf8_lossy(&output.stdout), expected);
}

/// The sheet on standard input is the command's: nothing of the build reads from it.
#[test]
fn a_build_reads_nothing() {
    let copy = Copy::new("reads");
    copy.prove_by(&format!("cat >/dev/null\n{HAND_OUT}"));
    assert_scored(&copy.run(), &[BUILDING, PROVING].concat());
}

/// All descriptors but the first three are the caller's.
#[test]
fn other_descriptors_are_handed_on() {
    let copy = Copy::new("descriptors");
    for line in (3..=12).map(|it| format!("./diagnose /dev/fd/{it} {it}<sheet")) {
        fs::write(copy.0.join("sheet"), SHEET).expect("the sheet is written");
        copy.change("words.txt");
        let mut bash = Command::new("bash");
        let output = common::output(bash.args(["-c", &line]).current_dir(&copy.0));
        assert_eq!(String::from_utf8_lossy(&output.stdout), REPORT, "{line}");
        assert_eq!(output.status.code(), Some(0), "{line}");
    }
}

/// A terminal that stops what writes to it from another group of processes does not stop a build.
#[test]
fn a_terminal_does_not_stop_a_build() {
    let copy = Copy::new("terminal");
    let program = "import os, pty, sys\n\
        status = pty.spawn(['sh', '-c', 'stty tostop; exec ./diagnose \"$0\"', sys.argv[1]])\n\
        sys.exit(os.waitstatus_to_exitcode(status))";
    let mut python = Command::new("timeout");
    python.args(["60", "python3", "-c", program]);
    python.arg(common::top().join("examples/p1.sheet"));
    let output = common::run(python.current_dir(&copy.0), b"");
    let shown = [BUILDING, PROVING, REPORT].concat().replace('\n', "\r\n");
    assert_eq!(String::from_utf8_lossy(&output.stdout), shown);
    assert_eq!(output.status.code(), Some(0));
}
