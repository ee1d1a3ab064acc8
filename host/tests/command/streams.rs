//! Files, folders, pipes and devices that can't be read or written.

use std::fs;
use std::io::{BufRead, BufReader};
use std::os::unix::net::UnixListener;
use std::process::Stdio;

use super::*;

#[test]
fn a_file_that_cannot_be_read_is_told_with_the_reason() {
    let folder = common::empty_folder("command-unreadable");
    let _listener = UnixListener::bind(folder.join("socket")).expect("a socket");
    fs::create_dir(folder.join("folder")).expect("a folder");
    for (file, reason) in [
        ("nosuch", "No such file or directory"),
        ("nosuch/p1.sheet", "No such file or directory"),
        ("folder", "Is a directory"),
        ("socket", "No such device or address"),
        ("socket/p1.sheet", "Not a directory"),
    ] {
        let said = format!("diagnose: {file}: can't be read: {reason}\n");
        assert_eq!(diagnose_in(&folder, &[file]), gave(2, "", &said));
        let run = diagnose_in(&folder, &["--explain", "--csv", "--sheet", file]);
        assert_eq!(run, gave(2, "", &said));
    }
}

/// Its name would not be seen otherwise.
#[test]
fn an_empty_name_is_shown_in_quotes() {
    let said = "diagnose: \"\": can't be read: No such file or directory\n";
    assert_eq!(diagnose(&[""], b""), gave(2, "", said));
    let printed = concat!(
        "\"\"                 can't be read\n",
        "examples/p1.sheet  verdict 4  0.47\n",
        "2 sheets: 1 scored, 0 refused, 1 not read\n",
    );
    let arguments = ["--summary", "", "examples/p1.sheet"];
    assert_eq!(diagnose(&arguments, b""), gave(2, printed, said));
}

#[test]
fn the_others_go_on() {
    let files = ["nosuch", "examples/p1.sheet", "examples", "-"];
    let said = concat!(
        "diagnose: nosuch: can't be read: No such file or directory\n",
        "diagnose: examples: can't be read: Is a directory\n",
        "standard input: refused 1, the sheet as a whole\n",
    );
    let printed = [REPORT, NO_SHEET].concat();
    assert_eq!(diagnose(&files, b""), gave(2, &printed, said));
}

#[test]
fn standard_input_that_cannot_be_read_exits_with_2() {
    let folder = "diagnose: standard input: can't be read: Is a directory\n";
    assert_eq!(shell(r#""$0" <examples"#), gave(2, "", folder));
    assert_eq!(shell(r#""$0" --csv - <examples"#), gave(2, "", folder));
    // Open, but for writing alone.
    let closed = "diagnose: standard input: can't be read: Bad file descriptor\n";
    assert_eq!(shell(r#""$0" 0>/dev/null"#), gave(2, "", closed));
}

#[test]
fn a_full_output_exits_with_3() {
    let said = "diagnose: can't print: No space left on device\n";
    for arguments in [
        "",
        "--summary",
        "--report examples/p1.sheet",
        "examples/p1.sheet examples/refused.sheet",
        "--help",
        "--version",
    ] {
        let run = shell(&format!(r#""$0" {arguments} >/dev/full"#));
        assert_eq!(run, gave(3, "", said), "{arguments}");
        let run = shell(&format!(r#""$0" {arguments} >/dev/full 2>/dev/full"#));
        assert_eq!(run, gave(3, "", ""), "{arguments}");
    }
}

/// What is wrong before it is told; what comes after it is not looked at.
#[test]
fn an_output_that_cannot_be_written_ends_it_at_once() {
    let run = shell(r#""$0" nosuch examples/p1.sheet nosuch nosuch >/dev/full"#);
    let said = concat!(
        "diagnose: nosuch: can't be read: No such file or directory\n",
        "diagnose: can't print: No space left on device\n",
    );
    assert_eq!(run, gave(3, "", said));
}

#[test]
fn an_output_open_for_reading_alone_exits_with_3() {
    let said = "diagnose: can't print: Bad file descriptor\n";
    assert_eq!(shell(r#""$0" 1</dev/null"#), gave(3, "", said));
    assert_eq!(shell(r#""$0" --help 1</dev/null"#), gave(3, "", said));
}

#[test]
fn standard_error_that_cannot_be_written_changes_no_status() {
    for closed in ["2>&-", "2>/dev/full", "2</dev/null"] {
        for (arguments, status, printed) in [
            ("nosuch", 2, ""),
            ("--nosuch", 2, ""),
            ("--explain", 0, REPORT),
            ("--explain examples/refused.sheet", 1, REFUSED),
            ("nosuch examples/p1.sheet", 2, REPORT),
        ] {
            let run = shell(&format!(r#""$0" {arguments} {closed}"#));
            assert_eq!(run, gave(status, printed, ""), "{arguments} {closed}");
        }
    }
}

/// As `head` does it, who then wants no more and no message.
#[test]
fn a_pipe_that_is_closed_exits_with_3_without_a_word() {
    let mut command = command();
    let files = vec!["examples/p1.sheet"; 10_000];
    let started = command
        .args(files)
        .stdout(Stdio::piped())
        .stderr(Stdio::piped());
    let mut child = started.spawn().expect("the command runs");
    let mut printed = BufReader::new(child.stdout.take().expect("its output is piped"));
    let mut line = String::new();
    printed.read_line(&mut line).expect("a line");
    drop(printed);
    let output = child.wait_with_output().expect("the command ends");
    assert_eq!(
        line,
        REPORT.split_inclusive('\n').next().unwrap_or_default()
    );
    assert_eq!((output.status.code(), output.stderr), (Some(3), Vec::new()));
}
