//! Where nothing can be built or run.

use std::fs;
use std::os::unix::fs::symlink;
use std::path::PathBuf;

use super::*;

/// A path with the commands that the launcher uses, but for those that are named.
fn path_without(missing: &[&str]) -> PathBuf {
    let folder = common::empty_folder("launcher-path");
    for command in [
        "bash", "dirname", "readlink", "find", "flock", "mkdir", "touch", "tail", "cp", "mv",
        "cat", "cargo", "rt",
    ] {
        if !missing.contains(&command) {
            let mut search = Command::new("sh");
            let found = common::output(search.args(["-c", "command -v \"$0\"", command]));
            let found = String::from_utf8(found.stdout).expect("a path is text");
            symlink(found.trim(), folder.join(command)).expect("a link");
        }
    }
    folder
}

#[test]
fn what_is_missing_is_named() {
    let copy = Copy::new("missing");
    for (command, why) in [
        (
            "cargo",
            "which builds the command (README.md says what else is needed)",
        ),
        ("rt", "the Rattle kit's command, which proves the library"),
        ("flock", "by which one build waits for another"),
    ] {
        let output = common::run(copy.command().env("PATH", path_without(&[command])), SHEET);
        let words = format!("diagnose: can't be built: {command} is missing, {why}\n");
        assert_eq!(said(&output), words);
        assert_not_built(&output, "\n");
    }
    // What the command does can be read nevertheless.
    let path = path_without(&["cargo", "rt"]);
    let output = common::output(copy.command().arg("--help").env("PATH", &path));
    assert!(output.stdout.starts_with(b"usage: diagnose "));
    assert_eq!(
        (said(&output).as_str(), output.status.code()),
        ("", Some(0))
    );
    // Once the library is proved, rt is missed no more, and once the command is built, neither is.
    let folder = copy.0.join("target/archive/x86_64-linux-gnu");
    fs::create_dir_all(&folder).expect("a folder");
    let archive = folder.join("libgirderbasil.a");
    fs::copy(env!("GIRDERBASIL_ARCHIVE"), archive).expect("the archive is there");
    assert_scored(&copy.run(), BUILDING);
    assert_scored(&common::run(copy.command().env("PATH", path), SHEET), "");
}

/// Before the build and after it the same is printed.
#[test]
fn help_needs_no_build() {
    let copy = Copy::new("help");
    copy.prove_by("exit 1");
    let before = common::output(copy.command().arg("-h"));
    assert_eq!(before.status.code(), Some(0));
    let mut command = Command::new(common::top().join("diagnose"));
    super::first::first_run();
    let after = common::output(command.arg("--help"));
    assert_eq!(before.stdout, after.stdout);
    let full = copy.shell("./diagnose --help >/dev/full");
    assert_eq!(said(&full), "diagnose: can't print\n");
    assert_eq!(full.status.code(), Some(3));
}

#[test]
fn a_proof_that_fails_ends_it() {
    let copy = Copy::new("unproved");
    copy.prove_by("echo 'archive: the library is not proved' >&2; exit 1");
    let output = copy.run();
    let lines = [
        BUILDING,
        PROVING,
        "archive: the library is not proved\n",
        "diagnose: can't be built\n",
    ];
    assert_eq!(said(&output), lines.concat());
    assert_not_built(&output, "can't be built\n");
    assert!(!copy.program().exists());
}

#[test]
fn a_build_that_fails_shows_the_end_of_its_log() {
    let copy = Copy::new("fails");
    let main = copy.0.join("host/diagnose/src/main.rs");
    fs::write(main, "fn main() { let this_is_no_number: u32 = \"\"; }\n").expect("it is written");
    let output = copy.run();
    assert!(said(&output).contains("error[E0308]"), "{}", said(&output));
    let log = copy.0.join("target/diagnose.log");
    let end = format!(
        "diagnose: can't be built: cargo's whole log is {}\n",
        log.display()
    );
    assert_not_built(&output, &end);
    assert!(!copy.program().exists());
    // Where that can't be shown it is the same failure.
    for streams in ["2>&-", "2>/dev/full", "2>/dev/null"] {
        assert_not_built(&copy.shell(&format!("./diagnose {streams}")), "");
    }
}

#[test]
fn a_folder_that_cannot_be_written_is_told() {
    let copy = Copy::new("unwritable");
    let target = copy.0.join("target");
    fs::write(&target, "no folder").expect("a file is there");
    let words = format!(
        "diagnose: can't be built: {} can't be written\n",
        target.display()
    );
    assert_not_built(&copy.run(), &words);
}

#[test]
fn a_program_that_cannot_be_put_in_its_place_is_told() {
    let copy = Copy::built("not-placed");
    fs::remove_file(copy.program()).expect("it is there");
    fs::create_dir(copy.program()).expect("a folder is in its place");
    let words = "diagnose: can't be built: this failed: mv -T \"$program.new\" \"$program\"\n";
    assert_not_built(&copy.run(), words);
}

#[test]
fn a_program_that_cannot_be_run_is_told() {
    let copy = Copy::built("not-run");
    // It begins as a program does, and is none.
    fs::write(copy.program(), b"\x7fELF").expect("it is damaged");
    let program = copy.program();
    let words = format!(
        "diagnose: can't be run; without {} it is built again\n",
        program.display()
    );
    assert_not_built(&copy.run(), &words);
}
