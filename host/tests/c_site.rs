//! The C example of a surveyor's visit: it compiles without a warning, and says what each change does, as document 02's
//! request 7 has it.

mod common;

use std::fs::{self, File};
use std::path::{Path, PathBuf};
use std::process::{Command, Output, Stdio};

use common::calls;
use girderbasil::MOST_WALLS;
use girderbasil_tests::random::{Random, house};
use girderbasil_tests::worked;

const P1: &str = "examples/p1.sheet";

/// What it says of P1 before any change.
const STARTED: &str =
    "12 rows, verdict 4, storey 1 X 0.47 (held 9200000), storey 1 Y 0.83 (held 16000000)\n";

fn compiled(folder: &Path) -> PathBuf {
    common::compiled("c99", "examples/site.c", folder.join("site"))
}

/// Runs it on a sheet, with changes on standard input.
fn run(program: &Path, file: &Path, changes: &str) -> Output {
    common::run(Command::new(program).arg(file), changes.as_bytes())
}

/// What it says of a sheet that it starts with, and of changes that it can read.
fn said(program: &Path, file: &Path, changes: &str) -> String {
    let output = run(program, file, changes);
    assert_eq!(String::from_utf8_lossy(&output.stderr), "");
    assert_eq!(output.status.code(), Some(0));
    String::from_utf8(output.stdout).expect("it prints text")
}

#[test]
fn a_visit_on_p1() {
    let program = compiled(&common::folder("visit"));
    let changes = "4 1 1 2 20 2000 1 1\n6\n4 1 2 2 0 3001 0 3\n";
    let expected = "13 rows, verdict 4, storey 1 X 0.68 (held 13200000), storey 1 Y 0.83 (held 16000000)\n\
                    12 rows, verdict 4, storey 1 X 0.62 (held 12000000), storey 1 Y 0.83 (held 16000000)\n\
                    13 rows, verdict 4, storey 1 X 0.62 (held 12000000), storey 1 Y 0.88 (held 16900000)\n";
    let said = said(&program, &common::top().join(P1), changes);
    assert_eq!(said, STARTED.to_owned() + expected);
}

/// Last the wall at end b of Y goes, which leaves that end in band A and end a in D, so that the layout factor is 60.
#[test]
fn refused_changes_are_said_and_the_visit_goes_on() {
    let program = compiled(&common::folder("refused-changes"));
    let changes = "4\n11\n13\n 4 1  0 2 20 2000 1 1\n4 0 1 2 20 2000 1 1\r\n\
                   4 2 1 2 20 2000 1 1\n5 1 1 2 20 2000 1 1\n4 1 1 2 20 2000 1 4\n4294967295\n10\n";
    let expected = "refused: number 12, row 4, column 0\n\
                    refused: number 12, row 11, column 0\n\
                    refused: number 12, row 13, column 0\n\
                    refused: number 4, row 11, column 3\n\
                    refused: number 4, row 5, column 2\n\
                    refused: number 4, row 11, column 2\n\
                    refused: number 4, row 11, column 1\n\
                    refused: number 4, row 11, column 8\n\
                    refused: number 12, row 4294967295, column 0\n\
                    11 rows, verdict 4, storey 1 X 0.47 (held 9200000), storey 1 Y 0.37 (held 12000000)\n";
    let said = said(&program, &common::top().join(P1), changes);
    assert_eq!(said, STARTED.to_owned() + expected);
}

/// The table has room for as many walls as a house may have.
#[test]
fn a_house_may_get_its_last_wall_on_site() {
    let folder = common::folder("last-wall");
    let program = compiled(&folder);
    let table = house::with_walls(&mut Random::new(35), 3, MOST_WALLS as u32 - 1);
    let file = folder.join("house.sheet");
    fs::write(&file, calls::sheet_of(&table)).expect("the sheet is written");
    let wall = "4 3 1 2 20 2000 1 1\n";
    let said = said(&program, &file, &wall.repeat(2));
    let lines: Vec<&str> = said.lines().collect();
    assert_eq!(lines.len(), 3);
    assert!(lines[0].starts_with("311 rows, ") && lines[1].starts_with("312 rows, "));
    assert_eq!(lines[2], "refused: number 5, row 311, column 1");
}

#[test]
fn a_refused_sheet_is_said_alone() {
    let folder = common::folder("refused-sheets");
    let program = compiled(&folder);
    let lines = [
        "refused: number 2, row 5, column 6\n",
        "refused: number 6, row 3, column 4\n",
    ];
    for ((sheet, _), line) in worked::refused().into_iter().zip(lines) {
        let file = folder.join("refused.sheet");
        fs::write(&file, sheet).expect("the sheet is written");
        let output = run(&program, &file, "6\n");
        assert_eq!(String::from_utf8_lossy(&output.stdout), line);
        assert_eq!(output.stderr, b"");
        assert_eq!(output.status.code(), Some(1));
    }
}

#[test]
fn a_line_that_is_no_change() {
    let program = compiled(&common::folder("no-change"));
    for line in [
        "",
        "six",
        "6 x",
        "-1",
        "4294967296",
        "99999999999999999999999",
        "4 1",
        "4 1 1 2 20 2000 1",
        "4 1 1 2 20 2000 1 1 0",
    ] {
        let output = run(&program, &common::top().join(P1), &format!("{line}\n6\n"));
        let told = format!("neither a wall's eight numbers nor a row: {line}\n");
        assert_eq!(String::from_utf8_lossy(&output.stderr), told);
        assert_eq!(String::from_utf8_lossy(&output.stdout), STARTED, "{line}");
        assert_eq!(output.status.code(), Some(2), "{line}");
    }
}

#[test]
fn scores_that_cannot_be_printed() {
    let program = compiled(&common::folder("scores-unprintable"));
    let full = File::options().write(true).open("/dev/full");
    let status = Command::new(&program)
        .arg(common::top().join(P1))
        .stdin(Stdio::null())
        .stdout(full.expect("a device that is always full"))
        .stderr(Stdio::null())
        .status()
        .expect("it runs");
    assert_eq!(status.code(), Some(3));
}

#[test]
fn no_file_to_read() {
    let folder = common::folder("no-sheet");
    let program = compiled(&folder);
    for output in [
        run(&program, &folder.join("absent.sheet"), ""),
        run(&program, &folder, ""),
        common::run(&mut Command::new(&program), b""),
    ] {
        assert_eq!(output.status.code(), Some(2));
        assert_eq!(output.stdout, b"");
        assert_ne!(output.stderr, b"");
    }
}
