//! The C example: it compiles without a warning, prints what the scoring program does, and shows the scores its own way.

mod common;

use std::fs::{self, File};
use std::path::{Path, PathBuf};
use std::process::{Command, Output, Stdio};

use common::calls;
use girderbasil::{LINE, MOST_ROWS};
use girderbasil_tests::random::Random;
use girderbasil_tests::{model, worked};

const SHEETS: usize = 80;

fn compiled(folder: &Path) -> PathBuf {
    common::compiled("c99", "examples/score.c", folder.join("score"))
}

fn run(program: &Path, file: &Path) -> Output {
    Command::new(program).arg(file).output().expect("it runs")
}

/// Runs it on the sheet that a table has.
fn run_on(program: &Path, folder: &Path, table: &[u32]) -> Output {
    let file = folder.join("house.sheet");
    fs::write(&file, calls::sheet_of(table)).expect("the sheet is written");
    run(program, &file)
}

#[test]
fn it_prints_what_the_program_does() {
    let folder = common::folder("sheets");
    let program = compiled(&folder);
    let mut random = Random::new(13);
    let mut sheets: Vec<Vec<u8>> = (0..SHEETS)
        .map(|_| common::any_sheet(&mut random))
        .collect();
    sheets.push(worked::SHEET.to_vec());
    sheets.push(vec![b' '; MOST_ROWS * LINE + 1]);
    sheets.push(vec![b' '; (MOST_ROWS + 1) * LINE]);
    sheets.push(vec![b' '; 1_000_000]);
    let mut met = [0; 2];
    for sheet in sheets {
        let file = folder.join("house.sheet");
        fs::write(&file, &sheet).expect("the sheet is written");
        let output = run(&program, &file);
        let expected = common::run_scoring_program(&sheet);
        assert_eq!(
            output.stdout,
            expected.stdout,
            "{}",
            String::from_utf8_lossy(&sheet)
        );
        let refused = output.stdout.starts_with(b"       0");
        assert_eq!(output.status.code(), Some(i32::from(refused)));
        met[usize::from(refused)] += 1;
    }
    assert!(met.iter().all(|&met| met >= SHEETS / 5), "{met:?}");
}

#[test]
fn the_example_sheets() {
    let program = compiled(&common::folder("examples"));
    let mut met = 0;
    for entry in fs::read_dir(common::top().join("examples")).expect("the examples") {
        let file = entry.expect("an example").path();
        if file.extension().is_some_and(|kind| kind == "sheet") {
            let sheet = fs::read(&file).expect("a sheet");
            let output = run(&program, &file);
            assert_eq!(output.stdout, model::diagnose(&sheet), "{file:?}");
            met += 1;
        }
    }
    assert!(met >= 3);
    let output = run(&program, &common::top().join("examples/p1.sheet"));
    assert_eq!(output.stdout, worked::REPORT.as_bytes());
    let shown = "storey 1, direction X: 0.47 (47 hundredths, remainder 352000000000, divisor 384000000000)\n\
                 storey 1, direction Y: 0.83 (83 hundredths, remainder 128000000000, divisor 384000000000)\n\
                 verdict 4\nwork started by 31 May 1981\n";
    assert_eq!(String::from_utf8_lossy(&output.stderr), shown);
    assert_eq!(output.status.code(), Some(0));
}

/// A score at its limit has its own whole hundredths beside it.
#[test]
fn scores_at_their_limit() {
    let folder = common::folder("limit");
    let program = compiled(&folder);
    for (table, scores) in [
        (
            worked::small(),
            "storey 1, direction X: 9.99 (4791 hundredths, remainder 2560000000, divisor 3840000000)\n\
             storey 1, direction Y: 9.99 (8333 hundredths, remainder 1280000000, divisor 3840000000)\n",
        ),
        (
            worked::most_hundredths(),
            "storey 1, direction X: 9.99 (1530612244 hundredths, remainder 3520000, divisor 3920000)\n\
             storey 1, direction Y: 0.00 (0 hundredths, remainder 0, divisor 3920000)\n",
        ),
    ] {
        let output = run_on(&program, &folder, &table);
        let shown = String::from_utf8_lossy(&output.stderr);
        assert!(shown.starts_with(scores), "{shown}");
    }
}

#[test]
fn it_says_whether_work_started_by_31_may_1981() {
    let folder = common::folder("started");
    let program = compiled(&folder);
    for (start, said) in [(19_810_531, "by"), (19_810_601, "after")] {
        let table = worked::with_dates([start, 19_820_101, 20_120_401]);
        let output = run_on(&program, &folder, &table);
        let line = format!("work started {said} 31 May 1981");
        let shown = String::from_utf8_lossy(&output.stderr);
        assert_eq!(shown.lines().last(), Some(line.as_str()));
    }
}

#[test]
fn refused_sheets_are_told_with_row_before_column() {
    let folder = common::folder("refused");
    let program = compiled(&folder);
    let said = ["refused: misprint\n", "refused: ends exceed storey\n"];
    for ((sheet, line), said) in worked::refused().into_iter().zip(said) {
        let file = folder.join("refused.sheet");
        fs::write(&file, sheet).expect("the sheet is written");
        let output = run(&program, &file);
        assert_eq!(String::from_utf8_lossy(&output.stdout), line);
        assert_eq!(String::from_utf8_lossy(&output.stderr), said);
        assert_eq!(output.status.code(), Some(1));
    }
}

/// The same with a shared object, which is made of the archive as README.md has it.
#[test]
fn a_shared_object_of_the_archive_serves_as_well() {
    let folder = common::folder("shared-object");
    let object = folder.join("libgirderbasil.so");
    let mut cc = Command::new("cc");
    cc.args(["-shared", "-o"]).arg(&object);
    cc.args(["-Wl,--whole-archive", env!("GIRDERBASIL_ARCHIVE")]);
    common::assert_silent(&common::output(cc.arg("-Wl,--no-whole-archive")), "cc");
    let program = folder.join("score");
    let mut cc = common::compiler("cc", "c99", &common::top().join("include"));
    cc.arg(common::top().join("examples/score.c")).arg(object);
    common::assert_silent(&common::output(cc.arg("-o").arg(&program)), "cc");
    let output = run(&program, &common::top().join("examples/p1.sheet"));
    assert_eq!(output.stdout, worked::REPORT.as_bytes());
    assert_eq!(output.status.code(), Some(0));
}

#[test]
fn a_report_or_line_that_cannot_be_printed() {
    let program = compiled(&common::folder("unprintable"));
    for sheet in ["examples/p1.sheet", "examples/refused.sheet"] {
        let full = File::options().write(true).open("/dev/full");
        let status = Command::new(&program)
            .arg(common::top().join(sheet))
            .stdout(full.expect("a device that is always full"))
            .stderr(Stdio::null())
            .status()
            .expect("it runs");
        assert_eq!(status.code(), Some(3), "{sheet}");
    }
}

#[test]
fn no_file_to_read() {
    let folder = common::folder("unreadable");
    let program = compiled(&folder);
    for output in [
        run(&program, &folder.join("absent.sheet")),
        run(&program, &folder),
        Command::new(&program).output().expect("it runs"),
    ] {
        assert_eq!(output.status.code(), Some(2));
        assert_eq!(output.stdout, b"");
        assert_ne!(output.stderr, b"");
    }
}
