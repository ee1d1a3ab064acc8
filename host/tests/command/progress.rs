//! The line of progress, on a terminal.

use std::fs;
use std::path::Path;
use std::process::Command;
use std::thread;
use std::time::{Duration, Instant};

use super::*;

/// A line of the shell on a terminal of its own, among files of a test's own: the status, and all that came to the terminal.
fn on_terminal(folder: &Path, line: &str) -> (i32, String) {
    const PYTHON: &str =
        "import os, pty, sys; sys.exit(os.waitstatus_to_exitcode(pty.spawn(sys.argv[1:])))";
    let program = command().get_program().to_owned();
    let mut python = Command::new("python3");
    python.args(["-c", PYTHON, "sh", "-c", line]).arg(program);
    let run = run(python.current_dir(folder), b"");
    assert_eq!(run.said, "");
    (run.status, run.printed)
}

/// A folder with named pipes that are fed P1 one after the other, each so long after it was opened, and with files.
fn fed(name: &str, pipes: usize, pause: Duration) -> PathBuf {
    let folder = folder_with(
        name,
        &[("p1.sheet", SHEET), ("refused.sheet", &refused_sheet())],
    );
    let paths: Vec<PathBuf> = (0..pipes)
        .map(|it| folder.join(format!("pipe{it:02}")))
        .collect();
    common::assert_silent(
        &common::output(Command::new("mkfifo").args(&paths)),
        "mkfifo",
    );
    // Where the command ends without reading them all, this waits until the test ends.
    thread::spawn(move || {
        for path in paths {
            let mut pipe = fs::File::options().write(true).open(path).expect("a pipe");
            thread::sleep(pause);
            std::io::Write::write_all(&mut pipe, SHEET).expect("it is read");
        }
    });
    folder
}

/// What is seen on a terminal in the end, where a return goes back to the line's first column.
fn seen(text: &str) -> String {
    let mut lines = vec![Vec::new()];
    let mut column = 0;
    for character in text.chars() {
        let line: &mut Vec<char> = lines.last_mut().expect("there is a line");
        match character {
            '\r' => column = 0,
            '\n' => lines.push(Vec::new()),
            _ => {
                if column < line.len() {
                    line[column] = character;
                } else {
                    line.push(character);
                }
                column += 1;
            }
        }
    }
    let lines = lines
        .iter()
        .map(|line| line.iter().collect::<String>().trim_end().to_owned());
    lines.collect::<Vec<_>>().join("\n")
}

/// The counts that were shown.
fn shown(text: &str) -> Vec<usize> {
    let lines = text.split('\r').filter_map(|it| it.split_once(" of "));
    lines
        .map(|(done, _)| done.parse().expect("a number"))
        .collect()
}

const FEW: Duration = Duration::from_millis(300);

#[test]
fn the_line_is_gone_in_the_end() {
    let folder = fed("progress-gone", 1, FEW);
    let line = format!(
        r#""$0" --summary pipe00 {} >printed"#,
        "p1.sheet ".repeat(1_233)
    );
    let (status, text) = on_terminal(&folder, &line);
    assert_eq!((status, &*seen(&text)), (0, ""));
    assert!(text.starts_with("\r1 of 1,234 sheets"), "{text:?}");
    let printed = fs::read_to_string(folder.join("printed")).expect("it was printed");
    assert!(printed.ends_with("\n1234 sheets: 1234 scored, 0 refused\n"));
}

#[test]
fn it_does_not_mix_with_what_is_printed_and_said() {
    let folder = fed("progress-mixed", 1, FEW);
    let files = format!("pipe00 {}", "p1.sheet refused.sheet nosuch ".repeat(20));
    let (status, text) = on_terminal(&folder, &format!(r#""$0" {files}"#));
    let each = [
        REPORT,
        REFUSED,
        "refused.sheet: refused 6, row 3, column 4\n",
        "diagnose: nosuch: can't be read: No such file or directory\n",
    ];
    let all = [REPORT, &each.concat().repeat(20)].concat();
    assert_eq!((status, seen(&text)), (2, all));
    assert_eq!(shown(&text)[0], 1);
}

#[test]
fn it_is_written_at_most_ten_times_a_second() {
    let folder = fed("progress-often", 60, Duration::from_millis(30));
    let begun = Instant::now();
    let (status, text) = on_terminal(&folder, r#""$0" pipe* >printed"#);
    let tenths = begun.elapsed().as_millis() / 100;
    let shown = shown(&text);
    assert_eq!((status, &*seen(&text)), (0, ""));
    assert!(
        shown.len() >= 5 && shown.len() as u128 <= tenths,
        "{shown:?} in {tenths} tenths"
    );
    assert!(shown.is_sorted_by(|one, next| one < next), "{shown:?}");
    // It stays also where less than a second's work is left.
    assert!(shown.last() > Some(&45), "{shown:?}");
}

#[test]
fn with_little_ahead_there_is_none() {
    let folder = fed("progress-short", 1, FEW);
    let (status, text) = on_terminal(&folder, r#""$0" pipe00 refused.sheet"#);
    let all = [
        REPORT,
        REFUSED,
        "refused.sheet: refused 6, row 3, column 4\n",
    ];
    assert_eq!((status, text), (1, all.concat().replace('\n', "\r\n")));
}

/// Two seconds seem to be ahead after the first sheet, and nothing like it after two tenths of a second. Where the machine
/// is so busy that the first sheet takes as long, it is tried again.
#[test]
fn the_first_sheet_alone_does_not_tell_how_much_is_ahead() {
    let line = format!(r#""$0" pipe00 {}"#, "p1.sheet ".repeat(119));
    let all = (0, REPORT.repeat(120).replace('\n', "\r\n"));
    let mut tries = (0..5).map(|_| {
        let folder = fed("progress-first", 1, Duration::from_millis(20));
        on_terminal(&folder, &line)
    });
    assert_eq!(tries.find(|it| *it == all), Some(all.clone()));
}

#[test]
fn without_a_terminal_there_is_none() {
    let folder = fed("progress-none", 1, FEW);
    let files = [&["pipe00"][..], &["p1.sheet"; 39]].concat();
    assert_eq!(
        diagnose_in(&folder, &files),
        gave(0, &REPORT.repeat(40), "")
    );
}
