//! Running programs, for the tests that do. Each test uses its own part of this.
#![allow(dead_code)]

pub mod calls;
pub mod header;
pub mod lent;
pub mod refusals;
pub mod remainders;

use std::env;
use std::fs;
use std::io::{ErrorKind, Write};
use std::ops::Deref;
use std::path::{Path, PathBuf};
use std::process::{Command, Output, Stdio};
use std::sync::OnceLock;
use std::thread;

pub use girderbasil_tests::command::top;
use girderbasil_tests::random::{Random, damage};
use girderbasil_tests::{model, worked};

/// A folder of a test's own.
pub fn folder(name: &str) -> PathBuf {
    let folder = Path::new(env!("CARGO_TARGET_TMPDIR")).join(name);
    fs::create_dir_all(&folder).expect("a folder for the test");
    folder
}

/// The same, with nothing in it from an earlier run.
pub fn empty_folder(name: &str) -> PathBuf {
    fs::remove_dir_all(folder(name)).expect("it can be removed");
    folder(name)
}

/// A folder outside the repository, in which `rt ci` takes no link and no crate but its own, and cargo takes each package for
/// one of the workspace. It is gone when the test ends.
pub struct Outside(PathBuf);

impl Outside {
    pub fn new(name: &str) -> Self {
        let name = format!("girderbasil-{}-{name}", std::process::id());
        let folder = env::temp_dir().join(name);
        fs::create_dir(&folder).expect("a folder outside the repository");
        Self(folder)
    }
}

impl Deref for Outside {
    type Target = Path;

    fn deref(&self) -> &Path {
        &self.0
    }
}

impl Drop for Outside {
    fn drop(&mut self) {
        // A test that fails should tell its own reason.
        let _ = fs::remove_dir_all(&self.0);
    }
}

/// A compiler of C or C++ to which every warning is an error.
pub fn compiler(name: &str, standard: &str, include: &Path) -> Command {
    let mut command = Command::new(name);
    command
        .arg(format!("-std={standard}"))
        .args(["-Wall", "-Wextra", "-Werror", "-pedantic", "-I"])
        .arg(include);
    command
}

/// The compiler for a standard, and its name for the language.
pub fn language(standard: &str) -> (&'static str, &'static str) {
    if standard.starts_with("c++") {
        ("g++", "c++")
    } else {
        ("cc", "c")
    }
}

/// Compiles a program of C, or of C++ where the standard is one of C++, and links it with the archive.
pub fn compile(standard: &str, include: &Path, source: &Path, program: &Path) -> Output {
    let (name, language) = language(standard);
    let mut command = compiler(name, standard, include);
    command
        .args(["-x", language])
        .arg(source)
        .args(["-x", "none", env!("GIRDERBASIL_ARCHIVE"), "-o"])
        .arg(program);
    output(&mut command)
}

/// What a command printed, and how it ended.
pub fn output(command: &mut Command) -> Output {
    command
        .output()
        .unwrap_or_else(|error| panic!("{command:?} does not run: {error}"))
}

/// The same with the repository's own header, of a program that must compile without a word.
pub fn compiled(standard: &str, source: &str, program: PathBuf) -> PathBuf {
    let output = compile(
        standard,
        &top().join("include"),
        &top().join(source),
        &program,
    );
    assert_silent(&output, &format!("{source} as {standard}"));
    program
}

/// Asserts that a command did what it was asked for without a word of complaint.
pub fn assert_silent(output: &Output, of_what: &str) {
    let complaints = String::from_utf8_lossy(&output.stderr);
    assert!(
        output.status.success() && complaints.is_empty(),
        "{of_what}: {complaints}"
    );
}

/// The scoring program, `crates/diagnose`, proved and built by rt. A copy, which later runs of rt leave as it is.
pub fn scoring_program() -> &'static Path {
    static PROGRAM: OnceLock<PathBuf> = OnceLock::new();
    PROGRAM.get_or_init(|| {
        let folder = top().join("crates/diagnose");
        let mut rt = Command::new("rt");
        let output = run(rt.arg("run").current_dir(&folder), worked::SHEET);
        assert_eq!(
            output.stdout,
            worked::REPORT.as_bytes(),
            "{}",
            String::from_utf8_lossy(&output.stderr)
        );
        let program = Path::new(env!("CARGO_TARGET_TMPDIR")).join("scoring-program");
        fs::copy(folder.join("out/diagnose"), &program).expect("it is built");
        program
    })
}

/// Runs a command with something on its standard input.
pub fn run(command: &mut Command, input: &[u8]) -> Output {
    let mut child = command
        .stdin(Stdio::piped())
        .stdout(Stdio::piped())
        .stderr(Stdio::piped())
        .spawn()
        .unwrap_or_else(|error| panic!("{command:?} does not run: {error}"));
    let mut piped = child.stdin.take().expect("its input is piped");
    // It may print while there is still something for it to read.
    thread::scope(|scope| {
        scope.spawn(move || match piped.write_all(input) {
            // It need not read to the end, or at all.
            Err(error) if error.kind() == ErrorKind::BrokenPipe => {}
            written => written.expect("its input can be written"),
        });
        child.wait_with_output().expect("the command ends")
    })
}

/// Runs the scoring program on a sheet.
pub fn run_scoring_program(sheet: &[u8]) -> Output {
    run(&mut Command::new(scoring_program()), sheet)
}

/// The cells of a row of a page's table, between an empty one at either end.
pub fn cells(row: &str) -> Vec<&str> {
    row.split('|').map(str::trim).collect()
}

/// A score in hundredths as it is shown to people.
pub fn decimal(hundredths: u32) -> String {
    format!("{}.{:02}", hundredths / 100, hundredths % 100)
}

/// A sheet, damaged or not, as itself or for the table it has.
pub fn any_sheet(random: &mut Random) -> Vec<u8> {
    let table = damage::any_table(random);
    // A damaged table may have no sheet, for its length or its numbers; the empty sheet then stands for it.
    let mut sheet = model::write(&table, usize::MAX).unwrap_or_default();
    if random.chance(30) {
        damage::damage_sheet(random, &mut sheet);
    }
    sheet
}
