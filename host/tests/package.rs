//! The package `girderbasil` as another's cargo builds it: with an archive that is given, with none, and as a dependency.

mod common;

use std::env;
use std::ffi::OsString;
use std::fs;
use std::os::unix::fs::symlink;
use std::path::{Path, PathBuf};
use std::process::{Command, Output};

const GIVEN: &str = "GIRDERBASIL_ARCHIVE";
const ARCHIVE: &str = env!("GIRDERBASIL_ARCHIVE");

const README: &str = include_str!("../../README.md");

/// A package of somebody's. Its dependency is the one that README.md has.
const MANIFEST: &str = r#"
[package]
name = "caller"
version = "0.0.0"
edition = "2024"

[dependencies]
DEPENDENCY

[workspace]
"#;

/// The program of that package, once it is built.
const CALLER: &str = "target/release/caller";

/// A program that prints what the library tells of a table without rows.
const TELLS: &str = r#"
fn main() {
    println!("{}", girderbasil::score(&[]).expect_err("a refusal"));
}
"#;

/// A library that has only what this program calls, and tells every table one number.
const LIBRARY: &str = r#"
#include "girderbasil.h"
girderbasil_scoring girderbasil_score(const uint32_t *table, size_t table_length)
{
    girderbasil_scoring scoring = {NUMBER, 0, 0, {0}, 0, 0, 0, {0}, {0}, {0}};
    (void)table;
    (void)table_length;
    return scoring;
}
"#;

/// What stands in the README between two marks.
fn in_readme(before: &str, after: &str) -> &'static str {
    let (_, rest) = README.split_once(before).expect("it is there");
    rest.split_once(after).expect("it ends").0
}

fn package() -> PathBuf {
    common::top().join("host/girderbasil")
}

/// The folders in which programs are looked for, but without the kit's `rt`: in the place of a folder that has it stands one
/// with links to all else that is there.
fn path_without_rt(folder: &Path) -> OsString {
    let path = env::var_os("PATH").expect("folders of programs");
    let mut folders = vec![];
    for (each, original) in env::split_paths(&path).enumerate() {
        if !original.join("rt").exists() {
            folders.push(original);
            continue;
        }
        let links = folder.join(format!("path-{each}"));
        fs::create_dir(&links).expect("a folder of links");
        for entry in fs::read_dir(&original).expect("a folder of programs") {
            let program = entry.expect("a program");
            if program.file_name() != "rt" {
                symlink(program.path(), links.join(program.file_name())).expect("a link");
            }
        }
        folders.push(links);
    }
    env::join_paths(folders).expect("folders")
}

/// A command of cargo on a manifest's package, in a target folder of its own, with no `rt` to be found.
fn cargo(subcommand: &str, manifest: &Path, folder: &Path) -> Command {
    let mut cargo = Command::new(env!("CARGO"));
    cargo
        .args([subcommand, "--release", "--offline", "--quiet"])
        .arg("--manifest-path")
        .arg(manifest)
        .arg("--target-dir")
        .arg(folder.join("target"))
        .env("PATH", path_without_rt(folder))
        .env_remove(GIVEN);
    cargo
}

/// Such a build of a package of somebody's with this program.
fn build_of_caller(folder: &Path, program: &str) -> Command {
    let dependency = in_readme("In Rust, with `", "`");
    let top = common::top().to_str().expect("a path of text");
    let manifest = MANIFEST.replace("DEPENDENCY", &dependency.replace("...", top));
    fs::create_dir(folder.join("src")).expect("a folder");
    fs::write(folder.join("Cargo.toml"), manifest).expect("a manifest");
    fs::write(folder.join("src/main.rs"), program).expect("a program");
    cargo("build", &folder.join("Cargo.toml"), folder)
}

/// What the program prints in its package's folder, without a word of complaint.
fn run_caller(folder: &Path) -> String {
    let output = common::output(Command::new(folder.join(CALLER)).current_dir(folder));
    common::assert_silent(&output, CALLER);
    String::from_utf8(output.stdout).expect("it prints text")
}

/// An archive of the library that tells a number.
fn archive_that_tells(folder: &Path, number: u32) -> PathBuf {
    let [source, object, archive] =
        ["c", "o", "a"].map(|kind| folder.join(format!("tells-{number}.{kind}")));
    let library = LIBRARY.replace("NUMBER", &number.to_string());
    fs::write(&source, library).expect("the library is written");
    let mut compiler = common::compiler("cc", "c99", &common::top().join("include"));
    compiler.arg("-c").arg(source).arg("-o").arg(&object);
    common::assert_silent(&common::output(&mut compiler), "cc");
    let mut archiver = Command::new("ar");
    archiver.arg("rcs").arg(&archive).arg(object);
    common::assert_silent(&common::output(&mut archiver), "ar");
    archive
}

/// Builds the package, with something as its archive or nothing.
fn build(name: &str, archive: Option<&str>) -> Output {
    let folder = common::empty_folder(name);
    let mut build = cargo("build", &package().join("Cargo.toml"), &folder);
    common::output(build.envs(archive.map(|archive| (GIVEN, archive))))
}

/// Asserts that a build failed with these lines alone of the package's own, and without a panic.
fn assert_refused(output: &Output, expected: &[&str]) {
    let said = String::from_utf8_lossy(&output.stderr);
    let prefix = format!("error: girderbasil@{}: ", girderbasil::VERSION);
    let own = said.lines().filter_map(|line| line.strip_prefix(&*prefix));
    assert_eq!(own.collect::<Vec<_>>(), expected, "{said}");
    assert!(!said.contains("panicked"), "{said}");
    assert_eq!(output.status.code(), Some(101));
}

#[test]
fn the_archive_that_is_given_is_linked() {
    let output = build("package-given", Some(ARCHIVE));
    common::assert_silent(&output, "cargo build");
}

/// The package's folder is all of it, so it can be taken elsewhere without the repository, and tested there.
#[test]
fn the_folder_alone_is_a_package() {
    let outside = common::Outside::new("package-alone");
    let mut copying = Command::new("cp");
    let copied = common::output(copying.arg("-R").arg(package()).arg(&*outside));
    common::assert_silent(&copied, "a copy");
    let mut test = cargo("test", &outside.join("girderbasil/Cargo.toml"), &outside);
    common::assert_silent(&common::output(test.env(GIVEN, ARCHIVE)), "cargo test");
    let folder = common::empty_folder("package-alone");
    let mut build = cargo("build", &outside.join("girderbasil/Cargo.toml"), &folder);
    let output = common::output(&mut build);
    let tool = outside
        .parent()
        .expect("a folder for what is passing")
        .join("tools/archive");
    let said = format!(
        "set GIRDERBASIL_ARCHIVE to a built archive: there is no {} to write one",
        tool.display()
    );
    assert_refused(&output, &[&said]);
}

/// Its examples read a copy of P1's sheet.
#[test]
fn the_package_has_the_sheet_of_the_examples() {
    let sheet = fs::read(package().join("examples/p1.sheet")).expect("a sheet");
    assert_eq!(sheet, girderbasil_tests::worked::SHEET);
}

#[test]
fn versions_are_the_same() {
    assert_eq!(girderbasil::VERSION, env!("CARGO_PKG_VERSION"));
}

#[test]
fn an_archive_that_is_not_there() {
    let output = build("package-missing", Some("/there/is/no.a"));
    let said = "cannot read the archive /there/is/no.a: No such file or directory (os error 2)";
    assert_refused(&output, &[said]);
}

/// One without a member, and one that names the files of its members in their place, are as good as none.
#[test]
fn what_is_no_archive_of_its_own() {
    let folder = common::empty_folder("package-no-archives");
    for (name, bytes) in [
        ("empty", &b""[..]),
        ("memberless", b"!<arch>\n"),
        ("thin", b"!<thin>\n/               "),
    ] {
        let archive = folder.join(name);
        fs::write(&archive, bytes).expect("a file");
        let output = build(&format!("package-archive-{name}"), archive.to_str());
        assert_refused(&output, &[&format!("{} is no archive", archive.display())]);
    }
}

#[test]
fn an_archive_by_a_path_that_starts_elsewhere() {
    let output = build("package-relative", Some("target/libgirderbasil.a"));
    let said = "GIRDERBASIL_ARCHIVE is no whole path from / on: target/libgirderbasil.a";
    assert_refused(&output, &[said]);
}

/// A variable that is set to nothing names nothing.
#[test]
fn no_archive_and_no_kit() {
    for (name, archive) in [("package-none", None), ("package-empty", Some(""))] {
        let output = build(name, archive);
        let said = "no archive could be built, and GIRDERBASIL_ARCHIVE names none:";
        assert_refused(&output, &[said, "archive: rt is missing"]);
    }
}

/// The README's program, on P1 and on a sheet that is refused.
#[test]
fn another_program_has_it_as_a_dependency() {
    let folder = common::empty_folder("package-caller");
    let mut build = build_of_caller(&folder, in_readme("```rust\n", "```\n"));
    common::assert_silent(&common::output(build.env(GIVEN, ARCHIVE)), "cargo build");
    for (sheet, printed) in [
        ("p1", "verdict 4, scores [47, 83]\n"),
        (
            "refused",
            "refused 6, row 3, column 4: ends exceed storey\n",
        ),
    ] {
        let sheet = common::top().join(format!("examples/{sheet}.sheet"));
        fs::copy(sheet, folder.join("p1.sheet")).expect("a sheet");
        assert_eq!(run_caller(&folder), printed);
    }
}

/// Cargo goes by the archive's time, so what is as it was is not linked again, and by what the variable names, whose time
/// is here before the last build's.
#[test]
fn another_archive_is_linked_anew() {
    let folder = common::empty_folder("package-anew");
    let [first, second] = [21, 22].map(|number| archive_that_tells(&folder, number));
    let given = folder.join("given.a");
    let mut build = build_of_caller(&folder, TELLS);
    let mut told = |archive: &Path| {
        let output = common::output(build.env(GIVEN, archive));
        common::assert_silent(&output, "cargo build");
        run_caller(&folder)
    };
    let linked = || fs::metadata(folder.join(CALLER)).and_then(|program| program.modified());
    fs::copy(&first, &given).expect("an archive");
    assert_eq!(told(&given), "refused 21\n");
    let before = linked().expect("a time");
    assert_eq!(told(&given), "refused 21\n");
    assert_eq!(linked().expect("a time"), before);
    fs::copy(&second, &given).expect("an archive");
    assert_eq!(told(&given), "refused 22\n");
    assert_eq!(told(&first), "refused 21\n");
}
