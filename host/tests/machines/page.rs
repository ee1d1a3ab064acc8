//! The code of docs/PHONE.md, compiled and run as it stands there.

use std::fs;
use std::path::{Path, PathBuf};
use std::process::Command;

use girderbasil::{MOST_REPORT_BYTES, MOST_ROWS};
use girderbasil_tests::random::Random;
use girderbasil_tests::{model, worked};

use crate::{ARM64, X86_64, built, common, compiler, kit_tool, module, node};

pub const PAGE: &str = include_str!("../../../docs/PHONE.md");

/// The one piece of code in a language.
fn code(language: &str) -> &'static str {
    let fence = format!("```{language}\n");
    let mut pieces = PAGE.split(fence.as_str()).skip(1);
    let piece = pieces.next().and_then(|rest| rest.split_once("```\n"));
    assert!(pieces.next().is_none(), "two pieces of {language}");
    piece
        .unwrap_or_else(|| panic!("the page has code in {language}"))
        .0
}

/// Whether the page says something, however its lines are broken.
pub fn says(words: &str) -> bool {
    let page: Vec<&str> = PAGE.split_whitespace().collect();
    page.join(" ").contains(words)
}

#[test]
fn the_page_has_the_sizes_to_lend() {
    assert!(says(&format!("Lend it 8 · {MOST_ROWS} numbers")));
    assert!(says(&format!("Lend it {MOST_REPORT_BYTES} bytes")));
}

/// Files with sheets that are scored and sheets that are refused, and what is printed for all of them together.
fn sheets(folder: &Path) -> (Vec<PathBuf>, Vec<u8>) {
    let mut random = Random::new(17);
    let mut sheets: Vec<Vec<u8>> = (0..100).map(|_| common::any_sheet(&mut random)).collect();
    sheets.push(worked::SHEET.to_vec());
    sheets.extend(worked::refused().map(|(sheet, _)| sheet));
    let printed = sheets.iter().flat_map(|sheet| model::diagnose(sheet));
    let printed = printed.collect();
    let write = |(index, sheet): (usize, &Vec<u8>)| {
        let file = folder.join(format!("{index}.sheet"));
        fs::write(&file, sheet).expect("a sheet is written");
        file
    };
    (sheets.iter().enumerate().map(write).collect(), printed)
}

/// The folder of the Java development kit.
fn java_home() -> PathBuf {
    let output =
        common::output(Command::new("sh").args(["-c", "readlink -f \"$(command -v javac)\""]));
    let javac = String::from_utf8(output.stdout).expect("a path is text");
    let javac = Path::new(javac.trim());
    let home = javac.parent().and_then(Path::parent);
    home.expect("`javac` stands in a development kit").into()
}

/// Makes a shared library of the page's C function for a target.
fn shared_library(target: &str, folder: &Path) {
    let source = folder.join("girderbasil_jni.c");
    fs::write(&source, code("c")).expect("the function is written");
    let include = java_home().join("include");
    let mut compiler = compiler(target);
    compiler
        .args(["-shared", "-fPIC", "-Wl,--no-undefined", "-isystem"])
        .arg(&include)
        .arg("-isystem")
        .arg(include.join("linux"))
        .arg(source)
        .arg(built(target).join("libgirderbasil.a"))
        .args(["-lc", "-o"])
        .arg(folder.join("libgirderbasil_jni.so"));
    common::assert_silent(&common::output(&mut compiler), "the page's C function");
}

#[test]
fn from_java_a_sheet_is_diagnosed() {
    let folder = common::folder("java");
    shared_library(X86_64, &folder);
    let class = folder.join("Girderbasil.java");
    fs::write(&class, code("java")).expect("the class is written");
    let program = common::top().join("host/tests/Diagnose.java");
    let mut compiler = Command::new("javac");
    compiler.args(["-Xlint:all", "-Werror", "-d"]).arg(&folder);
    compiler.args([class, program]);
    common::assert_silent(&common::output(&mut compiler), "the page's class");

    let (files, printed) = sheets(&folder);
    let mut path = std::ffi::OsString::from("-Djava.library.path=");
    path.push(&folder);
    let mut java = Command::new("java");
    java.arg("-Xcheck:jni").arg(path).arg("-cp").arg(&folder);
    java.arg("Diagnose").args(files);
    let output = common::output(&mut java);
    common::assert_silent(&output, "the Java program");
    assert!(output.stdout == printed, "it prints something else");
}

/// A phone loads shared libraries: the archive can be linked into one, and needs nothing beside the C library.
#[test]
fn on_arm64_from_java_a_shared_library_is_linked() {
    let folder = common::folder("java-arm64");
    shared_library(ARM64, &folder);
}

#[test]
fn the_bridging_header_compiles_for_ios() {
    let header = common::folder("ios").join("bridging.h");
    fs::write(&header, code("objc")).expect("the line is written");
    let mut compiler = kit_tool("clang");
    compiler
        .args([
            "--target=arm64-apple-ios13",
            "-x",
            "objective-c",
            "-std=c11",
        ])
        .args(["-Wall", "-Werror", "-fsyntax-only", "-nostdinc", "-isystem"])
        .arg(common::top().join("tools/freestanding"))
        .arg("-I")
        .arg(common::top().join("include"))
        .arg(header);
    common::assert_silent(&common::output(&mut compiler), "the bridging header");
}

#[test]
fn under_node_a_sheet_is_scored_and_changed_on_site() {
    let folder = common::folder("web");
    let web = common::top().join("web");
    fs::copy(web.join("package.json"), folder.join("package.json")).expect("a copy");
    fs::copy(web.join("girderbasil.js"), folder.join("girderbasil.js")).expect("a copy");
    fs::copy(module(), folder.join("girderbasil.wasm")).expect("a copy");
    fs::write(folder.join("page.js"), code("js")).expect("the code is written");
    let script = common::top().join("host/tests/page.mjs");
    let mut command = node(&script);
    command.arg(&folder);
    let scored = "0 0 0 47,83,0,0,0,0 2 4 1 47,83,0,0,0,0 \
                  352000000000,128000000000,0,0,0,0 384000000000,384000000000,0,0,0,0\n";
    let on_site = "0 0 0 47,83,0,0,0,0\n0 0 0 68,83,0,0,0,0\n0 0 0 62,83,0,0,0,0\n";
    let refused = "6 3 4 0,0,0,0,0,0 0 0 0 0,0,0,0,0,0 0,0,0,0,0,0 0,0,0,0,0,0\n";
    let refused_on_site = "6 3 4 0,0,0,0,0,0\n".repeat(3);
    for (file, shown) in [
        ("examples/p1.sheet", scored.to_owned() + on_site),
        (
            "examples/refused.sheet",
            refused.to_owned() + &refused_on_site,
        ),
    ] {
        let sheet = fs::read(common::top().join(file)).expect("an example");
        let output = common::run(&mut command, &sheet);
        common::assert_silent(&output, file);
        assert_eq!(String::from_utf8_lossy(&output.stdout), shown, "{file}");
    }
    // No rows are in use then.
    let output = common::run(&mut command, b"no sheet");
    common::assert_silent(&output, "no sheet");
    let no_rows = "1 0 0 0\n1 0 0 0\n".to_owned() + &"1 0 0 0,0,0,0,0,0\n".repeat(2);
    assert_eq!(String::from_utf8_lossy(&output.stdout), no_rows);
}
