//! include/girderbasil.h against the archive: tests/header.c compares each of its names with what the library does.
//!
//! A comparison that can't fail would say nothing, so each name and each struct is also changed in a copy of the header,
//! and the change must be seen.

mod common;

use std::fs;
use std::path::{Path, PathBuf};
use std::process::{Command, Output};

use common::header::{HEADER, OWN, functions, inline_functions, words};

const PROGRAM: &str = include_str!("header.c");

const VERSION: &str = "GIRDERBASIL_VERSION";

/// Two files of one program, of C89 as much as of C++, that each include the header and call what is its own.
const UNITS: [(&str, &str); 2] = [
    (
        "main.c",
        r#"
#include <stdio.h>
#include "girderbasil.h"
const char *words_elsewhere(uint32_t number);
int main(void)
{
    printf("%s, %s\n", girderbasil_refusal_words(6), words_elsewhere(13));
    return 0;
}
"#,
    ),
    (
        "elsewhere.c",
        r#"
#include "girderbasil.h"
const char *words_elsewhere(uint32_t number);
const char *words_elsewhere(uint32_t number)
{
    return girderbasil_refusal_words(number);
}
"#,
    ),
];

/// The numbers that the header names. Of the words left out one keeps it from being included twice, and one is a text.
fn names() -> Vec<&'static str> {
    words(HEADER, |word| {
        word.starts_with("GIRDERBASIL_") && word != "GIRDERBASIL_H" && word != VERSION
    })
}

/// The texts of the header, without their quotes. The one left out is the language of a linkage.
fn texts() -> Vec<&'static str> {
    let quoted = HEADER.split('"').skip(1).step_by(2);
    quoted.filter(|text| *text != "C").collect()
}

/// Compiles tests/header.c with a header, as a standard.
fn compile_with(header: &str, standard: &str, folder: &Path) -> (PathBuf, Output) {
    fs::write(folder.join("girderbasil.h"), header).expect("the header is written");
    let source = common::top().join("host/tests/header.c");
    let program = folder.join("header");
    let output = common::compile(standard, folder, &source, &program);
    (program, output)
}

/// Compiles the two files with a header, as a standard.
fn compile_units(header: &str, standard: &str) -> (PathBuf, Output) {
    let folder = common::empty_folder("header-units");
    fs::write(folder.join("girderbasil.h"), header).expect("the header is written");
    let (name, language) = common::language(standard);
    let mut compiler = common::compiler(name, standard, &folder);
    compiler.args(["-Wconversion", "-x", language]);
    for (file, text) in UNITS {
        fs::write(folder.join(file), text).expect("a file of the program");
        compiler.arg(folder.join(file));
    }
    let program = folder.join("units");
    let output = common::output(compiler.arg("-o").arg(&program));
    (program, output)
}

/// The version that the header has to have is this package's, as it is of all.
fn run(program: &Path) -> Output {
    common::output(Command::new(program).arg(girderbasil::VERSION))
}

/// Compiles tests/header.c with a header that may differ from the library, and runs it: whether it saw no difference.
fn agrees(header: &str, folder: &Path) -> bool {
    let (program, output) = compile_with(header, "c99", folder);
    assert!(
        output.status.success(),
        "{}",
        String::from_utf8_lossy(&output.stderr)
    );
    let run = run(&program);
    // It says what differs exactly where it exits with 1; it ends in no other way.
    assert_eq!(run.status.code(), Some(i32::from(!run.stdout.is_empty())));
    run.status.success()
}

#[test]
fn every_name_means_what_the_library_does() {
    let folder = common::folder("header");
    for standard in ["c99", "c11", "c++98", "c++11"] {
        let program = common::compiled(standard, "host/tests/header.c", folder.join(standard));
        let run = run(&program);
        assert_eq!(String::from_utf8_lossy(&run.stdout), "", "as {standard}");
        assert_eq!(run.status.code(), Some(0), "as {standard}");
    }
}

/// A function of the header's own is in each file that includes it, under no name that another would see.
#[test]
fn two_files_of_one_program_include_it() {
    for standard in ["c89", "c99", "c11", "c++98", "c++11"] {
        let (program, output) = compile_units(HEADER, standard);
        common::assert_silent(&output, standard);
        let run = common::output(&mut Command::new(program));
        assert_eq!(
            String::from_utf8_lossy(&run.stdout),
            "ends exceed storey, unknown\n"
        );
        assert_eq!(run.status.code(), Some(0));
        // In C++ a function that is inline may be in both.
        let mut others = vec![""];
        if !standard.starts_with("c++") {
            others.push("girderbasil_inline ");
        }
        for other in others {
            let (_, output) = compile_units(&HEADER.replace(OWN, other), standard);
            let complaints = String::from_utf8_lossy(&output.stderr);
            assert!(!output.status.success(), "{other}as {standard}");
            assert!(complaints.contains("girderbasil_refusal_words"));
        }
    }
}

#[test]
fn every_name_is_compared() {
    let compared = words(PROGRAM, |word| {
        word.to_lowercase().starts_with("girderbasil_")
    });
    let (names, functions, inline) = (names(), functions(), inline_functions());
    assert!(names.len() >= 17 && functions.len() >= 7 && inline.len() == 1);
    for name in names
        .iter()
        .chain(&functions)
        .chain(&inline)
        .chain([&VERSION])
    {
        assert!(compared.contains(name), "tests/header.c never uses {name}");
    }
}

#[test]
fn another_number_for_a_name_is_seen() {
    let folder = common::folder("header-numbers");
    assert!(agrees(HEADER, &folder));
    for name in names() {
        let changed = HEADER.replace(&format!("{name} = "), &format!("{name} = 1 + "));
        assert!(changed != HEADER, "{name} has no number");
        assert!(!agrees(&changed, &folder), "{name} may be one more");
    }
}

#[test]
fn another_text_is_seen() {
    let folder = common::folder("header-texts");
    let texts = texts();
    // The version, and the words for 0, for each refusal and for any other number.
    assert_eq!(texts.len(), 1 + 1 + 12 + 1);
    for text in texts {
        let changed = HEADER.replace(&format!("\"{text}\""), &format!("\"{text}s\""));
        assert!(!agrees(&changed, &folder), "{text} may be another");
    }
}

#[test]
fn two_refusals_exchanged_are_seen() {
    let folder = common::folder("header-exchanged");
    let exchanged = HEADER
        .replace("GIRDERBASIL_MISPRINT = 2", "GIRDERBASIL_MISPRINT = 3")
        .replace("ROW_OUT_OF_ORDER = 3", "ROW_OUT_OF_ORDER = 2");
    assert!(exchanged != HEADER, "they have other numbers");
    assert!(!agrees(&exchanged, &folder));
}

/// Under C11 and C++11 the header's own assertions refuse a struct that is not the library's. Without them, running
/// shows it.
#[test]
fn two_fields_exchanged_are_seen() {
    let folder = common::folder("header-fields");
    let lines: Vec<&str> = HEADER.lines().collect();
    let is_field = |line: &str| line.starts_with("    uint") && line.contains(';');
    let mut met = 0;
    for first in 0..lines.len() - 1 {
        if !is_field(lines[first]) || !is_field(lines[first + 1]) {
            continue;
        }
        let mut exchanged = lines.clone();
        exchanged.swap(first, first + 1);
        let exchanged = exchanged.join("\n") + "\n";
        for standard in ["c11", "c++11"] {
            let (_, output) = compile_with(&exchanged, standard, &folder);
            let complaints = String::from_utf8_lossy(&output.stderr);
            assert!(!output.status.success(), "{}", lines[first]);
            assert!(complaints.contains("static assertion failed"));
        }
        assert!(!agrees(&exchanged, &folder), "{}", lines[first]);
        met += 1;
    }
    assert!(met >= 17, "{met}");
}
