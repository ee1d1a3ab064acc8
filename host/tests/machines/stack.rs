//! How much stack a call takes, on each machine, against what docs/PHONE.md says.

use std::process::Command;

use girderbasil_tests::random::{Random, house};

use crate::common::calls::sheet_of;
use crate::common::header;
use crate::page::PAGE;
use crate::{ARM64, X86_64, common, program, script};

/// What the page says for a machine: each function with its kilobytes.
fn said(machine: &str) -> Vec<String> {
    let mut rows = PAGE.lines().map(common::cells).filter(|row| row.len() > 2);
    // The heads of the other tables have something in their first cell.
    let functions = rows.find(|row| row[1].is_empty());
    let row = rows.find(|row| row[1] == machine);
    let functions = functions.expect("the page has a table of functions");
    let row = row.expect("the page has the machine");
    assert_eq!(row.len(), functions.len(), "{machine}");
    let pairs = functions.iter().zip(&row).skip(2);
    pairs
        .filter(|(function, _)| !function.is_empty())
        .map(|(function, said)| format!("{} {said}", function.trim_matches('`')))
        .collect()
}

/// What a program measures, in kilobytes rounded up, on the longest sheet.
fn measured(mut program: Command) -> Vec<String> {
    let sheet = sheet_of(&house::with_walls(&mut Random::new(16), 3, 300));
    let output = common::run(&mut program, &sheet);
    common::assert_silent(&output, "the program that measures");
    let printed = String::from_utf8(output.stdout).expect("it prints text");
    let in_kilobytes = |line: &str| {
        let (function, bytes) = line.split_once(' ').expect("a function and a number");
        let bytes: usize = bytes.parse().expect("a number");
        format!("{function} {} KB", bytes.div_ceil(1024))
    };
    printed.lines().map(in_kilobytes).collect()
}

#[test]
fn the_page_has_every_function() {
    let mut functions: Vec<String> = said("ARM64");
    functions.sort_unstable();
    let named = functions.iter().map(|one| one.split(' ').next());
    assert!(named.eq(header::functions().into_iter().map(Some)));
}

#[test]
fn x86_64_takes_what_the_page_says() {
    assert_eq!(measured(program(X86_64, "stack")), said("x86-64"));
}

#[test]
fn on_arm64_it_takes_what_the_page_says() {
    assert_eq!(measured(program(ARM64, "stack")), said("ARM64"));
}

#[test]
fn under_node_the_module_takes_what_the_page_says() {
    assert_eq!(measured(script("stack")), said("WebAssembly"));
}
