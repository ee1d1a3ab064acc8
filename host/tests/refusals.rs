//! The trade's words for each refusal, which stand in docs/REFUSALS.md, in the header and in the Rust wrapper; and what else
//! the wrapper says of a refusal and of a record.

mod common;

use std::error::Error;
use std::fs;
use std::process::Command;

use common::refusals::refusals;
use girderbasil::{Record, Refusal};

/// Numbers that no refusal has.
const NONE: [u32; 3] = [0, 13, u32::MAX];

/// Prints the header's words for each number that is asked for.
const PROGRAM: &str = r#"
#include <stdio.h>
#include <stdlib.h>
#include "girderbasil.h"
int main(int argc, char **argv)
{
    int each;
    for (each = 1; each < argc; each++)
        puts(girderbasil_refusal_words((uint32_t)strtoul(argv[each], NULL, 10)));
    return 0;
}
"#;

/// The header's words for some numbers, by a program in a folder of that name.
fn in_the_header(name: &str, numbers: &[u32]) -> Vec<String> {
    let folder = common::folder(name);
    let source = folder.join("refusals.c");
    fs::write(&source, PROGRAM).expect("the program is written");
    let program = folder.join("refusals");
    let include = common::top().join("include");
    let output = common::compile("c99", &include, &source, &program);
    common::assert_silent(&output, "the program");
    let numbers = numbers.iter().map(u32::to_string);
    let output = common::output(Command::new(program).args(numbers));
    let words = String::from_utf8(output.stdout).expect("it prints text");
    words.lines().map(str::to_owned).collect()
}

fn in_rust(number: u32) -> &'static str {
    Refusal::without_place(number).words()
}

#[test]
fn page_header_and_wrapper_have_the_same_words() {
    let page = refusals().into_iter();
    let (numbers, words): (Vec<u32>, Vec<&str>) =
        page.map(|(number, cells)| (number, cells[0])).unzip();
    assert_eq!(numbers, (1..=12).collect::<Vec<_>>());
    assert_eq!(in_the_header("refusals", &numbers), words);
    assert_eq!(numbers.into_iter().map(in_rust).collect::<Vec<_>>(), words);
}

/// The number 0 is one of an answer that is no refusal. The wrapper has no refusal of that number, but a caller can make one.
#[test]
fn what_is_no_refusal_has_none_of_these_words() {
    let words = in_the_header("no-refusals", &NONE);
    assert_eq!(words, ["accepted", "unknown", "unknown"]);
    assert_eq!(NONE.map(in_rust), ["unknown"; 3]);
}

#[test]
fn a_refusal_is_shown_with_what_it_has_of_a_place() {
    for (refusal, shown) in [
        (Refusal::at(6, 3, 4), "refused 6, row 3, column 4"),
        (Refusal::at(12, 5, 0), "refused 12, row 5"),
        (Refusal::without_place(1), "refused 1"),
    ] {
        let error: Box<dyn Error> = refusal.into();
        assert_eq!(error.to_string(), shown);
    }
}

/// The fields are the caller's to fill, so a record may count any number of scores.
#[test]
fn a_record_gives_the_scores_that_it_has_and_never_more() {
    let six = [1, 2, 3, 4, 5, 6];
    for (count, given) in [(0, 0), (2, 2), (5, 5), (6, 6), (7, 6), (u32::MAX, 6)] {
        let record = Record {
            scores: six,
            count,
            ..Record::default()
        };
        assert_eq!(record.scores(), &six[..given], "{count}");
    }
}
