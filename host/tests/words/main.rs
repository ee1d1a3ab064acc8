//! words.txt against the library: every column's range by tables that are scored and refused, and that nothing is
//! missing; and against docs/REFUSALS.md, cell for cell, and the parts of docs/SHEET.md.

#[path = "../common/mod.rs"]
mod common;

mod columns;

use std::fs;

use common::refusals::{refusals, verdicts};
use girderbasil::ROW;
use girderbasil_diagnose::words::{self, Bound, Range, Verdict};
use girderbasil_tests::model::calendar::Day;

const TEXT: &str = include_str!("../../../words.txt");

const KINDS: [u32; 6] = [1, 2, 3, 4, 5, 8];
const WALL: u32 = 4;

#[test]
fn every_row_and_column_is_there() {
    for kind in 0..=9 {
        let is_kind = KINDS.contains(&kind);
        assert_eq!(
            words::row(kind).is_some_and(|name| !name.is_empty()),
            is_kind
        );
        for column in 0..=9 {
            let words = words::column(kind, column);
            assert_eq!(words.is_some(), is_kind && (1..=8).contains(&column));
            let Some(words) = words else { continue };
            assert_ne!(words.name, "");
            let has_choices = words.range == Range::Choice || (kind, column) == (3, 3);
            assert_eq!(!words::choices(kind, column).is_empty(), has_choices);
            let is_opening = words.opening.is_some();
            assert!(!is_opening || kind == WALL, "{kind}, {column}");
        }
    }
}

/// The directions of the ends rows, which are due and not chosen, are those of the walls.
#[test]
fn ends_and_walls_have_the_same_directions() {
    assert_eq!(words::choices(3, 3), words::choices(WALL, 3));
}

#[test]
fn every_part_and_month_is_there() {
    let parts = words::parts();
    let numbers: Vec<u32> = parts.iter().map(|part| part.number).collect();
    assert_eq!(numbers, (0..13).map(|item| 1 << item).collect::<Vec<_>>());
    let all = Bound::Number(numbers.iter().sum());
    // A house has at least one part, and none need be marked.
    let sets = [1, 0].map(|least| Some(Range::Between(Bound::Number(least), all)));
    assert_eq!(
        [2, 3].map(|column| words::column(5, column).map(|words| words.range)),
        sets
    );
    let mut names: Vec<&str> = parts.iter().map(|part| part.name).collect();
    names.sort_unstable();
    names.dedup();
    assert_eq!((names.len(), names[0].is_empty()), (13, false));
    for month in 1..=12 {
        let (name, days) = words::month(month).expect("a month of the file");
        assert_ne!(name, "");
        let first = 20_010_000 + 100 * month;
        assert!(Day::from_digits(first + days).is_some(), "{name}");
        assert!(Day::from_digits(first + days + 1).is_none(), "{name}");
    }
    assert_eq!([0, 13].map(words::month), [None, None]);
}

/// The page has a comma after the thousands.
#[test]
fn parts_are_those_of_the_page() {
    let page = fs::read_to_string(common::top().join("docs/SHEET.md")).expect("it is there");
    let page = page.replace('\n', " ").replace("1,024", "1024");
    let page = page.replace("2,048", "2048").replace("4,096", "4096");
    let parts = words::parts().into_iter();
    let items: Vec<String> = parts
        .map(|part| format!("{} {}", part.name, part.number))
        .collect();
    let all = format!("A set is the sum of its items: {}.", items.join(", "));
    assert!(page.contains(&all), "{all}");
}

/// So no line is passed over for a misspelt start, and none hides another.
#[test]
fn every_line_is_of_a_known_kind_and_there_once() {
    let columns = KINDS
        .iter()
        .flat_map(|kind| (1..=8).map(move |column| (*kind, column)));
    let choices = columns.map(|(kind, column)| words::choices(kind, column).len());
    // Each kind of line with the cells that tell two of its lines apart, and how many lines there are.
    let known = [
        ("row", 2, KINDS.len()),
        ("column", 3, KINDS.len() * ROW),
        ("choice", 4, choices.sum()),
        ("part", 2, 13),
        ("month", 2, 12),
        ("refusal", 2, 12),
        ("verdict", 2, 4),
        ("sentence", 2, words::sentences().len()),
    ];
    let lines = TEXT
        .lines()
        .filter(|line| !line.is_empty() && !line.starts_with('#'));
    let lines: Vec<Vec<&str>> = lines
        .map(|line| line.split('|').map(str::trim).collect())
        .collect();
    let mut met = 0;
    for (kind, apart, count) in known {
        let of_kind = lines.iter().filter(|cells| cells[0] == kind);
        let mut starts: Vec<&[&str]> = of_kind.map(|cells| &cells[..apart]).collect();
        met += starts.len();
        starts.sort_unstable();
        starts.dedup();
        assert_eq!(starts.len(), count, "{kind}");
    }
    assert_eq!(met, lines.len());
}

#[test]
fn refusals_are_those_of_the_page() {
    let ours = (1..=12).map(|number| (number, [words::refusal(number), words::when(number)]));
    let page = refusals().into_iter();
    let documented = page.map(|(number, cells)| (number, [cells[0], cells[1]]));
    assert_eq!(ours.collect::<Vec<_>>(), documented.collect::<Vec<_>>());
    assert_eq!([0, 13].map(words::refusal), [""; 2]);
    assert_eq!([0, 13].map(words::when), [""; 2]);
}

#[test]
fn verdicts_are_those_of_the_page() {
    let ours = (1..=4).map(|number| (number, words::verdict(number)));
    let page = verdicts().into_iter();
    let documented = page.map(|(number, cells)| {
        let [english, japanese] = [cells[1], cells[2]];
        (number, Verdict { english, japanese })
    });
    assert_eq!(ours.collect::<Vec<_>>(), documented.collect::<Vec<_>>());
    let none = Verdict {
        english: "",
        japanese: "",
    };
    assert_eq!([0, 5].map(words::verdict), [none; 2]);
}
