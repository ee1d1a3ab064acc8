//! The structs that cross: what the header asserts of them under C11 holds in Rust and in JavaScript. One list for all three,
//! so that a field or a struct that one of them lacks is seen.

mod common;

use std::mem::offset_of;
use std::process::Command;

use common::header;
use girderbasil::Totals;
use girderbasil::raw;
use girderbasil::{LINE, MOST_REPORT_BYTES, MOST_ROWS, MOST_WALLS, ROW};

/// A struct's size, and where its fields begin, as [`header::layouts`] has them.
macro_rules! layout {
    ($name:literal, $kind:ty: $($field:ident)*) => {
        [
            format!("size of {} = {}", $name, size_of::<$kind>()),
            $(format!("{}.{} = {}", $name, stringify!($field), offset_of!($kind, $field)),)*
        ]
    };
}

fn layouts_in_rust() -> Vec<String> {
    let mut layouts = vec![];
    layouts.extend(layout!("girderbasil_answer", raw::Answer: number row column count));
    layouts.extend(layout!("girderbasil_scoring", raw::Scoring:
        number row column scores count verdict started_by_31_may_1981 hundredths remainders divisors));
    layouts.extend(layout!("girderbasil_output", raw::Output: number row column count bytes));
    layouts.extend(layout!("girderbasil_totals", Totals: held rows));
    layouts
}

/// The sizes that the header names and Rust and JavaScript have too.
fn sizes_in_rust() -> Vec<String> {
    vec![
        format!("LINE = {LINE}"),
        format!("ROW = {ROW}"),
        format!("MOST_WALLS = {MOST_WALLS}"),
        format!("MOST_ROWS = {MOST_ROWS}"),
        format!("MOST_REPORT_BYTES = {MOST_REPORT_BYTES}"),
    ]
}

#[test]
fn rust_has_the_layouts_of_the_header() {
    let asserted = header::layouts();
    assert!(asserted.len() >= 25, "{asserted:?}");
    assert_eq!(layouts_in_rust(), asserted);
}

#[test]
fn rust_has_the_sizes_of_the_header() {
    // The header works two of them out from others.
    let worked_out = [
        ("= 312", "= 1 + 3 + 6 + GIRDERBASIL_MOST_WALLS + 1 + 1"),
        ("= 455", "= 7 * GIRDERBASIL_LINE"),
    ];
    for size in sizes_in_rust() {
        let replace = |size: String, (number, sum)| size.replace(number, sum);
        let named = worked_out.into_iter().fold(size.clone(), replace);
        let line = format!("    GIRDERBASIL_{named}");
        let found = header::HEADER
            .lines()
            .map(|line| line.trim_end_matches(','));
        assert_eq!(found.filter(|found| *found == line).count(), 1, "{size}");
    }
}

/// Every field that the header declares is asserted.
#[test]
fn the_header_asserts_every_field() {
    let fields = header::HEADER
        .lines()
        .filter(|line| line.starts_with("    uint") && line.contains(';'));
    let structs = header::HEADER.matches("typedef struct ").count();
    assert_eq!(header::layouts().len(), fields.count() + structs);
}

#[test]
fn under_node_javascript_has_the_layouts_of_the_header() {
    let mut node = Command::new("node");
    node.arg(common::top().join("host/tests/layout.mjs"));
    let output = common::output(&mut node);
    common::assert_silent(&output, "node");
    let printed = String::from_utf8(output.stdout).expect("it prints text");
    let expected = [header::layouts(), sizes_in_rust()].concat();
    assert_eq!(printed.lines().collect::<Vec<_>>(), expected);
}
