//! Changes on site, by the library and by the model: document 02's request 7.
//!
//! The table is lent inside a larger buffer of random contents, and the totals stand between others. After each call all
//! numbers of both are compared with what they must then hold.

#[path = "../common/mod.rs"]
mod common;

mod cases;
mod visits;
mod wrapper;

use std::ptr;

use common::calls::raw_scoring;
use girderbasil::Refusal;
use girderbasil::Totals;
use girderbasil::raw;
use girderbasil_tests::worked::site::{WALL, scripts};

#[test]
fn changes_as_they_are_worked_out() {
    for script in scripts() {
        let (mut lent, mut totals) = (script.lent, script.totals);
        for (index, step) in script.steps.iter().enumerate() {
            let answer = step.change.made(&mut totals, &mut lent);
            let name = format!("{}, call {}", script.name, index + 1);
            let (number, row, column) = (answer.number, answer.row, answer.column);
            let expected = step.answer.err().unwrap_or(Refusal::without_place(0));
            assert_eq!(
                Refusal {
                    number,
                    row,
                    column
                },
                expected,
                "{name}"
            );
            assert_eq!(answer.scores, step.answer.unwrap_or_default(), "{name}");
            assert_eq!(totals, step.totals, "{name}");
            assert_eq!(lent, step.lent, "{name}");
        }
    }
}

/// Where no numbers are lent the table may be null.
#[test]
fn nothing_lent_may_be_null() {
    let before = Totals {
        held: [7; 6],
        rows: 0,
    };
    let mut totals = before;
    // SAFETY: the table is null with length 0, the totals are borrowed alone, and the wall has eight numbers.
    let answers = unsafe {
        [
            raw::girderbasil_start(&mut totals, ptr::null(), 0),
            raw::girderbasil_add_wall(&mut totals, ptr::null_mut(), 0, WALL.as_ptr()),
            raw::girderbasil_delete_wall(&mut totals, ptr::null_mut(), 0, 5),
        ]
    };
    let refused = raw_scoring(&Err(Refusal::without_place(Refusal::SHEET_LENGTH)));
    assert_eq!(answers, [refused; 3]);
    assert_eq!(totals, before);
}
