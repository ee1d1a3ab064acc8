//! What the command was asked for by example, each to the letter.

use super::*;
use girderbasil::{FIELD, LINE};

/// P1 with the field of a line and column, both counted from 1, replaced.
fn with_field(line: usize, column: usize, number: u32) -> Vec<u8> {
    let mut sheet = SHEET.to_vec();
    let start = LINE * (line - 1) + FIELD * (column - 1);
    sheet[start..start + FIELD].copy_from_slice(format!("{number:>FIELD$}").as_bytes());
    sheet
}

/// P1 with what stands before a line's newline.
fn with_ending(line: usize, ending: &str) -> Vec<u8> {
    let newline = LINE * line - 1;
    [&SHEET[..newline], ending.as_bytes(), &SHEET[newline..]].concat()
}

fn with_carriage_returns() -> Vec<u8> {
    let text = str::from_utf8(SHEET).expect("P1 is text");
    text.replace('\n', "\r\n").into_bytes()
}

#[test]
fn mistakes_are_found() {
    for (sheet, line, said) in [
        (
            with_field(1, 4, 95),
            "       0       4       1       4       0       0       0       0\n",
            "p1.sheet:1: column 4 (zone): 95 is not 70, 80, 90 or 100. [4 out of range]\n",
        ),
        (
            with_field(6, 5, 20),
            "       0       4       6       5       0       0       0       0\n",
            "p1.sheet:6: column 5 (strength): 20, but a window has 0. [4 out of range]\n",
        ),
        (
            with_ending(5, " "),
            NO_SHEET,
            "p1.sheet:5: 66 bytes, not 65: a space at the end. [1 sheet length]\n",
        ),
        (
            with_carriage_returns(),
            NO_SHEET,
            "p1.sheet: lines end in CR LF, as on Windows; save with LF. [1 sheet length]\n",
        ),
        (
            with_field(1, 2, 2),
            "       0       3       3       1       0       0       0       0\n",
            "p1.sheet:3: row of kind 2 (storey 2) is due, found kind 3; the house row says 2 storeys. [3 row out of order]\n",
        ),
    ] {
        let folder = folder_with("mistakes", &[("p1.sheet", sheet)]);
        let run = diagnose_in(&folder, &["--explain", "p1.sheet"]);
        assert_eq!(run, gave(1, line, said));
    }
}

#[test]
fn a_pile_is_summed_up_and_its_refused_sheets_are_named() {
    let refused = refused_sheet();
    let folder = folder_with("examples", &[("a.sheet", SHEET), ("b.sheet", &refused)]);
    let pile = folder.join("pile");
    std::fs::create_dir(&pile).expect("a folder");
    for (from, to) in [("a.sheet", "h1.sheet"), ("b.sheet", "h2.sheet")] {
        std::fs::copy(folder.join(from), pile.join(to)).expect("a copy");
    }
    let summary = "pile/h1.sheet  verdict 4  0.47\n\
                   pile/h2.sheet  refused 6  row 3, column 4\n\
                   2 sheets: 1 scored, 1 refused\n";
    let run = diagnose_in(&folder, &["--summary", "pile/h1.sheet", "pile/h2.sheet"]);
    assert_eq!(run, gave(1, summary, ""));
    let said = "b.sheet: refused 6, row 3, column 4\n";
    let run = diagnose_in(&folder, &["a.sheet", "b.sheet"]);
    assert_eq!(run, gave(1, &[REPORT, REFUSED].concat(), said));
}
