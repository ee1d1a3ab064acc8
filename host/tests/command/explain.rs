//! `--explain`: what a verdict means and what a refused sheet has wrong.

use super::*;
use common::refusals::{refusals, verdicts};
use girderbasil::{FIELD, LINE, MOST_WALLS, ROW};
use girderbasil_diagnose::explain::explain;
use girderbasil_tests::model;
use girderbasil_tests::worked::TABLE;

#[test]
fn each_verdict_is_explained_in_the_manuals_words() {
    let words = [
        "倒壊しない",
        "一応倒壊しない",
        "倒壊する可能性がある",
        "倒壊する可能性が高い",
    ];
    let document = verdicts();
    let mut met = [false; 4];
    for length in [2_000, 4_000, 5_000, 8_000] {
        let table = with_wall_lengths(length);
        let record = model::score(&table).expect("the house is accepted");
        let sheet = model::write(&table, usize::MAX).expect("the table can be written");
        let least = record.scores[..2].iter().min().expect("there are scores");
        let verdict = record.verdict as usize - 1;
        let (number, cells) = &document[verdict];
        assert_eq!(*number, record.verdict);
        let said = format!(
            "standard input: verdict {number}, least score {}. {} {}\n",
            common::decimal(*least),
            cells[1],
            words[verdict]
        );
        let printed = String::from_utf8(model::diagnose(&sheet)).expect("it is text");
        assert_eq!(diagnose(&["--explain"], &sheet), gave(0, &printed, &said));
        met[verdict] = true;
    }
    assert_eq!(met, [true; 4]);
}

#[test]
fn the_refusals_of_the_document_are_told_and_explained() {
    let mut numbers = Vec::new();
    for (number, cells) in refusals() {
        let [_, _, example, told] = cells[..] else {
            panic!("{number} has {cells:?}");
        };
        numbers.push(number);
        // The library has room for every report, so a sheet is never told 9, and no wall is deleted or added, so never 12.
        if matches!(number, 9 | 12) {
            continue;
        }
        let sheet = example_sheet(number, example);
        let run = diagnose(&["--explain"], &sheet);
        assert_eq!(
            words(&run.printed),
            words(told.trim_matches('`')),
            "{number}"
        );
        let said = explained("standard input", &sheet);
        assert_eq!((run.status, run.said), (1, said));
    }
    assert!(numbers.into_iter().eq(1..=12));
}

/// The line stands in the place of the one that names the file.
#[test]
fn several_files_have_a_line_each() {
    let name = "examples/refused.sheet";
    let lines = [
        "diagnose: nosuch: can't be read: No such file or directory\n",
        &explained(name, &refused_sheet()),
        "examples/p1.sheet: verdict 4, least score 0.47. \
         In a great earthquake the house is likely to collapse. 倒壊する可能性が高い\n",
        &explained("standard input", b""),
    ];
    let files = ["nosuch", name, "examples/p1.sheet", "-"];
    let arguments = [&["--explain"][..], &files].concat();
    let printed = [REFUSED, REPORT, NO_SHEET].concat();
    assert_eq!(
        diagnose(&arguments, b""),
        gave(2, &printed, &lines.concat())
    );
}

#[test]
fn a_summary_and_a_report_are_explained_too() {
    for form in ["--summary", "--report"] {
        let name = "examples/refused.sheet";
        let plain = diagnose(&[form, name], b"");
        let run = diagnose(&[form, "--explain", name], b"");
        let said = explained(name, &refused_sheet());
        assert_eq!(run, gave(1, &plain.printed, &said));
        assert_eq!(plain.said, "");
    }
}

/// Each line comes after what was printed before it, where both go the same way.
#[test]
fn what_is_said_follows_what_is_printed() {
    let run = shell(r#""$0" --explain examples/p1.sheet examples/refused.sheet 2>&1"#);
    let printed = [
        REPORT,
        "examples/p1.sheet: verdict 4, least score 0.47. \
         In a great earthquake the house is likely to collapse. 倒壊する可能性が高い\n",
        REFUSED,
        &explained("examples/refused.sheet", &refused_sheet()),
    ];
    assert_eq!(run, gave(1, &printed.concat(), ""));
}

/// Of input that is longer, as many bytes are known.
#[test]
fn longer_input_is_explained_by_what_was_read() {
    let sheet = SHEET.repeat(100);
    let run = diagnose(&["--explain"], &sheet);
    let said = explained("standard input", &sheet[..65_536]);
    assert_eq!(run, gave(1, NO_SHEET, &said));
}

/// The line for a refused sheet, which other tests hold against the papers.
fn explained(name: &str, sheet: &[u8]) -> String {
    let refusal = girderbasil::output(sheet).refusal();
    explain(name, sheet, refusal.expect("it is refused")) + "\n"
}

/// P1's table with all walls of one length.
fn with_wall_lengths(length: u32) -> [u32; TABLE.len()] {
    let mut table = TABLE;
    for row in table.chunks_exact_mut(ROW).filter(|row| row[0] == 4) {
        row[5] = length;
    }
    table
}

/// The sheet of an example: P1 with one line changed, or as the document says of 1 and 5.
fn example_sheet(number: u32, example: &str) -> Vec<u8> {
    match number {
        1 => Vec::new(),
        5 => {
            let parts = SHEET.len() - 2 * LINE;
            let last_wall = &SHEET[parts - LINE..parts];
            let more = last_wall.repeat(MOST_WALLS + 1 - 6);
            [&SHEET[..parts], &more, &SHEET[parts..]].concat()
        }
        _ => {
            let (line, fields) = example.split_once(": ").expect("a line and its fields");
            let line: usize = line["line ".len()..].parse().expect("a line's number");
            let fields = words(fields.trim_matches('`'));
            let text: String = fields
                .iter()
                .map(|field| format!("{field:>FIELD$}"))
                .collect();
            let mut sheet = SHEET.to_vec();
            sheet[LINE * (line - 1)..LINE * line - 1].copy_from_slice(text.as_bytes());
            sheet
        }
    }
}

fn words(line: &str) -> Vec<&str> {
    line.split_whitespace().collect()
}
