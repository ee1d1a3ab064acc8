//! `--csv` and `--sheet`: a spreadsheet's text.

use super::*;
use girderbasil::ROW;
use girderbasil_tests::model;
use girderbasil_tests::random::{Random, damage};
use girderbasil_tests::worked::{self, TABLE};

/// A table's rows as lines.
pub fn text(table: &[u32], separator: &str, end: &str) -> String {
    let line = |row: &[u32]| {
        let fields: Vec<String> = row.iter().map(u32::to_string).collect();
        fields.join(separator) + end
    };
    table.chunks(ROW).map(line).collect()
}

pub fn csv(text: &str) -> Run {
    diagnose(&["--csv"], text.as_bytes())
}

#[test]
fn p1_with_each_separator_and_line_end_has_p1s_report() {
    for separator in [",", ";", "\t", " , ", ";  ", " \t"] {
        for end in ["\n", "\r\n"] {
            let text = text(&TABLE, separator, end);
            let cut = text.strip_suffix(end).expect("the last line's end");
            let marked = format!("\u{feff}{text}");
            let longer = format!("{text}{end}{end}");
            for text in [&text, cut, &marked, &longer] {
                assert_eq!(csv(text), gave(0, REPORT, ""), "{text:?}");
                let run = diagnose(&["--csv", "--sheet"], text.as_bytes());
                let sheet = String::from_utf8_lossy(SHEET);
                assert_eq!(run, gave(0, &sheet, ""), "{text:?}");
            }
        }
    }
}

#[test]
fn each_line_may_have_its_own_separator_and_end() {
    let ends = ["\n", "\r\n"];
    let separators = [",", ";", "\t"];
    let rows = TABLE.chunks(ROW).enumerate();
    let mixed: String = rows
        .map(|(index, row)| text(row, separators[index % 3], ends[index % 2]))
        .collect();
    assert_eq!(csv(&mixed), gave(0, REPORT, ""));
}

/// P1 as text, with something changed.
pub fn changed(found: &str, changed: &str) -> String {
    let p1 = text(&TABLE, ",", "\n");
    let text = p1.replacen(found, changed, 1);
    assert_ne!(text, p1, "{found}");
    text
}

#[test]
fn the_largest_number_is_taken() {
    let run = csv(&changed("1,1,2,100,", "1,1,2,99999999,"));
    let line = "       0       4       1       4       0       0       0       0\n";
    assert_eq!(run, gave(1, line, ""));
}

#[test]
fn nothing_is_an_empty_sheet() {
    assert_eq!(csv(""), gave(1, NO_SHEET, ""));
}

/// The sheet does not tell that it is refused, as its line would.
#[test]
fn a_sheet_that_is_printed_and_refused_is_named() {
    let table = worked::changed(&[(3, 4, 2_000), (3, 5, 2_001)]);
    let sheet = model::write(&table, usize::MAX).expect("it has a sheet");
    let sheet = String::from_utf8(sheet).expect("it is text");
    let run = diagnose(&["--csv", "--sheet"], text(&table, ",", "\n").as_bytes());
    let said = "standard input: refused 6, row 3, column 4\n";
    assert_eq!(run, gave(1, &sheet, said));
}

#[test]
fn any_table_has_the_report_of_its_sheet() {
    let mut random = Random::new(54);
    let (mut files, mut printed) = (Vec::new(), Vec::new());
    while files.len() < 200 {
        let table = damage::any_table(&mut random);
        // Where a number is too large or a row is short, there is no sheet.
        let Ok(sheet) = model::write(&table, usize::MAX) else {
            continue;
        };
        let separator = random.pick(&[",", ";", "\t"]);
        files.push((
            format!("{}.csv", files.len()),
            text(&table, separator, "\n"),
        ));
        printed.extend(model::diagnose(&sheet));
    }
    let named: Vec<(&str, &String)> = files.iter().map(|(name, text)| (&**name, text)).collect();
    let folder = folder_with("tables", &named);
    let names = named.iter().map(|(name, _)| *name);
    let arguments: Vec<&str> = ["--csv"].into_iter().chain(names).collect();
    let run = diagnose_in(&folder, &arguments);
    assert_eq!(run.status, 1);
    assert_eq!(run.printed.as_bytes(), printed);
}
