//! The report in words and kN.

use super::*;
use girderbasil_diagnose::explain::explain;
use girderbasil_tests::model;
use girderbasil_tests::random::{Random, house};
use girderbasil_tests::worked::{self, MANUAL_REPORT, MANUAL_TABLE};

const HEADING: &str = "Earthquake diagnosis (general diagnosis, method 1): ";
const COLUMNS: &str = "Storey  Direction    Held kN  Required kN  Layout  Deterioration  Score\n";

fn report(files: &[&str], input: &[u8]) -> Run {
    diagnose(&[&["--report"], files].concat(), input)
}

/// P1's, with the name that its file has.
fn p1_report(name: &str) -> String {
    [
        HEADING,
        name,
        "\n\n",
        COLUMNS,
        "     1  X               9.20        16.00    1.00           0.83   0.47\n",
        "     1  Y              16.00        16.00    1.00           0.83   0.83\n",
        "\n",
        "Least score 0.47, verdict 4: in a great earthquake the house is likely to collapse.\n",
        "倒壊する可能性が高い\n",
        "\n",
        REPORT,
    ]
    .concat()
}

#[test]
fn of_a_house_of_one_storey() {
    let printed = p1_report("examples/p1.sheet");
    assert_eq!(report(&["examples/p1.sheet"], b""), gave(0, &printed, ""));
    let printed = p1_report("standard input");
    assert_eq!(report(&[], SHEET), gave(0, &printed, ""));
}

#[test]
fn of_the_manuals_house() {
    let sheet = model::write(&MANUAL_TABLE, usize::MAX).expect("it has a sheet");
    let printed = [
        HEADING,
        "standard input\n\n",
        COLUMNS,
        "     1  X              22.62        79.00    0.65           0.70   0.13\n",
        "     1  Y              28.66        79.00    0.90           0.70   0.22\n",
        "     2  X              18.61        39.50    0.65           0.70   0.21\n",
        "     2  Y              22.09        39.50    0.90           0.70   0.35\n",
        "\n",
        "Least score 0.13, verdict 4: in a great earthquake the house is likely to collapse.\n",
        "倒壊する可能性が高い\n",
        "\n",
        MANUAL_REPORT,
    ];
    assert_eq!(report(&[], &sheet), gave(0, &printed.concat(), ""));
}

/// The strongest house has the longest numbers.
#[test]
fn columns_stay_aligned() {
    let table = worked::most_hundredths();
    let sheet = model::write(&table, usize::MAX).expect("it has a sheet");
    let run = report(&[], &sheet);
    let row = "     1  X           60000.00         0.01    1.00           1.00   9.99";
    assert_eq!(run.printed.lines().nth(3), Some(row));
}

#[test]
fn a_refused_sheets_has_the_mistake_and_the_refusals_line() {
    let sheet = refused_sheet();
    let refusal = girderbasil::output(&sheet)
        .refusal()
        .expect("it is refused");
    let name = "examples/refused.sheet";
    let mistake = explain(name, &sheet, refusal);
    let printed = format!("{HEADING}{name}\n\n{mistake}\n\n{REFUSED}");
    assert_eq!(report(&[name], b""), gave(1, &printed, ""));
}

/// A file that can't be read has its place too, so that a pile that is printed is complete.
#[test]
fn an_empty_line_stands_between_two() {
    let files = ["nosuch", "examples/p1.sheet", "examples", "-"];
    let printed = [
        format!("{HEADING}nosuch\n\nnosuch: can't be read: No such file or directory\n"),
        p1_report("examples/p1.sheet"),
        format!("{HEADING}examples\n\nexamples: can't be read: Is a directory\n"),
        p1_report("standard input"),
    ]
    .join("\n");
    let said = concat!(
        "diagnose: nosuch: can't be read: No such file or directory\n",
        "diagnose: examples: can't be read: Is a directory\n",
    );
    assert_eq!(report(&files, SHEET), gave(2, &printed, said));
}

/// The numbers in words and kN are those of the proved lines below them.
#[test]
fn random_houses() {
    let mut random = Random::new(53);
    let sheets: Vec<Vec<u8>> = (0..200)
        .map(|_| model::write(&house::house(&mut random), usize::MAX).expect("it has a sheet"))
        .collect();
    let names: Vec<String> = (0..sheets.len()).map(|it| format!("{it}.sheet")).collect();
    let files: Vec<(&str, &Vec<u8>)> = names.iter().map(String::as_str).zip(&sheets).collect();
    let folder = folder_with("random", &files);
    let arguments: Vec<&str> = ["--report"]
        .into_iter()
        .chain(names.iter().map(String::as_str))
        .collect();
    let run = diagnose_in(&folder, &arguments);
    assert_eq!((run.status, &*run.said), (0, ""));
    let reports: Vec<&str> = run.printed.split(HEADING).skip(1).collect();
    assert_eq!(reports.len(), sheets.len());
    for (report, (name, sheet)) in reports.into_iter().zip(names.iter().zip(sheets)) {
        assert_numbers(
            report,
            name,
            &String::from_utf8(model::diagnose(&sheet)).expect("it is text"),
        );
    }
}

/// Asserts that a report without its heading's words has a file's name, and above the proved lines their numbers.
fn assert_numbers(report: &str, name: &str, proved: &str) {
    let parts: Vec<&str> = report.split("\n\n").collect();
    let [named, table, least, lines, ..] = parts[..] else {
        panic!("{report}")
    };
    assert_eq!(named, name);
    assert_eq!(lines.trim_end_matches('\n'), proved.trim_end_matches('\n'));
    let mut proved: Vec<Vec<&str>> = proved
        .lines()
        .map(|it| it.split_whitespace().collect())
        .collect();
    let verdict = proved.pop().expect("the verdict's line");
    let begins = format!(
        "Least score {}, verdict {}: in a great earthquake ",
        decimal(verdict[2]),
        verdict[1]
    );
    assert!(least.starts_with(&begins), "{report}");
    let rows: Vec<Vec<&str>> = table
        .lines()
        .skip(1)
        .map(|it| it.split_whitespace().collect())
        .collect();
    assert_eq!(rows.len(), proved.len(), "{report}");
    for (row, line) in rows.into_iter().zip(proved) {
        assert_eq!(
            row[..2],
            [line[1], ["X", "Y"][(line[2] == "2") as usize]],
            "{report}"
        );
        let numbers: Vec<String> = line[3..].iter().map(|number| decimal(number)).collect();
        assert_eq!(row[2..], numbers, "{report}");
    }
}

/// Hundredths, as a line has them, with a point.
fn decimal(hundredths: &str) -> String {
    let padded = format!("{hundredths:0>3}");
    let (whole, decimals) = padded.split_at(padded.len() - 2);
    format!("{whole}.{decimals}")
}
