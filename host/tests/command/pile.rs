//! A pile of forty files, of which some are refused and some can't be read, in every form.

use std::fs;

use super::*;
use girderbasil_tests::model;
use girderbasil_tests::random::Random;

const FILES: usize = 40;

/// Files of one folder, and what is to be printed for each alone; none for one that can't be read.
struct Pile {
    folder: PathBuf,
    files: Vec<(String, Option<String>)>,
}

fn pile(name: &str) -> Pile {
    let folder = folder_with::<&[u8]>(name, &[]);
    let mut random = Random::new(55);
    let files = (1..=FILES).map(|number| {
        let file = format!("h{number}.sheet");
        let path = folder.join(&file);
        let printed = match number % 10 {
            // One that there is not, and a folder.
            3 => None,
            7 => {
                fs::create_dir(path).expect("a folder");
                None
            }
            _ => {
                let sheet = common::any_sheet(&mut random);
                fs::write(path, &sheet).expect("a file");
                Some(String::from_utf8(model::diagnose(&sheet)).expect("it is text"))
            }
        };
        (file, printed)
    });
    let files = files.collect();
    Pile { folder, files }
}

impl Pile {
    fn diagnose(&self, form: &[&str]) -> Run {
        let names = self.files.iter().map(|(name, _)| &**name);
        let arguments: Vec<&str> = form.iter().copied().chain(names).collect();
        diagnose_in(&self.folder, &arguments)
    }

    /// What is said of those that can't be read, and, if they are to be named, of those that are refused.
    fn said(&self, refused: bool) -> String {
        let lines = self.files.iter().map(|(name, printed)| match printed {
            None if self.folder.join(name).is_dir() => {
                format!("diagnose: {name}: can't be read: Is a directory\n")
            }
            None => format!("diagnose: {name}: can't be read: No such file or directory\n"),
            Some(line) if refused => refusal(line)
                .map(|[number, row, column]| {
                    format!("{name}: refused {number}, {}\n", place(row, column))
                })
                .unwrap_or_default(),
            Some(_) => String::new(),
        });
        lines.collect()
    }
}

/// The number, row and column of a refusal's line; none for a report.
fn refusal(printed: &str) -> Option<[&str; 3]> {
    let numbers: Vec<&str> = printed.split_whitespace().collect();
    (numbers[0] == "0").then(|| [numbers[1], numbers[2], numbers[3]])
}

fn place(row: &str, column: &str) -> String {
    match row {
        "0" => String::from("the sheet as a whole"),
        _ => format!("row {row}, column {column}"),
    }
}

#[test]
fn what_is_printed_is_that_of_each_alone_put_together() {
    let pile = pile("pile-lines");
    let printed: String = pile
        .files
        .iter()
        .filter_map(|(_, it)| it.as_deref())
        .collect();
    assert_eq!(pile.diagnose(&[]), gave(2, &printed, &pile.said(true)));
}

#[test]
fn the_summary_counts_them() {
    let pile = pile("pile-summary");
    let mut counts = [0; 3];
    let mut printed = String::new();
    for (name, alone) in &pile.files {
        let (index, came) = match alone.as_deref().map(|it| (it, refusal(it))) {
            None => (2, String::from("can't be read")),
            Some((_, Some([number, row, column]))) => {
                (1, format!("refused {number}  {}", place(row, column)))
            }
            Some((report, None)) => {
                let last = report.lines().last().expect("the verdict's line");
                let numbers: Vec<&str> = last.split_whitespace().collect();
                let least: u32 = numbers[2].parse().expect("a number");
                let least = common::decimal(least);
                (0, format!("verdict {}  {least}", numbers[1]))
            }
        };
        counts[index] += 1;
        printed += &format!("{name:<9}  {came}\n");
    }
    let [scored, refused, not_read] = counts;
    assert!(scored > 5 && refused > 5 && not_read == 8, "{counts:?}");
    printed += &format!("40 sheets: {scored} scored, {refused} refused, {not_read} not read\n");
    assert_eq!(
        pile.diagnose(&["--summary"]),
        gave(2, &printed, &pile.said(false))
    );
}

#[test]
fn the_report_of_each_is_that_of_it_alone() {
    let pile = pile("pile-report");
    let files = pile.files.iter();
    let reports: Vec<String> = files
        .map(|(name, _)| diagnose_in(&pile.folder, &["--report", name]).printed)
        .collect();
    assert!(
        reports
            .iter()
            .all(|report| report.starts_with("Earthquake diagnosis "))
    );
    let run = pile.diagnose(&["--report"]);
    assert_eq!(run, gave(2, &reports.join("\n"), &pile.said(false)));
}
