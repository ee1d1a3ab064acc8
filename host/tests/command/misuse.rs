//! Arguments: help, the version, and what is no use of the command.

use super::*;

const HELP: &str = "\
usage: diagnose [OPTION..] [FILE..]

Scores survey sheets of Japanese wooden houses (general diagnosis, method 1). Without FILE, or where
FILE is -, it reads standard input. Without an option it prints the reports, one after the other.

  --summary   prints a line a file and a line of totals instead
  --report    prints reports in words and kN instead
  --sheet     with --csv and one file, prints the sheet instead
  --explain   says on standard error what each verdict means and what each refused sheet has wrong
  --csv       reads eight whole numbers a line, between commas, semicolons or tabs
  -h, --help  prints this
  --version   prints the version
  --          ends the options

Exit status, the greatest that applies: 0 all scored; 1 some refused; 2 a file or standard input
can't be read, or with --csv is no table, or misuse; 3 the command can't be built or run, or what
it prints can't be written.
";

#[test]
fn help_is_printed() {
    for arguments in [
        &["--help"][..],
        &["-h"],
        &["nosuch", "--summary", "-h", "--nosuch"],
    ] {
        assert_eq!(diagnose(arguments, SHEET), gave(0, HELP, ""));
    }
}

#[test]
fn the_version_is_printed() {
    let version = gave(0, "diagnose 0.7.0\n", "");
    assert_eq!(diagnose(&["--version"], SHEET), version);
}

#[test]
fn what_is_wrong_is_said_beside_the_usage() {
    for (arguments, what) in [
        (
            &["--explained"][..],
            "there is no option --explained; -- ends the options",
        ),
        (
            &["--summary=no"],
            "there is no option --summary=no; -- ends the options",
        ),
        (
            &["-dash.sheet"],
            "there is no option -dash.sheet; -- ends the options",
        ),
        (
            &["-\n\u{1b}[1m"],
            r"there is no option -\n\u{1b}[1m; -- ends the options",
        ),
        (&["-x"], "there is no option -x; -- ends the options"),
        (
            &["--report", "--csv", "--summary"],
            "--report and --summary exclude each other",
        ),
        (
            &["--summary", "--report"],
            "--summary and --report exclude each other",
        ),
        (
            &["--csv", "--sheet", "--summary"],
            "--sheet and --summary exclude each other",
        ),
        (
            &["--csv", "--report", "--sheet"],
            "--report and --sheet exclude each other",
        ),
        (&["--sheet", "examples/p1.sheet"], "--sheet needs --csv"),
        (
            &["--sheet", "--csv", "-", "examples/p1.sheet"],
            "--sheet takes one file, not 2",
        ),
        (
            &["-", "examples/p1.sheet", "-"],
            "standard input can be read only once",
        ),
        (&["-", "--", "-"], "standard input can be read only once"),
        (
            &["examples/p1.sheet", "--no"],
            "there is no option --no; -- ends the options",
        ),
    ] {
        let said = format!("diagnose: {what}\nusage: diagnose [OPTION..] [FILE..]\n");
        assert_eq!(diagnose(arguments, SHEET), gave(2, "", &said));
    }
}

#[test]
fn options_may_stand_among_the_files_and_be_repeated() {
    let arguments = ["examples/p1.sheet", "--summary", "-", "--summary"];
    let printed = concat!(
        "examples/p1.sheet  verdict 4  0.47\n",
        "standard input     verdict 4  0.47\n",
        "2 sheets: 2 scored, 0 refused\n",
    );
    assert_eq!(diagnose(&arguments, SHEET), gave(0, printed, ""));
}
