//! The summary.

use super::*;

fn summary(files: &[&str], input: &[u8]) -> Run {
    diagnose(&[&["--summary"], files].concat(), input)
}

#[test]
fn one_sheet() {
    let printed = concat!(
        "standard input  verdict 4  0.47\n",
        "1 sheet: 1 scored, 0 refused\n",
    );
    assert_eq!(summary(&[], SHEET), gave(0, printed, ""));
    let printed = concat!(
        "standard input  refused 1  the sheet as a whole\n",
        "1 sheet: 0 scored, 1 refused\n",
    );
    assert_eq!(summary(&[], b""), gave(1, printed, ""));
}

#[test]
fn several_sheets_of_which_one_is_not_read() {
    let files = ["examples/p1.sheet", "nosuch", "-", "examples/refused.sheet"];
    let printed = concat!(
        "examples/p1.sheet       verdict 4  0.47\n",
        "nosuch                  can't be read\n",
        "standard input          refused 1  the sheet as a whole\n",
        "examples/refused.sheet  refused 6  row 3, column 4\n",
        "4 sheets: 1 scored, 2 refused, 1 not read\n",
    );
    let said = "diagnose: nosuch: can't be read: No such file or directory\n";
    assert_eq!(summary(&files, &SHEET[1..]), gave(2, printed, said));
}

#[test]
fn names_are_padded_by_the_columns_that_they_take() {
    // The third is 邸が as a Mac writes it: か, and the mark that makes it が. The fourth has emoji alone, the fifth characters
    // that have no width, and the sixth one that is written out.
    let printed = concat!(
        "田中邸.sheet  verdict 4  0.47\n",
        "ab.sheet      verdict 4  0.47\n",
        "邸か\u{3099}.sheet    verdict 4  0.47\n",
        "\u{1f300}🏠\u{1faff}.sheet  verdict 4  0.47\n",
        "a\u{200b}\u{200d}\u{fe00}\u{fe0f}b.sheet      verdict 4  0.47\n",
        "a\\nb.sheet    verdict 4  0.47\n",
        "6 sheets: 6 scored, 0 refused\n",
    );
    let names = [
        "田中邸.sheet",
        "ab.sheet",
        "邸か\u{3099}.sheet",
        "\u{1f300}🏠\u{1faff}.sheet",
        "a\u{200b}\u{200d}\u{fe00}\u{fe0f}b.sheet",
        "a\nb.sheet",
    ];
    let folder = folder_with("columns", &names.map(|name| (name, SHEET)));
    let arguments = [&["--summary"][..], &names].concat();
    assert_eq!(diagnose_in(&folder, &arguments), gave(0, printed, ""));
}
