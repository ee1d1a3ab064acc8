//! Names of files with characters that would end a line or command a terminal: the file is opened by its true name, which is
//! shown written out.

use super::*;

/// Each name, and how it is shown.
const NAMES: [(&str, &str); 7] = [
    ("a\nb.sheet", r"a\nb.sheet"),
    ("a\tb.sheet", r"a\tb.sheet"),
    ("a\rb.sheet", r"a\rb.sheet"),
    ("\u{1b}[31mb.sheet", r"\u{1b}[31mb.sheet"),
    ("a\u{7f}\u{9b}b.sheet", r"a\u{7f}\u{9b}b.sheet"),
    ("a\u{2028}b\u{202e}.sheet", r"a\u{2028}b\u{202e}.sheet"),
    (
        "a\u{2066}b\u{200f}\u{61c}.sheet",
        r"a\u{2066}b\u{200f}\u{61c}.sheet",
    ),
];

#[test]
fn in_each_line_about_a_refused_sheet() {
    for (name, shown) in NAMES {
        let folder = folder_with("names-refused", &[(name, refused_sheet())]);
        let said = format!("{shown}: refused 6, row 3, column 4\n");
        let run = diagnose_in(&folder, &[name, name]);
        assert_eq!(run, gave(1, &REFUSED.repeat(2), &said.repeat(2)));
        let run = diagnose_in(&folder, &["--explain", name]);
        assert!(
            run.said.starts_with(&format!("{shown}:3: ")),
            "{}",
            run.said
        );
        assert_eq!(run.said.lines().count(), 1, "{}", run.said);
        let printed =
            format!("{shown}  refused 6  row 3, column 4\n1 sheet: 0 scored, 1 refused\n");
        let run = diagnose_in(&folder, &["--summary", name]);
        assert_eq!(run, gave(1, &printed, ""));
    }
}

#[test]
fn in_each_line_about_a_scored_sheet() {
    for (name, shown) in NAMES {
        let folder = folder_with("names-scored", &[(name, SHEET)]);
        let run = diagnose_in(&folder, &["--report", "--explain", name]);
        let heading = format!("Earthquake diagnosis (general diagnosis, method 1): {shown}");
        assert_eq!(run.printed.lines().next(), Some(&*heading));
        let said = format!(
            "{shown}: verdict 4, least score 0.47. \
             In a great earthquake the house is likely to collapse. 倒壊する可能性が高い\n"
        );
        assert_eq!((run.status, run.said), (0, said));
    }
}

#[test]
fn in_each_line_about_a_file_that_is_not_read() {
    let folder = folder_with::<&[u8]>("names-not-read", &[]);
    for (name, shown) in NAMES {
        let said = format!("diagnose: {shown}: can't be read: No such file or directory\n");
        assert_eq!(diagnose_in(&folder, &[name]), gave(2, "", &said));
    }
    for (name, shown) in NAMES {
        let folder = folder_with("names-no-table", &[(name, "1,2\n")]);
        let said = format!("diagnose: {shown}:1: 2 fields, not 8\n");
        assert_eq!(diagnose_in(&folder, &["--csv", name]), gave(2, "", &said));
    }
}

/// A backslash is a character as any other, and Japanese is shown as it is.
#[test]
fn other_characters_are_shown_as_they_are() {
    let name = r#"a\n "田中 邸" é 🏠.sheet"#;
    let folder = folder_with("names-other", &[(name, refused_sheet())]);
    let said = format!("{name}: refused 6, row 3, column 4\n").repeat(2);
    let run = diagnose_in(&folder, &[name, name]);
    assert_eq!(run, gave(1, &REFUSED.repeat(2), &said));
}
