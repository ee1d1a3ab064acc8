//! `--csv` of what is no such table, which is told with line and field.

use super::csv::{changed, csv, text};
use super::*;
use girderbasil_tests::worked::TABLE;

/// What is said of a field that is no number, behind what is shown of it.
const NO_NUMBER: &str =
    "is not a whole number in digits alone, without leading zeros, up to 99999999";

/// A run that could not read standard input's text.
fn not_read(what: &str) -> Run {
    gave(2, "", &format!("diagnose: standard input:{what}\n"))
}

#[test]
fn a_field_that_is_no_number_is_told() {
    for (field, shown) in [
        ("x", r#""x""#),
        ("+8191", r#""+8191""#),
        ("-8191", r#""-8191""#),
        ("81.91", r#""81.91""#),
        ("1e3", r#""1e3""#),
        ("8 191", r#""8 191""#),
        ("08191", r#""08191""#),
        ("00", r#""00""#),
        ("", r#""""#),
        ("  ", r#""  ""#),
        ("8191;0", r#""8191;0""#),
        ("8\t191", r#""8\t191""#),
        ("8191.", r#""8191.""#),
        ("\u{1b}", r#""\u{1b}""#),
        ("\u{a0}1", r#""\u{a0}1""#),
        ("８１９１", r#""８１９１""#),
        ("\"8191\"", r#""\"8191\"""#),
        ("100000000", r#""100000000""#),
        ("屋根と樋", r#""屋根と樋""#),
        ("12345678901234567890", r#""12345678901234567890""#),
        ("123456789012345678901", r#""12345678901234567890".."#),
    ] {
        let text = changed(",8191,", &format!(",{field},"));
        let what = format!("11: field 2: {shown} {NO_NUMBER}");
        assert_eq!(csv(&text), not_read(&what));
    }
}

#[test]
fn a_line_of_more_or_fewer_fields_is_told() {
    for (found, text, what) in [
        ("\n5,", "\n5,8,", "11: 9 fields, not 8"),
        ("\n5,8191,", "\n5,", "11: 7 fields, not 8"),
        (
            "\n5,8191,8,0,0,0,0,0\n",
            "\n5,8191\n",
            "11: 2 fields, not 8",
        ),
        (
            "\n5,8191,8,0,0,0,0,0\n",
            "\n5 8191 8 0 0 0 0 0\n",
            "11: no commas, semicolons or tabs",
        ),
        ("\n5,", "\n  \n5,", "11: no commas, semicolons or tabs"),
        ("\n5,", "\n\n5,", "11: an empty line among others"),
        (
            "1,1,2,100,",
            "\n1,1,2,100,",
            "1: an empty line among others",
        ),
        ("0\n8,19", "0,\n8,19", "11: 9 fields, not 8"),
    ] {
        assert_eq!(csv(&changed(found, text)), not_read(what));
    }
}

#[test]
fn of_several_mistakes_the_first_is_told() {
    let what = format!("1: field 1: \"kind\" {NO_NUMBER}");
    let text = changed("1,1,", "kind,storeys,\n");
    assert_eq!(csv(&text), not_read(&what));
}

#[test]
fn a_sheet_is_told_that_it_is_one() {
    let with_returns = String::from_utf8_lossy(SHEET).replace('\n', "\r\n");
    let marked = format!("\u{feff}{with_returns}");
    let sheet = not_read(" is a sheet already: leave --csv out");
    assert_eq!(diagnose(&["--csv"], SHEET), sheet);
    assert_eq!(diagnose(&["--csv", "--sheet"], SHEET), sheet);
    assert_eq!(csv(&with_returns), sheet);
    assert_eq!(csv(&marked), sheet);
    // A line that is shorter, longer, blank or of other characters is none of a sheet.
    let line = String::from_utf8_lossy(&SHEET[..64]).into_owned();
    let other = line.replacen("100", "x00", 1);
    for line in [&line[1..], &format!("{line} "), &" ".repeat(64), &other] {
        assert_eq!(csv(line), not_read("1: no commas, semicolons or tabs"));
    }
}

#[test]
fn utf_16_is_told_with_and_without_a_mark() {
    let p1 = text(&TABLE, ",", "\r\n");
    let units = |text: &str| text.encode_utf16().collect::<Vec<u16>>();
    let told = not_read(" is in UTF-16; save it as UTF-8");
    for text in [&p1, &format!("\u{feff}{p1}"), "\u{feff}種類,階数\r\n"] {
        for order in [u16::to_le_bytes, u16::to_be_bytes] {
            let bytes: Vec<u8> = units(text).into_iter().flat_map(order).collect();
            assert_eq!(diagnose(&["--csv"], &bytes), told, "{text:?}");
        }
    }
    let longer: Vec<u8> = units(&p1.repeat(200))
        .into_iter()
        .flat_map(u16::to_le_bytes)
        .collect();
    assert!(longer.len() > 65_536);
    assert_eq!(diagnose(&["--csv"], &longer), told);
}

/// A workbook, UTF-32, and a byte that no text has.
#[test]
fn what_is_no_plain_text_is_told() {
    let utf_32 = |text: &str| -> Vec<u8> {
        let characters = text.chars().map(u32::from);
        characters.flat_map(u32::to_le_bytes).collect()
    };
    for bytes in [
        b"PK\x03\x04\x14\0\x06\0".to_vec(),
        utf_32("\u{feff}1,1\n"),
        utf_32("1,1\n"),
        changed("8191", "81\091").into_bytes(),
    ] {
        let run = diagnose(&["--csv"], &bytes);
        assert_eq!(run, not_read(" is no plain text"), "{bytes:?}");
    }
}

#[test]
fn cr_alone_is_told_as_a_line_end() {
    let what = |line: u32| format!("{line}: CR alone ends no line; save with LF or CR LF");
    let text = text(&TABLE, ",", "\r");
    assert_eq!(csv(&text), not_read(&what(1)));
    let end = "20120401,0,0,0,0";
    let text = changed(&format!("{end}\n"), &format!("{end}\r"));
    assert_eq!(csv(&text), not_read(&what(12)));
    let text = changed("8191", "8\r191");
    assert_eq!(csv(&text), not_read(&what(11)));
}

/// It would be false to call it empty.
#[test]
fn nothing_but_line_ends_has_no_numbers() {
    for text in ["\n", "\r\n\n", "\u{feff}", "\u{feff}\n"] {
        assert_eq!(csv(text), not_read(" no numbers"), "{text:?}");
        let run = diagnose(&["--csv", "--explain"], text.as_bytes());
        assert_eq!(run, not_read(" no numbers"), "{text:?}");
    }
}

#[test]
fn longer_text_is_told() {
    let lines = "0,0,0,0,0,0,0,0\n";
    let most = lines.repeat(65_536 / lines.len());
    assert_eq!(most.len(), 65_536);
    assert_eq!(csv(&most), gave(1, NO_SHEET, ""));
    let more = not_read(" more than 65,536 bytes");
    assert_eq!(csv(&(most + "\n")), more);
}

#[test]
fn a_text_that_is_not_taken_counts_as_not_read() {
    let folder = folder_with(
        "csv",
        &[
            ("p1.csv", text(&TABLE, ";", "\r\n")),
            ("bad.csv", changed("\n5,", "\n")),
        ],
    );
    let printed = concat!(
        "bad.csv  no table\n",
        "p1.csv   verdict 4  0.47\n",
        "nosuch   can't be read\n",
        "3 sheets: 1 scored, 0 refused, 2 not read\n",
    );
    let said = concat!(
        "diagnose: bad.csv:11: 7 fields, not 8\n",
        "diagnose: nosuch: can't be read: No such file or directory\n",
    );
    let arguments = ["--csv", "--summary", "bad.csv", "p1.csv", "nosuch"];
    assert_eq!(diagnose_in(&folder, &arguments), gave(2, printed, said));
    // A pile of reports that is printed has it too.
    let heading = "Earthquake diagnosis (general diagnosis, method 1): bad.csv\n\n";
    let printed = format!("{heading}bad.csv:11: 7 fields, not 8\n");
    let run = diagnose_in(&folder, &["--report", "--csv", "bad.csv"]);
    let said = "diagnose: bad.csv:11: 7 fields, not 8\n";
    assert_eq!(run, gave(2, &printed, said));
    // What was made of it before the mistake is not printed.
    let run = diagnose_in(&folder, &["--sheet", "--csv", "bad.csv"]);
    assert_eq!(run, gave(2, "", said));
}
