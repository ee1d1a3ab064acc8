//! Refusals 1 and 2: files that are no sheet.

use girderbasil::LINE;
use girderbasil_tests::worked::SHEET;

use super::{Case, lines};

/// P1's sheet with other line ends.
fn ended(end: &[u8]) -> Vec<u8> {
    let lines = lines();
    let lines = lines.iter().map(|line| &line[..LINE - 1]);
    lines.flat_map(|line| [line, end].concat()).collect()
}

/// P1's numbers with a separator between them.
fn separated(separator: &str) -> Vec<u8> {
    let lines = lines();
    let lines = lines.iter().map(|line| {
        let fields = line[..LINE - 1].chunks(8);
        let fields = fields.map(|field| str::from_utf8(field).expect("digits").trim());
        fields.collect::<Vec<_>>().join(separator) + "\n"
    });
    lines.collect::<String>().into_bytes()
}

/// P1's sheet with so many lines, by more of its windows.
fn of_lines(count: usize) -> Vec<Vec<u8>> {
    let mut lines = lines();
    let window = lines[5].clone();
    lines.splice(5..5, vec![window; count - 12]);
    lines
}

fn utf_16() -> Vec<u8> {
    let units = SHEET.iter().flat_map(|&byte| [byte, 0]);
    [0xff, 0xfe].into_iter().chain(units).collect()
}

fn utf_32() -> Vec<u8> {
    let units = SHEET.iter().flat_map(|&byte| [byte, 0, 0, 0]);
    b"\xff\xfe\0\0".iter().copied().chain(units).collect()
}

/// A picture's file, of so many bytes.
fn picture(bytes: usize) -> Vec<u8> {
    let start = b"\x89PNG\r\n\x1a\n\0\0\0\x0dIHDR\0\0\x02\0\0\0\x01\0\x08";
    [&start[..], &vec![0xa5; bytes - start.len()]].concat()
}

/// P1's sheet with a comma in the place of the space before each number but the first of a line.
fn commas_for_spaces() -> Vec<u8> {
    let mut sheet = SHEET.to_vec();
    for line in sheet.chunks_mut(LINE) {
        let fields = line[8..LINE - 1].chunks_mut(8);
        for field in fields.filter(|field| field[0] == b' ') {
            field[0] = b',';
        }
    }
    sheet
}

const TOO_LONG: &str = "p1.sheet: longer than 312 lines of 65 bytes; a house of three storeys with 300 walls is no longer. \
                        [1 sheet length]";

#[rustfmt::skip]
pub fn whole() -> Vec<Case> {
    let utf_16_of_12_lines = utf_16()[..24 * LINE].to_vec();
    let big_endian = [b"\xfe\xff", &utf_16()[1..]].concat();
    let mark = b"\xef\xbb\xbf";
    let windows_of_65_lines = of_lines(65).iter().flat_map(|line| [&line[..LINE - 1], b"\r\n"].concat()).collect();
    vec![
        (&["empty", "of the sheet"], vec![],
            "p1.sheet: it is empty. [1 sheet length]"),
        (&["too long"], of_lines(313).concat(), TOO_LONG),
        // Of what is longer no more is read, so nothing is known of its lines.
        (&[], b"x".repeat(65_536), TOO_LONG),
        (&[], SHEET.repeat(100)[..65_536].to_vec(), TOO_LONG),
        // What is wrong with all lines alike shows in what was read.
        (&[], ended(b"\r\n").repeat(100)[..65_536].to_vec(),
            "p1.sheet: lines end in CR LF, as on Windows; save with LF. [1 sheet length]"),
        (&[], utf_16().repeat(100)[..65_536].to_vec(),
            "p1.sheet: it is in UTF-16; save as plain text, in UTF-8 without a byte order mark. [1 sheet length]"),
        (&["UTF-16"], utf_16(),
            "p1.sheet: it is in UTF-16; save as plain text, in UTF-8 without a byte order mark. [1 sheet length]"),
        (&[], big_endian,
            "p1.sheet: it is in UTF-16; save as plain text, in UTF-8 without a byte order mark. [1 sheet length]"),
        (&[], utf_16_of_12_lines,
            "p1.sheet:1: it is in UTF-16; save as plain text, in UTF-8 without a byte order mark. [2 misprint]"),
        (&["mark"], [mark, SHEET].concat(),
            "p1.sheet: it begins with a byte order mark; save as UTF-8 without one. [1 sheet length]"),
        (&[], [mark, &SHEET[3..]].concat(),
            "p1.sheet:1: it begins with a byte order mark; save as UTF-8 without one. [2 misprint]"),
        (&["tabs", "separators"], separated("\t"),
            "p1.sheet: tabs in place of columns; the option --csv reads such a file. [1 sheet length]"),
        (&["commas"], separated(","),
            "p1.sheet: commas in place of columns; the option --csv reads such a file. [1 sheet length]"),
        (&["semicolons"], separated(";"),
            "p1.sheet: semicolons in place of columns; the option --csv reads such a file. [1 sheet length]"),
        // --csv also reads those with a byte order mark or with the line ends of Windows.
        (&[], [mark, &separated(",")[..]].concat(),
            "p1.sheet: commas in place of columns; the option --csv reads such a file. [1 sheet length]"),
        (&[], str::from_utf8(&separated(",")).expect("text").replace('\n', "\r\n").into_bytes(),
            "p1.sheet: commas in place of columns; the option --csv reads such a file. [1 sheet length]"),
        (&["no table"], commas_for_spaces(),
            "p1.sheet:1: commas in place of columns; the option --csv says what else is wrong. [2 misprint]"),
        (&[], [b"kind,storeys,weight,zone,ground,foundation,age,snow\n", &separated(",")[..]].concat(),
            "p1.sheet: commas in place of columns; the option --csv says what else is wrong. [1 sheet length]"),
        (&[], separated("\",\""),
            "p1.sheet: commas in place of columns; the option --csv says what else is wrong. [1 sheet length]"),
        (&[], separated(".0;"),
            "p1.sheet: semicolons in place of columns; the option --csv says what else is wrong. [1 sheet length]"),
        (&[], str::from_utf8(&separated(",")).expect("text").replace('\n', ",\n").into_bytes(),
            "p1.sheet: commas in place of columns; the option --csv says what else is wrong. [1 sheet length]"),
        (&[], utf_16()[2..].to_vec(),
            "p1.sheet:1: it is in UTF-16; save as plain text, in UTF-8 without a byte order mark. [2 misprint]"),
        (&["no text"], utf_32(),
            "p1.sheet: it is no plain text; save as plain text, in UTF-8 without a byte order mark. [1 sheet length]"),
        (&[], picture(200),
            "p1.sheet: it is no plain text; save as plain text, in UTF-8 without a byte order mark. [1 sheet length]"),
        (&[], picture(65_536),
            "p1.sheet: it is no plain text; save as plain text, in UTF-8 without a byte order mark. [1 sheet length]"),
        (&["CR LF"], ended(b"\r\n"),
            "p1.sheet: lines end in CR LF, as on Windows; save with LF. [1 sheet length]"),
        (&[], windows_of_65_lines,
            "p1.sheet:1: lines end in CR LF, as on Windows; save with LF. [2 misprint]"),
        (&["CR"], ended(b"\r"),
            "p1.sheet:1: lines end in CR alone; save with LF. [2 misprint]"),
        (&[], ended(b"\r")[1..].to_vec(),
            "p1.sheet: lines end in CR alone; save with LF. [1 sheet length]"),
    ]
}
