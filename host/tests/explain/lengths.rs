//! Refusals 1 and 2: lines that are not 65 bytes.

use girderbasil::LINE;
use girderbasil_tests::worked::SHEET;

use super::{Case, lines, with_end, with_field};

/// P1's sheet with the first of some bytes in a line replaced by others.
fn in_line(row: usize, old: &[u8], new: &[u8]) -> Vec<u8> {
    let mut sheet = SHEET.to_vec();
    let start = (row - 1) * LINE;
    let place = sheet[start..]
        .windows(old.len())
        .position(|bytes| bytes == old);
    let place = start + place.expect("the line has them");
    sheet.splice(place..place + old.len(), new.iter().copied());
    sheet
}

/// What stands at a line's end, or is no line.
#[rustfmt::skip]
pub fn ends() -> Vec<Case> {
    let before = |row: usize, line: &[u8]| {
        let mut lines = lines();
        lines.insert(row - 1, line.to_vec());
        lines.concat()
    };
    vec![
        (&["1 space", "length", "of a row"], with_end(5, b" "),
            "p1.sheet:5: 66 bytes, not 65: a space at the end. [1 sheet length]"),
        (&["spaces"], with_end(5, b"   "),
            "p1.sheet:5: 68 bytes, not 65: 3 spaces at the end. [1 sheet length]"),
        (&["CR at end"], with_end(5, b"\r"),
            "p1.sheet:5: 66 bytes, not 65: a carriage return (CR) before the newline. [1 sheet length]"),
        // Spaces are not the mistake where the line lacks something else.
        (&[], [&SHEET[..4 * LINE], b"       4  \n", &SHEET[5 * LINE..]].concat(),
            "p1.sheet:5: 11 bytes, not 65: column 2 (storey of a wall) is the first that does not end in its place. [1 sheet length]"),
        (&[], [&SHEET[..4 * LINE], &SHEET[4 * LINE + 3..5 * LINE - 1], b"    \n", &SHEET[5 * LINE..]].concat(),
            "p1.sheet:5: 66 bytes, not 65: column 1 (kind) is the first that does not end in its place. [1 sheet length]"),
        (&["empty line"], before(13, b"\n"),
            "p1.sheet:13: an empty line. [1 sheet length]"),
        (&[], before(5, b"\n"),
            "p1.sheet:5: an empty line. [1 sheet length]"),
        (&[], before(5, b"\r\n"),
            "p1.sheet:5: an empty line. [1 sheet length]"),
        (&["only spaces"], before(5, b"   \n"),
            "p1.sheet:5: a line of only spaces. [1 sheet length]"),
        (&[], [SHEET, b"  \r\n"].concat(),
            "p1.sheet:13: a line of only spaces. [1 sheet length]"),
        (&["no newline"], SHEET[..12 * LINE - 1].to_vec(),
            "p1.sheet:12: the last line does not end with a newline. [1 sheet length]"),
        (&["cut"], SHEET[..11 * LINE + 40].to_vec(),
            "p1.sheet:12: the sheet ends within this line, after 40 of 65 bytes. [1 sheet length]"),
        (&["after"], [SHEET, b"\x1a"].concat(),
            "p1.sheet:13: \"\\u{1a}\" after the last line. [1 sheet length]"),
        (&[], [SHEET, b" "].concat(),
            "p1.sheet:13: \" \" after the last line. [1 sheet length]"),
        (&[], [SHEET, b"\x0c"].concat(),
            "p1.sheet:13: \"\\u{c}\" after the last line. [1 sheet length]"),
        (&[], [SHEET, b"       "].concat(),
            "p1.sheet:13: \"       \" after the last line. [1 sheet length]"),
        (&[], [SHEET, b"        "].concat(),
            "p1.sheet:13: a line of only spaces. [1 sheet length]"),
        // A digit may begin a row, and the sheet is not whole without its dates.
        (&[], [SHEET, b"      8"].concat(),
            "p1.sheet:13: the sheet ends within this line, after 7 of 65 bytes. [1 sheet length]"),
        (&[], [&SHEET[..4 * LINE], b"\x1a"].concat(),
            "p1.sheet:5: the sheet ends within this line, after 1 of 65 bytes. [1 sheet length]"),
        (&[], [&SHEET[..12 * LINE - 1], b"  "].concat(),
            "p1.sheet:12: 66 bytes, not 65: 2 spaces at the end. [1 sheet length]"),
        // Lines ran together, and the last is cut, so no field is known to stand in its place.
        (&[], with_field(5, 9, b"0")[..12 * LINE - 1].to_vec(),
            "p1.sheet:5: 130 bytes, not 65: lines run together, with no newline between them. [1 sheet length]"),
        // The last line is as much shorter, so the whole has the length of 12 lines.
        (&[], with_end(5, b" ")[..12 * LINE].to_vec(),
            "p1.sheet:5: 66 bytes, not 65: a space at the end. [2 misprint]"),
        (&[], before(13, b"\n")[1..].to_vec(),
            "p1.sheet:1: 64 bytes, not 65: column 1 (kind) is the first that does not end in its place. [2 misprint]"),
        // A field before it comes first.
        (&[], [&with_field(4, 8, b"       x")[..5 * LINE - 1], &with_end(5, b" ")[5 * LINE - 1..12 * LINE]].concat(),
            "p1.sheet:4: column 8 (unused in an ends row): \"       x\": a letter. [2 misprint]"),
    ]
}

/// What stands in a line, and where its columns are no longer what they seem.
#[rustfmt::skip]
pub fn columns() -> Vec<Case> {
    vec![
        (&["digit", "in column"], in_line(5, b"    2000", "    ２000".as_bytes()),
            "p1.sheet:5: 67 bytes, not 65: a full-width digit in column 6 (length). [1 sheet length]"),
        (&["wide space"], in_line(5, b"    2000", "  　2000".as_bytes()),
            "p1.sheet:5: 66 bytes, not 65: a full-width space in column 6 (length). [1 sheet length]"),
        (&["wide"], in_line(5, b"    2000", "    二千".as_bytes()),
            "p1.sheet:5: 67 bytes, not 65: a full-width character in column 6 (length). [1 sheet length]"),
        (&["1 tab"], in_line(5, b"    2000", b"\t2000"),
            "p1.sheet:5: 62 bytes, not 65: a tab in column 6 (length). [1 sheet length]"),
        (&["1 comma"], in_line(5, b"    2000", b"    2,000"),
            "p1.sheet:5: 66 bytes, not 65: a comma in column 6 (length). [1 sheet length]"),
        (&["1 semicolon"], in_line(5, b"    2000", b"    2000;"),
            "p1.sheet:5: 66 bytes, not 65: a semicolon in column 6 (length). [1 sheet length]"),
        // What comes first counts.
        (&[], in_line(5, b"     20    2000       1       1", b"    20    2000       1       x"),
            "p1.sheet:5: 64 bytes, not 65: column 5 (strength) is the first that does not end in its place. \
             [1 sheet length]"),
        (&[], with_end(5, b"x"),
            "p1.sheet:5: 66 bytes, not 65: \"x\" after column 8. [1 sheet length]"),
        (&[], in_line(5, b"    2000", b"    2000.0"),
            "p1.sheet:5: 67 bytes, not 65: a decimal point in column 6 (length). [1 sheet length]"),
        // One digit too many or too few, or one space.
        (&["shifted"], in_line(5, b"    2000", b"    20000"),
            "p1.sheet:5: 66 bytes, not 65: column 6 (length) is the first that does not end in its place. [1 sheet length]"),
        (&[], in_line(5, b"    2000", b"     2000"),
            "p1.sheet:5: 66 bytes, not 65: column 6 (length) is the first that does not end in its place. [1 sheet length]"),
        (&[], in_line(5, b"    2000", b"   2000"),
            "p1.sheet:5: 64 bytes, not 65: column 6 (length) is the first that does not end in its place. [1 sheet length]"),
        (&[], in_line(5, b"    2000", b"    20000\r"),
            "p1.sheet:5: 67 bytes, not 65: a character that is no digit in column 6 (length). [1 sheet length]"),
        (&[], in_line(5, b"       1\n", b"      1\n"),
            "p1.sheet:5: 64 bytes, not 65: column 8 (type) is the first that does not end in its place. [1 sheet length]"),
        (&[], SHEET[1..].to_vec(),
            "p1.sheet:1: 64 bytes, not 65: column 1 (kind) is the first that does not end in its place. [1 sheet length]"),
        (&[], in_line(5, b"       4       1", b"       9      1"),
            "p1.sheet:5: 64 bytes, not 65: column 2 is the first that does not end in its place. [1 sheet length]"),
        (&[], [&SHEET[..4 * LINE], b"4 1 1 1 20 2000 1 1\n", &SHEET[5 * LINE..]].concat(),
            "p1.sheet:5: 20 bytes, not 65: column 1 (kind) is the first that does not end in its place. [1 sheet length]"),
        (&[], [&SHEET[..4 * LINE], b"4\n", &SHEET[5 * LINE..]].concat(),
            "p1.sheet:5: 2 bytes, not 65: column 1 (kind) is the first that does not end in its place. [1 sheet length]"),
        // Between days there is no space, so a day that is none shows it.
        (&[], in_line(12, b"19800401", b"198004011"),
            "p1.sheet:12: 66 bytes, not 65: column 2 (start of work) is the first that does not end in its place. \
             [1 sheet length]"),
        (&[], in_line(12, b"19801001", b"198010010"),
            "p1.sheet:12: 66 bytes, not 65: column 3 (completion) is the first that does not end in its place. \
             [1 sheet length]"),
        (&[], in_line(12, b"20120401", b"2012041"),
            "p1.sheet:12: 64 bytes, not 65: column 4 (survey day) is the first that does not end in its place. \
             [1 sheet length]"),
        // A day that is too short, or has a space in it or before it; a kind that is none of its row.
        (&[], in_line(12, b"19800401", b"800401"),
            "p1.sheet:12: 63 bytes, not 65: column 2 (start of work) is the first that does not end in its place. \
             [1 sheet length]"),
        (&[], in_line(12, b"19800401", b"1 9800401"),
            "p1.sheet:12: 66 bytes, not 65: column 2 (start of work) is the first that does not end in its place. \
             [1 sheet length]"),
        (&[], in_line(12, b"8198004011980100120120401", b"8 19800401 19801001 20120401"),
            "p1.sheet:12: 68 bytes, not 65: column 2 (start of work) is the first that does not end in its place. \
             [1 sheet length]"),
        (&[], in_line(12, b"8198", b"198"),
            "p1.sheet:12: 64 bytes, not 65: column 1 (kind) is the first that does not end in its place. [1 sheet length]"),
        // Eight digits that nothing follows end in their place.
        (&[], in_line(5, b"    2000       1       1\n", b"12345678       1       1       0\n"),
            "p1.sheet:5: 73 bytes, not 65: 8 columns are due, not 9. [1 sheet length]"),
        (&[], with_end(5, b"// north"),
            "p1.sheet:5: 73 bytes, not 65: \"// north\" after column 8. [1 sheet length]"),
        (&[], [in_line(5, b"\n", b"")[..5 * LINE + 63].to_vec(), SHEET[6 * LINE..].to_vec()].concat(),
            "p1.sheet:5: 193 bytes, not 65: lines run together, with no newline between them. [1 sheet length]"),
        (&["beyond"], with_end(5, b"0"),
            "p1.sheet:5: 66 bytes, not 65: \"0\" after column 8. [1 sheet length]"),
        (&["columns"], in_line(5, b"       1\n", b"\n"),
            "p1.sheet:5: 57 bytes, not 65: 8 columns are due, not 7. [1 sheet length]"),
        (&[], with_end(5, b"       0"),
            "p1.sheet:5: 73 bytes, not 65: 8 columns are due, not 9. [1 sheet length]"),
        (&["run together"], in_line(5, b"\n", b""),
            "p1.sheet:5: 129 bytes, not 65: lines run together, with no newline between them. [1 sheet length]"),
        (&[], in_line(5, b"\n", b" ")[..12 * LINE - 1].to_vec(),
            "p1.sheet:5: 130 bytes, not 65: lines run together, with no newline between them. [1 sheet length]"),
        (&[], with_field(11, 9, b"\r")[..12 * LINE - 1].to_vec(),
            "p1.sheet:11: 129 bytes, not 65: lines run together, with no newline between them. [1 sheet length]"),
        // The second is no row.
        (&[], in_line(5, b"\n", b"  ")[..12 * LINE - 2].to_vec(),
            "p1.sheet:5: 131 bytes, not 65: \"        \".. after column 8. [1 sheet length]"),
    ]
}
