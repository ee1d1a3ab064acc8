//! Refusal 2: fields that are no number, and lines that do not end.

use girderbasil::LINE;

use super::{Case, with_field};

#[rustfmt::skip]
pub fn fields() -> Vec<Case> {
    vec![
        (&["blank", "of a column", "column"], with_field(5, 6, b"        "),
            "p1.sheet:5: column 6 (length): it is blank. [2 misprint]"),
        (&["leading zero", "misprint"], with_field(5, 6, b"   02000"),
            "p1.sheet:5: column 6 (length): \"   02000\": a leading zero. [2 misprint]"),
        (&[], with_field(2, 8, b"      00"),
            "p1.sheet:2: column 8 (unused in a storey row): \"      00\": a leading zero. [2 misprint]"),
        (&["sign"], with_field(5, 6, b"   +2000"),
            "p1.sheet:5: column 6 (length): \"   +2000\": a sign. [2 misprint]"),
        (&[], with_field(5, 6, b"   -2000"),
            "p1.sheet:5: column 6 (length): \"   -2000\": a sign. [2 misprint]"),
        (&["space after"], with_field(5, 6, b"   2000 "),
            "p1.sheet:5: column 6 (length): \"   2000 \": a space after the number. [2 misprint]"),
        (&[], with_field(5, 6, b"  2 000 "),
            "p1.sheet:5: column 6 (length): \"  2 000 \": a space between digits. [2 misprint]"),
        (&["space between"], with_field(5, 6, b"   2 000"),
            "p1.sheet:5: column 6 (length): \"   2 000\": a space between digits. [2 misprint]"),
        (&[], with_field(1, 2, b"  3    1"),
            "p1.sheet:1: column 2 (storeys): \"  3    1\": a space between digits. [2 misprint]"),
        (&["point"], with_field(5, 5, b"     2.0"),
            "p1.sheet:5: column 5 (strength): \"     2.0\": a decimal point. [2 misprint]"),
        (&["letter"], with_field(1, 6, b"      II"),
            "p1.sheet:1: column 6 (foundation): \"      II\": a letter. [2 misprint]"),
        (&[], with_field(1, 6, "     ２".as_bytes()),
            "p1.sheet:1: column 6 (foundation): \"     ２\": a full-width digit. [2 misprint]"),
        // ２ in Shift JIS.
        (&[], with_field(1, 6, b"      \x82\x51"),
            "p1.sheet:1: column 6 (foundation): \"      \\x82Q\": a full-width digit. [2 misprint]"),
        // ア in Shift JIS, whose second byte is A's.
        (&[], with_field(1, 6, b"      \x83\x41"),
            "p1.sheet:1: column 6 (foundation): \"      \\x83A\": a full-width character. [2 misprint]"),
        (&[], with_field(1, 6, b"     1\x81\x40"),
            "p1.sheet:1: column 6 (foundation): \"     1\\x81@\": a full-width space. [2 misprint]"),
        (&[], with_field(1, 6, b"       \xb2"),
            "p1.sheet:1: column 6 (foundation): \"       \\xb2\": a character that is no digit. [2 misprint]"),
        // In UTF-8 the last byte of あ and Q are no ２, which they are in Shift JIS.
        (&[], with_field(1, 6, "    あQ".as_bytes()),
            "p1.sheet:1: column 6 (foundation): \"    あQ\": a full-width character. [2 misprint]"),
        (&[], with_field(1, 6, "  \u{3000}  2".as_bytes()),
            "p1.sheet:1: column 6 (foundation): \"  \\u{3000}  2\": a full-width space. [2 misprint]"),
        (&[], with_field(1, 6, "     Ａ".as_bytes()),
            "p1.sheet:1: column 6 (foundation): \"     Ａ\": a full-width character. [2 misprint]"),
        (&[], with_field(1, 6, "      é".as_bytes()),
            "p1.sheet:1: column 6 (foundation): \"      é\": a character that is no digit. [2 misprint]"),
        (&[], with_field(5, 6, b"   2,000"),
            "p1.sheet:5: column 6 (length): \"   2,000\": a comma. [2 misprint]"),
        // One comma does not stand in place of the columns.
        (&[], with_field(1, 4, b"    1,00"),
            "p1.sheet:1: column 4 (zone): \"    1,00\": a comma. [2 misprint]"),
        (&["character"], with_field(5, 6, b"    2'00"),
            "p1.sheet:5: column 6 (length): \"    2'00\": a character that is no digit. [2 misprint]"),
        (&[], with_field(5, 6, b"   \"200\""),
            "p1.sheet:5: column 6 (length): \"   \"200\"\": a character that is no digit. [2 misprint]"),
        (&[], with_field(5, 6, b"   2\\000"),
            "p1.sheet:5: column 6 (length): \"   2\\\\000\": a character that is no digit. [2 misprint]"),
        (&[], with_field(5, 6, b"\t\0\x7f\xff   1"),
            "p1.sheet:5: column 6 (length): \"\\t\\0\\u{7f}\\xff   1\": a character that is no digit. [2 misprint]"),
        (&[], with_field(5, 6, "     \u{a0}1".as_bytes()),
            "p1.sheet:5: column 6 (length): \"     \\u{a0}1\": a character that is no digit. [2 misprint]"),
        (&["line end"], with_field(5, 9, b"0"),
            "p1.sheet:5: after column 8 (told as column 9): \"0\" where the line should end. [2 misprint]"),
        (&[], with_field(5, 9, b"\r"),
            "p1.sheet:5: after column 8 (told as column 9): \"\\r\" where the line should end. [2 misprint]"),
        (&[], with_field(12, 9, b" "),
            "p1.sheet:12: after column 8 (told as column 9): \" \" where the line should end. [2 misprint]"),
        // The lines ran together, and one of them has a field that comes first.
        (&[], [&with_field(4, 8, b"       x")[..5 * LINE - 1], &with_field(5, 9, b"0")[5 * LINE - 1..]].concat(),
            "p1.sheet:4: column 8 (unused in an ends row): \"       x\": a letter. [2 misprint]"),
        // Without its kind a row's columns have no names.
        (&[], with_field(5, 1, b"       x"),
            "p1.sheet:5: column 1 (kind): \"       x\": a letter. [2 misprint]"),
        (&["no name"], with_field(5, 1, b"       9       x"),
            "p1.sheet:5: column 2: \"       x\": a letter. [2 misprint]"),
    ]
}
