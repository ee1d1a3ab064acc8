//! Refusals 3 to 11: what is wrong with a table's rows.

use girderbasil::{FIELD, LINE, ROW};
use girderbasil_tests::worked::{MANUAL_TABLE, TABLE};

use super::{Case, changed, written};

/// P1's sheet up to a row, and from another row on.
fn without(after: usize, from: usize) -> Vec<u8> {
    written(&[&TABLE[..after * ROW], &TABLE[(from - 1) * ROW..]].concat())
}

/// The manual's house, of two storeys, with some of its numbers changed: (row, column, number).
fn manual(changes: &[(usize, usize, u32)]) -> Vec<u8> {
    let mut table = MANUAL_TABLE;
    for &(row, column, number) in changes {
        table[(row - 1) * ROW + column - 1] = number;
    }
    written(&table)
}

/// P1 with so many more walls, each like its last.
fn with_walls(more: usize) -> Vec<u8> {
    let wall = &TABLE[9 * ROW..10 * ROW];
    written(&[&TABLE[..10 * ROW], &wall.repeat(more), &TABLE[10 * ROW..]].concat())
}

/// P1 with so many walls, and its parts row of another kind.
fn of_walls(walls: usize, kind: u32) -> Vec<u8> {
    let mut sheet = with_walls(walls - 6);
    let parts = sheet.len() - 2 * LINE;
    sheet[parts..parts + FIELD].copy_from_slice(format!("{kind:>FIELD$}").as_bytes());
    sheet
}

#[rustfmt::skip]
pub fn order() -> Vec<Case> {
    vec![
        (&["due", "found"], changed(&[(1, 1, 2)]),
            "p1.sheet:1: row of kind 1 (house) is due, found kind 2. [3 row out of order]"),
        (&["due by house", "of storey", "storeys"], changed(&[(1, 2, 2)]),
            "p1.sheet:3: row of kind 2 (storey 2) is due, found kind 3; the house row says 2 storeys. [3 row out of order]"),
        (&["found storey", "1 storey"], changed(&[(2, 2, 2)]),
            "p1.sheet:2: row of kind 2 (storey 1) is due, found storey 2; the house row says 1 storey. [3 row out of order]"),
        (&["of direction"], changed(&[(3, 1, 4)]),
            "p1.sheet:3: row of kind 3 (ends of storey 1, direction X) is due, found kind 4; the house row says 1 storey. \
             [3 row out of order]"),
        (&["found direction"], changed(&[(4, 3, 1)]),
            "p1.sheet:4: row of kind 3 (ends of storey 1, direction Y) is due, found storey 1, direction X; \
             the house row says 1 storey. [3 row out of order]"),
        (&[], manual(&[(6, 3, 7)]),
            "p1.sheet:6: row of kind 3 (ends of storey 2, direction X) is due, found storey 2, direction 7; \
             the house row says 2 storeys. [3 row out of order]"),
        // After 300 walls there may be no other.
        (&[], of_walls(300, 8),
            "p1.sheet:305: row of kind 5 (parts) is due, found kind 8. [3 row out of order]"),
        (&[], of_walls(299, 8),
            "p1.sheet:304: row of kind 4 (wall) or 5 (parts) is due, found kind 8. [3 row out of order]"),
        (&["due after walls"], without(10, 12),
            "p1.sheet:11: row of kind 4 (wall) or 5 (parts) is due, found kind 8. [3 row out of order]"),
        (&[], changed(&[(12, 1, 5)]),
            "p1.sheet:12: row of kind 8 (dates) is due, found kind 5. [3 row out of order]"),
        (&["none due"], without(12, 12),
            "p1.sheet:13: no row may follow the dates row, but one of kind 8 does. [3 row out of order]"),
        (&["falls"], manual(&[(25, 2, 1)]),
            "p1.sheet:25: a wall of storey 1 after one of storey 2; walls come from the lowest storey up. \
             [3 row out of order]"),
        (&["sheet ends"], without(11, 13),
            "p1.sheet:12: row of kind 8 (dates) is due, but the sheet ends here. [3 row out of order]"),
        (&[], without(10, 13),
            "p1.sheet:11: row of kind 4 (wall) or 5 (parts) is due, but the sheet ends here. [3 row out of order]"),
        (&[], without(4, 13),
            "p1.sheet:5: row of kind 4 (wall) or 5 (parts) is due, but the sheet ends here. [3 row out of order]"),
        (&[], without(3, 13),
            "p1.sheet:4: row of kind 3 (ends of storey 1, direction Y) is due, but the sheet ends here; \
             the house row says 1 storey. [3 row out of order]"),
        (&[], without(1, 13),
            "p1.sheet:2: row of kind 2 (storey 1) is due, but the sheet ends here; the house row says 1 storey. \
             [3 row out of order]"),
    ]
}

#[rustfmt::skip]
pub fn ranges() -> Vec<Case> {
    vec![
        (&["choice", "comma", "or"], changed(&[(1, 4, 95)]),
            "p1.sheet:1: column 4 (zone): 95 is not 70, 80, 90 or 100. [4 out of range]"),
        (&["meaning"], changed(&[(1, 3, 4)]),
            "p1.sheet:1: column 3 (weight class): 4 is not 1 (light), 2 (heavy) or 3 (very heavy). [4 out of range]"),
        (&["range"], changed(&[(1, 2, 4)]),
            "p1.sheet:1: column 2 (storeys): 4 is not from 1 to 3. [4 out of range]"),
        (&["unit"], changed(&[(2, 3, 50_001)]),
            "p1.sheet:2: column 3 (floor area): 50001 is not from 1 to 50000, in units of 0.01 m². [4 out of range]"),
        (&[], changed(&[(2, 4, 499)]),
            "p1.sheet:2: column 4 (short side): 499 is not from 500 to 50000, in mm. [4 out of range]"),
        (&[], changed(&[(3, 4, 0)]),
            "p1.sheet:3: column 4 (area of end quarter a): 0 is not from 1 to 50000, in units of 0.01 m². [4 out of range]"),
        (&[], changed(&[(3, 5, 0)]),
            "p1.sheet:3: column 5 (area of end quarter b): 0 is not from 1 to 50000, in units of 0.01 m². [4 out of range]"),
        (&[], changed(&[(5, 5, 301)]),
            "p1.sheet:5: column 5 (strength): 301 is not from 1 to 300, in units of 0.1 kN/m. [4 out of range]"),
        (&[], changed(&[(5, 6, 0)]),
            "p1.sheet:5: column 6 (length): 0 is not from 1 to 20000, in mm. [4 out of range]"),
        (&["opening"], changed(&[(6, 5, 20)]),
            "p1.sheet:6: column 5 (strength): 20, but a window has 0. [4 out of range]"),
        (&[], changed(&[(6, 7, 1), (6, 8, 3)]),
            "p1.sheet:6: column 7 (joint): 1, but a full-height opening has 0. [4 out of range]"),
        (&[], changed(&[(5, 7, 5)]),
            "p1.sheet:5: column 7 (joint): 5 is not 1 (I), 2 (II), 3 (III) or 4 (IV). [4 out of range]"),
        (&["no opening"], changed(&[(6, 8, 4)]),
            "p1.sheet:6: column 5 (strength): 0 is not from 1 to 300, in units of 0.1 kN/m. Only a window or a full-height \
             opening (type 2 or 3) has 0 here, and this wall's type is 4. [4 out of range]"),
        (&[], changed(&[(5, 7, 0)]),
            "p1.sheet:5: column 7 (joint): 0 is not 1 (I), 2 (II), 3 (III) or 4 (IV). Only a window or a full-height opening \
             (type 2 or 3) has 0 here, and this wall's type is 1. [4 out of range]"),
        (&["range by house"], manual(&[(22, 2, 3), (23, 2, 3)]),
            "p1.sheet:22: column 2 (storey of a wall): 3 is not from 1 to 2; the house row says 2 storeys. [4 out of range]"),
        (&["one by house"], changed(&[(10, 2, 2)]),
            "p1.sheet:10: column 2 (storey of a wall): 2 is not 1; the house row says 1 storey. [4 out of range]"),
        (&["one by storeys"], changed(&[(3, 6, 2)]),
            "p1.sheet:3: column 6 (storeys of the part at a): 2 is not 1; this row's storey is 1, and the house row says \
             1 storey. [4 out of range]"),
        (&["range by storeys"], manual(&[(4, 7, 3)]),
            "p1.sheet:4: column 7 (storeys of the part at b): 3 is not from 1 to 2; this row's storey is 1, and the house row \
             says 2 storeys. [4 out of range]"),
        (&[], manual(&[(6, 7, 1)]),
            "p1.sheet:6: column 7 (storeys of the part at b): 1 is not 2; this row's storey is 2, and the house row says \
             2 storeys. [4 out of range]"),
        (&["unused"], changed(&[(4, 8, 5)]),
            "p1.sheet:4: column 8 (unused in an ends row): 5 is not 0. [4 out of range]"),
        (&[], changed(&[(2, 7, 1)]),
            "p1.sheet:2: column 7 (unused in a storey row): 1 is not 0. [4 out of range]"),
        (&[], changed(&[(12, 5, 1)]),
            "p1.sheet:12: column 5 (unused in a dates row): 1 is not 0. [4 out of range]"),
        (&[], changed(&[(11, 4, 2)]),
            "p1.sheet:11: column 4 (repaired, in a parts row): 2 is not 0 (not repaired) or 1 (repaired). [4 out of range]"),
        // A wall with the kind of the parts, and the parts with a wall's.
        (&[], changed(&[(5, 1, 5)]),
            "p1.sheet:5: column 5 (unused in a parts row): 20 is not 0. [4 out of range]"),
        (&[], changed(&[(11, 1, 4)]),
            "p1.sheet:11: column 2 (storey of a wall): 8191 is not 1; the house row says 1 storey. [4 out of range]"),
        (&[], changed(&[(1, 8, 4)]),
            "p1.sheet:1: column 8 (snow): 4 is not 0 (none), 1 (1 m, roof cleared), 2 (2 m) or 3 (2.5 m). [4 out of range]"),
        (&[], changed(&[(2, 6, 2)]),
            "p1.sheet:2: column 6 (void): 2 is not 0 (no void of 4 m or more) or 1 (a void of 4 m or more). \
             [4 out of range]"),
        (&[], changed(&[(11, 2, 8192)]),
            "p1.sheet:11: column 2 (present set): 8192 is not from 1 to 8191. [4 out of range]"),
        (&["age"], changed(&[(1, 7, 2)]),
            "p1.sheet:1: column 7 (age): 2 is not 0; in old sheets the age stood here, which the dates row (kind 8) \
             replaces. [4 out of range]"),
        (&[], changed(&[(12, 2, 18_991_231)]),
            "p1.sheet:12: column 2 (start of work): 18991231 is not from 19000101 to 21991231, written as year, month and day \
             in eight digits. [4 out of range]"),
    ]
}

#[rustfmt::skip]
pub fn house() -> Vec<Case> {
    vec![
        (&["wall"], with_walls(295),
            "p1.sheet:305: this is wall 301, but a house has at most 300 walls. [5 too many walls]"),
        (&["ends"], changed(&[(3, 4, 2000), (3, 5, 2001)]),
            "p1.sheet:3: column 4 (area of end quarter a): the areas of end quarters a and b, 2000 and 2001, add up to 4001, \
             but storey 1 has 4000 (line 2), in units of 0.01 m². [6 ends exceed storey]"),
        (&[], manual(&[(7, 4, 4000)]),
            "p1.sheet:7: column 4 (area of end quarter a): the areas of end quarters a and b, 4000 and 1242, add up to 5242, \
             but storey 2 has 4968 (line 3), in units of 0.01 m². [6 ends exceed storey]"),
        (&["absent"], changed(&[(11, 2, 8183)]),
            "p1.sheet:11: column 3 (marked set): marked but not present: outer wall. [7 mark on absent part]"),
        (&[], changed(&[(11, 2, 8189), (11, 3, 2)]),
            "p1.sheet:11: column 3 (marked set): marked but not present: eaves gutter. [7 mark on absent part]"),
        (&["and"], changed(&[(11, 2, 1), (11, 3, 4098)]),
            "p1.sheet:11: column 3 (marked set): marked but not present: eaves gutter and underfloor. \
             [7 mark on absent part]"),
        (&[], changed(&[(11, 2, 0), (11, 3, 513)]),
            "p1.sheet:11: column 3 (marked set): marked but not present: roofing and bath wall. [7 mark on absent part]"),
        (&[], changed(&[(11, 2, 7), (11, 3, 56)]),
            "p1.sheet:11: column 3 (marked set): marked but not present: outer wall, exposed frame and balcony rail. \
             [7 mark on absent part]"),
        (&["no parts"], changed(&[(11, 2, 0), (11, 3, 0)]),
            "p1.sheet:11: column 2 (present set): no part is present; the set is the sum of the numbers of the parts \
             that the house has. [8 no parts]"),
    ]
}

#[rustfmt::skip]
pub fn dates() -> Vec<Case> {
    vec![
        (&["no month"], changed(&[(12, 2, 20_011_301)]),
            "p1.sheet:12: column 2 (start of work): 20011301 is no day: there is no month 13. [10 no such day]"),
        (&[], changed(&[(12, 3, 20_010_001)]),
            "p1.sheet:12: column 3 (completion): 20010001 is no day: there is no month 0. [10 no such day]"),
        (&["no day"], changed(&[(12, 4, 20_120_400)]),
            "p1.sheet:12: column 4 (survey day): 20120400 is no day: there is no day 0. [10 no such day]"),
        (&["days"], changed(&[(12, 2, 20_010_231)]),
            "p1.sheet:12: column 2 (start of work): 20010231 is no day: February 2001 has 28 days. [10 no such day]"),
        (&[], changed(&[(12, 2, 20_000_230)]),
            "p1.sheet:12: column 2 (start of work): 20000230 is no day: February 2000 has 29 days. [10 no such day]"),
        (&[], changed(&[(12, 2, 19_000_229)]),
            "p1.sheet:12: column 2 (start of work): 19000229 is no day: February 1900 has 28 days. [10 no such day]"),
        (&[], changed(&[(12, 2, 20_040_230)]),
            "p1.sheet:12: column 2 (start of work): 20040230 is no day: February 2004 has 29 days. [10 no such day]"),
        (&[], changed(&[(12, 4, 20_120_431)]),
            "p1.sheet:12: column 4 (survey day): 20120431 is no day: April 2012 has 30 days. [10 no such day]"),
        (&["before", "date"], changed(&[(12, 3, 19_800_331)]),
            "p1.sheet:12: column 3 (completion): 1980-03-31 is before the start of work, 1980-04-01. \
             [11 dates out of order]"),
        (&[], changed(&[(12, 4, 19_800_930)]),
            "p1.sheet:12: column 4 (survey day): 1980-09-30 is before the completion, 1980-10-01. \
             [11 dates out of order]"),
    ]
}
