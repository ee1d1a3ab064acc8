//! Damage to tables and sheets, so that each refusal is met. Damage may also leave a table or sheet that is accepted.

mod dates;

use super::Random;
use super::house;
use girderbasil::{FIELD, LINE, MOST_ROWS, MOST_WALLS, ROW};

const ENDS: u32 = 3;
const WALL: u32 = 4;
const PARTS: u32 = 5;

/// Numbers just over a range, near the largest that a field holds, or large.
const LARGE: [u32; 14] = [
    4,
    101,
    301,
    499,
    8_192,
    20_001,
    50_001,
    65_536,
    99_999_999,
    100_000_000,
    0x8000_0000,
    0xffff_fff8,
    u32::MAX - 1,
    u32::MAX,
];

/// Bytes beside the digits and the space, and others that are easily taken for one of them.
const ODD_BYTES: [u8; 16] = [
    b'/', b':', b'\t', b'\n', b'\r', b'+', b'-', b'.', b'a', b'x', 0, 0x1f, 0x7f, 0x80, 0xa0, 0xff,
];

/// Damages a table once, or now and then twice.
pub fn damage_table(random: &mut Random, table: &mut Vec<u32>) {
    damage_table_once(random, table);
    if random.chance(25) {
        damage_table_once(random, table);
    }
}

fn damage_table_once(random: &mut Random, table: &mut Vec<u32>) {
    match random.below(23) {
        0 => change_number(random, table, |random, number| {
            number.wrapping_add(random.pick(&[1, 2, u32::MAX]))
        }),
        1 => change_number(random, table, |random, _| random.pick(&LARGE)),
        2 => change_number(random, table, |_, _| 0),
        3 => remove_row(random, table),
        4 => double_row(random, table),
        5 => swap_rows(random, table),
        6 => add_rows(random, table),
        7 => change_kind(random, table),
        8 => change_wall_storey(random, table),
        9 => table.truncate(random.below(table.len() + 1)),
        10 => break_length(random, table),
        11 => add_walls(random, table),
        12 => lengthen(random, table),
        13 => exceed_storey(random, table),
        14 => mark_absent_part(random, table),
        15 => remove_parts(random, table),
        16 => change_snow(random, table),
        17 => exceed_sets(random, table),
        18 => change_repaired(random, table),
        19 => use_unused_column(random, table, PARTS),
        _ => dates::damage_dates(random, table),
    }
}

fn rows(table: &[u32]) -> usize {
    table.len() / ROW
}

/// The indices of the first numbers of all rows of a kind.
fn starts_of(table: &[u32], kind: u32) -> Vec<usize> {
    (0..rows(table))
        .map(|row| row * ROW)
        .filter(|&start| table[start] == kind)
        .collect()
}

/// A row drawn at random, by the index of its first number.
fn any_row(random: &mut Random, table: &[u32]) -> Option<usize> {
    match rows(table) {
        0 => None,
        count => Some(random.below(count) * ROW),
    }
}

/// The last row of a kind.
fn last_row(table: &mut [u32], kind: u32) -> Option<&mut [u32; ROW]> {
    let rows = table.as_chunks_mut().0.iter_mut();
    rows.rev().find(|row| row[0] == kind)
}

fn change_number(random: &mut Random, table: &mut [u32], change: fn(&mut Random, u32) -> u32) {
    // Half of the time in the first rows, which a draw over long tables would seldom meet.
    let reach = if random.chance(50) {
        table.len().min(12 * ROW)
    } else {
        table.len()
    };
    if reach > 0 {
        let index = random.below(reach);
        table[index] = change(random, table[index]);
    }
}

fn remove_row(random: &mut Random, table: &mut Vec<u32>) {
    if let Some(start) = any_row(random, table) {
        table.drain(start..start + ROW);
    }
}

fn double_row(random: &mut Random, table: &mut Vec<u32>) {
    if let Some(start) = any_row(random, table) {
        let row = table[start..start + ROW].to_vec();
        table.splice(start..start, row);
    }
}

fn swap_rows(random: &mut Random, table: &mut [u32]) {
    if let (Some(one), Some(other)) = (any_row(random, table), any_row(random, table)) {
        for column in 0..ROW {
            table.swap(one + column, other + column);
        }
    }
}

/// Adds copies of rows after the last.
fn add_rows(random: &mut Random, table: &mut Vec<u32>) {
    for _ in 0..random.between(1, 3) {
        if let Some(start) = any_row(random, table) {
            table.extend_from_within(start..start + ROW);
        }
    }
}

fn change_kind(random: &mut Random, table: &mut [u32]) {
    if let Some(start) = any_row(random, table) {
        table[start] = random.between(0, 9);
    }
}

fn change_wall_storey(random: &mut Random, table: &mut [u32]) {
    let walls = starts_of(table, WALL);
    if !walls.is_empty() {
        table[random.pick(&walls) + 1] = random.between(0, 4);
    }
}

fn break_length(random: &mut Random, table: &mut Vec<u32>) {
    let count = random.between(1, 7) as usize;
    if random.chance(50) {
        table.extend(random.numbers(count));
    } else {
        table.truncate(table.len().saturating_sub(count));
    }
}

/// Makes of a house's walls 299 to 302; in a house of three storeys 301 are more rows than a table may have, unless its
/// last row goes, as it does now and then. Now and then a number of the last wall changes, so that a wall too many has
/// another fault.
fn add_walls(random: &mut Random, table: &mut Vec<u32>) {
    let walls = starts_of(table, WALL);
    let Some(&last) = walls.last() else { return };
    let wanted = MOST_WALLS - 1 + random.pick(&[0, 1, 2, 2, 3]);
    let missing = wanted.saturating_sub(walls.len());
    let row = table[last..last + ROW].to_vec();
    table.splice(last..last, row.repeat(missing));
    if random.chance(25) {
        let column = random.between(1, 7) as usize;
        table[last + missing * ROW + column] = random.pick(&[0, 1, 4, u32::MAX]);
    }
    if random.chance(25) {
        table.truncate(table.len() - ROW);
    }
}

/// Makes a table of as many rows as the longest has, one less, or up to nine more.
fn lengthen(random: &mut Random, table: &mut Vec<u32>) {
    let wanted = MOST_ROWS - 1 + random.below(11);
    while rows(table) > 0 && rows(table) < wanted {
        let start = (rows(table) - 1) * ROW;
        table.extend_from_within(start..start + ROW);
    }
}

/// Makes two ends the storey's area, or somewhat over it.
fn exceed_storey(random: &mut Random, table: &mut [u32]) {
    let ends = starts_of(table, ENDS);
    if ends.is_empty() {
        return;
    }
    let start = random.pick(&ends);
    let storey = table[start + 1] as usize;
    let area = table.get(storey.saturating_mul(ROW) + 2).copied();
    let over = random.pick(&[0, 1, 1, 2, 1_000]);
    if let Some(area) = area {
        let (one, other) = random.pick(&[(3, 4), (4, 3)]);
        table[start + one] = area
            .saturating_add(over)
            .saturating_sub(table[start + other]);
    }
}

fn mark_absent_part(random: &mut Random, table: &mut [u32]) {
    let part = 1 << random.below(13);
    if let Some([_, present, marked, ..]) = last_row(table, PARTS) {
        *present &= !part;
        *marked |= part;
    }
}

fn remove_parts(random: &mut Random, table: &mut [u32]) {
    let clear_marks = random.chance(75);
    if let Some([_, present, marked, ..]) = last_row(table, PARTS) {
        *present = 0;
        if clear_marks {
            *marked = 0;
        }
    }
}

/// Puts other snow into the house row, or a number just over that range.
fn change_snow(random: &mut Random, table: &mut [u32]) {
    if let Some([.., snow]) = table.first_chunk_mut::<ROW>() {
        *snow = random.between(0, 5);
    }
}

/// Puts a number over the range of sets into the parts row, for one of the two.
fn exceed_sets(random: &mut Random, table: &mut [u32]) {
    if let Some(row) = last_row(table, PARTS) {
        row[random.between(1, 2) as usize] = random.pick(&[8_192, 8_193, 16_383, 65_536, u32::MAX]);
    }
}

/// Puts another number for repaired or not into the parts row, most often one just over that range.
fn change_repaired(random: &mut Random, table: &mut [u32]) {
    let number = match random.below(8) {
        0 => random.pick(&LARGE),
        1 => random.between(0, 1),
        _ => random.between(2, 3),
    };
    if let Some([_, _, _, repaired, ..]) = last_row(table, PARTS) {
        *repaired = number;
    }
}

/// Puts a number into one of columns 5 to 8 of a row, which of parts and of dates are to be 0.
fn use_unused_column(random: &mut Random, table: &mut [u32], kind: u32) {
    if let Some(row) = last_row(table, kind) {
        row[random.between(4, 7) as usize] = random.pick(&[1, 2, 20_120_401, u32::MAX]);
    }
}

/// A table that may be damaged: accepted somewhat less than half of the time.
pub fn any_table(random: &mut Random) -> Vec<u32> {
    let mut table = house::house(random);
    if random.chance(65) {
        damage_table(random, &mut table);
    }
    table
}

/// Damages a sheet once, or now and then twice.
pub fn damage_sheet(random: &mut Random, sheet: &mut Vec<u8>) {
    damage_sheet_once(random, sheet);
    if random.chance(25) {
        damage_sheet_once(random, sheet);
    }
}

fn damage_sheet_once(random: &mut Random, sheet: &mut Vec<u8>) {
    match random.below(15) {
        0 => change_byte(random, sheet, |random| random.draw() as u8),
        1 => change_byte(random, sheet, |random| random.pick(&ODD_BYTES)),
        2 => change_byte(random, sheet, |random| random.pick(b"0123456789 ")),
        3 => change_field(random, sheet, |_, field| field.fill(b' ')),
        4 => change_field(random, sheet, put_leading_zero),
        5 => change_field(random, sheet, put_sign),
        6 => change_field(random, sheet, justify_left),
        7 => change_field(random, sheet, |random, field| {
            field.copy_from_slice(&random.bytes(FIELD));
        }),
        8 => remove_byte(random, sheet),
        9 => insert_byte(random, sheet),
        10 => end_lines_with_carriage_returns(random, sheet),
        11 => change_last_byte(random, sheet),
        12 => repeat_lines(random, sheet),
        13 => sheet.truncate(random.below(sheet.len() / LINE + 1) * LINE),
        _ => sheet.truncate(random.below(sheet.len() + 1)),
    }
}

fn change_byte(random: &mut Random, sheet: &mut [u8], draw: fn(&mut Random) -> u8) {
    if !sheet.is_empty() {
        let index = random.below(sheet.len());
        sheet[index] = draw(random);
    }
}

fn change_field(random: &mut Random, sheet: &mut [u8], change: fn(&mut Random, &mut [u8])) {
    let lines = sheet.len() / LINE;
    if lines > 0 {
        let start = random.below(lines) * LINE + random.below(8) * FIELD;
        change(random, &mut sheet[start..start + FIELD]);
    }
}

/// The place of a field's first character that isn't a space.
fn first_character(field: &[u8]) -> usize {
    field.iter().position(|&byte| byte != b' ').unwrap_or(0)
}

fn put_leading_zero(_: &mut Random, field: &mut [u8]) {
    let first = first_character(field);
    field[first.saturating_sub(1)] = b'0';
}

fn put_sign(random: &mut Random, field: &mut [u8]) {
    let first = first_character(field);
    field[first.saturating_sub(1)] = random.pick(b"+-");
}

/// Moves the number to the left, by some characters or all.
fn justify_left(random: &mut Random, field: &mut [u8]) {
    let spaces = first_character(field);
    field.rotate_left(random.below(spaces + 1));
}

fn remove_byte(random: &mut Random, sheet: &mut Vec<u8>) {
    if !sheet.is_empty() {
        sheet.remove(random.below(sheet.len()));
    }
}

fn insert_byte(random: &mut Random, sheet: &mut Vec<u8>) {
    let byte = random.pick(b" 0\n");
    sheet.insert(random.below(sheet.len() + 1), byte);
}

/// One line or all of them, with a byte more or in place of the line feed.
fn end_lines_with_carriage_returns(random: &mut Random, sheet: &mut Vec<u8>) {
    let all = random.chance(50);
    let end: &[u8] = if random.chance(50) { b"\r\n" } else { b"\r" };
    let chosen = random.below(sheet.len() / LINE + 1);
    let (lines, rest) = sheet.as_chunks::<LINE>();
    let mut changed = Vec::new();
    for (index, line) in lines.iter().enumerate() {
        if all || index == chosen {
            changed.extend_from_slice(&line[..LINE - 1]);
            changed.extend_from_slice(end);
        } else {
            changed.extend_from_slice(line);
        }
    }
    changed.extend_from_slice(rest);
    *sheet = changed;
}

fn change_last_byte(random: &mut Random, sheet: &mut [u8]) {
    let lines = sheet.len() / LINE;
    if lines > 0 {
        sheet[random.below(lines) * LINE + LINE - 1] =
            random.pick(&[0, b' ', b'0', b'\r', 11, 138]);
    }
}

/// Repeats the sheet's lines until it has one less than the longest, as many, or up to two more.
fn repeat_lines(random: &mut Random, sheet: &mut Vec<u8>) {
    let wanted = (MOST_ROWS - 1 + random.below(4)) * LINE;
    if !sheet.is_empty() {
        *sheet = sheet.iter().copied().cycle().take(wanted).collect();
    }
}
