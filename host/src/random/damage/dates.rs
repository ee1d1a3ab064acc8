//! Damage to the dates row, and to the age that is no longer given.

use super::{PARTS, last_row, starts_of, use_unused_column};
use crate::days;
use crate::random::Random;
use girderbasil::ROW;

const DATES: u32 = 8;

/// Numbers within the range of days that are none: 29 February in other than leap years, the day after the last of a
/// month, months and days 0, month 13.
const NO_DAYS: [u32; 22] = [
    19_000_132, 19_000_229, 19_000_230, 19_810_229, 19_810_532, 20_000_001, 20_000_100, 20_000_230,
    20_010_000, 20_010_229, 20_010_231, 20_010_431, 20_010_631, 20_010_931, 20_011_131, 20_011_232,
    20_011_301, 20_019_999, 21_000_229, 21_001_301, 21_990_031, 21_991_200,
];

/// Numbers just outside that range, or far.
const OUTSIDE: [u32; 8] = [
    0,
    1,
    18_991_231,
    19_000_100,
    21_991_232,
    22_000_101,
    99_999_999,
    u32::MAX,
];

/// Damages the dates once, or now and then twice, so that a row has faults of two sorts.
pub fn damage_dates(random: &mut Random, table: &mut Vec<u32>) {
    damage_dates_once(random, table);
    if random.chance(25) {
        damage_dates_once(random, table);
    }
}

fn damage_dates_once(random: &mut Random, table: &mut Vec<u32>) {
    match random.below(11) {
        0 => put_date(random, table, |random| random.pick(&NO_DAYS)),
        1 => put_date(random, table, |random| {
            random.between(days::FIRST, days::LAST)
        }),
        2 => put_date(random, table, |random| random.pick(&OUTSIDE)),
        3 => put_date(random, table, |random| random.pick(days::all())),
        4 => exchange_dates(random, table),
        5 => put_day_before(random, table),
        6 => use_unused_column(random, table, DATES),
        7 => remove_dates(table),
        8 => double_dates(table),
        9 => move_before_parts(table),
        _ => give_age(random, table),
    }
}

/// Puts a number into one of the three columns of dates.
fn put_date(random: &mut Random, table: &mut [u32], draw: fn(&mut Random) -> u32) {
    if let Some(row) = last_row(table, DATES) {
        row[random.between(1, 3) as usize] = draw(random);
    }
}

fn exchange_dates(random: &mut Random, table: &mut [u32]) {
    let (one, other) = random.pick(&[(1, 2), (2, 3), (1, 3)]);
    if let Some(row) = last_row(table, DATES) {
        row.swap(one, other);
    }
}

/// Makes a date the day before the one to its left.
fn put_day_before(random: &mut Random, table: &mut [u32]) {
    let column = random.between(2, 3) as usize;
    if let Some(row) = last_row(table, DATES) {
        row[column] = days::previous(row[column - 1].min(days::LAST));
    }
}

fn remove_dates(table: &mut Vec<u32>) {
    if let Some(&start) = starts_of(table, DATES).last() {
        table.drain(start..start + ROW);
    }
}

fn double_dates(table: &mut Vec<u32>) {
    if let Some(&start) = starts_of(table, DATES).last() {
        table.extend_from_within(start..start + ROW);
    }
}

fn move_before_parts(table: &mut [u32]) {
    let starts = [DATES, PARTS].map(|kind| starts_of(table, kind).last().copied());
    if let [Some(dates), Some(parts)] = starts {
        for column in 0..ROW {
            table.swap(dates + column, parts + column);
        }
    }
}

/// Puts an age into the house row, as sheets had it before there were dates, or a number just over that range.
fn give_age(random: &mut Random, table: &mut [u32]) {
    if let Some([.., age, _]) = table.first_chunk_mut::<ROW>() {
        *age = random.between(1, 3);
    }
}
