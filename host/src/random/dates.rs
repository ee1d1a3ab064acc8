//! Makers of dates rows that scoring refuses on no ground, with days on and beside those where something changes.

use super::Random;
use crate::days;

/// Starts of work: the first day, and days up to and after 31 May 1981.
const STARTS: [u32; 7] = [
    days::FIRST,
    19_810_530,
    19_810_531,
    19_810_531,
    19_810_601,
    19_810_601,
    19_810_602,
];

/// Completions: about the end of February in years that end in 00; on the last day after which a house is ten by the
/// calendar's end, and later, so that it never is.
const COMPLETIONS: [u32; 11] = [
    19_000_228,
    19_000_301,
    20_000_228,
    20_000_229,
    20_000_301,
    21_000_228,
    21_000_301,
    21_891_231,
    21_900_101,
    21_950_101,
    days::LAST,
];

/// A dates row whose days are in order. Half of the houses are ten.
pub fn dates_row(random: &mut Random) -> [u32; 8] {
    let start = start(random);
    let completion = completion(random, start);
    let survey = survey(random, completion);
    [8, start, completion, survey, 0, 0, 0, 0]
}

fn start(random: &mut Random) -> u32 {
    match random.below(20) {
        0 => days::LAST,
        1..=9 => random.pick(&STARTS),
        _ => between(random, days::FIRST, days::LAST),
    }
}

/// A completion on the day on which work started or later.
fn completion(random: &mut Random, start: u32) -> u32 {
    match random.below(6) {
        0 => start,
        1 => pick_from(random, &COMPLETIONS, start),
        2 => pick_from(random, days::leap_days(), start),
        3 => between(random, start, days::LAST),
        // Within three years, as usual.
        _ => between(random, start, (start + 30_000).min(days::LAST)),
    }
}

/// A survey day on the completion or later. Some houses are completed too late to be ten; of the others somewhat more than
/// half are, so that it is half of all.
fn survey(random: &mut Random, completion: u32) -> u32 {
    match days::ten_years_after(completion) {
        Some(ten) if random.chance(58) => later(random, ten),
        Some(ten) => between_often_extreme(random, completion, days::previous(ten)),
        None => between_often_extreme(random, completion, days::LAST),
    }
}

/// A day from one on up to the last, often that one, the next or the last.
pub fn later(random: &mut Random, day: u32) -> u32 {
    between_often_extreme(random, day, days::LAST)
}

fn between(random: &mut Random, first: u32, last: u32) -> u32 {
    day_at(random, first, last, Random::between)
}

fn between_often_extreme(random: &mut Random, first: u32, last: u32) -> u32 {
    day_at(random, first, last, Random::often_extreme)
}

/// A day from one up to a number, which need not be a day itself, by a draw among their places.
fn day_at(
    random: &mut Random,
    first: u32,
    last: u32,
    draw: fn(&mut Random, u32, u32) -> u32,
) -> u32 {
    let most = days::before(last + 1) - 1;
    let place = draw(random, days::before(first) as u32, most as u32);
    days::all()[place as usize]
}

/// One of some days, which stand in order, that isn't before another; the last day where there is none.
fn pick_from(random: &mut Random, choices: &[u32], first: u32) -> u32 {
    match &choices[choices.partition_point(|&day| day < first)..] {
        [] => days::LAST,
        choices => random.pick(choices),
    }
}
