//! Makers of what a surveyor has on site, good and bad, and of calls for it.

use super::Random;
use super::{damage, house};
use crate::model::score::Diagnosis;
use crate::model::site::MOST_TOTAL;
use crate::site::Change;
use girderbasil::Totals;
use girderbasil::{MOST_ROWS, ROW};

const WALL: u32 = 4;

/// Totals on and beside the ends of their range, and the largest there is.
const TOTALS: [u64; 7] = [
    0,
    1,
    MOST_TOTAL - 1,
    MOST_TOTAL,
    MOST_TOTAL + 1,
    1 << 63,
    u64::MAX,
];

/// Numbers that are out of the range of one or another column.
const ODD: [u32; 8] = [0, 3, 4, 5, 301, 20_001, 1 << 31, u32::MAX];

/// A lent table and a record for it. The table's first rows are a house's, which may be damaged, or more or fewer than the
/// record counts; the others are of any numbers.
pub fn lent_and_totals(random: &mut Random) -> (Vec<u32>, Totals) {
    let mut lent = match random.below(10) {
        0..=3 => damage::any_table(random),
        4..=5 => {
            let storeys = random.between(1, 3);
            let walls = random.between(298, 300);
            house::with_walls(random, storeys, walls)
        }
        _ => house::house(random),
    };
    let rows = lent.len() / ROW;
    let held = held(random, &lent);
    let room = room(random, lent.len());
    lent.extend(random.numbers(room));
    let rows = count(random, rows as u32, (lent.len() / ROW) as u32);
    (lent, Totals { held, rows })
}

/// Half of the time what the walls hold. Else some totals are others, all of them now and then.
fn held(random: &mut Random, table: &[u32]) -> [u64; 6] {
    let sums = Diagnosis::of(table).map(|house| house.sums());
    let mut held = sums.unwrap_or_default();
    let others = match random.below(8) {
        0..=3 => vec![],
        4..=5 => vec![random.below(6)],
        6 => vec![random.below(6), random.below(6)],
        _ => (0..6).collect(),
    };
    for place in others {
        held[place] = match random.below(4) {
            0 => random.draw() % (1 << 37),
            _ => random.pick(&TOTALS),
        };
    }
    held
}

/// How many numbers are lent beyond a house's: none, too few for a row, one row, or all sorts of more.
fn room(random: &mut Random, used: usize) -> usize {
    match random.below(8) {
        0 => 0,
        1 => random.between(1, 7) as usize,
        2 => ROW,
        3 => random.between(9, 15) as usize,
        4 => (MOST_ROWS * ROW).saturating_sub(used),
        _ => random.between(0, 300) as usize,
    }
}

/// A count of rows in use: most often the house's.
fn count(random: &mut Random, rows: u32, lent: u32) -> u32 {
    match random.below(24) {
        0 => 0,
        1 => rows.saturating_sub(1),
        2 => rows + 1,
        3 => lent + 1,
        4 => random.pick(&[lent, 1 << 29, 1 << 31, u32::MAX]),
        _ => rows,
    }
}

/// A call for it; the two that change the table more often than a start.
pub fn change(random: &mut Random, lent: &[u32], totals: &Totals) -> Change {
    match random.below(10) {
        0 => Change::Start,
        1..=5 => Change::Add(wall(random, lent)),
        _ => Change::Delete(row(random, lent, totals)),
    }
}

/// A wall to be added: one that the house may have, or now and then with a number that is out of its range.
pub fn wall(random: &mut Random, lent: &[u32]) -> [u32; ROW] {
    let storeys = lent.get(1).map_or(1, |&storeys| storeys.clamp(1, 3));
    let storey = random.between(1, storeys);
    let mut wall = house::extreme_wall(random, storey);
    match random.below(12) {
        0 => wall[1] = random.pick(&[0, storeys + 1, u32::MAX]),
        1 => wall[random.below(ROW)] = random.pick(&ODD),
        _ => {}
    }
    wall
}

/// A row to be deleted: most often a wall's.
pub fn row(random: &mut Random, lent: &[u32], totals: &Totals) -> u32 {
    let rows = lent.as_chunks::<ROW>().0;
    let in_use = &rows[..rows.len().min(totals.rows as usize)];
    let is_wall = |row: &u32| in_use[*row as usize - 1][0] == WALL;
    let walls: Vec<u32> = (1..=in_use.len() as u32).filter(is_wall).collect();
    match random.below(10) {
        0 => random.between(0, in_use.len() as u32 + 1),
        1 => random.pick(&[0, 1, totals.rows, u32::MAX]),
        _ if walls.is_empty() => 0,
        _ => random.pick(&walls),
    }
}
