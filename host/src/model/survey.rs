//! "The sheet and the table", its kinds of rows, and "What a refused sheet is told", as scoring tests them.

use std::ops::RangeInclusive;

use super::calendar::{Dates, Day};
use super::refusal_at;
use super::sheet::{Row, whole_rows};
use girderbasil::Refusal;
use girderbasil::{MOST_WALLS, ROW};

const HOUSE: u32 = 1;
const STOREY: u32 = 2;
const ENDS: u32 = 3;
const WALL: u32 = 4;
const PARTS: u32 = 5;
const DATES: u32 = 8;

/// The largest set of parts: all thirteen items.
const ALL_PARTS: u32 = 8191;

/// "from 19000101 to 21991231, else number 4".
const DAYS: RangeInclusive<u32> = 19_000_101..=21_991_231;

/// A table that scoring refuses on no ground.
#[derive(Debug, Clone, Copy)]
pub struct Survey<'table> {
    pub house: House,
    pub parts: Parts,
    pub dates: Dates,
    storeys: &'table [Row],
    ends: &'table [Row],
    walls: &'table [Row],
}

/// Weight class, ground and foundation are document 01's numbers for them; the zone is in hundredths. Snow is document
/// 02's: 0 none, 1 for 1 m cleared, 2 for 2 m, 3 for 2.5 m.
#[derive(Debug, Clone, Copy)]
pub struct House {
    pub storeys: u32,
    pub weight: u32,
    pub zone: u32,
    pub ground: u32,
    pub foundation: u32,
    pub snow: u32,
}

/// The area is in 0.01 m², the short side in mm.
#[derive(Debug, Clone, Copy)]
pub struct Storey {
    pub number: u32,
    pub area: u32,
    pub short_side: u32,
    pub floor: u32,
    pub void: bool,
}

/// The end quarters a and b of a storey in a direction: their areas, and the storeys of the parts they stand in.
#[derive(Debug, Clone, Copy)]
pub struct Ends {
    pub areas: [u32; 2],
    pub storeys: [u32; 2],
}

/// The length is in mm.
#[derive(Debug, Clone, Copy)]
pub struct Wall {
    pub storey: u32,
    pub direction: u32,
    pub place: u32,
    pub length: u32,
    pub kind: WallKind,
}

/// The strength is in 0.1 kN/m.
#[derive(Debug, Clone, Copy)]
pub enum WallKind {
    Solid { strength: u32, joint: u32 },
    Window,
    FullHeightOpening,
}

/// Sets of items: item 1 is worth 1, each next item twice the one before. Whether the house is repaired is document 02's,
/// request 5.
#[derive(Debug, Clone, Copy)]
pub struct Parts {
    pub present: u32,
    pub marked: u32,
    pub repaired: bool,
}

impl Survey<'_> {
    pub fn storey(&self, storey: u32) -> Storey {
        let [_, number, area, short_side, floor, void, _, _] = self.storeys[storey as usize - 1];
        Storey {
            number,
            area,
            short_side,
            floor,
            void: void == 1,
        }
    }

    /// The storeys above one, from the next one up.
    pub fn storeys_above(&self, storey: u32) -> impl Iterator<Item = Storey> {
        (storey + 1..=self.house.storeys).map(|above| self.storey(above))
    }

    pub fn ends(&self, storey: u32, direction: u32) -> Ends {
        let index = 2 * (storey - 1) + direction - 1;
        let [_, _, _, area_a, area_b, storeys_a, storeys_b, _] = self.ends[index as usize];
        Ends {
            areas: [area_a, area_b],
            storeys: [storeys_a, storeys_b],
        }
    }

    /// The index, from 0, of the row that a wall of a storey takes: after the last wall whose storey isn't above its
    /// own, and with none, after the ends.
    pub fn index_for_wall(&self, storey: u32) -> usize {
        let not_above = |row: &Row| row[1] <= storey;
        let walls_before = self.walls.iter().rposition(not_above);
        self.first_wall() + walls_before.map_or(0, |last| last + 1)
    }

    /// The wall row at an index among all rows, from 0; none where that row is no wall.
    pub fn wall_at(&self, index: usize) -> Option<&Row> {
        self.walls.get(index.checked_sub(self.first_wall())?)
    }

    /// The index of the row after the ends.
    fn first_wall(&self) -> usize {
        1 + self.storeys.len() + self.ends.len()
    }

    pub fn walls(&self) -> impl Iterator<Item = Wall> {
        self.walls.iter().map(Wall::from)
    }
}

impl From<&Row> for Wall {
    fn from(row: &Row) -> Self {
        let [_, storey, direction, place, strength, length, joint, kind] = *row;
        let kind = match kind {
            1 => WallKind::Solid { strength, joint },
            2 => WallKind::Window,
            _ => WallKind::FullHeightOpening,
        };
        Self {
            storey,
            direction,
            place,
            length,
            kind,
        }
    }
}

/// Judges a table from its first row to its last: the survey, or the first refusal met.
pub fn judge(table: &[u32]) -> Result<Survey<'_>, Refusal> {
    let rows = whole_rows::<u32, ROW>(table)?;
    let house = judge_house(rows)?;
    let count = house.storeys as usize;
    for storey in 1..=count {
        judge_storey(rows, storey)?;
    }
    let (first_end, first_wall) = (1 + count, 1 + 3 * count);
    for index in first_end..first_wall {
        judge_ends(rows, index, count)?;
    }
    let walls = judge_walls(rows, first_wall, house.storeys)?;
    let after_walls = first_wall + walls.len();
    let parts = judge_parts(rows, after_walls)?;
    let last = after_walls + 1;
    let dates = judge_dates(rows, last)?;
    if rows.len() > last + 1 {
        return Err(refusal(Refusal::ROW_OUT_OF_ORDER, last + 1, 1));
    }
    Ok(Survey {
        house,
        parts,
        dates,
        storeys: &rows[1..first_end],
        ends: &rows[first_end..first_wall],
        walls,
    })
}

/// Refuses a wall beyond as many as a house may have, at the row of an index.
pub fn judge_number_of_walls(before: usize, index: usize) -> Result<(), Refusal> {
    if before == MOST_WALLS {
        return Err(refusal(Refusal::TOO_MANY_WALLS, index, 1));
    }
    Ok(())
}

/// A refusal at the row of an index, which counts from 0.
fn refusal(number: u32, index: usize, column: usize) -> Refusal {
    refusal_at(number, index + 1, column)
}

/// The row at an index, which must be there and begin with the numbers that are due.
fn due<'table>(rows: &'table [Row], index: usize, start: &[u32]) -> Result<&'table Row, Refusal> {
    rows.get(index)
        .filter(|row| row.starts_with(start))
        .ok_or(refusal(Refusal::ROW_OUT_OF_ORDER, index, 1))
}

/// Refuses the leftmost column that isn't in its range.
fn judge_columns(index: usize, in_range: [bool; ROW]) -> Result<(), Refusal> {
    match in_range.iter().position(|&inside| !inside) {
        Some(column) => Err(refusal(Refusal::OUT_OF_RANGE, index, column + 1)),
        None => Ok(()),
    }
}

fn judge_house(rows: &[Row]) -> Result<House, Refusal> {
    let [_, storeys, weight, zone, ground, foundation, age, snow] = *due(rows, 0, &[HOUSE])?;
    let in_range = [
        true,
        matches!(storeys, 1..=3),
        matches!(weight, 1..=3),
        matches!(zone, 70 | 80 | 90 | 100),
        matches!(ground, 1..=2),
        matches!(foundation, 1..=3),
        age == 0,
        matches!(snow, 0..=3),
    ];
    judge_columns(0, in_range)?;
    Ok(House {
        storeys,
        weight,
        zone,
        ground,
        foundation,
        snow,
    })
}

fn judge_storey(rows: &[Row], storey: usize) -> Result<(), Refusal> {
    let row = due(rows, storey, &[STOREY, storey as u32])?;
    let [_, _, area, short_side, floor, void, unused @ ..] = *row;
    let in_range = [
        true,
        true,
        matches!(area, 1..=50_000),
        matches!(short_side, 500..=50_000),
        matches!(floor, 1..=3),
        matches!(void, 0..=1),
        unused[0] == 0,
        unused[1] == 0,
    ];
    judge_columns(storey, in_range)
}

fn judge_ends(rows: &[Row], index: usize, storeys: usize) -> Result<(), Refusal> {
    let ends_before = index - 1 - storeys;
    let storey = ends_before / 2 + 1;
    let direction = ends_before % 2 + 1;
    let row = due(rows, index, &[ENDS, storey as u32, direction as u32])?;
    let [_, _, _, area_a, area_b, storeys_a, storeys_b, unused] = *row;
    let part = storey as u32..=storeys as u32;
    let in_range = [
        true,
        true,
        true,
        matches!(area_a, 1..=50_000),
        matches!(area_b, 1..=50_000),
        part.contains(&storeys_a),
        part.contains(&storeys_b),
        unused == 0,
    ];
    judge_columns(index, in_range)?;
    let [_, _, area, ..] = rows[storey];
    if area_a + area_b > area {
        return Err(refusal(Refusal::ENDS_EXCEED_STOREY, index, 4));
    }
    Ok(())
}

/// The wall rows, which begin at an index and end before the first row of another kind.
fn judge_walls(rows: &[Row], first: usize, storeys: u32) -> Result<&[Row], Refusal> {
    let candidates = &rows[first..];
    let mut storey_before = 0;
    let mut count = 0;
    for (index, row) in (first..).zip(candidates) {
        let [WALL, storey, ..] = *row else { break };
        if storey < storey_before {
            return Err(refusal(Refusal::ROW_OUT_OF_ORDER, index, 1));
        }
        judge_wall(index, row, storeys)?;
        judge_number_of_walls(count, index)?;
        storey_before = storey;
        count += 1;
    }
    Ok(&candidates[..count])
}

/// Judges a wall's row, or one that is to become a wall's, by its ranges; "a kind other than 4" is out of them too.
pub fn judge_wall(index: usize, row: &Row, storeys: u32) -> Result<(), Refusal> {
    let [_, storey, direction, place, strength, length, joint, kind] = *row;
    let opening = matches!(kind, 2..=3);
    let in_range = [
        row[0] == WALL,
        (1..=storeys).contains(&storey),
        matches!(direction, 1..=2),
        matches!(place, 1..=3),
        if opening {
            strength == 0
        } else {
            matches!(strength, 1..=300)
        },
        matches!(length, 1..=20_000),
        if opening {
            joint == 0
        } else {
            matches!(joint, 1..=4)
        },
        matches!(kind, 1..=3),
    ];
    judge_columns(index, in_range)
}

fn judge_parts(rows: &[Row], index: usize) -> Result<Parts, Refusal> {
    let [_, present, marked, repaired, unused @ ..] = *due(rows, index, &[PARTS])?;
    let in_range = [
        true,
        present <= ALL_PARTS,
        marked <= ALL_PARTS,
        matches!(repaired, 0..=1),
        unused[0] == 0,
        unused[1] == 0,
        unused[2] == 0,
        unused[3] == 0,
    ];
    judge_columns(index, in_range)?;
    if marked & !present != 0 {
        return Err(refusal(Refusal::MARK_ON_ABSENT_PART, index, 3));
    }
    if present == 0 {
        return Err(refusal(Refusal::NO_PARTS, index, 2));
    }
    Ok(Parts {
        present,
        marked,
        repaired: repaired == 1,
    })
}

/// The dates row, which must follow the parts row: its ranges are tested first, then whether there are such days, then
/// their order.
fn judge_dates(rows: &[Row], index: usize) -> Result<Dates, Refusal> {
    let [_, start, completion, survey, unused @ ..] = *due(rows, index, &[DATES])?;
    let in_range = [
        true,
        DAYS.contains(&start),
        DAYS.contains(&completion),
        DAYS.contains(&survey),
        unused[0] == 0,
        unused[1] == 0,
        unused[2] == 0,
        unused[3] == 0,
    ];
    judge_columns(index, in_range)?;
    let day = |number, column| {
        Day::from_digits(number).ok_or(refusal(Refusal::NO_SUCH_DAY, index, column))
    };
    let start = day(start, 2)?;
    let completion = day(completion, 3)?;
    let survey = day(survey, 4)?;
    if completion < start {
        return Err(refusal(Refusal::DATES_OUT_OF_ORDER, index, 3));
    }
    if survey < completion {
        return Err(refusal(Refusal::DATES_OUT_OF_ORDER, index, 4));
    }
    Ok(Dates {
        start,
        completion,
        survey,
    })
}
