//! Makers of tables that scoring refuses on no ground.

use super::Random;
use super::dates::dates_row;
use girderbasil::ROW;

const ALL_PARTS: u32 = 8191;
const ZONES: [u32; 4] = [70, 80, 90, 100];

/// Half of the houses are without snow.
const SNOW: [u32; 6] = [0, 0, 0, 1, 2, 3];

/// Strengths on and beside those where the joint factor or the strength that counts changes its course.
const STRENGTHS: [u32; 18] = [
    1, 19, 20, 21, 29, 30, 31, 49, 50, 51, 69, 70, 71, 99, 100, 101, 299, 300,
];

/// Lengths on and beside the ends of their range and the most that counts of an opening.
const LENGTHS: [u32; 7] = [1, 2, 2_999, 3_000, 3_001, 19_999, 20_000];

/// Short sides on and beside the ends of their range and the least that isn't narrow.
const SHORT_SIDES: [u32; 5] = [500, 3_999, 4_000, 4_001, 50_000];

/// Present sets and marked sets with which seven tenths of the points are sound, or a point more or less: 14 of 20 twice,
/// 13 and 15 of 20, 7 of 10, 17 and 16 of 24.
const ABOUT_SEVEN_TENTHS: [[u32; 2]; 7] = [
    [5_919, 7],
    [8_183, 7],
    [8_183, 39],
    [8_183, 35],
    [119, 33],
    [ALL_PARTS, 2_057],
    [ALL_PARTS, 11],
];

/// The same of nine tenths, above which a repaired house is scored with 9/10: 18, 19 and 17 of 20, 9 and 8 of
/// 10, 22, 23 and 21 of 24.
const ABOUT_NINE_TENTHS: [[u32; 2]; 8] = [
    [1_919, 1],
    [1_919, 32],
    [1_919, 33],
    [119, 32],
    [119, 1],
    [ALL_PARTS, 1],
    [ALL_PARTS, 2_048],
    [ALL_PARTS, 2_049],
];

/// What a house that [`on_edges`] makes requires, in 0.01 kN/m², by its snow: 28 and what the snow adds.
const REQUIRED_ON_EDGES: [u32; 4] = [28, 54, 80, 93];

/// The area, in 0.01 m², that requires 100 mm of wall in such a house.
const UNIT_AREA: u32 = 100;

/// The snow of a house, by its table.
pub fn snow_of(table: &[u32]) -> usize {
    table[7] as usize
}

/// The short sides of a house's storeys, from the ground up, by its table.
pub fn short_sides_of(table: &[u32]) -> Vec<u32> {
    let rows = table.as_chunks::<ROW>().0;
    rows[1..=table[1] as usize]
        .iter()
        .map(|row| row[3])
        .collect()
}

/// The start of work, the completion and the survey day of a house, by its table.
pub fn dates_of(table: &[u32]) -> [u32; 3] {
    let survey = survey_day(table);
    [table[survey - 2], table[survey - 1], table[survey]]
}

/// The index of a house's survey day in its table.
pub fn survey_day(table: &[u32]) -> usize {
    table.len() - ROW + 3
}

/// The index of a house's marked set in its table.
pub fn marked_set(table: &[u32]) -> usize {
    table.len() - 2 * ROW + 2
}

/// Whether a house is repaired, by its table: 1, else 0.
pub fn repaired_of(table: &[u32]) -> usize {
    table[marked_set(table) + 1] as usize
}

/// A house of any of the sorts below.
pub fn house(random: &mut Random) -> Vec<u32> {
    match random.below(10) {
        0..=5 => surveyed(random),
        6..=7 => extreme(random),
        _ => on_edges(random),
    }
}

/// A house as someone would survey it, whose scores and bands spread widely.
pub fn surveyed(random: &mut Random) -> Vec<u32> {
    let storeys = random.between(1, 3);
    let mut table = house_row(random, storeys).to_vec();
    let areas: Vec<u32> = (0..storeys).map(|_| random.between(2_000, 9_000)).collect();
    for (storey, &area) in (1..).zip(&areas) {
        let short_side = random.between(2_730, 9_100);
        table.extend(storey_row(random, storey, area, short_side));
    }
    let mut walls = Vec::new();
    for (storey, &area) in (1..).zip(&areas) {
        for direction in 1..=2 {
            let [a, b] = [0, 1].map(|_| random.between(area / 6, area / 3));
            table.extend(ends_row(random, [storey, direction], [a, b], storeys));
            for (place, part) in [(1, a), (2, area - a - b), (3, b)] {
                walls.extend(usual_walls(random, [storey, direction, place], part));
            }
        }
    }
    table.extend(walls);
    let sets = sets(random);
    table.extend(parts_row(random, sets));
    table.extend(dates_row(random));
    table
}

/// A house whose numbers are often at the ends of their ranges, with 0 to 300 walls.
pub fn extreme(random: &mut Random) -> Vec<u32> {
    let storeys = random.between(1, 3);
    let count = match random.below(12) {
        0 => 0,
        1 => random.pick(&[299, 300]),
        2 => random.between(1, 300),
        _ => random.between(1, 20),
    };
    with_walls(random, storeys, count)
}

/// A house of a number of storeys and walls, its numbers often at the ends of their ranges.
pub fn with_walls(random: &mut Random, storeys: u32, count: u32) -> Vec<u32> {
    let mut table = house_row(random, storeys).to_vec();
    // Two ends of at least 0.01 m² each leave no room for a smaller storey.
    let areas: Vec<u32> = (0..storeys)
        .map(|_| random.often_extreme(2, 50_000))
        .collect();
    for (storey, &area) in (1..).zip(&areas) {
        let short_side = random.pick(&SHORT_SIDES);
        table.extend(storey_row(random, storey, area, short_side));
    }
    for (storey, &area) in (1..).zip(&areas) {
        for direction in 1..=2 {
            let end = random.often_extreme(1, area - 1);
            let ends = [end, random.often_extreme(1, area - end)];
            table.extend(ends_row(random, [storey, direction], ends, storeys));
        }
    }
    let mut wall_storeys: Vec<u32> = (0..count).map(|_| random.between(1, storeys)).collect();
    wall_storeys.sort_unstable();
    for storey in wall_storeys {
        table.extend(extreme_wall(random, storey));
    }
    let sets = sets(random);
    table.extend(parts_row(random, sets));
    table.extend(dates_row(random));
    table
}

/// A house of one storey whose ends are on the edge of a band, and whose walls would be on the edge of a verdict, or of
/// the most that is scored, but for layout, rot and repair; or they are 1 mm of wall short of it.
///
/// It is light, in zone 100 on ordinary ground, and its walls hold as many tenths of 1 kN a metre as it requires
/// hundredths of 1 kN a square metre; so a millimetre of wall is a hundredth of what a square metre requires. On
/// foundation 1 joint 1 lessens no wall of one storey, whatever its strength and the snow.
pub fn on_edges(random: &mut Random) -> Vec<u32> {
    let snow = random.pick(&SNOW);
    let strength = REQUIRED_ON_EDGES[snow as usize];
    let size = random.between(2, 100);
    let mut table = vec![1, 1, 1, 100, 1, 1, 0, snow];
    table.extend(storey_row(random, 1, size * UNIT_AREA, 5_000));
    let mut walls = Vec::new();
    for direction in 1..=2 {
        let ends = [0, 1].map(|_| random.mostly_small(1, size / 2));
        let [a, b] = ends.map(|end| end * UNIT_AREA);
        table.extend([3, 1, direction, a, b, 1, 1, 0]);
        walls.extend(walls_on_edges(random, direction, strength, size, ends));
    }
    table.extend(walls);
    // Of a house with marks, or repaired, the score is on no edge.
    let marked = random.pick(&[0, 0, 0, 0, 8, ALL_PARTS]);
    table.extend(parts_row(random, [ALL_PARTS, marked]));
    table.extend(dates_row(random));
    table
}

fn walls_on_edges(
    random: &mut Random,
    direction: u32,
    strength: u32,
    size: u32,
    ends: [u32; 2],
) -> Vec<u32> {
    let mut length = |size, edges: &[u32]| size * random.pick(edges) - random.between(0, 1);
    let [a, b] = ends.map(|end| length(end, &[33, 66, 100, 133]));
    let mut rest = length(size, &[70, 100, 150, 999, 1_000]).saturating_sub(a + b);
    let mut walls = Vec::new();
    for (place, length) in [(1, a), (3, b)] {
        walls.extend([4, 1, direction, place, strength, length, 1, 1]);
    }
    while rest > 0 {
        let length = rest.min(20_000);
        walls.extend([4, 1, direction, 2, strength, length, 1, 1]);
        rest -= length;
    }
    walls
}

fn house_row(random: &mut Random, storeys: u32) -> [u32; 8] {
    let [weight, foundation] = [0, 1].map(|_| random.between(1, 3));
    let ground = random.between(1, 2);
    let zone = random.pick(&ZONES);
    let snow = random.pick(&SNOW);
    [1, storeys, weight, zone, ground, foundation, 0, snow]
}

fn storey_row(random: &mut Random, storey: u32, area: u32, short_side: u32) -> [u32; 8] {
    let floor = random.between(1, 3);
    let void = random.between(0, 1);
    [2, storey, area, short_side, floor, void, 0, 0]
}

fn ends_row(random: &mut Random, place: [u32; 2], ends: [u32; 2], storeys: u32) -> [u32; 8] {
    let [storey, direction] = place;
    let [part_a, part_b] = [0, 1].map(|_| random.between(storey, storeys));
    [3, storey, direction, ends[0], ends[1], part_a, part_b, 0]
}

/// A few walls for an area, from none at all up to some that suffice for a heavy house on soft ground, in deep snow too.
fn usual_walls(random: &mut Random, place: [u32; 3], area: u32) -> Vec<u32> {
    let most = random.pick(&[15, 40, 100, 600]);
    let length = area * random.between(0, most) / 10;
    let count = length.div_ceil(20_000).max(random.between(1, 3));
    let mut walls = Vec::new();
    if length >= count {
        for _ in 0..count {
            let strength = random.between(15, 60);
            walls.extend(wall_row(random, place, strength, length / count));
        }
    }
    walls
}

/// A wall of a storey, its numbers often at the ends of their ranges.
pub fn extreme_wall(random: &mut Random, storey: u32) -> [u32; 8] {
    let strength = match random.below(3) {
        0 => random.between(1, 300),
        _ => random.pick(&STRENGTHS),
    };
    let length = match random.below(3) {
        0 => random.between(1, 20_000),
        1 => random.mostly_small(1, 20_000),
        _ => random.pick(&LENGTHS),
    };
    let place = [storey, random.between(1, 2), random.between(1, 3)];
    wall_row(random, place, strength, length)
}

/// A wall at a storey, direction and place: solid, or now and then an opening.
fn wall_row(random: &mut Random, place: [u32; 3], strength: u32, length: u32) -> [u32; 8] {
    let [storey, direction, place] = place;
    let joint = random.between(1, 4);
    match random.below(8) {
        0 => [4, storey, direction, place, 0, length, 0, 2],
        1 => [4, storey, direction, place, 0, length, 0, 3],
        _ => [4, storey, direction, place, strength, length, joint, 1],
    }
}

/// A parts row with a present set and a marked set. A third of the houses are repaired.
fn parts_row(random: &mut Random, [present, marked]: [u32; 2]) -> [u32; 8] {
    let repaired = random.pick(&[0, 0, 1]);
    [5, present, marked, repaired, 0, 0, 0, 0]
}

/// A present set and a marked set.
fn sets(random: &mut Random) -> [u32; 2] {
    match random.below(10) {
        0 => random.pick(&ABOUT_SEVEN_TENTHS),
        1 => random.pick(&ABOUT_NINE_TENTHS),
        _ => any_sets(random),
    }
}

fn any_sets(random: &mut Random) -> [u32; 2] {
    let present = match random.below(3) {
        0 => random.between(1, ALL_PARTS),
        1 => random.pick(&[1, 32, 2_048, 4_096, 2_272, 7_967]),
        _ => ALL_PARTS,
    };
    [present, marks(random, present)]
}

/// Marks on some of the parts that are present: none, few or any.
pub fn marks(random: &mut Random, present: u32) -> u32 {
    let marked = match random.below(5) {
        0 => 0,
        1 => 1 << random.below(13),
        2 => 1 << random.below(13) | 1 << random.below(13) | 1 << random.below(13),
        3 => random.pick(&[32, 64, 128, 2_048, 2_272, 8, ALL_PARTS]),
        _ => random.between(0, ALL_PARTS),
    };
    marked & present
}
