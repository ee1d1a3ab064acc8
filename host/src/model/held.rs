//! "Held strength". Its unit is 0.000001 kN.

use super::survey::{House, Survey, Wall, WallKind};

/// The joint factors that are printed for one depth of snow, in hundredths.
struct JointFactors {
    /// Part 1, the top storey of two or three: a row for each joint, a column for each of [`STRENGTHS`].
    top_storey: [[u32; 4]; 4],
    /// Part 2, the other storeys of two or three: each strength has a column for each foundation.
    lower_storey: [[[u32; 3]; 4]; 4],
    /// Part 3, one storey: joints 3 and 4 share the last row.
    one_storey: [[[u32; 3]; 4]; 3],
}

/// The manual's joint factors as printed, by the house's snow: its reference 2 without snow, its table 4.4 with snow.
#[rustfmt::skip]
static JOINT_FACTORS: [JointFactors; 4] = [
    // Outside snow areas.
    JointFactors {
        top_storey: [
            [100, 100, 100, 100],
            [100,  80,  65,  50],
            [ 70,  60,  45,  35],
            [ 70,  35,  25,  20],
        ],
        lower_storey: [
            [[100, 100, 100], [100,  90,  80], [100,  85,  70], [100,  80,  60]],
            [[100, 100, 100], [100,  90,  80], [ 90,  80,  70], [ 80,  70,  60]],
            [[100, 100, 100], [ 80,  80,  80], [ 70,  70,  70], [ 60,  60,  60]],
            [[100, 100, 100], [ 80,  80,  80], [ 70,  70,  70], [ 60,  60,  60]],
        ],
        one_storey: [
            [[100,  85,  70], [100,  85,  70], [100,  80,  70], [100,  80,  70]],
            [[100,  85,  70], [ 90,  75,  70], [ 85,  70,  65], [ 80,  70,  60]],
            [[ 70,  70,  70], [ 60,  60,  60], [ 50,  50,  50], [ 30,  30,  30]],
        ],
    },
    // 1 m, cleared.
    JointFactors {
        top_storey: [
            [100, 100, 100, 100],
            [100,  90,  85,  75],
            [100,  75,  65,  55],
            [100,  75,  60,  50],
        ],
        lower_storey: [
            [[100, 100, 100], [100, 100, 100], [100,  90,  85], [100,  85,  75]],
            [[100, 100, 100], [100, 100, 100], [ 95,  90,  85], [ 95,  85,  75]],
            [[100, 100, 100], [100, 100, 100], [ 85,  85,  85], [ 75,  75,  75]],
            [[100, 100, 100], [100, 100, 100], [ 85,  85,  85], [ 75,  75,  75]],
        ],
        one_storey: [
            [[100, 100, 100], [100,  85,  75], [100,  80,  70], [100,  80,  70]],
            [[100, 100, 100], [ 90,  80,  75], [ 85,  70,  65], [ 80,  70,  60]],
            [[100, 100, 100], [ 75,  75,  75], [ 65,  65,  65], [ 35,  35,  35]],
        ],
    },
    // 2 m. In one storey, the last row's 75 for foundation 3 beside 80 for the others is printed so.
    JointFactors {
        top_storey: [
            [100, 100, 100, 100],
            [100,  95,  85,  80],
            [100,  85,  75,  70],
            [100,  85,  75,  70],
        ],
        lower_storey: [
            [[100, 100, 100], [100, 100, 100], [100,  95,  95], [100,  95,  90]],
            [[100, 100, 100], [100, 100, 100], [100,  95,  95], [100,  95,  90]],
            [[100, 100, 100], [100, 100, 100], [ 95,  95,  95], [ 90,  90,  90]],
            [[100, 100, 100], [100, 100, 100], [ 95,  95,  95], [ 90,  90,  90]],
        ],
        one_storey: [
            [[100, 100, 100], [100,  90,  85], [100,  85,  75], [100,  85,  75]],
            [[100, 100, 100], [ 95,  90,  85], [ 85,  80,  75], [ 80,  75,  70]],
            [[100, 100, 100], [ 85,  85,  85], [ 80,  80,  75], [ 50,  50,  50]],
        ],
    },
    // 2.5 m.
    JointFactors {
        top_storey: [
            [100, 100, 100, 100],
            [100,  95,  90,  85],
            [100,  90,  80,  75],
            [100,  90,  80,  75],
        ],
        lower_storey: [
            [[100, 100, 100], [100, 100, 100], [100,  95,  95], [100,  95,  90]],
            [[100, 100, 100], [100, 100, 100], [100,  95,  95], [100,  95,  90]],
            [[100, 100, 100], [100, 100, 100], [ 95,  95,  95], [ 90,  90,  90]],
            [[100, 100, 100], [100, 100, 100], [ 95,  95,  95], [ 90,  90,  90]],
        ],
        one_storey: [
            [[100, 100, 100], [100, 100, 100], [100,  95,  95], [100,  90,  80]],
            [[100, 100, 100], [100, 100, 100], [100,  95,  95], [100,  75,  70]],
            [[100, 100, 100], [100, 100, 100], [ 90,  90,  90], [ 60,  60,  60]],
        ],
    },
];

/// The strengths that the joint factors are printed for, in 0.1 kN/m.
const STRENGTHS: [u32; 4] = [20, 30, 50, 70];

/// The most strength that counts, in 0.1 kN/m.
pub const MOST_STRENGTH: u32 = 100;

/// What openings count for a metre, in 0.1 kN/m, and the most length that counts, in mm.
const WINDOW: u32 = 6;
const FULL_HEIGHT_OPENING: u32 = 3;
const MOST_OPENING: u32 = 3_000;

/// The held strength of a storey and direction, and of the solid walls at its ends a and b.
#[derive(Debug, Clone, Copy, Default, PartialEq, Eq)]
pub struct Held {
    pub total: u64,
    pub ends: [u64; 2],
}

/// The held strengths of all storeys and directions; 0 where the house lacks the storey.
pub fn held(survey: &Survey) -> [[Held; 2]; 3] {
    let mut held = [[Held::default(); 2]; 3];
    for wall in survey.walls() {
        let strength = u64::from(wall_strength(&survey.house, &wall));
        let held = &mut held[wall.storey as usize - 1][wall.direction as usize - 1];
        held.total += strength;
        match (wall.kind, wall.place) {
            (WallKind::Solid { .. }, 1) => held.ends[0] += strength,
            (WallKind::Solid { .. }, 3) => held.ends[1] += strength,
            _ => {}
        }
    }
    held
}

/// What one wall counts.
pub fn wall_strength(house: &House, wall: &Wall) -> u32 {
    match wall.kind {
        WallKind::Solid { strength, joint } => {
            let factor = joint_factor(house, wall.storey, joint, strength);
            strength.min(MOST_STRENGTH) * factor * wall.length
        }
        WallKind::Window => WINDOW * 100 * wall.length.min(MOST_OPENING),
        WallKind::FullHeightOpening => FULL_HEIGHT_OPENING * 100 * wall.length.min(MOST_OPENING),
    }
}

/// The joint factor in hundredths: straight between the printed entries, to the nearest hundredth, half up.
pub fn joint_factor(house: &House, storey: u32, joint: u32, strength: u32) -> u32 {
    let entry = |column| printed_factor(house, storey, joint, column);
    let strength = strength.clamp(STRENGTHS[0], STRENGTHS[3]);
    let right = match strength {
        ..=30 => 1,
        31..=50 => 2,
        _ => 3,
    };
    let left = right - 1;
    let span = STRENGTHS[right] - STRENGTHS[left];
    let weighed =
        entry(left) * (STRENGTHS[right] - strength) + entry(right) * (strength - STRENGTHS[left]);
    (2 * weighed + span) / (2 * span)
}

/// A printed joint factor, by the column of its strength.
fn printed_factor(house: &House, storey: u32, joint: u32, column: usize) -> u32 {
    let printed = &JOINT_FACTORS[house.snow as usize];
    let joint = joint as usize - 1;
    let foundation = house.foundation as usize - 1;
    match (house.storeys, storey) {
        (1, _) => printed.one_storey[joint.min(2)][column][foundation],
        (2, 2) | (3, 3) => printed.top_storey[joint][column],
        (3, 2) => printed.lower_storey[joint][column][0],
        _ => printed.lower_storey[joint][column][foundation],
    }
}
