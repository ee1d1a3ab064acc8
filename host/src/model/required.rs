//! "Required strength", and document 02's requests 1 and 6. Its unit is 0.000000001 kN.

use super::survey::{Ends, House, Storey};

/// The manual's table 4.1, in 0.01 kN/m²: by the house's storeys, then by storey from the ground up; a column
/// for each weight class, light, heavy and very heavy.
const CONSTANTS: [&[[u64; 3]]; 3] = [
    &[[28, 40, 64]],
    &[[83, 106, 141], [37, 53, 78]],
    &[[134, 166, 207], [98, 125, 159], [43, 62, 91]],
];

/// What snow adds to a constant, in 0.01 kN/m², by the house's snow. The manual's section 4.1 has 26 for 1 m and 52 for
/// 2 m; 65 for 2.5 m is the same straight line carried on.
const ADDITIONS: [u64; 4] = [0, 26, 52, 65];

/// The required strength of a storey, the same in both directions, by its narrow factor.
pub fn storey(house: &House, storey: &Storey, narrow: u64) -> u64 {
    of_unit_area(house, storey.number, house.storeys) * u64::from(storey.area) * narrow
}

/// The required strengths of a storey's ends a and b, which have its narrow factor too.
pub fn ends(house: &House, storey: &Storey, narrow: u64, ends: &Ends) -> [u64; 2] {
    [0, 1].map(|end| {
        of_unit_area(house, storey.number, ends.storeys[end]) * u64::from(ends.areas[end]) * narrow
    })
}

/// In hundredths, by the storeys above the one whose factor it is. Document 02's request 6: a storey narrower than 4 m
/// gives "every storey below it" 113, "once, however many are narrow above".
pub fn narrow_factor(mut above: impl Iterator<Item = Storey>) -> u64 {
    if above.any(|storey| storey.short_side < 4_000) {
        113
    } else {
        100
    }
}

/// What is required of 0.01 m², before the narrow factor, by the number of a storey and the storeys of the part it stands in.
fn of_unit_area(house: &House, storey: u32, part_storeys: u32) -> u64 {
    let ground = if house.ground == 1 { 10 } else { 15 };
    (constant(house.weight, part_storeys, storey) + ADDITIONS[house.snow as usize])
        * u64::from(house.zone)
        * ground
}

fn constant(weight: u32, storeys: u32, storey: u32) -> u64 {
    CONSTANTS[storeys as usize - 1][storey as usize - 1][weight as usize - 1]
}
