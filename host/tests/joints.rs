//! The joint column at every strength: the library's report beside the model's, in every row of the manual's joint
//! tables; and the factors a tenth below, at and above the printed strengths, read off the library's report.

use girderbasil::{LINE, MOST_REPORT_BYTES};
use girderbasil_tests::model::survey::House;
use girderbasil_tests::model::{self, held};

/// A house with one solid wall in each storey and direction. A wall is 10 m long, so that its held strength is printed as
/// what counts of its strength × its joint factor in hundredths.
fn table_of(house: &House, joint: u32, strength: u32) -> Vec<u32> {
    let storeys = house.storeys;
    let mut table = vec![1, storeys, house.weight, house.zone, house.ground];
    table.extend([house.foundation, 0, house.snow]);
    for storey in 1..=storeys {
        table.extend([2, storey, 4000, 5000, 1, 0, 0, 0]);
    }
    for storey in 1..=storeys {
        for direction in [1, 2] {
            table.extend([3, storey, direction, 1000, 1000, storeys, storeys, 0]);
        }
    }
    for storey in 1..=storeys {
        for direction in [1, 2] {
            table.extend([4, storey, direction, 2, strength, 10_000, joint, 1]);
        }
    }
    table.extend([5, 8191, 0, 0, 0, 0, 0, 0]);
    table.extend([8, 19_800_401, 19_801_001, 20_120_401, 0, 0, 0, 0]);
    table
}

fn light(storeys: u32, foundation: u32, snow: u32) -> House {
    House {
        storeys,
        weight: 1,
        zone: 100,
        ground: 1,
        foundation,
        snow,
    }
}

fn report_of(table: &[u32]) -> Vec<u8> {
    let mut report = [0; MOST_REPORT_BYTES];
    let count = girderbasil::write_report(table, &mut report).expect("the house is accepted");
    report[..count].to_vec()
}

/// The joint factor that a report shows for the wall of a storey in X, by its held strength, the fourth column.
fn factor_shown(report: &[u8], storey: u32, strength: u32) -> u32 {
    let line = &report[(storey as usize - 1) * 2 * LINE..];
    let held = std::str::from_utf8(&line[24..32]).expect("it is text");
    let held: u32 = held.trim().parse().expect("it is a number");
    let counted = strength.min(held::MOST_STRENGTH);
    assert_eq!(held % counted, 0);
    held / counted
}

/// Every house that differs in what a joint factor goes by, but for the joint and the strength.
fn houses() -> impl Iterator<Item = House> {
    let each = |storeys, foundation| (0..=3).map(move |snow| light(storeys, foundation, snow));
    (1..=3).flat_map(move |storeys| (1..=3).flat_map(move |foundation| each(storeys, foundation)))
}

#[test]
fn at_every_strength_report_and_factor_are_the_models() {
    let mut met = 0;
    for house in houses() {
        for (joint, strength) in (1..=4).flat_map(|joint| (1..=300).map(move |s| (joint, s))) {
            let table = table_of(&house, joint, strength);
            let report = report_of(&table);
            let expected = model::write_report(&table, MOST_REPORT_BYTES);
            assert_eq!(Ok(&report), expected.as_ref(), "{table:?}");
            for storey in 1..=house.storeys {
                let factor = held::joint_factor(&house, storey, joint, strength);
                assert_eq!(factor_shown(&report, storey, strength), factor);
                met += 1;
            }
        }
    }
    // One storey, two and three; on three foundations, in four snows, with four joints.
    assert_eq!(met, (1 + 2 + 3) * 3 * 4 * 4 * 300);
}

/// The upper storey of two without snow, joint IV: 0.7, 0.35, 0.25 and 0.2 at 2.0, 3.0, 5.0 and 7.0 kN/m.
#[test]
fn joint_iv_beside_the_printed_strengths() {
    for (strength, factor) in [
        (19, 70),
        (20, 70),
        (21, 67),
        (29, 39),
        (30, 35),
        (31, 35),
        (49, 26),
        (50, 25),
        (51, 25),
        (69, 20),
        (70, 20),
        (71, 20),
    ] {
        let house = light(2, 1, 0);
        let report = report_of(&table_of(&house, 4, strength));
        assert_eq!(factor_shown(&report, 2, strength), factor, "{strength}");
        assert_eq!(held::joint_factor(&house, 2, 4, strength), factor);
    }
}
