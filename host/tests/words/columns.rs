//! Every column's range against the library: tables that it scores, and tables that it refuses.

use girderbasil::{ROW, Refusal};
use girderbasil_diagnose::words::{self, Bound, Range};
use girderbasil_tests::model::refusal_at;

use super::WALL;

const OPENINGS: [u32; 2] = [2, 3];

/// A house of some storeys with one wall, so that its storey may be any.
fn house(storeys: u32) -> Vec<[u32; ROW]> {
    let mut rows = vec![[1, storeys, 2, 100, 1, 1, 0, 0]];
    rows.extend((1..=storeys).map(|storey| [2, storey, 4000, 5000, 1, 0, 0, 0]));
    for storey in 1..=storeys {
        rows.extend(
            [1, 2].map(|direction| [3, storey, direction, 1000, 1000, storeys, storeys, 0]),
        );
    }
    rows.push([WALL, 1, 1, 1, 20, 2000, 1, 1]);
    rows.push([5, 8191, 0, 0, 0, 0, 0, 0]);
    rows.push([8, 19_800_401, 19_801_001, 20_120_401, 0, 0, 0, 0]);
    rows
}

/// A house with a number at a place, counted from 1, and with what must be so that nothing else forbids the number.
fn house_with(storeys: u32, row: usize, column: usize, number: u32) -> Vec<[u32; ROW]> {
    let mut rows = house(storeys);
    let own = rows[row - 1];
    match (own[0], column) {
        (1, 2) if (1..=3).contains(&number) => rows = house(number),
        (2, 3) => {
            let ends = rows
                .iter_mut()
                .filter(|ends| ends[0] == 3 && ends[1] == own[1]);
            ends.for_each(|ends| ends[3..5].fill((number / 2).clamp(1, 25_000)));
        }
        (3, 4 | 5) => {
            rows[own[1] as usize][2] = 50_000;
            rows[row - 1][3..5].fill(1);
        }
        (WALL, 8) if OPENINGS.contains(&number) => {
            rows[row - 1] = [WALL, 1, 1, 1, 0, 2000, 0, number]
        }
        (8, 2..=4) => {
            rows[row - 1][1..column - 1].fill(19_000_101);
            rows[row - 1][column..4].fill(21_991_231);
        }
        _ => {}
    }
    rows[row - 1][column - 1] = number;
    rows
}

/// Asserts that a number is in its column's range: the house is scored, or refused for what no other number can mend.
fn assert_allowed(storeys: u32, row: usize, column: usize, number: u32) {
    let rows = house_with(storeys, row, column, number);
    let refusal = match (rows[row - 1][0], column, number) {
        // Each end of a storey has at least 1, and a storey at most 50,000.
        (2, 3, 1) => {
            let first_ends = 2 + storeys as usize;
            Some(refusal_at(
                Refusal::ENDS_EXCEED_STOREY,
                first_ends + 2 * (row - 2),
                4,
            ))
        }
        (3, 4 | 5, 50_000) => Some(refusal_at(Refusal::ENDS_EXCEED_STOREY, row, 4)),
        _ => None,
    };
    assert_eq!(
        girderbasil::score(rows.as_flattened()).err(),
        refusal,
        "{rows:?}"
    );
}

fn assert_refused(rows: &[[u32; ROW]], number: u32, row: usize, column: usize) {
    let refusal = refusal_at(number, row, column);
    assert_eq!(
        girderbasil::score(rows.as_flattened()),
        Err(refusal),
        "{rows:?}"
    );
}

/// Checks what the file says of a column of a house, by numbers in its range and just out of it.
fn check_column(storeys: u32, row: usize, column: usize) {
    let rows = house(storeys);
    let own = rows[row - 1];
    let due = own[column - 1];
    let bound = |bound| match bound {
        Bound::Number(number) => number,
        Bound::OwnStorey => own[1],
        Bound::HouseStoreys => storeys,
    };
    let words = words::column(own[0], column as u32).expect("a column of the file");
    let (allowed, refused) = match words.range {
        Range::Between(least, greatest) => {
            let [least, greatest] = [least, greatest].map(bound);
            let below = least.checked_sub(1);
            (
                vec![least, greatest],
                below.into_iter().chain([greatest + 1]).collect(),
            )
        }
        Range::Choice => {
            let choices = words::choices(own[0], column as u32);
            let allowed: Vec<u32> = choices.iter().map(|choice| choice.number).collect();
            let most = *allowed.last().expect("a choice");
            let refused = (0..=most + 1).filter(|number| !allowed.contains(number));
            (allowed.clone(), refused.collect())
        }
        // Kinds 4 and 5 may stand in each other's place, and are then judged as what they are.
        Range::Due if column == 1 => (vec![due], vec![0, 9]),
        Range::Due => (vec![due], vec![due - 1, due + 1]),
        Range::Unused | Range::Age => (vec![0], vec![1]),
    };
    for number in allowed {
        assert_allowed(storeys, row, column, number);
    }
    for number in refused {
        let rows = house_with(storeys, row, column, number);
        match (words.range, own[0], column, number) {
            (Range::Due, ..) => assert_refused(&rows, Refusal::ROW_OUT_OF_ORDER, row, 1),
            // A set may be empty, but not that of the parts that are present.
            (_, 5, 2, 0) => assert_refused(&rows, Refusal::NO_PARTS, row, 2),
            _ => assert_refused(&rows, Refusal::OUT_OF_RANGE, row, column),
        }
    }
}

#[test]
fn each_column_has_the_librarys_range() {
    for storeys in 1..=3 {
        for row in 1..=house(storeys).len() {
            for column in 1..=ROW {
                check_column(storeys, row, column);
            }
        }
    }
}

/// What an opening has is 0 in both columns, so one of them is changed at a time.
#[test]
fn an_opening_has_what_the_library_demands() {
    let row = house(1).len() - 2;
    for opening in OPENINGS {
        let mut met = Vec::new();
        for column in 1..=ROW {
            let words = words::column(WALL, column as u32).expect("a column of the file");
            let Some(allowed) = words.opening else {
                continue;
            };
            let mut rows = house_with(1, row, ROW, opening);
            rows[row - 1][column - 1] = allowed;
            assert!(girderbasil::score(rows.as_flattened()).is_ok(), "{rows:?}");
            rows[row - 1][column - 1] = allowed + 1;
            assert_refused(&rows, Refusal::OUT_OF_RANGE, row, column);
            met.push(column);
        }
        assert_eq!(met, [5, 7]);
    }
}
