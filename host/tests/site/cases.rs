//! What sorts of calls on site were met.

use std::collections::BTreeMap;

use girderbasil::Totals;
use girderbasil::{MOST_WALLS, ROW};
use girderbasil::{Record, Refusal};
use girderbasil_tests::model::site::MOST_TOTAL;
use girderbasil_tests::model::survey::Survey;
use girderbasil_tests::model::{self, refusal_at};
use girderbasil_tests::site::{Change, place_of};

use crate::common::calls::NUMBERS;

/// The functions, by their place in a tally.
const START: usize = 0;
const ADDITION: usize = 1;
const DELETION: usize = 2;

/// A call with all that it was made on, and what it answered.
pub struct Call<'call> {
    pub change: &'call Change,
    pub lent: &'call [u32],
    pub totals: &'call Totals,
    /// The rows in use; nothing where they are refused.
    pub survey: Option<Survey<'call>>,
    pub answer: &'call Result<Record, Refusal>,
    pub earlier: &'call [(Change, Result<Record, Refusal>)],
}

impl Call<'_> {
    fn refused(&self, number: u32, row: usize, column: usize) -> bool {
        *self.answer == Err(refusal_at(number, row, column))
    }

    fn function(&self) -> usize {
        match self.change {
            Change::Start => START,
            Change::Add(_) => ADDITION,
            Change::Delete(_) => DELETION,
        }
    }

    fn rows(&self) -> usize {
        self.totals.rows as usize
    }

    fn storeys(&self) -> usize {
        self.survey
            .map_or(0, |survey| survey.house.storeys as usize)
    }

    /// How many walls stand in a storey or below it.
    fn walls_up_to(&self, storey: Option<usize>) -> usize {
        let walls = self.survey.iter().flat_map(Survey::walls);
        walls
            .filter(|wall| Some(wall.storey as usize) <= storey)
            .count()
    }

    fn walls(&self) -> usize {
        self.survey.map_or(0, |survey| survey.walls().count())
    }

    /// The wall that is added, or that stands at the row to be deleted.
    fn wall(&self) -> Option<[u32; ROW]> {
        match self.change {
            Change::Start => None,
            Change::Add(wall) => Some(*wall),
            Change::Delete(row) => {
                let index = (*row as usize).checked_sub(1)?;
                self.survey?.wall_at(index).copied()
            }
        }
    }

    fn added_storey(&self) -> Option<usize> {
        let Change::Add(wall) = self.change else {
            return None;
        };
        Some(wall[1] as usize)
    }

    /// The total that the call moves, as it is before; nothing where the wall is none of the house's.
    fn moved_total(&self) -> Option<u64> {
        let [_, storey @ 1..=3, direction @ 1..=2, ..] = self.wall()? else {
            return None;
        };
        let of_the_house = storey as usize <= self.storeys();
        of_the_house.then(|| self.totals.held[place_of(storey, direction)])
    }

    /// Whether a total of the house is just above the most, and the one that moves is far from it.
    fn another_is_just_above(&self) -> bool {
        let of_the_house = &self.totals.held[..2 * self.storeys()];
        of_the_house.contains(&(MOST_TOTAL + 1))
            && self
                .moved_total()
                .is_some_and(|total| total <= MOST_TOTAL / 2)
    }

    /// Whether a total that is no place of the house's is the largest number.
    fn a_lacking_one_is_largest(&self) -> bool {
        self.survey.is_some() && self.totals.held[2 * self.storeys()..].contains(&u64::MAX)
    }

    /// Whether what was in use would be accepted with one row more.
    fn is_a_row_short(&self) -> bool {
        let whole = self.lent.get(..(self.rows() + 1) * ROW);
        whole.is_some_and(|rows| model::judge(rows).is_ok())
    }

    fn answered_before(&self, calls: usize) -> Option<&(Change, Result<Record, Refusal>)> {
        self.earlier
            .len()
            .checked_sub(calls)
            .map(|index| &self.earlier[index])
    }

    /// Whether the two calls before were an addition that was one wall too many, and a deletion.
    fn is_after_a_deletion_for_want_of_a_place(&self) -> bool {
        let too_many = |refusal: Refusal| refusal.number == Refusal::TOO_MANY_WALLS;
        let refused = self.answered_before(2).and_then(|(_, answer)| answer.err());
        let deleted = matches!(self.answered_before(1), Some((Change::Delete(_), Ok(_))));
        refused.is_some_and(too_many) && deleted
    }

    fn repeats_an_accepted_one(&self) -> bool {
        self.answered_before(1)
            .is_some_and(|(change, answer)| change == self.change && answer.is_ok())
    }
}

/// A case, and the functions whose random calls must each meet it.
type Case = (&'static str, &'static [usize], fn(&Call) -> bool);

const CASES: [Case; 17] = [
    ("a total of 0", &[DELETION], |call| {
        call.moved_total() == Some(0) && call.refused(12, 0, 0)
    }),
    ("down from just above the most", &[DELETION], |call| {
        call.moved_total() == Some(MOST_TOTAL + 1) && call.answer.is_ok()
    }),
    ("up from the most", &[ADDITION], |call| {
        call.moved_total() == Some(MOST_TOTAL) && call.refused(12, 0, 0)
    }),
    ("the largest number", &[ADDITION, DELETION], |call| {
        call.moved_total() == Some(u64::MAX) && call.refused(12, 0, 0)
    }),
    (
        "another just above the most",
        &[ADDITION, DELETION],
        |call| call.another_is_just_above() && call.refused(12, 0, 0),
    ),
    (
        "a lacking storey's at the largest number",
        &[START, ADDITION, DELETION],
        |call| call.a_lacking_one_is_largest() && call.answer.is_ok(),
    ),
    ("no rows", &[START, ADDITION, DELETION], |call| {
        call.rows() == 0 && call.refused(1, 0, 0)
    }),
    ("a row short", &[START, ADDITION, DELETION], |call| {
        call.is_a_row_short() && call.refused(3, call.rows() + 1, 1)
    }),
    (
        "rows beyond the table",
        &[START, ADDITION, DELETION],
        |call| ROW * call.rows() > call.lent.len() && call.refused(1, 0, 0),
    ),
    (
        "a table of no whole rows",
        &[START, ADDITION, DELETION],
        |call| !call.lent.len().is_multiple_of(ROW) && call.answer.is_ok(),
    ),
    ("one wall too many", &[ADDITION], |call| {
        let before = call.walls_up_to(call.added_storey());
        let row = 3 * call.storeys() + before + 2;
        call.walls() == MOST_WALLS && call.refused(5, row, 1)
    }),
    ("the place of a deleted wall", &[ADDITION], |call| {
        call.is_after_a_deletion_for_want_of_a_place() && call.answer.is_ok()
    }),
    ("a wall of storey 0", &[ADDITION], |call| {
        call.added_storey() == Some(0) && call.refused(4, 3 * call.storeys() + 2, 2)
    }),
    (
        "a wall of a storey above the house's",
        &[ADDITION],
        |call| {
            let row = 3 * call.storeys() + call.walls() + 2;
            call.added_storey() > Some(call.storeys()) && call.refused(4, row, 2)
        },
    ),
    ("a wall of another kind of row", &[ADDITION], |call| {
        let kind = call.wall().map_or(4, |wall| wall[0]);
        let row = 3 * call.storeys() + call.walls_up_to(call.added_storey()) + 2;
        kind != 4 && call.refused(4, row, 1)
    }),
    ("the same wall with no row left", &[ADDITION], |call| {
        call.repeats_an_accepted_one() && call.refused(9, 0, 0)
    }),
    ("a wall below others", &[ADDITION, DELETION], |call| {
        let storey = call.wall().map(|wall| wall[1] as usize);
        call.walls_up_to(storey) < call.walls() && call.answer.is_ok()
    }),
];

/// How often each of them was met, and each answer.
#[derive(Debug, Default)]
pub struct Tally {
    pub calls: usize,
    /// By function, then by number; 0 counts what was accepted.
    answers: [[usize; NUMBERS]; 3],
    cases: BTreeMap<(&'static str, usize), usize>,
    /// Calls on a record with its own sums, by whether they were accepted.
    pub own: [usize; 2],
}

impl Tally {
    pub fn count(&mut self, call: &Call) {
        self.calls += 1;
        let function = call.function();
        let number = call.answer.err().map_or(0, |refusal| refusal.number);
        self.answers[function][number as usize] += 1;
        for (name, functions, is_met) in CASES {
            if functions.contains(&function) {
                *self.cases.entry((name, function)).or_default() += usize::from(is_met(call));
            }
        }
    }

    /// Asserts that every case was met, and from each function every number that it may answer with, and no other.
    pub fn assert_met(&self) {
        println!("{self:?}");
        let pairs = CASES.iter().map(|(_, functions, _)| functions.len());
        assert_eq!(self.cases.len(), pairs.sum());
        assert!(self.cases.values().all(|&met| met >= 50), "{self:?}");
        for (answers, own) in self.answers.iter().zip([&[][..], &[9, 12], &[12]]) {
            let scoring = [0, 1, 3, 4, 5, 6, 7, 8, 10, 11];
            for (number, &met) in answers.iter().enumerate() {
                let may_come = scoring.contains(&number) || own.contains(&number);
                assert!(
                    if may_come { met >= 20 } else { met == 0 },
                    "{number}: {self:?}"
                );
            }
        }
        assert!(self.own.iter().all(|&met| met >= 10_000), "{self:?}");
    }
}
