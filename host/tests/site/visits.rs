//! Random visits: calls on one table and one record, good or bad, with nothing else written between.

use std::fmt::Debug;

use girderbasil::Totals;
use girderbasil::{MOST_WALLS, ROW};
use girderbasil::{Record, Refusal};
use girderbasil_tests::model::{self, score::Diagnosis};
use girderbasil_tests::random::{Random, house, site};
use girderbasil_tests::site::Change;

use crate::cases::{Call, Tally};
use crate::common::calls::OnSite;

const CHANGES: usize = 200_000;

/// What stands on either side of the totals that are lent.
const GUARD: Totals = Totals {
    held: [0xa5a5_a5a5_a5a5_a5a5; 6],
    rows: 0xa5a5_a5a5,
};

struct Visit {
    lent: Vec<u32>,
    totals: Totals,
    /// Whether the rows in use are accepted and each total of the house is the sum over its walls.
    own: bool,
    earlier: Vec<(Change, Result<Record, Refusal>)>,
}

impl Visit {
    fn new(random: &mut Random) -> Self {
        let (lent, totals) = site::lent_and_totals(random);
        let diagnosis = in_use(&lent, &totals).and_then(|rows| Diagnosis::of(rows).ok());
        let own = diagnosis.is_some_and(|diagnosis| {
            let places = diagnosis.count() as usize;
            diagnosis.sums()[..places] == totals.held[..places]
        });
        Self {
            lent,
            totals,
            own,
            earlier: vec![],
        }
    }

    /// Any call, or now and then the one before once more.
    fn next_change(&self, random: &mut Random) -> Change {
        match self.earlier.last() {
            Some((change, _)) if random.chance(15) => *change,
            _ => site::change(random, &self.lent, &self.totals),
        }
    }

    /// Makes a call, and compares all that it answers and leaves with the model.
    fn call(&mut self, random: &mut Random, change: Change, tally: &mut Tally) {
        let mut call = OnSite::new(random, &self.lent, self.totals, change);
        let mut totals = [GUARD, self.totals, GUARD];

        let answer = change.made(&mut totals[1], call.table.slice_mut());

        assert_eq!(answer, call.answer(), "{change:?}");
        assert_eq!(totals, [GUARD, call.totals_after, GUARD], "{change:?}");
        assert_same(&call.table.buffer, &call.table_after);
        tally.count(&Call {
            change: &change,
            lent: &self.lent,
            totals: &self.totals,
            survey: in_use(&self.lent, &self.totals).and_then(|rows| model::judge(rows).ok()),
            answer: &call.expected,
            earlier: &self.earlier,
        });
        self.lent = call.table.slice().to_vec();
        self.totals = totals[1];
        self.own |= change == Change::Start && call.expected.is_ok();
        if self.own {
            self.check_own(&change, &call.expected, tally);
        }
        self.earlier.push((change, call.expected));
    }

    /// From a record with its own sums every accepted answer is a fresh scoring, and the totals stay the sums. An addition
    /// is never refused with 12, and a deletion with 12 only at the row that was asked for.
    fn check_own(&self, change: &Change, answer: &Result<Record, Refusal>, tally: &mut Tally) {
        let rows = in_use(&self.lent, &self.totals).expect("they fit");
        assert_eq!(
            answer.is_ok().then(|| girderbasil::score(rows)),
            answer.ok().map(Ok)
        );
        let mut fresh = self.totals;
        let started = girderbasil::raw::start(&mut fresh, rows);
        let places = started.count as usize;
        assert_eq!(started.number, 0);
        assert_eq!(fresh.held[..places], self.totals.held[..places]);
        if let (Err(refusal), Change::Add(_)) = (answer, change) {
            assert_ne!(refusal.number, Refusal::NO_SUCH_WALL);
        }
        if let (Err(refusal), Change::Delete(row)) = (answer, change) {
            assert_eq!(*refusal, Refusal::at(Refusal::NO_SUCH_WALL, *row, 0));
        }
        tally.own[usize::from(answer.is_ok())] += 1;
    }
}

/// The rows in use; none where there are more than the table has.
fn in_use<'lent>(lent: &'lent [u32], totals: &Totals) -> Option<&'lent [u32]> {
    lent.get(..ROW * totals.rows as usize)
}

/// Compares buffers without printing thousands of numbers where they differ.
fn assert_same<T: PartialEq + Debug>(found: &[T], expected: &[T]) {
    let differ = found
        .iter()
        .zip(expected)
        .position(|(one, other)| one != other);
    assert_eq!(differ, None, "the first difference is there in the buffer");
    assert_eq!(found.len(), expected.len());
}

#[test]
fn random_changes_are_answered_as_by_the_model() {
    let mut random = Random::new(30);
    let mut tally = Tally::default();
    while tally.calls < CHANGES {
        let mut visit = Visit::new(&mut random);
        for _ in 0..random.between(1, 20) {
            let change = visit.next_change(&mut random);
            visit.call(&mut random, change, &mut tally);
        }
    }
    tally.assert_met();
}

/// As many walls as a house may have; one more is refused at the row that it would take, until one is deleted.
#[test]
fn the_place_of_a_deleted_wall_serves_again() {
    let mut random = Random::new(34);
    let mut tally = Tally::default();
    for storeys in 1..=3 {
        let mut lent = house::with_walls(&mut random, storeys, 300);
        let rows = (lent.len() / ROW) as u32;
        lent.extend([7; ROW]);
        let mut visit = Visit {
            lent,
            totals: Totals { held: [9; 6], rows },
            own: false,
            earlier: vec![],
        };
        let last = rows - 2;
        let index = (last as usize - 1) * ROW;
        let wall: [u32; ROW] = visit.lent[index..index + ROW].try_into().expect("a row");
        for change in [
            Change::Start,
            Change::Add(wall),
            Change::Delete(last),
            Change::Add(wall),
            Change::Add(wall),
        ] {
            visit.call(&mut random, change, &mut tally);
        }
        let answers = visit.earlier.iter().map(|(_, answer)| answer.err());
        let too_many = Some(Refusal::at(Refusal::TOO_MANY_WALLS, rows - 1, 1));
        assert!(answers.eq([None, too_many, None, None, too_many]));
        assert_eq!(rows, 3 * storeys + 1 + MOST_WALLS as u32 + 2);
    }
}
