//! Document 02's request 7 worked out: calls on site, one after the other, on P1 with other dates. The numbers in the
//! names are those of the examples.

use crate::site::Change;
use girderbasil::ROW;
use girderbasil::Refusal;
use girderbasil::Totals;

type Row = [u32; ROW];

/// Calls, one after the other, on one lent table and one record.
pub struct Script {
    pub name: &'static str,
    pub lent: Vec<u32>,
    pub totals: Totals,
    pub steps: Vec<Step>,
}

/// A call, with what it answers and what it leaves.
pub struct Step {
    pub change: Change,
    pub answer: Result<[u32; 6], Refusal>,
    pub lent: Vec<u32>,
    pub totals: Totals,
}

/// A solid wall in X, which P1 holds 4,000,000 more by, and an opening in Y, of which 3,000 mm count: 900,000.
pub const WALL: Row = [4, 1, 1, 2, 20, 2_000, 1, 1];
pub const OPENING: Row = [4, 1, 2, 2, 0, 3_001, 0, 3];

/// The row of P1's window, counted from 1, by which it holds 1,200,000 in X.
pub const WINDOW: u32 = 6;

/// What P1's walls hold in X and Y.
pub const SUMS: [u64; 6] = [9_200_000, 16_000_000, 0, 0, 0, 0];

/// A row of what is lent beyond those in use.
const UNUSED: Row = [5; ROW];

/// P1's rows in use, and the number of them before the parts row, after which a wall of the ground storey comes.
const ROWS: u32 = 12;
const BEFORE_PARTS: usize = 10;

/// The table of P1 with the dates of the examples: twelve rows.
pub const TABLE: [u32; 96] = super::with_dates([19_700_401, 19_710_331, 20_200_601]);

/// Its rows, with others after them that are not in use.
fn rows_and(unused: usize) -> Vec<Row> {
    let mut rows = TABLE.as_chunks().0.to_vec();
    rows.extend(vec![UNUSED; unused]);
    rows
}

/// A table with a wall put in before its row of an index.
fn put_in(rows: &[Row], index: usize, wall: Row) -> Vec<Row> {
    [&rows[..index], &[wall], &rows[index..rows.len() - 1]].concat()
}

fn x_and_y(x: u64, y: u64) -> [u64; 6] {
    [x, y, 0, 0, 0, 0]
}

impl Script {
    fn new(name: &'static str, rows: &[Row], held: [u64; 6]) -> Self {
        Self {
            name,
            lent: rows.concat(),
            totals: Totals { held, rows: ROWS },
            steps: vec![],
        }
    }

    fn with_count(mut self, rows: u32) -> Self {
        self.totals.rows = rows;
        self
    }

    /// A call that is accepted, by the scores in X and Y and all that it leaves.
    fn accepted(
        mut self,
        change: Change,
        scores: [u32; 2],
        held: [u64; 6],
        rows: u32,
        lent: &[Row],
    ) -> Self {
        let [x, y] = scores;
        self.steps.push(Step {
            change,
            answer: Ok([x, y, 0, 0, 0, 0]),
            lent: lent.concat(),
            totals: Totals { held, rows },
        });
        self
    }

    /// A call that is refused, which leaves all as it was.
    fn refused(mut self, change: Change, number: u32, row: u32, column: u32) -> Self {
        let before = self.steps.last();
        let (lent, totals) = before.map_or((&self.lent, self.totals), |it| (&it.lent, it.totals));
        let step = Step {
            change,
            answer: Err(Refusal::at(number, row, column)),
            lent: lent.clone(),
            totals,
        };
        self.steps.push(step);
        self
    }
}

/// All of them.
pub fn scripts() -> Vec<Script> {
    let mut scripts = vec![start_add_delete(), without_a_start(), short_of_room()];
    scripts.extend(at_the_most());
    scripts.push(refused_places());
    scripts.extend(wrong_counts());
    scripts
}

/// From 7.1 to 7.2.
fn start_add_delete() -> Script {
    let rows = rows_and(2);
    let added = put_in(&rows, BEFORE_PARTS, WALL);
    let kept = [&rows[..5], &rows[6..10], &[WALL]].concat();
    let deleted = [&kept[..], &rows[10..12], &[[0; ROW], UNUSED]].concat();
    let opened = [&kept[..], &[OPENING], &rows[10..12], &[UNUSED]].concat();
    let with_wall = x_and_y(13_200_000, 16_000_000);
    let without_window = x_and_y(12_000_000, 16_000_000);
    let with_opening = x_and_y(12_000_000, 16_900_000);
    Script::new("7.1 and 7.2", &rows, [9; 6])
        .accepted(Change::Start, [47, 83], SUMS, 12, &rows)
        .accepted(Change::Add(WALL), [68, 83], with_wall, 13, &added)
        .accepted(
            Change::Delete(WINDOW),
            [62, 83],
            without_window,
            12,
            &deleted,
        )
        .accepted(Change::Add(OPENING), [62, 88], with_opening, 13, &opened)
}

fn without_a_start() -> Script {
    let rows = rows_and(2);
    let added = put_in(&rows, BEFORE_PARTS, WALL);
    let deleted = [&added[..5], &added[6..13], &[[0; ROW], UNUSED]].concat();
    let held = |x| [x, 0, 7, 7, 7, 7];
    Script::new("7.3", &rows, held(0))
        .accepted(Change::Add(WALL), [20, 0], held(4_000_000), 13, &added)
        .accepted(
            Change::Delete(WINDOW),
            [14, 0],
            held(2_800_000),
            12,
            &deleted,
        )
        .refused(Change::Delete(5), Refusal::NO_SUCH_WALL, 0, 0)
}

/// 7.4: totals at the most that they may be, and beyond it where the house lacks the storey. What is held in X would be
/// scored with 3,125.00 and more.
fn at_the_most() -> [Script; 3] {
    let rows = rows_and(2);
    let added = put_in(&rows, BEFORE_PARTS, WALL);
    let deleted = [&rows[..4], &rows[5..12], &[[0; ROW], UNUSED, UNUSED]].concat();
    let second_storey = 1 << 63;
    let held = |x| [x, 0, second_storey, second_storey, 0, 0];
    [
        Script::new("7.4, up to the most", &rows, held(59_996_000_000)).accepted(
            Change::Add(WALL),
            [999, 0],
            held(60_000_000_000),
            13,
            &added,
        ),
        Script::new("7.4, beyond the most", &rows, held(59_996_000_001)).refused(
            Change::Add(WALL),
            Refusal::NO_SUCH_WALL,
            0,
            0,
        ),
        Script::new(
            "7.4, down from beyond the most",
            &rows,
            x_and_y(60_000_000_001, 0),
        )
        .accepted(
            Change::Delete(5),
            [999, 0],
            x_and_y(59_996_000_001, 0),
            11,
            &deleted,
        ),
    ]
}

fn refused_places() -> Script {
    let of_storey = |storey| Change::Add([4, storey, 1, 2, 20, 2_000, 1, 1]);
    let mut script = Script::new("7.5", &rows_and(2), SUMS);
    for row in [4, 11, 13] {
        script = script.refused(Change::Delete(row), Refusal::NO_SUCH_WALL, row, 0);
    }
    script
        .refused(of_storey(0), Refusal::OUT_OF_RANGE, 5, 2)
        .refused(of_storey(2), Refusal::OUT_OF_RANGE, 11, 2)
        .refused(
            Change::Add([5, 1, 1, 2, 20, 2_000, 1, 1]),
            Refusal::OUT_OF_RANGE,
            11,
            1,
        )
        .refused(
            Change::Add([4, 1, 1, 2, 20, 2_000, 1, 4]),
            Refusal::OUT_OF_RANGE,
            11,
            8,
        )
}

/// 7.6: counts of rows that are none of the table's, for each of the three.
fn wrong_counts() -> [Script; 3] {
    let refused = |name, count, number, row, column| {
        let mut script = Script::new(name, &rows_and(0), SUMS).with_count(count);
        for change in [Change::Start, Change::Add(WALL), Change::Delete(WINDOW)] {
            script = script.refused(change, number, row, column);
        }
        script
    };
    [
        refused("7.6, 13 rows of 12", 13, Refusal::SHEET_LENGTH, 0, 0),
        refused("7.6, no rows", 0, Refusal::SHEET_LENGTH, 0, 0),
        refused("7.6, 11 rows of 12", 11, Refusal::ROW_OUT_OF_ORDER, 12, 1),
    ]
}

/// 7.6: room for one row more, and five numbers beyond it.
fn short_of_room() -> Script {
    let rows = rows_and(1);
    let added = put_in(&rows, BEFORE_PARTS, WALL);
    let mut script = Script::new("7.6, 109 numbers", &rows, [9; 6])
        .accepted(Change::Start, [47, 83], SUMS, 12, &rows)
        .accepted(
            Change::Add(WALL),
            [68, 83],
            x_and_y(13_200_000, 16_000_000),
            13,
            &added,
        )
        .refused(Change::Add(WALL), Refusal::LENT_SPACE_SHORT, 0, 0);
    let states = script.steps.iter_mut().map(|step| &mut step.lent);
    for lent in std::iter::once(&mut script.lent).chain(states) {
        lent.extend([5; 5]);
    }
    script
}
