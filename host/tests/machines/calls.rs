//! The same calls on every machine. Each answer, and each byte of what was lent or stands beside it, must be the model's.

use std::process::Command;

use girderbasil::Record;
use girderbasil::Totals;
use girderbasil::raw;
use girderbasil::{MOST_ROWS, ROW};
use girderbasil_tests::model;
use girderbasil_tests::random::{Random, damage, house, site};
use girderbasil_tests::site::Change;

use crate::common::calls::{
    DATES_REFUSALS, Diagnose, OnSite, PARTS_REFUSALS, Read, Score, WriteReport,
};
use crate::common::header;
use crate::common::lent::Lent;
use crate::{ARM64, X86_64, common, module, program, script};

const CALLS: usize = 90_000;
/// As many calls go to a program at a time.
const BATCH: usize = 1_000;

/// A call as tests/calls.c takes it, and what it must give.
struct Call {
    met: Met,
    asked: Vec<u8>,
    expected: Vec<u8>,
}

/// What sort of call it is.
struct Met {
    function: &'static str,
    /// The refusal's number, or 0, and its column.
    number: u32,
    column: u32,
    /// How much of what was lent comes after what is written there; nothing where nothing is written.
    left: Option<usize>,
    /// The snow of the house; nothing where it is refused.
    snow: Option<usize>,
    /// Its age and repair; nothing where it is refused or only read.
    state: Option<State>,
    /// Its record, where that is answered.
    record: Option<Record>,
}

/// What the deterioration of a house goes by beside its marks: its age on the survey day, and whether it is repaired.
struct State {
    age: u32,
    repaired: bool,
}

/// What crosses in a buffer.
trait Element: Copy {
    fn put(self, bytes: &mut Vec<u8>);
}

impl Element for u8 {
    fn put(self, bytes: &mut Vec<u8>) {
        bytes.push(self);
    }
}

impl Element for u32 {
    fn put(self, bytes: &mut Vec<u8>) {
        bytes.extend(self.to_le_bytes());
    }
}

impl Element for u64 {
    fn put(self, bytes: &mut Vec<u8>) {
        bytes.extend(self.to_le_bytes());
    }
}

fn put_all<T: Element>(elements: &[T], bytes: &mut Vec<u8>) {
    for &element in elements {
        element.put(bytes);
    }
}

fn put_part<T: Element>(lent: &Lent<T>, bytes: &mut Vec<u8>) {
    let (start, end) = (lent.range.start, lent.range.end);
    for count in [start, end - start, lent.buffer.len() - end] {
        (count as u32).put(bytes);
    }
    put_all(&lent.buffer, bytes);
}

impl Call {
    /// A call without its three parts yet.
    fn of(met: Met, answer: Vec<u8>) -> Self {
        let mut asked = met.function.as_bytes().to_vec();
        asked.resize(32, 0);
        Self {
            met,
            asked,
            expected: answer,
        }
    }

    /// The next part, with what its buffer holds after the call.
    fn changing<T: Element>(mut self, lent: &Lent<T>, after: &[T]) -> Self {
        put_part(lent, &mut self.asked);
        put_all(after, &mut self.expected);
        self
    }

    fn reading<T: Element>(self, lent: &Lent<T>) -> Self {
        self.changing(lent, &lent.buffer)
    }

    fn without(self) -> Self {
        self.reading(&Lent::<u8> {
            buffer: vec![],
            range: 0..0,
        })
    }

    /// Any call: of any function, for a house that may be damaged in its table or its sheet.
    fn any(random: &mut Random) -> Self {
        match random.below(7) {
            which @ 0..=1 => {
                let sheet = common::any_sheet(random);
                if which == 0 {
                    Self::read(&Read::new(random, &sheet))
                } else {
                    Self::diagnose(&Diagnose::new(random, &sheet))
                }
            }
            which @ 2..=3 => {
                let table = damage::any_table(random);
                if which == 2 {
                    Self::score(&Score::new(random, &table))
                } else {
                    Self::write_report(&WriteReport::new(random, &table))
                }
            }
            _ => Self::any_on_site(random),
        }
    }

    fn any_on_site(random: &mut Random) -> Self {
        let (lent, totals) = site::lent_and_totals(random);
        let change = match random.below(3) {
            0 => Change::Start,
            1 => Change::Add(site::wall(random, &lent)),
            _ => Change::Delete(site::row(random, &lent, &totals)),
        };
        let call = OnSite::new(random, &lent, totals, change);
        Self::on_site(random, &call)
    }

    fn read(call: &Read) -> Self {
        let answer = call.answer();
        let written = call.expected.as_ref().ok();
        let met = Met {
            function: "girderbasil_read",
            number: answer.number,
            column: answer.column,
            left: written.map(|written| call.table.slice().len() - written.len()),
            snow: written.map(|written| house::snow_of(written)),
            state: None,
            record: None,
        };
        Self::of(met, answer_bytes(answer))
            .reading(&call.sheet)
            .changing(&call.table, &call.table_after)
            .without()
    }

    fn score(call: &Score) -> Self {
        let answer = call.answer();
        let met = Met {
            function: "girderbasil_score",
            number: answer.number,
            column: answer.column,
            left: None,
            snow: call
                .expected
                .ok()
                .map(|_| house::snow_of(call.table.slice())),
            state: state_of(call.table.slice()),
            record: call.expected.ok(),
        };
        Self::of(met, scoring_bytes(&answer))
            .reading(&call.table)
            .without()
            .without()
    }

    fn write_report(call: &WriteReport) -> Self {
        let answer = call.answer();
        let written = call.expected.as_ref().ok();
        let met = Met {
            function: "girderbasil_write_report",
            number: answer.number,
            column: answer.column,
            left: written.map(|written| call.report.slice().len() - written.len()),
            snow: written.map(|_| house::snow_of(call.table.slice())),
            state: written.and_then(|_| state_of(call.table.slice())),
            record: None,
        };
        Self::of(met, answer_bytes(answer))
            .reading(&call.table)
            .changing(&call.report, &call.report_after)
            .without()
    }

    fn diagnose(call: &Diagnose) -> Self {
        let answer = call.answer();
        let table = model::read(call.sheet.slice(), MOST_ROWS * ROW);
        let scored = call.expected.and(table).ok();
        let met = Met {
            function: "girderbasil_diagnose",
            number: answer.number,
            column: answer.column,
            left: None,
            snow: scored.as_deref().map(house::snow_of),
            state: scored.as_deref().and_then(state_of),
            record: None,
        };
        let mut bytes = vec![];
        put_all(&[answer.number, answer.row, answer.column], &mut bytes);
        put_all(&[answer.count], &mut bytes);
        put_all(&answer.bytes, &mut bytes);
        Self::of(met, bytes)
            .reading(&call.sheet)
            .without()
            .without()
    }

    fn on_site(random: &mut Random, call: &OnSite) -> Self {
        let answer = call.answer();
        let table = call.table.slice();
        let rows = table.get(..ROW * call.totals.rows as usize);
        let met = Met {
            function: match call.change {
                Change::Start => "girderbasil_start",
                Change::Add(_) => "girderbasil_add_wall",
                Change::Delete(_) => "girderbasil_delete_wall",
            },
            number: answer.number,
            column: answer.column,
            left: None,
            snow: call.expected.ok().map(|_| house::snow_of(table)),
            state: rows.and_then(state_of),
            record: call.expected.ok(),
        };
        let bare = Self::of(met, scoring_bytes(&answer));
        let with_table = match call.change {
            Change::Start => bare.reading(&call.table).without(),
            Change::Add(wall) => bare
                .reading(&Lent::copy_of(random, &wall, Random::numbers))
                .changing(&call.table, &call.table_after),
            Change::Delete(row) => bare
                .reading(&Lent::copy_of(random, &[row], Random::numbers))
                .changing(&call.table, &call.table_after),
        };
        let totals = Lent::copy_of(random, &elements_of(&call.totals), |random, count| {
            (0..count).map(|_| random.draw()).collect()
        });
        let totals_after = totals.after_writing(&elements_of(&call.totals_after));
        with_table.changing(&totals, &totals_after)
    }
}

/// Totals as they cross: seven elements of 64 bits, with nothing in what fills the struct up.
fn elements_of(totals: &Totals) -> Vec<u64> {
    let mut elements = totals.held.to_vec();
    elements.push(totals.rows.into());
    elements
}

fn scoring_bytes(answer: &raw::Scoring) -> Vec<u8> {
    let mut bytes = vec![];
    put_all(&[answer.number, answer.row, answer.column], &mut bytes);
    put_all(&answer.scores, &mut bytes);
    put_all(&[answer.count, answer.verdict], &mut bytes);
    put_all(&[answer.started_by_31_may_1981], &mut bytes);
    for six in [answer.hundredths, answer.remainders, answer.divisors] {
        put_all(&six, &mut bytes);
    }
    bytes
}

/// The age and repair of a house; nothing where it is refused.
fn state_of(table: &[u32]) -> Option<State> {
    let survey = model::judge(table).ok();
    survey.map(|survey| State {
        age: survey.dates.age(),
        repaired: survey.parts.repaired,
    })
}

fn answer_bytes(answer: raw::Answer) -> Vec<u8> {
    let mut bytes = vec![];
    put_all(
        &[answer.number, answer.row, answer.column, answer.count],
        &mut bytes,
    );
    bytes
}

/// The functions that are called, each with the numbers that it may answer with and whether it fills something from its
/// front.
const FUNCTIONS: [(&str, &[usize], bool); 7] = [
    (
        "girderbasil_add_wall",
        &[0, 1, 3, 4, 5, 6, 7, 8, 9, 10, 11, 12],
        false,
    ),
    (
        "girderbasil_delete_wall",
        &[0, 1, 3, 4, 5, 6, 7, 8, 10, 11, 12],
        false,
    ),
    (
        "girderbasil_diagnose",
        &[0, 1, 2, 3, 4, 5, 6, 7, 8, 10, 11],
        false,
    ),
    ("girderbasil_read", &[0, 1, 2, 9], true),
    (
        "girderbasil_score",
        &[0, 1, 3, 4, 5, 6, 7, 8, 10, 11],
        false,
    ),
    (
        "girderbasil_start",
        &[0, 1, 3, 4, 5, 6, 7, 8, 10, 11],
        false,
    ),
    (
        "girderbasil_write_report",
        &[0, 1, 3, 4, 5, 6, 7, 8, 9, 10, 11],
        true,
    ),
];

/// How many calls of a function are as wanted.
fn count(calls: &[Met], function: &str, wanted: &dyn Fn(&Met) -> bool) -> usize {
    let of_function = calls.iter().filter(|call| call.function == function);
    of_function.filter(|call| wanted(call)).count()
}

/// Asserts that enough was met of everything: each function with each number and each snow, and with just enough lent and
/// with more. With too little it is number 9.
fn assert_all_met(calls: &[Met]) {
    for (function, numbers, fills) in FUNCTIONS {
        let met = |wanted: &dyn Fn(&Met) -> bool| count(calls, function, wanted);
        for &number in numbers {
            let met = met(&|call| call.number as usize == number);
            assert!(met >= 50, "{function}, {number}: {met}");
        }
        for snow in 0..4 {
            let met = met(&|call| call.snow == Some(snow));
            assert!(met >= 200, "{function}, snow {snow}: {met}");
        }
        if fills {
            assert!(met(&|call| call.left == Some(0)) >= 1_000, "{function}");
            assert!(met(&|call| call.left > Some(0)) >= 1_000, "{function}");
        }
    }
}

/// Asserts that each function that scores met parts and dates that are refused, at each of their columns, and houses of
/// both ages, repaired and not.
fn assert_last_rows_met(calls: &[Met]) {
    let scoring = FUNCTIONS.into_iter().filter(|it| it.1.contains(&11));
    for (function, ..) in scoring {
        let met = |wanted: &dyn Fn(&Met) -> bool| count(calls, function, wanted);
        for place in PARTS_REFUSALS.into_iter().chain(DATES_REFUSALS) {
            let met = met(&|call| (call.number, call.column) == place);
            assert!(met >= 10, "{function}, {place:?}: {met}");
        }
        let met = |wanted: fn(&State) -> bool| met(&|call| call.state.as_ref().is_some_and(wanted));
        let ages = [met(|it| it.age == 1), met(|it| it.age == 2)];
        let repaired = [met(|it| !it.repaired), met(|it| it.repaired)];
        for met in [ages, repaired].as_flattened() {
            assert!(*met >= 1_000, "{function}: {ages:?}, {repaired:?}");
        }
    }
}

/// What may be said of a record, and of how many it must hold.
type Kind = (&'static str, usize, fn(&Record) -> bool);

/// A remainder or a divisor is long where 32 bits don't hold it. Hundredths never are.
const RECORDS: [Kind; 6] = [
    ("work started by 31 May 1981", 1_000, |record| {
        record.started_by_31_may_1981 == 1
    }),
    ("work started later", 1_000, |record| {
        record.started_by_31_may_1981 == 0
    }),
    ("hundredths above the limit of scores", 500, |record| {
        record.hundredths.iter().any(|&it| it > 999)
    }),
    ("nothing left over", 500, |record| {
        record.remainders[..record.count as usize].contains(&0)
    }),
    ("a long remainder", 500, |record| {
        record.remainders.iter().any(|&it| it >> 32 > 0)
    }),
    ("a long divisor", 500, |record| {
        record.divisors.iter().any(|&it| it >> 32 > 0)
    }),
];

/// Asserts that enough records of each kind were answered.
fn assert_records_met(calls: &[Met]) {
    for (name, least, holds) in RECORDS {
        let wanted = |call: &Met| call.record.is_some_and(|record| holds(&record));
        let met = count(calls, "girderbasil_score", &wanted);
        assert!(met >= least, "{name}: {met}");
    }
}

/// Sends all calls to a program, and compares what it gives with what each must give. Every program gets the same calls.
fn answers_as_the_model_does(mut program: Command) {
    let mut random = Random::new(15);
    let mut met = Vec::new();
    for _ in 0..CALLS / BATCH {
        let calls: Vec<Call> = (0..BATCH).map(|_| Call::any(&mut random)).collect();
        let asked: Vec<u8> = calls.iter().flat_map(|call| &call.asked).copied().collect();
        let output = common::run(&mut program, &asked);
        let said = String::from_utf8_lossy(&output.stderr);
        compare(&calls, &output.stdout, &said);
        assert!(output.status.success(), "{}: {said}", output.status);
        met.extend(calls.into_iter().map(|call| call.met));
    }
    assert_eq!(met.len(), CALLS);
    assert_all_met(&met);
    assert_last_rows_met(&met);
    assert_records_met(&met);
}

/// Compares what a program gave with what the calls must give.
fn compare(calls: &[Call], given: &[u8], said: &str) {
    let mut rest = given;
    for (index, call) in calls.iter().enumerate() {
        let (own, after) = rest.split_at(call.expected.len().min(rest.len()));
        if own != call.expected {
            let differ = |(one, other): (&u8, &u8)| one != other;
            let at = own.iter().zip(&call.expected).position(differ);
            panic!(
                "call {index}, {}: the first difference is at byte {at:?} of {} ({said})",
                call.met.function,
                call.expected.len()
            );
        }
        rest = after;
    }
    assert!(rest.is_empty(), "it gave more than the calls ask for");
}

#[test]
fn every_function_of_the_header_is_called() {
    let called = FUNCTIONS.map(|(function, ..)| function);
    assert_eq!(called, header::functions()[..]);
}

#[test]
fn x86_64_answers_as_the_model_does() {
    answers_as_the_model_does(program(X86_64, "calls"));
}

#[test]
fn on_arm64_it_answers_as_the_model_does() {
    answers_as_the_model_does(program(ARM64, "calls"));
}

#[test]
fn under_node_the_module_answers_as_the_model_does() {
    answers_as_the_model_does(script("calls"));
}

#[test]
fn under_node_the_javascript_answers_as_the_model_does() {
    let mut wrapped = script("calls");
    wrapped.arg("wrapped");
    answers_as_the_model_does(wrapped);
}

#[test]
fn under_node_the_javascript_passes_its_own_tests() {
    module();
    let mut node = Command::new("node");
    let tests = common::top().join("web/girderbasil.test.js");
    node.args(["--test", "--test-reporter=tap"]).arg(tests);
    let output = common::output(&mut node);
    let printed = String::from_utf8_lossy(&output.stdout);
    assert!(output.status.success(), "{printed}");
    let mut counts = printed.lines();
    let passed = counts.find_map(|line| line.strip_prefix("# pass ")?.parse().ok());
    assert!(passed >= Some(20), "{passed:?} of them");
}
