//! What a person reads, from `words.txt` at the repository's top, which says what its lines are.

use std::str::FromStr;
use std::sync::LazyLock;

const TEXT: &str = include_str!("../../../words.txt");

/// The cells of each line, read once.
static LINES: LazyLock<Vec<Vec<&str>>> = LazyLock::new(|| {
    let lines = TEXT.lines().filter(|line| !line.starts_with('#'));
    let cells = lines.map(|line| line.split('|').map(str::trim).collect::<Vec<_>>());
    cells.filter(|cells| cells.len() > 1).collect()
});

/// What a verdict says, and the manual's words for it.
#[derive(Debug, Clone, Copy, PartialEq, Eq)]
pub struct Verdict {
    pub english: &'static str,
    pub japanese: &'static str,
}

/// A column of a kind of row.
#[derive(Debug, Clone, Copy, PartialEq, Eq)]
pub struct Column {
    pub name: &'static str,
    pub range: Range,
    /// How the number is to be read, as it goes on behind its range; empty where it counts whole things, or nothing.
    pub unit: &'static str,
    /// What a wall that is an opening has here, where that is settled.
    pub opening: Option<u32>,
}

/// The numbers that a column may hold.
#[derive(Debug, Clone, Copy, PartialEq, Eq)]
pub enum Range {
    Between(Bound, Bound),
    Choice,
    Due,
    Unused,
    Age,
}

/// The least or the greatest number of a range.
#[derive(Debug, Clone, Copy, PartialEq, Eq)]
pub enum Bound {
    Number(u32),
    OwnStorey,
    HouseStoreys,
}

/// A number of a column, a part of a house or a month, by what the file says of it.
#[derive(Debug, Clone, Copy, PartialEq, Eq)]
pub struct Named {
    pub number: u32,
    /// Empty where the number says it all.
    pub name: &'static str,
}

/// The name of a kind of row.
pub fn row(kind: u32) -> Option<&'static str> {
    only("row", &[kind]).map(|cells| cell(cells, 0))
}

/// What the file says of a column, counted from 1, in a kind of row.
pub fn column(kind: u32, column: u32) -> Option<Column> {
    let cells = only("column", &[kind, column])?;
    Some(Column {
        name: cell(cells, 0),
        range: cell(cells, 1).parse().ok()?,
        unit: cell(cells, 2),
        opening: cell(cells, 3).parse().ok(),
    })
}

/// The choices of a column, in the order of the file.
pub fn choices(kind: u32, column: u32) -> Vec<Named> {
    named("choice", &[kind, column])
}

/// The parts of a house, each with what it adds to a set.
pub fn parts() -> Vec<Named> {
    named("part", &[])
}

/// The name of a month, and its days in a year that is no leap year.
pub fn month(month: u32) -> Option<(&'static str, u32)> {
    let cells = only("month", &[month])?;
    Some((cell(cells, 0), cell(cells, 1).parse().ok()?))
}

/// The trade's word for a refusal; empty for a number that no refusal has.
pub fn refusal(number: u32) -> &'static str {
    only("refusal", &[number]).map_or("", |cells| cell(cells, 0))
}

/// When a refusal is told, as a sentence; empty for a number that no refusal has.
pub fn when(number: u32) -> &'static str {
    only("refusal", &[number]).map_or("", |cells| cell(cells, 1))
}

/// What a verdict says; nothing for a number that no verdict has.
pub fn verdict(number: u32) -> Verdict {
    let cells = only("verdict", &[number]).unwrap_or_default();
    Verdict {
        english: cell(cells, 0),
        japanese: cell(cells, 1),
    }
}

/// The sentence of a name with its places filled in, each with the words that stand beside its name.
pub fn sentence(name: &str, words: &[(&str, &dyn ToString)]) -> String {
    let is_named = |cells: &&Vec<&'static str>| cells[..2] == ["sentence", name];
    let template = LINES
        .iter()
        .find(is_named)
        .map_or("", |cells| cell(cells, 2));
    let mut pieces = template.split('{');
    let mut filled = pieces.next().unwrap_or_default().to_owned();
    // What is filled in may have braces of its own, so nothing is looked for in it.
    for piece in pieces {
        let (place, rest) = piece.split_once('}').unwrap_or((piece, ""));
        let word = words.iter().find(|(name, _)| *name == place);
        filled += &word.map_or(format!("{{{place}}}"), |(_, word)| word.to_string());
        filled += rest;
    }
    filled
}

/// The names of the sentences and the sentences, places and all.
pub fn sentences() -> Vec<(&'static str, &'static str)> {
    let lines = LINES.iter().filter(|cells| cells[0] == "sentence");
    lines.map(|cells| (cells[1], cell(cells, 2))).collect()
}

impl FromStr for Range {
    type Err = ();

    fn from_str(range: &str) -> Result<Self, ()> {
        match range {
            "choice" => Ok(Self::Choice),
            "due" => Ok(Self::Due),
            "unused" => Ok(Self::Unused),
            "age" => Ok(Self::Age),
            _ => {
                let (least, greatest) = range.split_once(" to ").ok_or(())?;
                Ok(Self::Between(least.parse()?, greatest.parse()?))
            }
        }
    }
}

impl FromStr for Bound {
    type Err = ();

    fn from_str(bound: &str) -> Result<Self, ()> {
        match bound {
            "own storey" => Ok(Self::OwnStorey),
            "house's storeys" => Ok(Self::HouseStoreys),
            number => number.parse().map(Self::Number).map_err(|_| ()),
        }
    }
}

/// The lines of a kind that go on with these numbers, each without those cells.
fn lines(kind: &str, numbers: &[u32]) -> impl Iterator<Item = &'static [&'static str]> {
    LINES.iter().filter_map(move |cells| {
        let (first, rest) = cells.split_first()?;
        let (start, rest) = rest.split_at_checked(numbers.len())?;
        let same = |(cell, number): (&&str, &u32)| cell.parse() == Ok(*number);
        (*first == kind && start.iter().zip(numbers).all(same)).then_some(rest)
    })
}

fn only(kind: &str, numbers: &[u32]) -> Option<&'static [&'static str]> {
    lines(kind, numbers).next()
}

fn named(kind: &str, numbers: &[u32]) -> Vec<Named> {
    let named = |cells: &[&'static str]| {
        Some(Named {
            number: cell(cells, 0).parse().ok()?,
            name: cell(cells, 1),
        })
    };
    lines(kind, numbers).filter_map(named).collect()
}

/// A cell, empty where the line ends before it.
fn cell(cells: &[&'static str], place: usize) -> &'static str {
    cells.get(place).copied().unwrap_or_default()
}
