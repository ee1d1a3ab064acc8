//! Refusal 4: a number outside its column's range.

use super::{Row, WALL, list, storeys};
use crate::words::{self, Bound, Range, sentence};

/// The column of a wall's type.
const TYPE: u32 = 8;

/// What a column may hold in place of what it has.
pub fn explain(rows: &[Row], row: &Row, column: u32) -> Option<String> {
    let words = words::column(row[0], column)?;
    let found = *row.get((column as usize).checked_sub(1)?)?;
    if let (Some(allowed), Some(opening)) = (words.opening, opening(row)) {
        return Some(sentence(
            "opening",
            &[("found", &found), ("type", &opening), ("allowed", &allowed)],
        ));
    }
    let what = match words.range {
        Range::Between(least, greatest) => {
            let house = rows.first()?[1];
            let ends = [least, greatest].map(|bound| number(bound, row, house));
            let name = name([least, greatest], ends, words.unit);
            between(name, found, ends, words.unit, house)
        }
        Range::Choice => {
            let allowed = allowed(row[0], column);
            sentence("choice", &[("found", &found), ("allowed", &allowed)])
        }
        Range::Unused => sentence("unused", &[("found", &found)]),
        Range::Age => sentence("age", &[("found", &found)]),
        Range::Due => return None,
    };
    // The mistake may be the wall's type.
    if words.opening == Some(found) {
        let places: [(&str, &dyn ToString); 3] =
            [("what", &what), ("found", &found), ("type", row.last()?)];
        return Some(sentence("no opening", &places));
    }
    Some(what)
}

/// The name of a wall's type where it is an opening.
fn opening(row: &Row) -> Option<&'static str> {
    let [WALL, .., number @ 2..=3] = *row else {
        return None;
    };
    let mut types = words::choices(WALL, TYPE).into_iter();
    Some(types.find(|choice| choice.number == number)?.name)
}

fn number(bound: Bound, row: &Row, house: u32) -> u32 {
    match bound {
        Bound::Number(number) => number,
        Bound::OwnStorey => row[1],
        Bound::HouseStoreys => house,
    }
}

/// The name of the sentence for a range, which says where its ends come from.
fn name(bounds: [Bound; 2], [least, greatest]: [u32; 2], unit: &str) -> &'static str {
    match (bounds, least == greatest) {
        ([Bound::OwnStorey, _], true) => "one by storeys",
        ([Bound::OwnStorey, _], false) => "range by storeys",
        ([_, Bound::HouseStoreys], true) => "one by house",
        ([_, Bound::HouseStoreys], false) => "range by house",
        _ if unit.is_empty() => "range",
        _ => "unit",
    }
}

fn between(name: &str, found: u32, ends: [u32; 2], unit: &str, house: u32) -> String {
    let [least, greatest] = ends;
    sentence(
        name,
        &[
            ("found", &found),
            ("least", &least),
            ("greatest", &greatest),
            ("unit", &unit),
            ("storeys", &storeys(house)),
        ],
    )
}

/// The choices of a column in words.
fn allowed(kind: u32, column: u32) -> String {
    let choices = words::choices(kind, column).into_iter();
    let words: Vec<String> = choices
        .map(|choice| match choice.name {
            "" => choice.number.to_string(),
            name => sentence("meaning", &[("number", &choice.number), ("meaning", &name)]),
        })
        .collect();
    list(&words, "or")
}
