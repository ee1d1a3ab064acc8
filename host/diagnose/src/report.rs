//! The report in words and kN. It is made from the proved lines alone.

use girderbasil::LINE;

use crate::explain::explain;
use crate::lines;
use crate::numbers::decimal;
use crate::outcome::{Outcome, Verdict};
use crate::words;

const TITLE: &str = "Earthquake diagnosis (general diagnosis, method 1)";

/// The report on a file's sheet, or what says that it has none.
pub fn report(name: &str, sheet: &[u8], outcome: &Outcome, proved: &[u8]) -> String {
    let body = match outcome {
        Outcome::Scored(verdict) => scored(proved, verdict),
        Outcome::Refused(refusal) => explain(name, sheet, *refusal) + "\n",
        Outcome::NotRead(what) | Outcome::NoTable(what) => {
            return format!("{TITLE}: {name}\n\n{name}{what}\n");
        }
    };
    let proved = String::from_utf8_lossy(proved);
    format!("{TITLE}: {name}\n\n{body}\n{proved}")
}

fn scored(proved: &[u8], verdict: &Verdict) -> String {
    let words = words::verdict(verdict.number);
    let mut text = row([
        "Storey",
        "Direction",
        "Held kN",
        "Required kN",
        "Layout",
        "Deterioration",
        "Score",
    ]);
    for line in lines::split(proved).0.chunks(LINE) {
        text += &assessment(line);
    }
    text += &format!(
        "\nLeast score {}, verdict {}: {}\n{}\n",
        decimal(verdict.least_score),
        verdict.number,
        lower_first(words.english),
        words.japanese
    );
    text
}

/// The line for a storey and direction.
fn assessment(line: &[u8]) -> String {
    let [_, storey, direction, numbers @ ..] = lines::numbers(line);
    let direction = if direction == 1 { "X" } else { "Y" };
    let [held, required, layout, deterioration, score] = numbers.map(decimal);
    row([
        &storey.to_string(),
        direction,
        &held,
        &required,
        &layout,
        &deterioration,
        &score,
    ])
}

/// A line of the table. Its columns are as wide as their headings, and those in kN as the strongest house needs.
fn row(cells: [&str; 7]) -> String {
    let [
        storey,
        direction,
        held,
        required,
        layout,
        deterioration,
        score,
    ] = cells;
    format!(
        "{storey:>6}  {direction:<9}  {held:>9}  {required:>11}  {layout:>6}  {deterioration:>13}  {score:>5}\n"
    )
}

/// A sentence as it goes on behind a colon.
fn lower_first(sentence: &str) -> String {
    let mut rest = sentence.chars();
    rest.next()
        .map(|first| first.to_lowercase().chain(rest).collect())
        .unwrap_or_default()
}
