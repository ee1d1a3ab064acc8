//! The line that finds the mistake in a refused sheet: on P1 with one mistake, each in its exact words, and on random
//! damaged sheets.

#[path = "../common/mod.rs"]
mod common;

mod fields;
mod files;
mod lengths;
mod rows;

use girderbasil::{FIELD, LINE, Refusal};
use girderbasil_diagnose::explain::explain;
use girderbasil_diagnose::words;
use girderbasil_tests::model;
use girderbasil_tests::random::Random;
use girderbasil_tests::worked::{self, SHEET};

const SHEETS: usize = 20_000;

/// The sentences of words.txt that a line is made of, so far as the case is there for them; a sheet; and its line.
type Case = (&'static [&'static str], Vec<u8>, &'static str);

fn cases() -> Vec<Case> {
    [
        files::whole(),
        lengths::ends(),
        lengths::columns(),
        fields::fields(),
        rows::order(),
        rows::ranges(),
        rows::house(),
        rows::dates(),
    ]
    .concat()
}

/// The refusal of a sheet that the library does not score.
fn refusal(sheet: &[u8]) -> Refusal {
    let refusal = girderbasil::output(sheet).refusal();
    refusal.unwrap_or_else(|| panic!("it is scored:\n{}", String::from_utf8_lossy(sheet)))
}

/// P1's sheet with some of its numbers changed: (row, column, number).
fn changed(changes: &[(usize, usize, u32)]) -> Vec<u8> {
    written(&worked::changed(changes))
}

fn written(table: &[u32]) -> Vec<u8> {
    model::write(table, usize::MAX).expect("a table of some rows")
}

/// P1's sheet with other bytes from a field on, or from column 9 on, the newline's place.
fn with_field(row: usize, column: usize, field: &[u8]) -> Vec<u8> {
    let mut sheet = SHEET.to_vec();
    let start = (row - 1) * LINE + (column - 1) * FIELD;
    sheet[start..start + field.len()].copy_from_slice(field);
    sheet
}

/// P1's lines, with their newlines.
fn lines() -> Vec<Vec<u8>> {
    SHEET.chunks(LINE).map(<[u8]>::to_vec).collect()
}

/// P1's sheet with more bytes at the end of a line, before its newline.
fn with_end(row: usize, end: &[u8]) -> Vec<u8> {
    let mut sheet = SHEET.to_vec();
    let newline = row * LINE - 1;
    sheet.splice(newline..newline, end.iter().copied());
    sheet
}

#[test]
fn each_mistake_is_told_in_its_words() {
    for (_, sheet, line) in cases() {
        assert_eq!(explain("p1.sheet", &sheet, refusal(&sheet)), line);
    }
}

/// Every sentence of the file is the point of some case above, and can be seen in its line.
#[test]
fn every_sentence_is_met() {
    let cases = cases();
    let sentences = words::sentences();
    for &(name, sentence) in &sentences {
        let is_seen = |(names, _, line): &Case| names.contains(&name) && is_in(sentence, line);
        assert!(cases.iter().any(is_seen), "{name}");
    }
    for name in cases.iter().flat_map(|(names, ..)| names.iter()) {
        assert!(sentences.iter().any(|(known, _)| known == name), "{name}");
    }
}

/// Whether a line has what stands between a sentence's places, in that order.
fn is_in(sentence: &str, line: &str) -> bool {
    let pieces = sentence.split(['{', '}']).step_by(2);
    let mut rest = line;
    pieces
        .into_iter()
        .all(|piece| match rest.split_once(piece) {
            Some((_, after)) => {
                rest = after;
                true
            }
            None => false,
        })
}

/// What no sheet is told, and what a sheet is told that does not show it, has the words of docs/REFUSALS.md.
#[test]
fn where_nothing_is_found_the_sentence_is_general() {
    let told = |number, row, column| explain("p1.sheet", SHEET, Refusal::at(number, row, column));
    assert_eq!(
        told(Refusal::LENT_SPACE_SHORT, 0, 0),
        "p1.sheet: The table or the bytes to be written need more than was lent; on site, no row is left for a new wall. \
         [9 lent space short]"
    );
    assert_eq!(
        told(Refusal::NO_SUCH_WALL, 5, 0),
        "p1.sheet:5: The row to delete is no wall's (column 0); or, with row 0 and column 0, a total of the house would be \
         less than 0 or more than 60,000 kN after the change. [12 no such wall]"
    );
    assert_eq!(
        told(Refusal::OUT_OF_RANGE, 400, 4),
        "p1.sheet:400: column 4: The column holds a number outside its range, or is unused and not 0. [4 out of range]"
    );
}

/// A refusal that is not the sheet's own still has a line, with its place.
#[test]
fn no_refusal_is_left_without_a_line() {
    for number in 0..=13 {
        for (row, column) in [(1, 0), (5, 2), (12, 9), (13, 1), (400, 400)] {
            let line = explain("p1.sheet", SHEET, Refusal::at(number, row, column));
            assert!(line.starts_with(&format!("p1.sheet:{row}: ")), "{line}");
        }
        let line = explain("p1.sheet", SHEET, Refusal::without_place(number));
        assert!(line.starts_with("p1.sheet: "), "{line}");
    }
}

/// Nothing is looked for in what is filled in.
#[test]
fn a_name_may_have_braces() {
    let line = explain("{row}.sheet", b"", refusal(b""));
    assert_eq!(line, "{row}.sheet: it is empty. [1 sheet length]");
}

/// One byte too many or too few within a column is told with that column. At a column's ends it may as well be its
/// neighbour's.
#[test]
fn a_byte_more_or_less_is_found() {
    for place in (0..SHEET.len()).filter(|place| (2..FIELD - 1).contains(&(place % LINE % FIELD))) {
        let (row, column) = (place / LINE + 1, place % LINE / FIELD + 1);
        for byte in [None, Some(b' '), Some(b'0'), Some(b'3')] {
            let mut sheet = SHEET.to_vec();
            match byte {
                None => drop(sheet.remove(place)),
                Some(byte) => sheet.insert(place, byte),
            }
            let line = explain("p1.sheet", &sheet, refusal(&sheet));
            let bytes = if byte.is_none() { LINE - 1 } else { LINE + 1 };
            let start = format!("p1.sheet:{row}: {bytes} bytes, not 65: column {column} (");
            assert!(line.starts_with(&start), "{byte:?} at {place}: {line}");
        }
    }
}

#[test]
fn random_damaged_sheets_are_told_where_and_why() {
    let mut random = Random::new(20);
    let sentences = words::sentences();
    let places = sentences
        .iter()
        .flat_map(|(_, sentence)| sentence.split(['{', '}']).skip(1).step_by(2));
    let places: Vec<String> = places.map(|place| format!("{{{place}}}")).collect();
    let mut met = [0; 13];
    for _ in 0..SHEETS {
        let sheet = common::any_sheet(&mut random);
        let Some(refusal) = girderbasil::output(&sheet).refusal() else {
            met[0] += 1;
            continue;
        };
        let line = explain("any.sheet", &sheet, refusal);
        let number = refusal.number;
        let start = match refusal.row {
            0 => "any.sheet:".to_owned(),
            row => format!("any.sheet:{row}: "),
        };
        let end = format!(" [{number} {}]", words::refusal(number));
        assert!(line.starts_with(&start) && line.ends_with(&end), "{line}");
        assert!(!places.iter().any(|place| line.contains(place)), "{line}");
        assert!(
            !line.contains(words::when(number)) && !line.contains('\n'),
            "{line}"
        );
        met[number as usize] += 1;
    }
    // No sheet is told 9 or 12.
    let told = (0..met.len()).filter(|number| met[*number] > 0);
    assert_eq!(
        told.collect::<Vec<_>>(),
        [0, 1, 2, 3, 4, 5, 6, 7, 8, 10, 11]
    );
}
