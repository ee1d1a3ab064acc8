//! The names of files as they are shown.

use std::ffi::OsStr;

/// A name, or another argument, on one line whatever is in it: what would end the line, or reach a terminal as a command, is
/// written out. An empty one has quotes, so that it can be seen.
pub fn shown(name: &OsStr) -> String {
    if name.is_empty() {
        return String::from("\"\"");
    }
    let mut shown = String::new();
    for character in name.to_string_lossy().chars() {
        if changes_line(character) {
            shown.extend(character.escape_default());
        } else {
            shown.push(character);
        }
    }
    shown
}

/// Control characters, the ends of lines and paragraphs, and what turns the direction of the text behind it.
fn changes_line(character: char) -> bool {
    let turns = matches!(character, '\u{61c}' | '\u{200e}' | '\u{200f}' | '\u{202a}'..='\u{202e}' | '\u{2066}'..='\u{2069}');
    character.is_control() || turns || matches!(character, '\u{2028}' | '\u{2029}')
}

/// How many columns of a terminal a text takes: two for each character of Japanese, Chinese or Korean and most emoji, and
/// none for a mark that is set on the character before it, as in names from a Mac, or that has no width.
pub fn width(text: &str) -> usize {
    let columns = text.chars().map(|character| match character {
        '\u{300}'..='\u{36f}'
        | '\u{200b}'..='\u{200d}'
        | '\u{3099}'
        | '\u{309a}'
        | '\u{fe00}'..='\u{fe0f}' => 0,
        '\u{1100}'..='\u{115f}'
        | '\u{2e80}'..='\u{a4cf}'
        | '\u{ac00}'..='\u{d7a3}'
        | '\u{f900}'..='\u{faff}'
        | '\u{fe30}'..='\u{fe6f}'
        | '\u{ff00}'..='\u{ff60}'
        | '\u{ffe0}'..='\u{ffe6}'
        | '\u{1f300}'..='\u{1faff}'
        | '\u{20000}'..='\u{3fffd}' => 2,
        _ => 1,
    });
    columns.sum()
}
