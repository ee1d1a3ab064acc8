//! What stands in a line or a field where only digits and spaces may.

use crate::name::width;

/// The name of the sentence for it; none where there are only digits and spaces.
pub fn odd(text: &[u8]) -> Option<&'static str> {
    if text.is_ascii() {
        let is_odd = |byte: &&u8| **byte != b' ' && !byte.is_ascii_digit();
        return text.iter().find(is_odd).map(|byte| ascii(*byte));
    }
    Some(str::from_utf8(text).map_or_else(|_| shift_jis(text), utf_8))
}

fn ascii(byte: u8) -> &'static str {
    match byte {
        b'+' | b'-' => "sign",
        b'.' => "point",
        b',' => "1 comma",
        b';' => "1 semicolon",
        b'\t' => "1 tab",
        letter if letter.is_ascii_alphabetic() => "letter",
        _ => "character",
    }
}

/// Of text that is not ASCII alone.
fn utf_8(text: &str) -> &'static str {
    let is_wide = |character: char| width(character.encode_utf8(&mut [0; 4])) == 2;
    if text.contains(|character| ('０'..='９').contains(&character)) {
        "digit"
    } else if text.contains('\u{3000}') {
        "wide space"
    } else if text.contains(is_wide) {
        "wide"
    } else {
        "character"
    }
}

/// Of text that is no UTF-8. A full-width character has two bytes, of which the second may look like a letter.
fn shift_jis(text: &[u8]) -> &'static str {
    let mut wide = Vec::new();
    let mut rest = text;
    while let [first, after @ ..] = rest {
        rest = after;
        if let (0x81..=0x9f | 0xe0..=0xfc, [second @ (0x40..=0x7e | 0x80..=0xfc), after @ ..]) =
            (first, after)
        {
            wide.push([*first, *second]);
            rest = after;
        }
    }
    if wide.iter().any(|pair| matches!(pair, [0x82, 0x4f..=0x58])) {
        "digit"
    } else if wide.contains(&[0x81, 0x40]) {
        "wide space"
    } else if wide.is_empty() {
        "character"
    } else {
        "wide"
    }
}
