//! The proved lines as numbers. Everything that is said in words or with decimals comes from them.

use girderbasil::{FIELD, LINE, ROW};

/// A line's numbers. Fields are as wide as they may be, so there need be no space between two.
pub fn numbers(line: &[u8]) -> [u32; ROW] {
    let mut numbers = [0; ROW];
    for (number, field) in numbers.iter_mut().zip(line.chunks(FIELD)) {
        let digits = field.iter().filter(|byte| byte.is_ascii_digit());
        *number = digits.fold(0, |number, digit| number * 10 + u32::from(digit - b'0'));
    }
    numbers
}

/// A report's lines for storeys and directions, and its last, the verdict's.
pub fn split(report: &[u8]) -> (&[u8], &[u8]) {
    report.split_at(report.len().saturating_sub(LINE))
}
