//! "Layout factor".

use super::survey::Storey;

/// Bands of an end's sufficiency: A under 0.33, B from 0.33, C from 0.66, D from 1.00, E from 1.33.
#[derive(Debug, Clone, Copy, PartialEq, Eq, PartialOrd, Ord)]
pub enum Band {
    A,
    B,
    C,
    D,
    E,
}

impl Band {
    pub const ALL: [Self; 5] = [Self::A, Self::B, Self::C, Self::D, Self::E];

    /// The band of an end from what its solid walls hold (in 0.000001 kN) and what it requires (in 0.000000001 kN).
    pub fn of(held: u64, required: u64) -> Self {
        let reaches = |hundredths: u64| 100 * 1_000 * held >= hundredths * required;
        if reaches(133) {
            Self::E
        } else if reaches(100) {
            Self::D
        } else if reaches(66) {
            Self::C
        } else if reaches(33) {
            Self::B
        } else {
            Self::A
        }
    }
}

/// The layout factor in hundredths, from the bands of the two ends.
pub fn factor(bands: [Band; 2], storey: &Storey) -> u64 {
    use Band::{A, B, C, D, E};
    let lower = bands[0].min(bands[1]);
    let higher = bands[0].max(bands[1]);
    let by_floor = match (lower, higher) {
        (A, A) | (B, B) | (B, C) | (C, _) => [100, 90, 80],
        (A, B) => [70, 65, 60],
        (A, C) => [65, 60, 55],
        (A, D) => [60, 55, 50],
        (A, E) => [55, 50, 45],
        (B, D) => [75, 70, 60],
        (B, _) => [70, 65, 55],
        (D | E, _) => [100, 100, 100],
    };
    by_floor[floor(storey) as usize - 1]
}

/// The floor type, which a void makes one worse.
fn floor(storey: &Storey) -> u32 {
    (storey.floor + u32::from(storey.void)).min(3)
}
