//! "Deterioration factor", and document 02's request 5: houses already repaired.

use super::survey::Parts;

/// The points of items 1 to 13: the manual's table 4.8.
const POINTS: [u32; 13] = [2, 2, 2, 4, 2, 1, 1, 1, 2, 2, 2, 1, 2];

/// Items 6, 7, 8 and 12, which aren't surveyed under ten years.
const NOT_SURVEYED_YOUNG: u32 = 1 << 5 | 1 << 6 | 1 << 7 | 1 << 11;

/// A factor as points over points, or 7/10, 9/10 or 1/1; not reduced, since its lower number is a part of a score's
/// divisor.
#[derive(Debug, Clone, Copy, PartialEq, Eq)]
pub struct Fraction {
    pub numerator: u32,
    pub denominator: u32,
}

impl Fraction {
    pub fn in_hundredths(self) -> u32 {
        100 * self.numerator / self.denominator
    }
}

/// "at most 0.9 for deterioration, since not all rot is found".
const MOST_AFTER_REPAIR: Fraction = Fraction {
    numerator: 9,
    denominator: 10,
};

/// The deterioration factor that a house's marks leave, by its age (1 under ten years).
pub fn factor(age: u32, parts: Parts) -> Fraction {
    let counted = match age {
        1 if parts.marked & !NOT_SURVEYED_YOUNG == 0 => 0,
        _ => parts.marked,
    };
    if counted == 0 {
        return Fraction {
            numerator: 1,
            denominator: 1,
        };
    }
    let present = points(parts.present);
    let sound = present - points(counted);
    if 10 * sound < 7 * present {
        return Fraction {
            numerator: 7,
            denominator: 10,
        };
    }
    Fraction {
        numerator: sound,
        denominator: present,
    }
}

/// The factor that a house is scored with, from the one that its marks leave: if it is repaired, the lesser of that and
/// 9/10. Where both are equal, the numbers stay those of the marks.
pub fn after_repair(repaired: bool, by_marks: Fraction) -> Fraction {
    let above = by_marks.numerator * MOST_AFTER_REPAIR.denominator
        > MOST_AFTER_REPAIR.numerator * by_marks.denominator;
    if repaired && above {
        MOST_AFTER_REPAIR
    } else {
        by_marks
    }
}

/// The points of a set of items.
pub fn points(set: u32) -> u32 {
    (0..)
        .zip(POINTS)
        .map(|(item, points)| (set >> item & 1) * points)
        .sum()
}
