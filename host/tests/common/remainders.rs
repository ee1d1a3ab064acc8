//! What a record has beside each score, against the equation of document 02's request 4, and the deterioration fraction in
//! it against request 5; and how many scores of each kind were met.

use std::cmp::Ordering;

use girderbasil::Record;
use girderbasil_tests::model::deterioration::{self, Fraction};
use girderbasil_tests::model::score::{Assessment, Diagnosis};
use girderbasil_tests::model::survey::{Parts, Survey};

/// How many scores were met of each kind.
#[derive(Debug, Default)]
pub struct Scores {
    /// By their hundredths: under 999, 999, and more.
    by_limit: [usize; 3],
    /// By whether something is left over.
    by_remainder: [usize; 2],
    /// With the deterioration fraction that the marks leave, by whether the house is repaired, then by its [`Kind`].
    kept: [[usize; 6]; 2],
    /// With 9/10 after repair in the place of the fraction that the marks leave, by its [`Kind`].
    lessened: [usize; 6],
    /// With a fraction that is 7/10 in other numbers, as 14/20 is, by whether the house is repaired.
    seven_tenths_in_points: [usize; 2],
}

/// A fraction that marks leave: 1/1, 7/10 and 9/10; and in other points, not reduced, under nine tenths, nine tenths, as
/// 18/20, and above.
#[derive(Clone, Copy)]
enum Kind {
    One,
    SevenTenths,
    NineTenths,
    Under,
    Equal,
    Above,
}

impl Kind {
    fn of(fraction: Fraction, present: u32) -> Self {
        match (fraction.numerator, fraction.denominator) {
            (1, 1) => Self::One,
            (7, 10) => Self::SevenTenths,
            (9, 10) => Self::NineTenths,
            (upper, lower) => {
                assert_eq!(lower, deterioration::points(present));
                match (10 * upper).cmp(&(9 * lower)) {
                    Ordering::Less => Self::Under,
                    Ordering::Equal => Self::Equal,
                    Ordering::Greater => Self::Above,
                }
            }
        }
    }

    fn is_above_nine_tenths(self) -> bool {
        matches!(self, Self::One | Self::Above)
    }
}

impl Scores {
    /// Checks what a house's record has for each score, and counts it.
    pub fn check(&mut self, diagnosis: &Diagnosis, record: &Record) {
        let mut count = 0;
        for assessment in diagnosis.assessments() {
            self.check_score(&assessment, record, count);
            self.check_fraction(assessment.deterioration, &diagnosis.survey);
            count += 1;
        }
        assert_eq!(record.count as usize, count);
        assert_eq!(record.scores[count..], [0; 6][count..]);
        for six in [record.hundredths, record.remainders, record.divisors] {
            assert_eq!(six[count..], [0; 6][count..]);
        }
    }

    fn check_score(&mut self, assessment: &Assessment, record: &Record, place: usize) {
        let beside = [record.hundredths, record.remainders, record.divisors];
        let [hundredths, remainder, divisor] = beside.map(|six| u128::from(six[place]));
        let strengths = [assessment.held, assessment.layout, assessment.required];
        let [held, layout, required] = strengths.map(u128::from);
        let fraction = assessment.deterioration;
        let [upper, lower] = [fraction.numerator, fraction.denominator].map(u128::from);
        let dividend = 1_000 * held * layout * upper;
        assert_eq!(hundredths * divisor + remainder, dividend);
        assert!(remainder < divisor);
        assert_eq!(divisor, required * lower);
        assert_eq!(u128::from(record.scores[place]), hundredths.min(999));
        self.by_limit[match hundredths {
            ..999 => 0,
            999 => 1,
            _ => 2,
        }] += 1;
        self.by_remainder[usize::from(remainder > 0)] += 1;
    }

    /// Checks that a house is scored with the fraction that its marks leave, or if it is repaired and that is above 9/10,
    /// with 9/10; and counts it.
    fn check_fraction(&mut self, fraction: Fraction, survey: &Survey) {
        let by_marks = deterioration::factor(survey.dates.age(), survey.parts);
        let Parts {
            present, repaired, ..
        } = survey.parts;
        let kind = Kind::of(by_marks, present);
        let [upper, lower] = [fraction.numerator, fraction.denominator];
        if repaired && kind.is_above_nine_tenths() {
            assert_eq!([upper, lower], [9, 10]);
            self.lessened[kind as usize] += 1;
        } else {
            assert_eq!(fraction, by_marks);
            self.kept[usize::from(repaired)][kind as usize] += 1;
            let seven_tenths = lower != 10 && 10 * upper == 7 * lower;
            self.seven_tenths_in_points[usize::from(repaired)] += usize::from(seven_tenths);
        }
    }

    /// Asserts that enough were met of each kind.
    pub fn assert_met(&self, least: usize) {
        let [kept, kept_after_repair] = self.kept;
        // After repair a fraction either stays or is lessened, by its kind.
        let after_repair =
            std::array::from_fn(|kind| kept_after_repair[kind] + self.lessened[kind]);
        let kinds: [&[usize]; 5] = [
            &self.by_limit,
            &self.by_remainder,
            &kept,
            &after_repair as &[usize; 6],
            &self.seven_tenths_in_points,
        ];
        let mut kinds = kinds.into_iter().flatten();
        assert!(kinds.all(|&met| met >= least), "{self:?}");
    }
}
