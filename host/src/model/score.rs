//! "Score and verdict", and document 02's request 4: the score with what was left over.

use super::deterioration::{self, Fraction};
use super::held::{self, Held};
use super::layout::{self, Band};
use super::required;
use super::survey::{self, Survey};
use girderbasil::{Record, Refusal};

const MOST_SCORE: u64 = 999;

/// A survey with what is worked out once for the whole house, and with held strengths that may be others than its walls'.
pub struct Diagnosis<'table> {
    pub survey: Survey<'table>,
    held: [[Held; 2]; 3],
    deterioration: Fraction,
}

/// What is worked out for a storey and direction.
#[derive(Debug, Clone, Copy)]
pub struct Assessment {
    pub storey: u32,
    pub direction: u32,
    /// In 0.000001 kN.
    pub held: u64,
    /// In 0.000000001 kN.
    pub required: u64,
    /// The same of the ends a and b.
    pub required_of_ends: [u64; 2],
    /// Of the ends a and b.
    pub bands: [Band; 2],
    /// In hundredths.
    pub layout: u64,
    pub deterioration: Fraction,
}

/// A score before its limit of 999: hundredths × divisor + remainder is what was divided, and the remainder is smaller
/// than the divisor.
#[derive(Debug, Clone, Copy, PartialEq, Eq)]
pub struct Quotient {
    pub hundredths: u64,
    pub remainder: u64,
    pub divisor: u64,
}

impl Quotient {
    /// The score that is printed and judged by, in hundredths.
    pub fn limited(self) -> u32 {
        self.hundredths.min(MOST_SCORE) as u32
    }
}

impl<'table> Diagnosis<'table> {
    /// The diagnosis of a table that scoring refuses on no ground.
    pub fn of(table: &'table [u32]) -> Result<Self, Refusal> {
        let survey = survey::judge(table)?;
        let by_marks = deterioration::factor(survey.dates.age(), survey.parts);
        Ok(Self {
            survey,
            held: held::held(&survey),
            deterioration: deterioration::after_repair(survey.parts.repaired, by_marks),
        })
    }

    /// The sums over the walls in all six places; 0 where the house lacks the storey.
    pub fn sums(&self) -> [u64; 6] {
        let sums = self.held.as_flattened();
        std::array::from_fn(|place| sums[place].total)
    }

    /// The same house with other held strengths in the six places. Its ends keep what their own walls hold.
    pub fn with_held(mut self, held: &[u64; 6]) -> Self {
        for (place, &total) in self.held.as_flattened_mut().iter_mut().zip(held) {
            place.total = total;
        }
        self
    }

    /// How many scores there are: two a storey.
    pub fn count(&self) -> u32 {
        2 * self.survey.house.storeys
    }

    /// The assessments in the order of the scores: from the ground up, X before Y.
    pub fn assessments(&self) -> impl Iterator<Item = Assessment> {
        (1..=self.survey.house.storeys)
            .flat_map(|storey| [1, 2].map(|direction| self.assessment(storey, direction)))
    }

    /// The record that scoring answers.
    pub fn record(&self) -> Record {
        let mut record = Record {
            count: self.count(),
            started_by_31_may_1981: u32::from(self.survey.dates.started_by_31_may_1981()),
            ..Record::default()
        };
        for (place, assessment) in self.assessments().enumerate() {
            let score = assessment.score();
            record.scores[place] = score.limited();
            record.hundredths[place] = score.hundredths;
            record.remainders[place] = score.remainder;
            record.divisors[place] = score.divisor;
        }
        let least = record.scores[..record.count as usize].iter().min();
        record.verdict = verdict(*least.expect("a house has a storey"));
        record
    }

    fn assessment(&self, storey: u32, direction: u32) -> Assessment {
        let house = &self.survey.house;
        let level = self.survey.storey(storey);
        let held = self.held[storey as usize - 1][direction as usize - 1];
        let narrow = required::narrow_factor(self.survey.storeys_above(storey));
        let ends = self.survey.ends(storey, direction);
        let required_of_ends = required::ends(house, &level, narrow, &ends);
        let bands = [0, 1].map(|end| Band::of(held.ends[end], required_of_ends[end]));
        Assessment {
            storey,
            direction,
            held: held.total,
            required: required::storey(house, &level, narrow),
            required_of_ends,
            bands,
            layout: layout::factor(bands, &level),
            deterioration: self.deterioration,
        }
    }
}

impl Assessment {
    pub fn score(&self) -> Quotient {
        self.score_at(self.layout)
    }

    /// The score before the layout factor.
    pub fn score_before_layout(&self) -> Quotient {
        self.score_at(100)
    }

    pub fn higher_band(&self) -> Band {
        self.bands[0].max(self.bands[1])
    }

    fn score_at(&self, layout: u64) -> Quotient {
        let dividend = 1_000 * self.held * layout * u64::from(self.deterioration.numerator);
        let divisor = self.required * u64::from(self.deterioration.denominator);
        Quotient {
            hundredths: dividend / divisor,
            remainder: dividend % divisor,
            divisor,
        }
    }
}

/// The record of a table.
pub fn score(table: &[u32]) -> Result<Record, Refusal> {
    Ok(Diagnosis::of(table)?.record())
}

/// The verdict of the least score, which is in hundredths.
pub fn verdict(least: u32) -> u32 {
    match least {
        150.. => 1,
        100.. => 2,
        70.. => 3,
        _ => 4,
    }
}
