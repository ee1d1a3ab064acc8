//! The answers that documents 01 and 02 name.

use std::error::Error;
use std::fmt;

/// Why a sheet or table is refused, and where. Rows and columns count from 1; both are 0 where there is no place.
///
/// ```
/// use girderbasil::Refusal;
///
/// let refusal = girderbasil::score(&[]).unwrap_err();
/// assert_eq!(refusal, Refusal::without_place(Refusal::SHEET_LENGTH));
/// assert_eq!(refusal.to_string(), "refused 1");
/// assert_eq!(refusal.words(), "sheet length");
/// assert_eq!(Refusal::at(6, 3, 4).to_string(), "refused 6, row 3, column 4");
/// ```
#[derive(Debug, Clone, Copy, PartialEq, Eq, Hash)]
pub struct Refusal {
    /// The number of documents 01 and 02, one of the constants below. The repository's docs/REFUSALS.md explains each.
    pub number: u32,
    /// The sheet's line, or the table's row.
    pub row: u32,
    /// The field's place in its line, or the number's in its row; 9 is the line's last byte, and 0 the whole row.
    pub column: u32,
}

impl Refusal {
    /// The sheet is empty, its length is no multiple of 65 bytes, or it has too many lines; of a table the same.
    pub const SHEET_LENGTH: u32 = 1;
    /// A field is not a number right-justified in 8 characters, or a line does not end in a line feed.
    pub const MISPRINT: u32 = 2;
    /// Another row is due here, or the sheet ends early.
    pub const ROW_OUT_OF_ORDER: u32 = 3;
    /// A column holds a number outside its range.
    pub const OUT_OF_RANGE: u32 = 4;
    /// The row is the 301st wall.
    pub const TOO_MANY_WALLS: u32 = 5;
    /// The areas of end quarters a and b add up to more than the storey's.
    pub const ENDS_EXCEED_STOREY: u32 = 6;
    /// A marked part is not present.
    pub const MARK_ON_ABSENT_PART: u32 = 7;
    /// No part is present.
    pub const NO_PARTS: u32 = 8;
    /// What is to be written needs more room than was lent.
    pub const LENT_SPACE_SHORT: u32 = 9;
    /// The number is no day of the calendar.
    pub const NO_SUCH_DAY: u32 = 10;
    /// A date is before the one to its left.
    pub const DATES_OUT_OF_ORDER: u32 = 11;
    /// The row to delete is no wall's, or a total would leave its range.
    pub const NO_SUCH_WALL: u32 = 12;

    /// A refusal of the whole sheet or table.
    pub const fn without_place(number: u32) -> Self {
        Self::at(number, 0, 0)
    }

    /// A refusal at a row and column, both counted from 1; the column is 0 where the whole row is meant.
    pub const fn at(number: u32, row: u32, column: u32) -> Self {
        Self {
            number,
            row,
            column,
        }
    }

    /// The trade's words for the number, those of docs/REFUSALS.md; `unknown` for a number that is no refusal's, which the
    /// library never tells.
    pub const fn words(&self) -> &'static str {
        match self.number {
            Self::SHEET_LENGTH => "sheet length",
            Self::MISPRINT => "misprint",
            Self::ROW_OUT_OF_ORDER => "row out of order",
            Self::OUT_OF_RANGE => "out of range",
            Self::TOO_MANY_WALLS => "too many walls",
            Self::ENDS_EXCEED_STOREY => "ends exceed storey",
            Self::MARK_ON_ABSENT_PART => "mark on absent part",
            Self::NO_PARTS => "no parts",
            Self::LENT_SPACE_SHORT => "lent space short",
            Self::NO_SUCH_DAY => "no such day",
            Self::DATES_OUT_OF_ORDER => "dates out of order",
            Self::NO_SUCH_WALL => "no such wall",
            _ => "unknown",
        }
    }
}

/// `refused 6, row 3, column 4`; without what is 0 of the place.
impl fmt::Display for Refusal {
    fn fmt(&self, formatter: &mut fmt::Formatter<'_>) -> fmt::Result {
        write!(formatter, "refused {}", self.number)?;
        if self.row != 0 {
            write!(formatter, ", row {}", self.row)?;
        }
        if self.column != 0 {
            write!(formatter, ", column {}", self.column)?;
        }
        Ok(())
    }
}

impl Error for Refusal {}

/// Up to six scores in hundredths, ground storey first and X before Y, with their count and the verdict; whether work on
/// the house started by 31 May 1981, the grant's last day; and each score before its limit of 999, with what was left over.
/// Of six places those that the house has no score for are 0.
#[derive(Debug, Clone, Copy, Default, PartialEq, Eq)]
pub struct Record {
    /// At most 999 each. [`Record::scores`] has those of the house alone.
    pub scores: [u32; 6],
    /// How many scores there are: two a storey.
    pub count: u32,
    /// 1 to 4: 1 where the house does not collapse in a great earthquake, 4 where it is likely to.
    pub verdict: u32,
    /// 1 where it started on that day or before; else 0.
    pub started_by_31_may_1981: u32,
    /// Before the limit, in the order of the scores: hundredths × divisor + remainder is what was divided, and the remainder
    /// is smaller than the divisor.
    pub hundredths: [u64; 6],
    /// What is left over beside each score.
    pub remainders: [u64; 6],
    /// What was divided by for each score.
    pub divisors: [u64; 6],
}

impl Record {
    /// The scores that there are; of a record that counts more than six, all six.
    ///
    /// ```
    /// let record = girderbasil::Record { scores: [47, 83, 0, 0, 0, 0], count: 2, ..Default::default() };
    /// assert_eq!(record.scores(), [47, 83]);
    /// ```
    pub fn scores(&self) -> &[u32] {
        self.scores
            .get(..self.count as usize)
            .unwrap_or(&self.scores)
    }
}
