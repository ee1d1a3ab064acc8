//! Houses worked through in the papers: document 01's P1 and P10, and the manual's. Beside them P1 and another house
//! under snow, P1 with other dates, P1 repaired, houses whose records are worked out by hand, two sheets that are
//! refused, and changes of P1 on site.

pub mod site;

use girderbasil::Record;
use girderbasil::{FIELD, LINE, MOST_WALLS, ROW};

/// P1's table, with the dates row that document 02 asks for; the other worked houses of document 01 are changes of it.
#[rustfmt::skip]
pub const TABLE: [u32; 96] = [
    1, 1, 2, 100, 1, 1, 0, 0,
    2, 1, 4000, 5000, 1, 0, 0, 0,
    3, 1, 1, 1000, 1000, 1, 1, 0,
    3, 1, 2, 1000, 1000, 1, 1, 0,
    4, 1, 1, 1, 20, 2000, 1, 1,
    4, 1, 1, 2, 0, 2000, 0, 2,
    4, 1, 1, 3, 20, 2000, 1, 1,
    4, 1, 2, 1, 20, 2000, 1, 1,
    4, 1, 2, 2, 20, 4000, 1, 1,
    4, 1, 2, 3, 20, 2000, 1, 1,
    5, 8191, 8, 0, 0, 0, 0, 0,
    8, 19800401, 19801001, 20120401, 0, 0, 0, 0,
];

/// P1's sheet, as the repository's examples have it.
pub const SHEET: &[u8] = include_bytes!("../../examples/p1.sheet");

/// P1's report, as document 01 prints it.
pub const REPORT: &str = concat!(
    "       6       1       1     920    1600     100      83      47\n",
    "       6       1       2    1600    1600     100      83      83\n",
    "       7       4      47       0       0       0       0       0\n",
);

/// P1's record. It holds 9.2 kN in X and 16 kN in Y, with 20 of 24 points and 100 for layout, so what was divided is
/// 18,400,000,000,000 in X and 32,000,000,000,000 in Y; the divisor is the 16 kN required, 16,000,000,000, times 24.
pub const RECORD: Record = one_storey(
    4,
    (47, [47, 352_000_000_000, 384_000_000_000]),
    (83, [83, 128_000_000_000, 384_000_000_000]),
);

/// The record of a house of one storey on which work started by 31 May 1981: its verdict, and for X and for Y the score
/// with its whole hundredths, its remainder and its divisor.
const fn one_storey(verdict: u32, x: (u32, [u64; 3]), y: (u32, [u64; 3])) -> Record {
    Record {
        scores: [x.0, y.0, 0, 0, 0, 0],
        count: 2,
        verdict,
        started_by_31_may_1981: 1,
        hundredths: [x.1[0], y.1[0], 0, 0, 0, 0],
        remainders: [x.1[1], y.1[1], 0, 0, 0, 0],
        divisors: [x.1[2], y.1[2], 0, 0, 0, 0],
    }
}

/// P1's table with some of its numbers changed: (row, column, number), counted from 1.
pub fn changed(changes: &[(usize, usize, u32)]) -> Vec<u32> {
    let mut table = TABLE.to_vec();
    for &(row, column, number) in changes {
        table[(row - 1) * ROW + column - 1] = number;
    }
    table
}

/// P1 on a hundredth of its area: both scores are far over their limit.
pub fn small() -> Vec<u32> {
    changed(&[(2, 3, 40), (3, 4, 10), (3, 5, 10), (4, 4, 10), (4, 5, 10)])
}

/// The house with the most hundredths that there are. It requires the least: light, in zone 70, on ordinary ground, with
/// 0.02 m², which its two ends share. It holds the most, all in X: 300 walls of 20 m that hold 10 kN a metre.
pub fn most_hundredths() -> Vec<u32> {
    #[rustfmt::skip]
    let mut table = vec![
        1, 1, 1, 70, 1, 1, 0, 0,
        2, 1, 2, 4000, 1, 0, 0, 0,
        3, 1, 1, 1, 1, 1, 1, 0,
        3, 1, 2, 1, 1, 1, 1, 0,
    ];
    for _ in 0..MOST_WALLS {
        table.extend([4, 1, 1, 2, 100, 20_000, 1, 1]);
    }
    table.extend([5, 8191, 0, 0, 0, 0, 0, 0]);
    table.extend(&TABLE[TABLE.len() - ROW..]);
    table
}

/// Houses with their records, whose remainders are worked out by hand.
pub fn with_records() -> [(&'static str, Vec<u32>, Record); 11] {
    [
        ("P1", TABLE.to_vec(), RECORD),
        // What is divided stays, and the divisor is a hundredth of P1's.
        (
            "P1 on a hundredth of its area",
            small(),
            one_storey(
                1,
                (999, [4_791, 2_560_000_000, 3_840_000_000]),
                (999, [8_333, 1_280_000_000, 3_840_000_000]),
            ),
        ),
        // 920,000,000,000 and 1,600,000,000,000 by 16,000,000,000 × 1.
        (
            "P1 without marks",
            unmarked(false),
            one_storey(
                4,
                (57, [57, 8_000_000_000, 16_000_000_000]),
                (100, [100, 0, 16_000_000_000]),
            ),
        ),
        // A millimetre of 2.0 kN/m less: 1,599,800,000,000 in Y.
        (
            "P1 without marks, a millimetre short in Y",
            changed(&[(11, 3, 0), (9, 6, 3_999)]),
            one_storey(
                4,
                (57, [57, 8_000_000_000, 16_000_000_000]),
                (99, [99, 15_800_000_000, 16_000_000_000]),
            ),
        ),
        // 12,880,000,000,000 and 22,400,000,000,000 by 16,000,000,000 × 20.
        (
            "P1 with 14 of 20 points, which is 7/10 and not under it",
            changed(&[(11, 2, 5_919), (11, 3, 7)]),
            one_storey(
                4,
                (40, [40, 80_000_000_000, 320_000_000_000]),
                (70, [70, 0, 320_000_000_000]),
            ),
        ),
        // 6,440,000,000,000 and 11,200,000,000,000 by 16,000,000,000 × 10.
        (
            "P1 with 16 of 24 points, which is under 7/10",
            changed(&[(11, 3, 11)]),
            one_storey(
                4,
                (40, [40, 40_000_000_000, 160_000_000_000]),
                (70, [70, 0, 160_000_000_000]),
            ),
        ),
        // 8,280,000,000,000 and 14,400,000,000,000 by 16,000,000,000 × 10.
        (
            "P1 without marks, repaired",
            unmarked(true),
            one_storey(
                4,
                (51, [51, 120_000_000_000, 160_000_000_000]),
                (90, [90, 0, 160_000_000_000]),
            ),
        ),
        // 16,560,000,000,000 and 28,800,000,000,000 by 16,000,000,000 × 20.
        (
            "P1 with 18 of 20 points, repaired: 9/10 and not above it",
            changed(&[(11, 2, 1_919), (11, 3, 1), (11, 4, 1)]),
            one_storey(
                4,
                (51, [51, 240_000_000_000, 320_000_000_000]),
                (90, [90, 0, 320_000_000_000]),
            ),
        ),
        ("P1 repaired, under 9/10", changed(&[(11, 4, 1)]), RECORD),
        // Layout is 70 in X: 163,800,000,000 and 1,600,000,000,000 by 14,400,000,000 × 1.
        (
            "P10 in zone 90",
            better_end_falls(90).to_vec(),
            one_storey(
                4,
                (11, [11, 5_400_000_000, 14_400_000_000]),
                (111, [111, 1_600_000_000, 14_400_000_000]),
            ),
        ),
        // 300 walls hold 60,000,000,000, and 28 × 2 × 70 × 10 × 100, or 3,920,000, is required. So 6,000,000,000,000,000
        // is divided, which is 3,920,000 × 1,530,612,244 + 3,520,000.
        (
            "the most hundredths",
            most_hundredths(),
            one_storey(
                4,
                (999, [1_530_612_244, 3_520_000, 3_920_000]),
                (0, [0, 0, 3_920_000]),
            ),
        ),
    ]
}

/// P1's table without marks, repaired or not.
pub fn unmarked(repaired: bool) -> Vec<u32> {
    changed(&[(11, 3, 0), (11, 4, u32::from(repaired))])
}

/// The report of that house repaired, whose factor is 9/10.
pub const REPAIRED_REPORT: &str = concat!(
    "       6       1       1     920    1600     100      90      51\n",
    "       6       1       2    1600    1600     100      90      90\n",
    "       7       4      51       0       0       0       0       0\n",
);

/// P1's table under snow.
pub const fn in_snow(snow: u32) -> [u32; 96] {
    let mut table = TABLE;
    table[ROW - 1] = snow;
    table
}

/// P1's least score, by its snow.
pub const LEAST_IN_SNOW: [u32; 4] = [47, 29, 20, 18];

/// P1's report in 2.5 m of snow, which adds 0.65 to the 0.40 kN/m² that its 40 m² require. Its walls of 2.0 kN/m with
/// joint I on foundation I hold the same in any snow; its ends fall from D to B, for which floor type 1 has 100 too.
pub const REPORT_IN_DEEP_SNOW: &str = concat!(
    "       6       1       1     920    4200     100      83      18\n",
    "       6       1       2    1600    4200     100      83      31\n",
    "       7       4      18       0       0       0       0       0\n",
);

/// P1's table with other dates: the start of work, the completion and the survey day.
pub const fn with_dates(dates: [u32; 3]) -> [u32; 96] {
    let mut table = TABLE;
    let row = TABLE.len() - ROW;
    [table[row + 1], table[row + 2], table[row + 3]] = dates;
    table
}

/// The same with the corridor floor alone marked, which counts from the day on which the house is ten.
pub const fn corridor_marked(dates: [u32; 3]) -> [u32; 96] {
    let mut table = with_dates(dates);
    table[TABLE.len() - 2 * ROW + 2] = 2_048;
    table
}

/// The report of that house, by its age: 1 under ten years, where the factor is 1, and 2 from then on, where it is 23/24.
pub const CORRIDOR_REPORTS: [&str; 2] = [
    concat!(
        "       6       1       1     920    1600     100     100      57\n",
        "       6       1       2    1600    1600     100     100     100\n",
        "       7       4      57       0       0       0       0       0\n",
    ),
    concat!(
        "       6       1       1     920    1600     100      95      55\n",
        "       6       1       2    1600    1600     100      95      95\n",
        "       7       4      55       0       0       0       0       0\n",
    ),
];

/// Sheets that are refused, each with the line that tells it: one by the reader, P1 with a leading zero in row 5,
/// column 6; and one by scoring, the repository's example, whose ends in row 3 exceed their storey.
pub fn refused() -> [(Vec<u8>, &'static str); 2] {
    let mut misprinted = SHEET.to_vec();
    misprinted[4 * LINE + 5 * FIELD..][..FIELD].copy_from_slice(b"   02000");
    [
        (
            misprinted,
            "       0       2       5       6       0       0       0       0\n",
        ),
        (
            include_bytes!("../../examples/refused.sheet").to_vec(),
            "       0       6       3       4       0       0       0       0\n",
        ),
    ]
}

/// P10's table: no marks, and in X only end walls of 540 and 630 mm. Its score in X is 11 at zone 90, 14 at 100.
#[rustfmt::skip]
pub const fn better_end_falls(zone: u32) -> [u32; 88] {
    [
        1, 1, 2, zone, 1, 1, 0, 0,
        2, 1, 4000, 5000, 1, 0, 0, 0,
        3, 1, 1, 1000, 1000, 1, 1, 0,
        3, 1, 2, 1000, 1000, 1, 1, 0,
        4, 1, 1, 1, 20, 540, 1, 1,
        4, 1, 1, 3, 20, 630, 1, 1,
        4, 1, 2, 1, 20, 2000, 1, 1,
        4, 1, 2, 2, 20, 4000, 1, 1,
        4, 1, 2, 3, 20, 2000, 1, 1,
        5, 8191, 0, 0, 0, 0, 0, 0,
        8, 19800401, 19801001, 20120401, 0, 0, 0, 0,
    ]
}

/// A very heavy house whose scores 1 m of snow raises: the factors of its joints IV rise by more than what is required.
#[rustfmt::skip]
pub const fn weak_joints(snow: u32) -> [u32; 168] {
    [
        1, 2, 3, 100, 1, 1, 0, snow,
        2, 1, 4000, 5000, 1, 0, 0, 0,
        2, 2, 4000, 5000, 1, 0, 0, 0,
        3, 1, 1, 1000, 1000, 2, 2, 0,
        3, 1, 2, 1000, 1000, 2, 2, 0,
        3, 2, 1, 1000, 1000, 2, 2, 0,
        3, 2, 2, 1000, 1000, 2, 2, 0,
        4, 1, 1, 1, 31, 4550, 4, 1,
        4, 1, 1, 2, 31, 4550, 4, 1,
        4, 1, 1, 3, 31, 4550, 4, 1,
        4, 1, 2, 1, 31, 4550, 4, 1,
        4, 1, 2, 2, 31, 4550, 4, 1,
        4, 1, 2, 3, 31, 4550, 4, 1,
        4, 2, 1, 1, 31, 4550, 4, 1,
        4, 2, 1, 2, 31, 4550, 4, 1,
        4, 2, 1, 3, 31, 4550, 4, 1,
        4, 2, 2, 1, 31, 4550, 4, 1,
        4, 2, 2, 2, 31, 4550, 4, 1,
        4, 2, 2, 3, 31, 4550, 4, 1,
        5, 8191, 0, 0, 0, 0, 0, 0,
        8, 19800401, 19801001, 20120401, 0, 0, 0, 0,
    ]
}

/// Its scores without snow and in 1 m, cleared.
pub const WEAK_JOINTS_SCORES: [[u32; 6]; 2] = [[60, 60, 47, 47, 0, 0], [62, 62, 75, 75, 0, 0]];

/// The house that the manual works through: two storeys, heavy, very soft ground, foundation II, joints IV. Its
/// openings of more than 3 m stand as rows of at most 3 m. Its marks are worth 7 of 21 points.
#[rustfmt::skip]
pub const MANUAL_TABLE: [u32; 312] = [
    1, 2, 2, 100, 2, 2, 0, 0,
    2, 1, 4968, 5460, 2, 0, 0, 0,
    2, 2, 4968, 5460, 2, 0, 0, 0,
    3, 1, 1, 1242, 1242, 2, 2, 0,
    3, 1, 2, 1242, 1242, 2, 2, 0,
    3, 2, 1, 1242, 1242, 2, 2, 0,
    3, 2, 2, 1242, 1242, 2, 2, 0,
    4, 1, 1, 1, 31, 3640, 4, 1,
    4, 1, 1, 1, 20, 1365, 4, 1,
    4, 1, 1, 1, 0, 3000, 0, 2,
    4, 1, 1, 1, 0, 1820, 0, 2,
    4, 1, 1, 2, 20, 910, 4, 1,
    4, 1, 1, 3, 31, 1820, 4, 1,
    4, 1, 1, 3, 0, 3000, 0, 3,
    4, 1, 1, 3, 0, 2460, 0, 3,
    4, 1, 2, 1, 31, 3640, 4, 1,
    4, 1, 2, 1, 20, 910, 4, 1,
    4, 1, 2, 1, 0, 1820, 0, 2,
    4, 1, 2, 2, 20, 3640, 4, 1,
    4, 1, 2, 3, 31, 1820, 4, 1,
    4, 1, 2, 3, 22, 1820, 4, 1,
    4, 1, 2, 3, 0, 1820, 0, 2,
    4, 2, 1, 1, 31, 4550, 4, 1,
    4, 2, 1, 1, 0, 3000, 0, 2,
    4, 2, 1, 1, 0, 1550, 0, 2,
    4, 2, 1, 2, 20, 3640, 4, 1,
    4, 2, 1, 2, 0, 3000, 0, 3,
    4, 2, 1, 2, 0, 1820, 0, 3,
    4, 2, 1, 3, 31, 2730, 4, 1,
    4, 2, 1, 3, 0, 3000, 0, 3,
    4, 2, 1, 3, 0, 1820, 0, 3,
    4, 2, 2, 1, 31, 3640, 4, 1,
    4, 2, 2, 1, 0, 1820, 0, 2,
    4, 2, 2, 2, 20, 8190, 4, 1,
    4, 2, 2, 2, 0, 1820, 0, 3,
    4, 2, 2, 3, 31, 3640, 4, 1,
    4, 2, 2, 3, 0, 1820, 0, 2,
    5, 7967, 6152, 0, 0, 0, 0, 0,
    8, 19800401, 19801001, 20120401, 0, 0, 0, 0,
];

/// The report of the manual's house. Its layout factors are those of the manual's table 4.11, as document 01 has it,
/// not of the formula that the manual works with; so its scores in X are other than the manual's 0.12 and 0.27.
pub const MANUAL_REPORT: &str = concat!(
    "       6       1       1    2262    7900      65      70      13\n",
    "       6       1       2    2866    7900      90      70      22\n",
    "       6       2       1    1861    3950      65      70      21\n",
    "       6       2       2    2209    3950      90      70      35\n",
    "       7       4      13       0       0       0       0       0\n",
);
