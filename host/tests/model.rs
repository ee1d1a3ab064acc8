//! The model against the houses that the papers work through, so that it is known to say what they say.

use girderbasil::Refusal;
use girderbasil::Totals;
use girderbasil::{LINE, MOST_REPORT_BYTES, MOST_ROWS, MOST_WALLS, ROW};
use girderbasil_tests::model::deterioration::{self, Fraction};
use girderbasil_tests::model::layout::Band;
use girderbasil_tests::model::score::{Diagnosis, verdict};
use girderbasil_tests::model::survey::{Ends, House, Parts, Storey, Wall, WallKind};
use girderbasil_tests::model::{self, held, required, site};
use girderbasil_tests::worked::site::{WALL, scripts};
use girderbasil_tests::worked::{self, changed};

const ALL_PARTS: u32 = 8191;

fn refused(number: u32, row: u32, column: u32) -> Refusal {
    Refusal::at(number, row, column)
}

/// A table of two storeys with as many walls as asked for.
fn with_walls(count: usize) -> Vec<u32> {
    #[rustfmt::skip]
    let mut table = vec![
        1, 2, 1, 100, 1, 1, 0, 0,
        2, 1, 4000, 5000, 1, 0, 0, 0,
        2, 2, 4000, 5000, 1, 0, 0, 0,
        3, 1, 1, 1000, 1000, 2, 2, 0,
        3, 1, 2, 1000, 1000, 2, 2, 0,
        3, 2, 1, 1000, 1000, 2, 2, 0,
        3, 2, 2, 1000, 1000, 2, 2, 0,
    ];
    for _ in 0..count {
        table.extend([4, 1, 1, 2, 20, 1000, 1, 1]);
    }
    table.extend([5, ALL_PARTS, 0, 0, 0, 0, 0, 0]);
    table.extend([8, 19_800_401, 19_801_001, 20_120_401, 0, 0, 0, 0]);
    table
}

fn two_storeys(foundation: u32) -> House {
    House {
        storeys: 2,
        weight: 1,
        zone: 100,
        ground: 1,
        foundation,
        snow: 0,
    }
}

fn wall(storey: u32, length: u32, kind: WallKind) -> Wall {
    Wall {
        storey,
        direction: 1,
        place: 2,
        length,
        kind,
    }
}

#[test]
fn p1_is_read_scored_and_printed_as_the_paper_has_it() {
    let table = model::read(worked::SHEET, worked::TABLE.len()).unwrap();
    assert_eq!(table, worked::TABLE);
    assert_eq!(model::score(&table), Ok(worked::RECORD));
    let report = model::write_report(&table, worked::REPORT.len()).unwrap();
    assert_eq!(report, worked::REPORT.as_bytes());
    assert_eq!(model::diagnose(worked::SHEET), worked::REPORT.as_bytes());
}

#[test]
fn worked_houses_have_their_records() {
    for (name, table, record) in worked::with_records() {
        assert_eq!(model::score(&table), Ok(record), "{name}");
    }
}

#[test]
fn p1_is_written_back_as_its_sheet() {
    let sheet = model::write(&worked::TABLE, worked::SHEET.len()).unwrap();
    assert_eq!(sheet, worked::SHEET);
}

#[test]
fn p2_to_p6_walls() {
    let solid = |strength, joint| WallKind::Solid { strength, joint };
    let upper = wall(2, 4550, solid(31, 4));
    assert_eq!(held::joint_factor(&two_storeys(1), 2, 4, 31), 35);
    assert_eq!(held::wall_strength(&two_storeys(1), &upper), 4_936_750);
    assert_eq!(held::joint_factor(&two_storeys(2), 1, 4, 22), 96);
    let ground = wall(1, 1820, solid(22, 4));
    assert_eq!(held::wall_strength(&two_storeys(2), &ground), 3_843_840);
    assert_eq!(held::joint_factor(&two_storeys(2), 1, 4, 31), 80);
    let ground = wall(1, 3640, solid(31, 4));
    assert_eq!(held::wall_strength(&two_storeys(2), &ground), 9_027_200);
    let [at_most, over] = [100, 101]
        .map(|strength| held::wall_strength(&two_storeys(1), &wall(1, 1000, solid(strength, 1))));
    assert_eq!((at_most, over), (10_000_000, 10_000_000));
    let window = wall(1, 3001, WallKind::Window);
    assert_eq!(held::wall_strength(&two_storeys(1), &window), 1_800_000);
}

const fn fraction(numerator: u32, denominator: u32) -> Fraction {
    Fraction {
        numerator,
        denominator,
    }
}

#[test]
fn p7_and_p8_deterioration() {
    let factor = |age, marked| {
        let parts = Parts {
            present: ALL_PARTS,
            marked,
            repaired: false,
        };
        deterioration::factor(age, parts)
    };
    let outer_wall = 1 << 3;
    let roofing = 1 << 0;
    let corridor = 1 << 11;
    let balcony_rail = 1 << 5;
    assert_eq!(factor(2, 0), fraction(1, 1));
    assert_eq!(factor(2, outer_wall), fraction(20, 24));
    assert_eq!(factor(2, outer_wall | roofing | corridor), fraction(17, 24));
    assert_eq!(
        factor(2, outer_wall | roofing | corridor | balcony_rail),
        fraction(7, 10)
    );
    assert_eq!(factor(1, corridor), fraction(1, 1));
    assert_eq!(factor(2, corridor), fraction(23, 24));
    assert_eq!(factor(1, corridor | roofing), fraction(21, 24));
}

/// The fraction that marks leave, and what a repaired house has for it; a house that is not keeps it.
#[test]
fn at_most_nine_tenths_after_repair() {
    let most = fraction(9, 10);
    for (by_marks, repaired) in [
        (fraction(1, 1), most),
        (fraction(23, 24), most),
        (fraction(22, 24), most),
        (fraction(19, 20), most),
        (fraction(18, 20), fraction(18, 20)),
        (fraction(9, 10), most),
        (fraction(21, 24), fraction(21, 24)),
        (fraction(17, 20), fraction(17, 20)),
        (fraction(14, 20), fraction(14, 20)),
        (fraction(7, 10), fraction(7, 10)),
    ] {
        assert_eq!(deterioration::after_repair(true, by_marks), repaired);
        assert_eq!(deterioration::after_repair(false, by_marks), by_marks);
    }
}

/// Under ten years a mark on the corridor floor alone doesn't count, and the house has 9/10 for being repaired.
#[test]
fn p1_repaired() {
    let young = (12, 4, 19_900_930);
    for changes in [
        &[(11, 3, 0), (11, 4, 1)][..],
        &[(11, 3, 2_048), (11, 4, 1)],
        &[(11, 3, 2_048), (11, 4, 1), young],
        &[(11, 3, 1), (11, 4, 1), young],
        &[(11, 2, 1_919), (11, 3, 1), (11, 4, 1)],
    ] {
        let report = model::write_report(&changed(changes), MOST_REPORT_BYTES).unwrap();
        assert_eq!(report, worked::REPAIRED_REPORT.as_bytes(), "{changes:?}");
    }
    let report = model::write_report(&changed(&[(11, 4, 1)]), MOST_REPORT_BYTES).unwrap();
    assert_eq!(report, worked::REPORT.as_bytes());
}

#[test]
fn p9_bands_on_their_edges() {
    let band = |hundredths| Band::of(hundredths, 100_000);
    let edges = [33, 66, 100, 133].map(|edge| [band(edge - 1), band(edge)]);
    let expected = [
        [Band::A, Band::B],
        [Band::B, Band::C],
        [Band::C, Band::D],
        [Band::D, Band::E],
    ];
    assert_eq!(edges, expected);
}

#[test]
fn p10_the_better_end_falls() {
    for (zone, bands, score) in [(90, [Band::A, Band::B], 11), (100, [Band::A, Band::A], 14)] {
        let table = worked::better_end_falls(zone);
        let diagnosis = Diagnosis::of(&table).unwrap();
        let in_x = diagnosis.assessments().next().unwrap();
        assert_eq!((in_x.bands, in_x.score().limited()), (bands, score));
    }
}

#[test]
fn p11_verdicts() {
    let verdicts = [69, 70, 99, 100, 149, 150].map(verdict);
    assert_eq!(verdicts, [4, 3, 3, 2, 2, 1]);
}

#[test]
fn the_manuals_house() {
    let report = model::write_report(&worked::MANUAL_TABLE, MOST_REPORT_BYTES).unwrap();
    assert_eq!(report, worked::MANUAL_REPORT.as_bytes());
}

#[test]
fn p1_in_snow() {
    for (snow, least) in (0..).zip(worked::LEAST_IN_SNOW) {
        let table = worked::in_snow(snow);
        let record = model::score(&table).unwrap();
        assert_eq!(record.scores[..2].iter().min(), Some(&least));
        // What the snow adds is for the ends too.
        let band = if snow == 0 { Band::D } else { Band::B };
        let diagnosis = Diagnosis::of(&table).unwrap();
        assert!(diagnosis.assessments().all(|each| each.bands == [band; 2]));
    }
    let report = model::write_report(&worked::in_snow(3), MOST_REPORT_BYTES).unwrap();
    assert_eq!(report, worked::REPORT_IN_DEEP_SNOW.as_bytes());
}

#[test]
fn snow_raises_a_score() {
    for (snow, scores) in (0..).zip(worked::WEAK_JOINTS_SCORES) {
        let record = model::score(&worked::weak_joints(snow)).unwrap();
        assert_eq!(record.scores, scores);
    }
}

/// Without snow and under 1 m, 2 m and 2.5 m. Where two of the manual's tables have an entry in common, another row
/// tells them apart; only part 2 is the same for 2 m and for 2.5 m.
#[test]
fn joint_factors_in_snow() {
    // Storeys, storey, foundation, joint and strength.
    for ([storeys, storey, foundation, joint, strength], factors) in [
        // The top storey, on its printed entries and between them.
        ([2, 2, 1, 2, 70], [50, 75, 80, 85]),
        ([2, 2, 2, 3, 30], [60, 75, 85, 90]),
        ([2, 2, 3, 4, 50], [25, 60, 75, 80]),
        ([3, 3, 1, 4, 40], [30, 68, 80, 85]),
        ([3, 3, 3, 2, 60], [58, 80, 83, 88]),
        // The other storeys; the middle one of three goes by foundation 1.
        ([2, 1, 1, 2, 50], [90, 95, 100, 100]),
        ([2, 1, 2, 1, 70], [80, 85, 95, 95]),
        ([2, 1, 3, 1, 50], [70, 85, 95, 95]),
        ([2, 1, 1, 3, 60], [65, 80, 93, 93]),
        ([3, 1, 3, 4, 70], [60, 75, 90, 90]),
        ([3, 2, 3, 2, 70], [80, 95, 100, 100]),
        // One storey; joint 3 goes by the row of joint 4.
        ([1, 1, 3, 1, 30], [70, 75, 85, 100]),
        ([1, 1, 2, 1, 70], [80, 80, 85, 90]),
        ([1, 1, 2, 2, 50], [70, 70, 80, 95]),
        ([1, 1, 2, 4, 50], [50, 65, 80, 90]),
        ([1, 1, 3, 4, 50], [50, 65, 75, 90]),
        ([1, 1, 1, 3, 70], [30, 35, 50, 60]),
        ([1, 1, 1, 4, 25], [65, 88, 93, 100]),
        // Below 2.0 and above 7.0.
        ([1, 1, 1, 4, 1], [70, 100, 100, 100]),
        ([1, 1, 1, 4, 300], [30, 35, 50, 60]),
    ] {
        let found = [0, 1, 2, 3].map(|snow| {
            let house = House {
                storeys,
                snow,
                ..two_storeys(foundation)
            };
            held::joint_factor(&house, storey, joint, strength)
        });
        assert_eq!(
            found, factors,
            "{storey} of {storeys}, {foundation}, {joint}, {strength}"
        );
    }
}

/// Zone, ground and narrow factor apply to the sum, of a storey and of its ends; one of these has a storey less.
#[test]
fn required_strength_in_snow() {
    let storey = Storey {
        number: 1,
        area: 4000,
        short_side: 5000,
        floor: 1,
        void: false,
    };
    let ends = Ends {
        areas: [1000, 500],
        storeys: [2, 1],
    };
    for (snow, addition) in (0..).zip([0, 26, 52, 65]) {
        let house = House {
            weight: 3,
            zone: 90,
            ground: 2,
            snow,
            ..two_storeys(1)
        };
        let factors = 90 * 15 * 113;
        assert_eq!(
            required::storey(&house, &storey, 113),
            (141 + addition) * 4000 * factors
        );
        assert_eq!(
            required::ends(&house, &storey, 113, &ends),
            [
                (141 + addition) * 1000 * factors,
                (64 + addition) * 500 * factors
            ]
        );
    }
}

#[test]
fn refused_sheets_are_told_with_row_before_column() {
    for (sheet, line) in worked::refused() {
        assert_eq!(String::from_utf8_lossy(&model::diagnose(&sheet)), line);
    }
}

#[test]
fn no_walls_score_0() {
    let record = model::score(&with_walls(0)).unwrap();
    assert_eq!((record.scores, record.verdict), ([0; 6], 4));
}

#[test]
fn three_hundred_walls_are_the_most() {
    assert!(model::score(&with_walls(300)).is_ok());
    assert_eq!(
        model::score(&with_walls(301)),
        Err(refused(Refusal::TOO_MANY_WALLS, 308, 1))
    );
}

#[test]
fn ends_up_to_the_storeys_area() {
    assert!(model::score(&changed(&[(3, 4, 2000), (3, 5, 2000)])).is_ok());
    assert_eq!(
        model::score(&changed(&[(3, 4, 2000), (3, 5, 2001)])),
        Err(refused(Refusal::ENDS_EXCEED_STOREY, 3, 4))
    );
}

/// A heavy house without walls by the short sides of its storeys, from the ground up: 40 m² each, the ends 10 m² and of
/// parts that reach no higher than their storey.
fn by_short_sides(sides: &[u32]) -> Vec<u32> {
    let storeys = sides.len() as u32;
    let mut table = vec![1, storeys, 2, 100, 1, 1, 0, 0];
    for (storey, &side) in (1..).zip(sides) {
        table.extend([2, storey, 4000, side, 1, 0, 0, 0]);
    }
    for storey in 1..=storeys {
        for direction in 1..=2 {
            table.extend([3, storey, direction, 1000, 1000, storey, storey, 0]);
        }
    }
    table.extend([5, ALL_PARTS, 0, 0, 0, 0, 0, 0]);
    table.extend([8, 19_800_401, 19_801_001, 20_120_401, 0, 0, 0, 0]);
    table
}

/// The factors of document 02's request 6, from the ground up, by what storeys and their ends require.
#[test]
fn every_storey_below_a_narrow_one_takes_113() {
    const CONSTANTS: [&[u64]; 3] = [&[40], &[106, 53], &[166, 125, 62]];
    const OF_PARTS: [u64; 3] = [40, 53, 62];
    for (sides, factors) in [
        (&[5_000, 3_999][..], &[113, 100][..]),
        (&[3_999, 5_000], &[100, 100]),
        (&[5_000, 5_000, 3_600], &[113, 113, 100]),
        (&[5_000, 3_600, 5_000], &[113, 100, 100]),
        (&[5_000, 3_600, 3_600], &[113, 113, 100]),
        (&[3_600, 5_000, 5_000], &[100, 100, 100]),
        (&[3_600, 3_600, 3_600], &[113, 113, 100]),
        (&[3_999], &[100]),
        (&[5_000, 4_000], &[100, 100]),
        (&[4_000, 4_000, 4_000], &[100, 100, 100]),
    ] {
        let table = by_short_sides(sides);
        let diagnosis = Diagnosis::of(&table).unwrap();
        assert_eq!(diagnosis.assessments().count(), 2 * sides.len());
        for assessment in diagnosis.assessments() {
            let index = assessment.storey as usize - 1;
            let constant = CONSTANTS[sides.len() - 1][index];
            assert_eq!(
                assessment.required,
                constant * 4000 * 100 * 10 * factors[index],
                "{sides:?}"
            );
            assert_eq!(
                assessment.required_of_ends,
                [OF_PARTS[index] * 1000 * 100 * 10 * factors[index]; 2],
                "{sides:?}"
            );
        }
    }
}

#[test]
fn refusals_of_scoring_in_their_order() {
    let judged = |changes: &[(usize, usize, u32)]| model::score(&changed(changes)).unwrap_err();
    assert_eq!(judged(&[(1, 1, 2)]), refused(3, 1, 1));
    assert_eq!(judged(&[(2, 2, 2), (2, 3, 0)]), refused(3, 2, 1));
    assert_eq!(judged(&[(1, 4, 75), (1, 8, 4)]), refused(4, 1, 4));
    assert_eq!(judged(&[(1, 7, 2), (1, 8, 4)]), refused(4, 1, 7));
    assert_eq!(judged(&[(1, 8, 4)]), refused(4, 1, 8));
    assert_eq!(judged(&[(3, 3, 2)]), refused(3, 3, 1));
    assert_eq!(judged(&[(5, 2, 0)]), refused(4, 5, 2));
    assert_eq!(judged(&[(6, 2, 0), (6, 3, 3)]), refused(3, 6, 1));
    assert_eq!(judged(&[(6, 2, 2)]), refused(4, 6, 2));
    assert_eq!(judged(&[(6, 8, 4)]), refused(4, 6, 5));
    assert_eq!(judged(&[(6, 7, 1)]), refused(4, 6, 7));
    assert_eq!(judged(&[(11, 2, 7)]), refused(7, 11, 3));
    assert_eq!(judged(&[(11, 2, 0)]), refused(7, 11, 3));
    assert_eq!(judged(&[(11, 2, 0), (11, 3, 0)]), refused(8, 11, 2));
    assert_eq!(judged(&[(11, 4, 2)]), refused(4, 11, 4));
    assert_eq!(judged(&[(11, 4, 2), (11, 5, 1)]), refused(4, 11, 4));
    assert_eq!(judged(&[(11, 2, 7), (11, 4, 2)]), refused(4, 11, 4));
    assert_eq!(judged(&[(11, 4, 1), (11, 5, 1)]), refused(4, 11, 5));
    assert_eq!(judged(&[(11, 2, 7), (11, 4, 1)]), refused(7, 11, 3));
    assert_eq!(judged(&[(10, 1, 5)]), refused(4, 10, 4));
    assert_eq!(
        model::score(&worked::TABLE[..10 * ROW]),
        Err(refused(3, 11, 1)),
        "the table ends early"
    );
    assert_eq!(
        model::score(&[&worked::TABLE[..], &[9; 8]].concat()),
        Err(refused(3, 13, 1)),
        "a row after the dates"
    );
}

#[test]
fn lengths_and_lent_space() {
    let length = Err(Refusal::without_place(Refusal::SHEET_LENGTH));
    let short = Err(Refusal::without_place(Refusal::LENT_SPACE_SHORT));
    assert_eq!(model::read(&[], 0), length);
    assert_eq!(model::read(&[b'x'; LINE - 1], 0), length);
    assert_eq!(model::read(&vec![b'x'; (MOST_ROWS + 1) * LINE], 0), length);
    assert_eq!(model::read(&[b'x'; LINE], ROW - 1), short);
    assert_eq!(model::read(&[b'x'; LINE], ROW), Err(refused(2, 1, 1)));
    assert_eq!(
        model::write_report(&worked::TABLE, 194),
        short.clone().map(|_| vec![])
    );
    assert_eq!(
        model::write_report(&worked::TABLE[1..], 0),
        length.map(|_| vec![])
    );
    assert_eq!(
        model::write(&worked::TABLE, 12 * LINE - 1),
        short.map(|_| vec![])
    );
    assert_eq!(
        model::write(&changed(&[(2, 3, 100_000_000)]), 0),
        Err(refused(4, 2, 3))
    );
}

#[test]
fn misprints() {
    let read = |changes: &[(usize, &[u8])]| {
        let mut sheet = worked::SHEET.to_vec();
        for &(start, bytes) in changes {
            sheet[start..start + bytes.len()].copy_from_slice(bytes);
        }
        model::read(&sheet, worked::TABLE.len())
    };
    let fields: [&[u8]; 8] = [
        b"        ",
        b"      01",
        b"      +1",
        b"1       ",
        b"     1 1",
        b"\t      1",
        b"      -0",
        b"00000000",
    ];
    for field in fields {
        assert_eq!(read(&[(LINE + 8, field)]), Err(refused(2, 2, 2)));
    }
    assert_eq!(read(&[(64, b"\r")]), Err(refused(2, 1, 9)));
    assert_eq!(read(&[(64, b"\r"), (63, b"x")]), Err(refused(2, 1, 8)));
    let largest = read(&[(LINE + 8, b"99999999")]).unwrap();
    assert_eq!(largest[ROW + 1], 99_999_999);
}

#[test]
fn changes_on_site_as_they_are_worked_out() {
    for script in scripts() {
        let (mut lent, mut totals) = (script.lent, script.totals);
        for (index, step) in script.steps.iter().enumerate() {
            let answer = site::change(&mut totals, &mut lent, &step.change);
            let name = format!("{}, call {}", script.name, index + 1);
            assert_eq!(answer.map(|record| record.scores), step.answer, "{name}");
            assert_eq!(totals, step.totals, "{name}");
            assert_eq!(lent, step.lent, "{name}");
        }
    }
}

/// A table with a record that counts its rows and has yet to be started.
fn on_site(mut table: Vec<u32>, room: usize) -> (Totals, Vec<u32>) {
    let rows = (table.len() / ROW) as u32;
    table.extend(vec![7; room]);
    (Totals { held: [0; 6], rows }, table)
}

#[test]
fn the_place_of_a_deleted_wall_serves_again() {
    let (mut totals, mut lent) = on_site(with_walls(MOST_WALLS), ROW);
    assert!(site::start(&mut totals, &lent).is_ok());
    let before = (totals, lent.clone());
    let too_many = Err(refused(5, 308, 1));
    assert_eq!(site::add_wall(&mut totals, &mut lent, &WALL), too_many);
    assert!(site::delete_wall(&mut totals, &mut lent, 307).is_ok());
    assert_eq!(lent[308 * ROW..], [[0; ROW], [7; ROW]].concat());
    let last: &[u32; ROW] = before.1[306 * ROW..].first_chunk().unwrap();
    assert!(site::add_wall(&mut totals, &mut lent, last).is_ok());
    assert!((totals, &lent) == (before.0, &before.1));
    assert_eq!(site::add_wall(&mut totals, &mut lent, &WALL), too_many);
}

/// The rows in use come first; of a new wall its ranges, then the number of walls, then the room, then the totals.
#[test]
fn refusals_on_site_in_their_order() {
    let wrong = [5, 9, 0, 0, 0, 0, 0, 0];
    let beyond = u64::MAX;
    let add = |table: Vec<u32>, room, wall: &[u32; ROW]| {
        let (mut totals, mut lent) = on_site(table, room);
        totals.held[1] = beyond;
        site::add_wall(&mut totals, &mut lent, wall).unwrap_err()
    };
    let no_parts = changed(&[(11, 2, 0), (11, 3, 0)]);
    assert_eq!(add(no_parts, 0, &wrong), refused(8, 11, 2));
    assert_eq!(add(with_walls(300), 0, &wrong), refused(4, 308, 1));
    assert_eq!(add(with_walls(300), 0, &WALL), refused(5, 308, 1));
    assert_eq!(add(with_walls(299), ROW - 1, &WALL), refused(9, 0, 0));
    assert_eq!(add(with_walls(299), ROW, &WALL), refused(12, 0, 0));
}

/// With none whose storey isn't above its own it comes after the ends.
#[test]
fn a_wall_takes_the_row_after_its_own_storeys() {
    let wall = |storey| [4, storey, 2, 1, 30, 900, 2, 1];
    let (mut totals, mut lent) = on_site(with_walls(0), 4 * ROW);
    assert!(site::start(&mut totals, &lent).is_ok());
    for (storey, row) in [(2, 8), (1, 8), (2, 10), (1, 9)] {
        assert!(site::add_wall(&mut totals, &mut lent, &wall(storey)).is_ok());
        assert_eq!(lent[(row - 1) * ROW..][..ROW], wall(storey), "row {row}");
    }
    let storeys = (7..11).map(|index| lent[index * ROW + 1]);
    assert!(storeys.eq([1, 1, 2, 2]));
    let held = totals.held;
    assert!(site::start(&mut totals, &lent).is_ok());
    assert_eq!(totals.held, held);
}
