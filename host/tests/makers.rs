//! The makers of houses: what they make is accepted, and varied enough for the other tests to mean something.

use std::collections::BTreeMap;

use girderbasil::ROW;
use girderbasil_tests::model::deterioration;
use girderbasil_tests::model::score::Diagnosis;
use girderbasil_tests::random::{Random, house};
use girderbasil_tests::{days, model};

const HOUSES: usize = 20_000;

/// How often each pair of bands is met in houses of a maker, by the lower and the higher; all must be accepted.
fn bands_met(maker: fn(&mut Random) -> Vec<u32>) -> [[usize; 5]; 5] {
    let mut random = Random::new(5);
    let mut met = [[0; 5]; 5];
    for _ in 0..HOUSES {
        let table = maker(&mut random);
        let diagnosis = Diagnosis::of(&table).expect("a house is accepted");
        for assessment in diagnosis.assessments() {
            let [a, b] = assessment.bands.map(|band| band as usize);
            met[a.min(b)][a.max(b)] += 1;
        }
    }
    met
}

#[test]
fn all_pairs_of_bands_are_met() {
    for (maker, least) in [
        (house::surveyed as fn(&mut Random) -> Vec<u32>, 200),
        (house::on_edges, 500),
        (house::extreme, 1),
    ] {
        let met = bands_met(maker);
        let pairs = (0..5).flat_map(|lower| (lower..5).map(move |higher| (lower, higher)));
        for (lower, higher) in pairs {
            assert!(met[lower][higher] >= least, "{met:?}");
        }
    }
}

/// How often each score is met in houses of a maker, by their snow; all must be accepted.
fn scores_met(seed: u64, maker: fn(&mut Random) -> Vec<u32>) -> [[usize; 1_000]; 4] {
    let mut random = Random::new(seed);
    let mut met = [[0; 1_000]; 4];
    for _ in 0..HOUSES {
        let table = maker(&mut random);
        let diagnosis = Diagnosis::of(&table).expect("a house is accepted");
        for assessment in diagnosis.assessments() {
            met[house::snow_of(&table)][assessment.score().limited() as usize] += 1;
        }
    }
    met
}

#[test]
fn scores_of_surveyed_houses_spread() {
    let met = scores_met(6, house::surveyed);
    for start in (0..1_000).step_by(10) {
        let tens = met.iter().flat_map(|scores| &scores[start..start + 10]);
        assert!(tens.sum::<usize>() >= 10, "{start}: {met:?}");
    }
}

/// The edges of the verdicts are met exactly, and just missed, in every snow.
#[test]
fn edges_of_scores_are_met() {
    for (snow, met) in scores_met(7, house::on_edges).iter().enumerate() {
        for score in [69, 70, 99, 100, 149, 150, 998, 999] {
            let met = met[score];
            assert!(met >= 50, "snow {snow}: {score} was met {met} times");
        }
    }
}

#[test]
fn half_of_the_houses_are_in_snow() {
    for maker in [
        house::surveyed as fn(&mut Random) -> Vec<u32>,
        house::on_edges,
        house::extreme,
    ] {
        let mut random = Random::new(18);
        let mut met = [0_usize; 4];
        for _ in 0..HOUSES {
            met[house::snow_of(&maker(&mut random))] += 1;
        }
        assert!(met[0].abs_diff(HOUSES / 2) < HOUSES / 20, "{met:?}");
        assert!(met.iter().all(|&met| met >= HOUSES / 7), "{met:?}");
    }
}

/// Houses are under ten years and older about as often, and work on many started by 31 May 1981.
#[test]
fn half_of_the_houses_are_ten() {
    for maker in [
        house::surveyed as fn(&mut Random) -> Vec<u32>,
        house::on_edges,
        house::extreme,
    ] {
        let mut random = Random::new(20);
        let (mut ten, mut started_by_then) = (0_usize, 0);
        for _ in 0..HOUSES {
            let table = maker(&mut random);
            let dates = model::judge(&table).expect("a house is accepted").dates;
            ten += usize::from(dates.age() == 2);
            started_by_then += usize::from(dates.started_by_31_may_1981());
        }
        assert!(ten.abs_diff(HOUSES / 2) < HOUSES / 20, "{ten}");
        let share = HOUSES / 4..HOUSES / 2;
        assert!(share.contains(&started_by_then), "{started_by_then}");
    }
}

/// A third of the houses are repaired, whatever else they are.
#[test]
fn a_third_of_the_houses_are_repaired() {
    for maker in [
        house::surveyed as fn(&mut Random) -> Vec<u32>,
        house::on_edges,
        house::extreme,
    ] {
        let mut random = Random::new(22);
        let mut repaired = [0_usize; 3];
        for _ in 0..HOUSES {
            let table = maker(&mut random);
            let survey = model::judge(&table).expect("a house is accepted");
            repaired[survey.dates.age() as usize] += usize::from(survey.parts.repaired);
        }
        for met in &repaired[1..] {
            assert!(met.abs_diff(HOUSES / 6) < HOUSES / 60, "{repaired:?}");
        }
    }
}

/// Marks that leave nine tenths, and a point more or less, are met in houses repaired and not.
#[test]
fn fractions_about_nine_tenths_are_met() {
    let mut random = Random::new(23);
    let mut met = BTreeMap::new();
    for _ in 0..HOUSES {
        let table = house::house(&mut random);
        let survey = model::judge(&table).expect("a house is accepted");
        let by_marks = deterioration::factor(survey.dates.age(), survey.parts);
        let fraction = (by_marks.numerator, by_marks.denominator);
        *met.entry((survey.parts.repaired, fraction)).or_insert(0) += 1;
    }
    let in_20 = [(17, 20), (18, 20), (19, 20)];
    let others = [(8, 10), (9, 10), (21, 24), (22, 24), (23, 24)];
    for repaired in [false, true] {
        for fraction in in_20.into_iter().chain(others) {
            let met = met.get(&(repaired, fraction)).copied().unwrap_or(0);
            assert!(met >= 20, "{repaired}, {fraction:?}: {met}");
        }
    }
}

/// What may be said of a house's dates: start of work, completion and survey day.
type Edge = (&'static str, fn([u32; 3]) -> bool);

const EDGES: [Edge; 19] = [
    ("all on one day", |[start, completion, survey]| {
        start == completion && completion == survey
    }),
    (
        "completed on the day work started",
        |[start, completion, survey]| start == completion && completion < survey,
    ),
    ("surveyed on completion", |[start, completion, survey]| {
        start < completion && completion == survey
    }),
    ("started on the first day", |[start, ..]| {
        start == days::FIRST
    }),
    ("started on the last day", |[start, ..]| start == days::LAST),
    ("surveyed on the last day", |[.., survey]| {
        survey == days::LAST
    }),
    ("started on 30 May 1981", |[start, ..]| start == 19_810_530),
    ("started on 31 May 1981", |[start, ..]| start == 19_810_531),
    ("started on 1 June 1981", |[start, ..]| start == 19_810_601),
    ("started on 2 June 1981", |[start, ..]| start == 19_810_602),
    ("the day before it is ten", |[_, completion, survey]| {
        days::ten_years_after(completion) == Some(days::next(survey)) && survey < days::LAST
    }),
    ("the day it is ten", |[_, completion, survey]| {
        days::ten_years_after(completion) == Some(survey)
    }),
    ("the day after it is ten", |[_, completion, survey]| {
        days::ten_years_after(completion) == Some(days::previous(survey))
    }),
    (
        "29 February, ten years less a day",
        |[_, completion, survey]| completion % 10_000 == 229 && survey == completion + 99_999,
    ),
    (
        "29 February, the 1 March ten years after",
        |[_, completion, survey]| completion % 10_000 == 229 && survey == completion + 100_072,
    ),
    ("in 2000 completed on 29 February", |[_, completion, _]| {
        completion == 20_000_229
    }),
    ("ten on the last day", |[_, completion, survey]| {
        completion == 21_891_231 && survey == days::LAST
    }),
    ("a day too late to be ten", |[_, completion, survey]| {
        completion == 21_900_101 && survey == days::LAST
    }),
    ("never ten", |[_, completion, _]| completion == 21_950_101),
];

#[test]
fn days_at_every_edge_are_met() {
    let mut random = Random::new(21);
    let houses: Vec<[u32; 3]> = (0..HOUSES)
        .map(|_| house::dates_of(&house::house(&mut random)))
        .collect();
    for (name, holds) in EDGES {
        let met = houses.iter().filter(|&&dates| holds(dates)).count();
        println!("{name}: {met}");
        assert!(met >= 20, "{name}: {met}");
    }
}

/// Every joint factor that is printed is met by walls of its strength: in every snow, at the top, below it and in one
/// storey, on every foundation, with every joint.
#[test]
fn every_printed_joint_factor_is_met() {
    let mut random = Random::new(19);
    let mut met = BTreeMap::new();
    for _ in 0..HOUSES {
        let table = house::extreme(&mut random);
        let (snow, storeys) = (house::snow_of(&table), table[1]);
        let printed = |row: &&[u32]| row[0] == 4 && [20, 30, 50, 70].contains(&row[4]);
        for wall in table.chunks(ROW).filter(printed) {
            let (position, foundation) = match (storeys, wall[1]) {
                (1, _) => ("one storey", table[5]),
                (2, 2) | (3, 3) => ("top storey", table[5]),
                (3, 2) => ("lower storey", 1),
                _ => ("lower storey", table[5]),
            };
            let factor = (snow, position, foundation, wall[6], wall[4]);
            *met.entry(factor).or_insert(0) += 1;
        }
    }
    assert_eq!(met.len(), 4 * 3 * 3 * 4 * 4);
    assert!(met.values().all(|&met| met >= 50), "{met:?}");
}

#[test]
fn houses_have_any_number_of_walls() {
    let mut random = Random::new(8);
    let mut met = [0; 301];
    for _ in 0..HOUSES {
        let table = house::extreme(&mut random);
        met[table.chunks(8).filter(|row| row[0] == 4).count()] += 1;
    }
    for count in [0, 1, 299, 300] {
        assert!(
            met[count] >= 100,
            "{count} walls were met {} times",
            met[count]
        );
    }
}
