//! Demand 3 tried out: a house that is worse off than another is not scored better.
//!
//! The proof of it is over all pairs of houses; this meets it in the library as it is linked.

use girderbasil::Record;
use girderbasil_tests::model::layout::Band;
use girderbasil_tests::model::score::Diagnosis;
use girderbasil_tests::random::{Random, dates, house};
use girderbasil_tests::{days, worked};

const PAIRS: usize = 200_000;

/// The columns of the house row that may be higher in the worse house, with the numbers they may hold.
const WORSENED: [(usize, &[u32]); 3] = [(2, &[1, 2, 3]), (3, &[70, 80, 90, 100]), (4, &[1, 2])];

/// How many pairs were met of each sort.
#[derive(Debug, Default)]
struct Tally {
    equal: usize,
    /// By snow.
    all_bands_kept: [usize; 4],
    some_band_kept: usize,
    no_band_kept: usize,
    risen_where_not_kept: usize,
    /// By snow.
    fallen_where_kept: [usize; 4],
    /// Of these, scores of repaired houses.
    repaired_fallen_where_kept: usize,
    /// And of houses with a storey below a narrow one.
    narrow_fallen_where_kept: usize,
    verdict_worse: usize,
    /// Surveyed later, by how many of the two are ten.
    later: [usize; 3],
    /// Surveyed later and else the same, with a score that falls: the house has turned ten.
    fallen_with_age: usize,
}

/// What is compared of a house.
struct Scored {
    record: Record,
    age: u32,
    before_layout: Vec<u32>,
    higher_bands: Vec<Band>,
}

fn scored(table: &[u32]) -> Scored {
    let diagnosis = Diagnosis::of(table).expect("both houses are accepted");
    Scored {
        record: girderbasil::score(table).expect("both houses are accepted"),
        age: diagnosis.survey.dates.age(),
        before_layout: diagnosis
            .assessments()
            .map(|it| it.score_before_layout().limited())
            .collect(),
        higher_bands: diagnosis.assessments().map(|it| it.higher_band()).collect(),
    }
}

/// A house like another but for weight, zone, ground and survey day, none lower, and for more marks: any of them, or none.
/// It is repaired if the other is.
fn worse_house(random: &mut Random, table: &[u32]) -> Vec<u32> {
    let mut worse = table.to_vec();
    // Where few things change, ends often keep their bands; where many do, they seldom can.
    let share = random.pick(&[20, 50, 100]);
    for (column, numbers) in WORSENED {
        let higher: Vec<u32> = numbers
            .iter()
            .copied()
            .filter(|&it| it >= table[column])
            .collect();
        if random.chance(share) {
            worse[column] = random.pick(&higher);
        }
    }
    if random.chance(share) {
        let marked = house::marked_set(table);
        worse[marked] |= house::marks(random, table[marked - 1]);
    }
    if random.chance(share) {
        put_later_survey(random, &mut worse);
    }
    worse
}

/// Has a house surveyed on a later day, or the same: any, or one about the day on which it is ten.
fn put_later_survey(random: &mut Random, table: &mut [u32]) {
    let [_, completion, survey] = house::dates_of(table);
    let ten = days::ten_years_after(completion).unwrap_or(days::LAST);
    let later = match random.below(4) {
        0 => days::previous(ten),
        1 => ten,
        _ => dates::later(random, survey),
    };
    table[house::survey_day(table)] = later.max(survey);
}

fn compare(better: &[u32], worse: &[u32], tally: &mut Tally) {
    let snow = house::snow_of(better);
    assert_eq!(house::snow_of(worse), snow);
    let repaired = house::repaired_of(better);
    assert_eq!(house::repaired_of(worse), repaired);
    let sides = house::short_sides_of(better);
    assert_eq!(house::short_sides_of(worse), sides);
    let narrow_above = usize::from(sides[1..].iter().any(|&side| side < 4_000));
    let (a, b) = (scored(better), scored(worse));
    let count = a.record.count as usize;
    assert_eq!(b.record.count as usize, count);
    count_later(better, worse, [&a, &b], tally);
    let mut kept = 0;
    for each in 0..count {
        assert!(
            b.before_layout[each] <= a.before_layout[each],
            "{better:?} and {worse:?}"
        );
        let (score_a, score_b) = (a.record.scores[each], b.record.scores[each]);
        if a.higher_bands[each] == b.higher_bands[each] {
            assert!(score_b <= score_a, "{better:?} and {worse:?}");
            kept += 1;
            let fallen = usize::from(score_b < score_a);
            tally.fallen_where_kept[snow] += fallen;
            tally.repaired_fallen_where_kept += repaired * fallen;
            tally.narrow_fallen_where_kept += narrow_above * fallen;
        } else {
            tally.risen_where_not_kept += usize::from(score_b > score_a);
        }
    }
    if kept == count {
        assert!(
            b.record.verdict >= a.record.verdict,
            "{better:?} and {worse:?}"
        );
        tally.all_bands_kept[snow] += 1;
        tally.verdict_worse += usize::from(b.record.verdict > a.record.verdict);
    } else if kept > 0 {
        tally.some_band_kept += 1;
    } else {
        tally.no_band_kept += 1;
    }
    tally.equal += usize::from(better == worse);
}

/// Counts what a later survey day does. It is the only date that may differ, so both records have the same start of work.
fn count_later(better: &[u32], worse: &[u32], [a, b]: [&Scored; 2], tally: &mut Tally) {
    let survey = house::survey_day(better);
    assert!(better[survey] <= worse[survey]);
    assert_eq!(better[survey - 2..survey], worse[survey - 2..survey]);
    let started = [a, b].map(|house| house.record.started_by_31_may_1981);
    assert_eq!(started[0], started[1]);
    if better[survey] == worse[survey] {
        return;
    }
    tally.later[(a.age + b.age) as usize - 2] += 1;
    let mut surveyed_later = better.to_vec();
    surveyed_later[survey] = worse[survey];
    let alone = surveyed_later == worse;
    tally.fallen_with_age += usize::from(alone && b.before_layout != a.before_layout);
}

#[test]
fn a_house_worse_off_is_not_scored_better() {
    let mut random = Random::new(9);
    let mut tally = Tally::default();
    for _ in 0..PAIRS {
        let better = house::house(&mut random);
        let worse = worse_house(&mut random, &better);
        compare(&better, &worse, &mut tally);
    }
    println!("{tally:?}");
    let met = [
        tally.equal,
        tally.some_band_kept,
        tally.no_band_kept,
        tally.risen_where_not_kept,
        tally.repaired_fallen_where_kept,
        tally.narrow_fallen_where_kept,
        tally.verdict_worse,
        tally.later[0],
        tally.later[1],
        tally.later[2],
        tally.fallen_with_age,
    ];
    let by_snow = [tally.all_bands_kept, tally.fallen_where_kept];
    let met = met.iter().chain(by_snow.as_flattened());
    assert!(met.copied().all(|met| met >= 500));
}

/// P10: the better end falls from B to A, and the score rises from 11 to 14. So the comparison needs its condition.
#[test]
fn a_score_rises_where_the_better_end_falls() {
    let mut tally = Tally::default();
    let [better, worse] = [90, 100].map(worked::better_end_falls);
    compare(&better, &worse, &mut tally);
    assert_eq!((tally.some_band_kept, tally.risen_where_not_kept), (1, 1));
}

/// P1 with the corridor floor alone marked, surveyed on the day before it is ten and on the day it is.
#[test]
fn a_score_falls_where_a_house_turns_ten() {
    let mut tally = Tally::default();
    let [better, worse] =
        [19_900_930, 19_901_001].map(|day| worked::corridor_marked([19_800_401, 19_801_001, day]));
    compare(&better, &worse, &mut tally);
    assert_eq!((tally.later, tally.fallen_with_age), ([0, 1, 0], 1));
    assert_eq!(
        (tally.all_bands_kept[0], tally.fallen_where_kept[0]),
        (1, 2)
    );
}

/// Snow can raise a score, before the layout factor too, and on the ground the better end keeps its band. So the houses
/// compared have the same snow.
#[test]
fn a_score_rises_with_snow() {
    let [bare, snowed] = [0, 1].map(|snow| scored(&worked::weak_joints(snow)));
    assert_eq!(bare.record.scores, worked::WEAK_JOINTS_SCORES[0]);
    assert_eq!(snowed.record.scores, worked::WEAK_JOINTS_SCORES[1]);
    assert_eq!(bare.before_layout, [60, 60, 47, 47]);
    assert_eq!(snowed.before_layout, [62, 62, 75, 75]);
    assert_eq!(bare.higher_bands[..2], snowed.higher_bands[..2]);
}

/// P1 without marks has 9/10 if it is repaired and 1 if it isn't, and all bands are kept. So the houses compared are both
/// repaired, or neither.
#[test]
fn a_score_rises_without_the_repair() {
    let [repaired, other] = [true, false].map(|repaired| scored(&worked::unmarked(repaired)));
    assert_eq!(repaired.record.scores[..2], [51, 90]);
    assert_eq!(other.record.scores[..2], [57, 100]);
    assert_eq!(repaired.higher_bands, other.higher_bands);
}
