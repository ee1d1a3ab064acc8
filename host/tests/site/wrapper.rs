//! The safe wrapper, which owns the table and the totals.

use girderbasil::Refusal;
use girderbasil::{self, Site};
use girderbasil::{MOST_WALLS, ROW};
use girderbasil_tests::random::{Random, damage, house, site};
use girderbasil_tests::worked::site::{OPENING, SUMS, TABLE, WALL, WINDOW};

#[test]
fn a_visit() {
    let (mut site, record) = Site::start(&TABLE).expect("P1 is accepted");
    assert_eq!(record.scores[..2], [47, 83]);
    assert_eq!(*site.totals(), SUMS);
    assert_eq!(site.add_wall(&WALL).unwrap().scores[..2], [68, 83]);
    assert_eq!(site.delete_wall(WINDOW).unwrap().scores[..2], [62, 83]);
    assert_eq!(site.add_wall(&OPENING).unwrap().scores[..2], [62, 88]);
    assert_eq!(site.rows(), 13);
    assert_eq!(*site.totals(), [12_000_000, 16_900_000, 0, 0, 0, 0]);
    let before = site.clone();
    let no_such_wall = Refusal::at(Refusal::NO_SUCH_WALL, 4, 0);
    assert_eq!(site.delete_wall(4), Err(no_such_wall));
    assert_eq!(site, before);
    let table = [&TABLE[..40], &TABLE[48..80], &WALL, &OPENING, &TABLE[80..]].concat();
    assert_eq!(site.table(), table);
}

/// A house gets its last wall whatever table it was started with, and is scored as if it had had them all from the start.
#[test]
fn there_is_room_for_every_wall() {
    let mut random = Random::new(31);
    for storeys in 1..=3 {
        let table = house::with_walls(&mut random, storeys, 0);
        let (mut site, _) = Site::start(&table).expect("a house is accepted");
        for _ in 0..MOST_WALLS {
            let storey = random.between(1, storeys);
            let wall = house::extreme_wall(&mut random, storey);
            let record = site.add_wall(&wall);
            assert_eq!(record, girderbasil::score(site.table()));
        }
        let too_many = site.add_wall(&WALL).map_err(|refusal| refusal.number);
        assert_eq!(too_many, Err(Refusal::TOO_MANY_WALLS));
        assert_eq!(site.table().len(), table.len() + MOST_WALLS * ROW);
    }
}

/// A start is refused where scoring refuses the same table, also one of no whole rows.
#[test]
fn a_start_is_refused_as_scoring_refuses() {
    let mut random = Random::new(32);
    let mut met = [0; 2];
    for _ in 0..20_000 {
        let table = damage::any_table(&mut random);
        let started = Site::start(&table).map(|(_, record)| record);
        assert_eq!(started, girderbasil::score(&table));
        met[usize::from(started.is_ok())] += 1;
    }
    assert!(met.iter().all(|&met| met >= 5_000), "{met:?}");
    for length in [0, 1, 95, 97, 313 * ROW] {
        let started = Site::start(&TABLE.repeat(32)[..length]);
        let refused = Refusal::without_place(Refusal::SHEET_LENGTH);
        assert_eq!(started.err(), Some(refused), "{length}");
    }
}

/// Whatever is done, the answers and totals are those of the table as it is.
#[test]
fn its_answers_are_fresh_scorings() {
    let mut random = Random::new(33);
    let mut met = [0; 2];
    for _ in 0..1_000 {
        let (mut site, _) = Site::start(&house::house(&mut random)).expect("a house is accepted");
        for _ in 0..10 {
            let record = if random.chance(50) {
                site.add_wall(&site::wall(&mut random, site.table()))
            } else {
                let rows = site.rows() as u32;
                site.delete_wall(random.between(0, rows + 1))
            };
            met[usize::from(record.is_ok())] += 1;
            let (anew, scored) = Site::start(site.table()).expect("it stays accepted");
            assert!(record.is_err() || record == Ok(scored));
            assert_eq!(anew, site);
        }
    }
    assert!(met.iter().all(|&met| met >= 1_000), "{met:?}");
}
