//! Times the proved library beside the model: `cargo run --release --bin bench`. It never passes or fails.

mod command;

use std::hint::black_box;
use std::time::{Duration, Instant};

use girderbasil::Site;
use girderbasil::Totals;
use girderbasil::{MOST_REPORT_BYTES, MOST_ROWS, MOST_WALLS, ROW};
use girderbasil_tests::model::{report, score, sheet};
use girderbasil_tests::random::{Random, house};
use girderbasil_tests::worked;

/// The two are timed in turn, this often, and the best round of each counts: what else the machine does can only
/// make a round slower.
const ROUNDS: usize = 60;
const ROUND: Duration = Duration::from_millis(5);

/// How many walls the different houses of a size have together, which are taken in turn. Where one sheet is repeated, or
/// a few small ones, the processor learns its way through them, and both look faster than they are on a sheet that is
/// new to them. As many walls at each size keep the sizes comparable.
const WALLS: u32 = 24_000;

struct House {
    table: Vec<u32>,
    sheet: Vec<u8>,
}

/// A line of the table that is printed: houses of one size.
struct Line {
    name: String,
    walls: usize,
    houses: Vec<House>,
}

/// Nanoseconds a house.
#[derive(Clone, Copy)]
struct Times {
    library: f64,
    model: f64,
}

fn main() {
    let lines = lines();
    println!("Nanoseconds a house, the best of {ROUNDS} rounds, library and model in turn.");
    println!("P1 is one house over and over, which the processor learns; the others are different");
    println!("houses in turn, as many as have {WALLS} walls together.");
    println!("The library goes through its safe wrapper. Both use the same storage again in every");
    println!("call, and neither clears it: the library the table and bytes it is lent, the model");
    println!(
        "vectors that keep their capacity, so that neither allocates. The model reads a sheet"
    );
    println!(
        "in one pass: unlike the library, it may leave its table half filled where it refuses."
    );
    print_times("Sheet to report", &lines, time_report);
    print_times("Table to record", &lines, time_record);
    print_changes();
    command::print_pile();
}

fn lines() -> Vec<Line> {
    let mut random = Random::new(14);
    let mut made = |name, storeys, walls| {
        let tables = (0..WALLS / walls).map(|_| house::with_walls(&mut random, storeys, walls));
        line(name, tables.collect())
    };
    vec![
        line("P1", vec![worked::TABLE.to_vec()]),
        made("two storeys", 2, 50),
        made("two storeys", 2, 100),
        made("two storeys", 2, 200),
        made("two storeys", 2, 300),
        made("three storeys", 3, 300),
    ]
}

fn line(name: &str, tables: Vec<Vec<u32>>) -> Line {
    let rows = tables[0].len() / ROW;
    let walls = tables[0].chunks(ROW).filter(|row| row[0] == 4).count();
    Line {
        name: format!("{name}, {rows} lines, {walls} walls"),
        walls,
        houses: tables.into_iter().map(house).collect(),
    }
}

fn house(table: Vec<u32>) -> House {
    let sheet = sheet::write(&table, usize::MAX).expect("a house's table can be written");
    House { table, sheet }
}

fn print_times(title: &str, lines: &[Line], time: fn(&[House]) -> Times) {
    println!(
        "\n{title:<38}{:>10}{:>10}{:>8}",
        "library", "model", "ratio"
    );
    let mut timed = Vec::new();
    for line in lines {
        let times = time(&line.houses);
        let ratio = times.library / times.model;
        println!(
            "{:<38}{:>10.0}{:>10.0}{ratio:>8.2}",
            line.name, times.library, times.model
        );
        timed.push((line.walls, times));
    }
    print_growth(&timed);
}

/// What each further wall takes, between neighbours among the houses of two storeys: the same all along where the time
/// grows in a straight line.
fn print_growth(timed: &[(usize, Times)]) {
    for pair in timed[1..5].windows(2) {
        let [(fewer, less), (more, longer)] = [pair[0], pair[1]];
        let walls = (more - fewer) as f64;
        println!(
            "{:<38}{:>10.1}{:>10.1}",
            format!("  a wall, between {fewer} and {more}"),
            (longer.library - less.library) / walls,
            (longer.model - less.model) / walls
        );
    }
}

fn time_report(houses: &[House]) -> Times {
    let mut table = [0; MOST_ROWS * ROW];
    let mut bytes = [0; MOST_REPORT_BYTES];
    let (mut model_table, mut model_bytes) = (Vec::new(), Vec::new());
    best_of_rounds(
        houses,
        |house| {
            let rows =
                girderbasil::read(black_box(&house.sheet), &mut table).expect("it is accepted");
            let written = girderbasil::write_report(&table[..rows * ROW], &mut bytes);
            black_box(&bytes[..written.expect("it is accepted")]);
        },
        |house| {
            let sheet = black_box(&house.sheet);
            sheet::read_into(sheet, MOST_ROWS * ROW, &mut model_table).expect("it is accepted");
            report::write_report_into(&model_table, MOST_REPORT_BYTES, &mut model_bytes)
                .expect("it is accepted");
            black_box(&model_bytes);
        },
    )
}

fn time_record(houses: &[House]) -> Times {
    best_of_rounds(
        houses,
        |house| {
            black_box(girderbasil::score(black_box(&house.table)).expect("it is accepted"));
        },
        |house| {
            black_box(score::score(black_box(&house.table)).expect("it is accepted"));
        },
    )
}

fn best_of_rounds(
    houses: &[House],
    mut library: impl FnMut(&House),
    mut model: impl FnMut(&House),
) -> Times {
    let mut library = || houses.iter().for_each(&mut library);
    let mut model = || houses.iter().for_each(&mut model);
    let calls = [calls_in_a_round(&mut library), calls_in_a_round(&mut model)];
    let mut best = Times {
        library: f64::INFINITY,
        model: f64::INFINITY,
    };
    for _ in 0..ROUNDS {
        best.library = best.library.min(round(&mut library, calls[0]));
        best.model = best.model.min(round(&mut model, calls[1]));
    }
    let count = houses.len() as f64;
    Times {
        library: best.library / count,
        model: best.model / count,
    }
}

/// How many calls fill a round.
fn calls_in_a_round(call: &mut impl FnMut()) -> usize {
    let start = Instant::now();
    let mut calls = 0;
    while start.elapsed() < ROUND {
        call();
        calls += 1;
    }
    calls
}

/// Nanoseconds a call.
fn round(call: &mut impl FnMut(), calls: usize) -> f64 {
    let start = Instant::now();
    for _ in 0..calls {
        call();
    }
    start.elapsed().as_nanos() as f64 / calls as f64
}

/// A house on site that lacks one wall of as many as it may have.
struct OnSite {
    site: Site,
    wall: [u32; ROW],
    /// The row that the wall takes, counted from 1.
    row: u32,
}

/// A house of as many walls as there may be, from which one was deleted, the last of its storey, so that it takes the same
/// row when it is added.
fn on_site(random: &mut Random, storeys: u32) -> OnSite {
    let table = house::with_walls(random, storeys, MOST_WALLS as u32);
    let rows = table.as_chunks::<ROW>().0;
    let storey = random.between(1, storeys);
    let index = rows.iter().rposition(|row| row[..2] == [4, storey]);
    let index = index.expect("each storey of so many walls has one");
    let row = index as u32 + 1;
    let (mut site, _) = Site::start(&table).expect("a house is accepted");
    site.delete_wall(row).expect("it has the wall");
    OnSite {
        site,
        wall: rows[index],
        row,
    }
}

/// Prints what a start, one addition and one deletion take, each beside the scoring of the table with all its walls.
fn print_changes() {
    println!(
        "\n{:<38}{:>10}{:>10}{:>8}",
        format!("A change on {MOST_WALLS} walls, library"),
        "change",
        "scoring",
        "ratio"
    );
    let mut random = Random::new(36);
    for (name, storeys) in [("two storeys", 2), ("three storeys", 3)] {
        let houses = 0..WALLS as usize / MOST_WALLS;
        let mut houses: Vec<OnSite> = houses.map(|_| on_site(&mut random, storeys)).collect();
        let [addition, scoring, start, deletion] = time_changes(&mut houses);
        for (change, time) in [
            ("a start", start),
            ("an addition", addition),
            ("a deletion", deletion),
        ] {
            let name = format!("{name}, {change}");
            let ratio = time / scoring;
            println!("{name:<38}{time:>10.0}{scoring:>10.0}{ratio:>8.2}");
        }
    }
}

/// Nanoseconds an addition, a scoring, a start and a deletion, the best round of each. They go through all houses in turn,
/// so that after each turn every house is as it was. A start of the wrapper's would copy the table.
fn time_changes(houses: &mut [OnSite]) -> [f64; 4] {
    let calls: [fn(&mut OnSite); 4] = [
        |house| {
            let wall = black_box(&house.wall);
            black_box(house.site.add_wall(wall).expect("it is accepted"));
        },
        |house| {
            black_box(girderbasil::score(black_box(house.site.table())).expect("it is accepted"));
        },
        |house| {
            let rows = house.site.rows() as u32;
            let mut totals = Totals { held: [0; 6], rows };
            let scoring = girderbasil::raw::start(&mut totals, black_box(house.site.table()));
            assert_eq!(scoring.number, 0, "it is accepted");
            black_box((totals, scoring));
        },
        |house| {
            let row = black_box(house.row);
            black_box(house.site.delete_wall(row).expect("it is accepted"));
        },
    ];
    let mut best = [f64::INFINITY; 4];
    for _ in 0..ROUNDS {
        let mut spent = [Duration::ZERO; 4];
        let mut timed = 0;
        while spent.iter().sum::<Duration>() < 4 * ROUND {
            for (spent, call) in spent.iter_mut().zip(calls) {
                let start = Instant::now();
                houses.iter_mut().for_each(call);
                *spent += start.elapsed();
            }
            timed += houses.len();
        }
        for (best, spent) in best.iter_mut().zip(spent) {
            *best = best.min(spent.as_nanos() as f64 / timed as f64);
        }
    }
    best
}
