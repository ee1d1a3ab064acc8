//! What the command takes for a pile of sheets, with its start and its reading of their files.

use std::env;
use std::fs;
use std::io;
use std::path::Path;
use std::process::{self, Stdio};
use std::time::{Duration, Instant};

use girderbasil_tests::command::command;
use girderbasil_tests::model::sheet;
use girderbasil_tests::random::{Random, house};

const SHEETS: usize = 10_000;
const WALLS: u32 = 50;
/// The best of them counts.
const ROUNDS: usize = 5;

/// Prints it in milliseconds; where there can be no pile, why.
pub fn print_pile() {
    let folder = env::temp_dir().join(format!("girderbasil-bench-{}", process::id()));
    let times = time_pile(&folder);
    // What can't be removed stays, and is no matter of the command's.
    let _ = fs::remove_dir_all(&folder);
    let pile = format!("\nThe command, {SHEETS} sheets of {WALLS} walls");
    match times {
        Ok(best) => println!("{pile}, --summary: {} ms", best.as_millis()),
        Err(error) => println!("{pile}: not timed, {error}"),
    }
}

fn time_pile(folder: &Path) -> io::Result<Duration> {
    fs::create_dir_all(folder)?;
    let mut random = Random::new(51);
    let mut files = Vec::new();
    for number in 0..SHEETS {
        let table = house::with_walls(&mut random, 2, WALLS);
        let sheet = sheet::write(&table, usize::MAX).expect("a house's table can be written");
        let file = folder.join(format!("{number}.sheet"));
        fs::write(&file, sheet)?;
        files.push(file);
    }
    let mut best = Duration::MAX;
    for _ in 0..ROUNDS {
        let mut command = command();
        command.arg("--summary").args(&files).stdout(Stdio::null());
        let start = Instant::now();
        let status = command.status()?;
        best = best.min(start.elapsed());
        if !status.success() {
            return Err(io::Error::other(format!("the command: {status}")));
        }
    }
    Ok(best)
}
