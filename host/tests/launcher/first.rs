//! The first run in a fresh clone, with the real `tools/archive`; and the sources that the launcher looks at.

use std::fs;
use std::path::PathBuf;
use std::process::Output;
use std::sync::OnceLock;

use super::*;

/// The first run at the top finds neither program nor archive, and builds both.
pub fn first_run() -> &'static Output {
    static FIRST: OnceLock<Output> = OnceLock::new();
    FIRST.get_or_init(|| {
        let target = common::top().join("target");
        // It may never have been built.
        let _ = fs::remove_file(target.join("bin/diagnose"));
        let archive = target.join("archive/x86_64-linux-gnu/libgirderbasil.a");
        let aside = put_aside(&archive);
        let output = shell("./diagnose", common::top());
        // Where nothing could be proved, whoever links with it still finds it.
        if !archive.exists() && aside.exists() {
            let folder = archive.parent().expect("its folder");
            fs::create_dir_all(folder).expect("a folder");
            fs::rename(aside, archive).expect("it goes back");
        }
        output
    })
}

/// `tools/archive` clears the folder that it stands in.
fn put_aside(archive: &Path) -> PathBuf {
    let aside = common::top().join("target/libgirderbasil.aside");
    let _ = fs::rename(archive, &aside);
    aside
}

#[test]
fn a_missing_program_is_proved_and_built() {
    let first = first_run();
    let lines = said(first);
    assert!(
        lines.starts_with(&format!("{BUILDING}archive: proving the library")),
        "{lines}"
    );
    assert!(lines.contains("\nrt: chose "), "{lines}");
    assert_eq!(String::from_utf8_lossy(&first.stdout), REPORT);
    assert_eq!(first.status.code(), Some(0));
    assert_scored(&shell("./diagnose", common::top()), "");
}

/// The library is as old as the newest of its crates, so the launcher looks at every one of them.
#[test]
fn each_crate_of_the_library_is_looked_at() {
    let crates = fs::read_to_string(common::top().join("crates.txt")).expect("the crates");
    // The name of a static library has another word behind it.
    let lines: Vec<(&str, &str)> = crates
        .lines()
        .filter_map(|it| it.split_once(':'))
        .filter_map(|(name, uses)| Some((name.split_whitespace().next()?, uses)))
        .collect();
    let mut used = vec!["girderbasil"];
    // Each layer uses only layers above it, so going up from the last line meets every crate after those that use it.
    for &(name, uses) in lines.iter().rev() {
        if used.contains(&name) {
            used.extend(uses.split_whitespace());
        }
    }
    let launcher = fs::read_to_string(common::top().join("diagnose")).expect("the launcher");
    let (_, sources) = launcher.split_once("/crates/{").expect("its sources");
    let (sources, _) = sources.split_once('}').expect("its sources");
    let sources: Vec<&str> = sources.split(',').collect();
    // Those of the kit have no line.
    for &(name, _) in &lines {
        assert_eq!(sources.contains(&name), used.contains(&name), "{name}");
    }
    assert!(used.contains(&"calendar"));
}
