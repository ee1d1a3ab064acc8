//! Links the library's archive: the one that `GIRDERBASIL_ARCHIVE` names, or else one that `tools/archive` proves and writes,
//! so that one cargo command works in a fresh clone.

use std::env;
use std::error::Error;
use std::fs;
use std::path::{Path, PathBuf};
use std::process::{Command, ExitCode};

const ARCHIVE: &str = "libgirderbasil.a";
const GIVEN: &str = "GIRDERBASIL_ARCHIVE";
/// What an archive begins with. One with nothing after it has no member, and the linker would miss every function.
const MAGIC: &[u8] = b"!<arch>\n";
/// The machine that the archive is made for without being asked, as cargo and as `tools/archive` name it.
const MACHINE: &str = "x86_64-unknown-linux-gnu";
const TARGET: &str = "x86_64-linux-gnu";

fn main() -> ExitCode {
    println!("cargo::rerun-if-env-changed={GIVEN}");
    match link() {
        Ok(()) => ExitCode::SUCCESS,
        Err(error) => {
            for line in error.to_string().lines() {
                println!("cargo::error={line}");
            }
            ExitCode::FAILURE
        }
    }
}

fn link() -> Result<(), Box<dyn Error>> {
    let archive = match env::var_os(GIVEN) {
        Some(given) if !given.is_empty() => whole_path(given.into())?,
        _ => made()?,
    };
    // `tools/archive` writes the archive anew whenever it is asked to. A copy in cargo's own folder is as old as the last
    // change of its source, so cargo neither proves again nor links again without need.
    let out = PathBuf::from(env::var("OUT_DIR")?);
    let copy = out.join(ARCHIVE);
    // Read whole first: the archive that is given may be this copy itself.
    let bytes = fs::read(&archive)
        .map_err(|error| format!("cannot read the archive {}: {error}", archive.display()))?;
    if bytes.len() <= MAGIC.len() || !bytes.starts_with(MAGIC) {
        return Err(format!("{} is no archive", archive.display()).into());
    }
    fs::write(&copy, bytes)?;
    println!("cargo::metadata=archive={}", copy.display());
    println!("cargo::rustc-link-search=native={}", out.display());
    println!("cargo::rustc-link-lib=static=girderbasil");
    Ok(())
}

/// The archive that is given. Cargo runs this in the package's folder, where a path that starts at the caller's own would
/// lead elsewhere.
fn whole_path(given: PathBuf) -> Result<PathBuf, Box<dyn Error>> {
    if given.is_relative() {
        return Err(format!("{GIVEN} is no whole path from / on: {}", given.display()).into());
    }
    println!("cargo::rerun-if-changed={}", given.display());
    Ok(given)
}

/// Has the archive written.
fn made() -> Result<PathBuf, Box<dyn Error>> {
    let machine = env::var("TARGET")?;
    if machine != MACHINE {
        return Err(
            format!("set {GIVEN} to the archive for {machine}: tools/archive writes one").into(),
        );
    }
    let package = PathBuf::from(env::var("CARGO_MANIFEST_DIR")?);
    let top = package
        .ancestors()
        .nth(2)
        .ok_or("this package stands in the repository's host/")?;
    let tool = top.join("tools/archive");
    if !tool.exists() {
        let tool = tool.display();
        return Err(
            format!("set {GIVEN} to a built archive: there is no {tool} to write one").into(),
        );
    }
    for source in sources(top)? {
        println!("cargo::rerun-if-changed={}", source.display());
    }
    let output = Command::new(&tool)
        .arg(TARGET)
        .output()
        .map_err(|error| format!("{} does not run: {error}", tool.display()))?;
    let said = String::from_utf8_lossy(&output.stderr);
    if !output.status.success() {
        return Err(format!("no archive could be built, and {GIVEN} names none:\n{said}").into());
    }
    eprint!("{said}");
    Ok(top.join("target/archive").join(TARGET).join(ARCHIVE))
}

/// What the archive is made from. What `rt` keeps stands beside it, in each crate's out/, and is none of it.
fn sources(top: &Path) -> Result<Vec<PathBuf>, Box<dyn Error>> {
    let mut sources = vec![top.join("crates.txt"), top.join("tools/archive")];
    for entry in fs::read_dir(top.join("crates"))? {
        let folder = entry?.path();
        let parts = ["src", "specs", "proofs"].map(|part| folder.join(part));
        sources.extend(parts.into_iter().filter(|part| part.exists()));
    }
    Ok(sources)
}
