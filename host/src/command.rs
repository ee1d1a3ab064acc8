//! The desk's command, for its tests and the benchmark.

use std::path::{Path, PathBuf};
use std::process::Command;
use std::sync::OnceLock;

/// The command, to be started at the repository's top.
pub fn command() -> Command {
    static PROGRAM: OnceLock<PathBuf> = OnceLock::new();
    let mut command = Command::new(PROGRAM.get_or_init(built));
    command.current_dir(top());
    command
}

/// The repository's top.
pub fn top() -> &'static Path {
    Path::new(env!("CARGO_MANIFEST_DIR"))
        .parent()
        .expect("host/ stands in the repository")
}

/// Has the launcher build it, so that later runs find it built and have nothing to say.
fn built() -> PathBuf {
    let launcher = top().join("diagnose");
    let output = Command::new(&launcher)
        .arg("--version")
        .output()
        .expect("the launcher runs");
    let said = String::from_utf8_lossy(&output.stderr);
    assert!(output.status.success(), "{said}");
    launcher
}
