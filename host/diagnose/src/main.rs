//! The desk's command, `diagnose`: its arguments in, its exit status out.

use std::env;
use std::process::ExitCode;

fn main() -> ExitCode {
    ExitCode::from(girderbasil_diagnose::run(env::args_os().skip(1)))
}
