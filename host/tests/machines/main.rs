//! The library on every machine it is built for: what `tools/archive` writes, from C on x86-64 and ARM64, from JavaScript
//! over the WebAssembly module, and from Java; and docs/PHONE.md, whose code and figures are those tried here.
//!
//! Tests that need more than the kit and a compiler have what it is in their names (`on_arm64`, `under_node`,
//! `from_java`), by which the gate leaves them out where it can't be had.

#[path = "../common/mod.rs"]
mod common;

mod archives;
mod calls;
mod page;
mod stack;

use std::os::unix::process::CommandExt;
use std::path::{Path, PathBuf};
use std::process::Command;
use std::sync::OnceLock;

/// The targets of `tools/archive`.
const TARGETS: [&str; 5] = [
    X86_64,
    ARM64,
    "wasm32",
    "aarch64-linux-android21",
    "arm64-apple-ios13",
];
const X86_64: &str = "x86_64-linux-gnu";
const ARM64: &str = "aarch64-linux-gnu";

/// The folder in which `tools/archive` has written for a target. It is asked once, for all of them.
fn built(target: &str) -> PathBuf {
    static BUILT: OnceLock<PathBuf> = OnceLock::new();
    let folder = BUILT.get_or_init(|| {
        let tool = common::top().join("tools/archive");
        let output = common::output(Command::new(tool).args(TARGETS));
        let said = String::from_utf8_lossy(&output.stderr);
        assert!(output.status.success(), "tools/archive: {said}");
        common::top().join("target/archive")
    });
    folder.join(target)
}

/// The folder of the kit's own tools.
fn kit_tools() -> PathBuf {
    let guide = common::output(Command::new("rt").arg("doc")).stdout;
    let guide = String::from_utf8(guide).expect("a path is text");
    let kit = Path::new(guide.trim()).parent();
    kit.expect("the guide stands in the kit")
        .join("toolchain/bin")
}

/// A tool of the kit: its compiler, by the name of another.
fn kit_tool(name: &str) -> Command {
    let compiler = kit_tools().join("clang");
    let mut command = Command::new(&compiler);
    command.arg0(compiler.with_file_name(name));
    command
}

/// The WebAssembly module.
fn module() -> PathBuf {
    built("wasm32").join("girderbasil.wasm")
}

/// A program of host/tests/, in C, for a target; and what runs it.
fn program(target: &str, name: &str) -> Command {
    let source = common::top().join(format!("host/tests/{name}.c"));
    let folder = common::folder(&format!("machines-{target}"));
    let program = folder.join(name);
    let mut compiler = compiler(target);
    compiler
        .arg("-O1")
        .arg(source)
        .arg(built(target).join("libgirderbasil.a"))
        .arg("-o")
        .arg(&program);
    if target == X86_64 {
        common::assert_silent(&common::output(&mut compiler), name);
        return Command::new(program);
    }
    // Under the emulator there is no C library to be loaded.
    common::assert_silent(&common::output(compiler.arg("-static")), name);
    let mut emulated = Command::new("qemu-aarch64");
    emulated.arg(program);
    emulated
}

/// The compiler of C for a target, with the header at hand.
fn compiler(target: &str) -> Command {
    let name = if target == X86_64 {
        "cc"
    } else {
        "aarch64-linux-gnu-gcc"
    };
    common::compiler(name, "c99", &common::top().join("include"))
}

/// A script run by node.
fn node(script: &Path) -> Command {
    let mut command = Command::new("node");
    command.arg(script);
    command
}

/// A script of host/tests/, in JavaScript, over the WebAssembly module.
fn script(name: &str) -> Command {
    let mut command = node(&common::top().join(format!("host/tests/{name}.mjs")));
    command.arg(module());
    command
}
