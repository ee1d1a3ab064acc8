//! What `tools/archive` writes, and when it writes nothing.

use std::fs;
use std::os::unix::fs::{PermissionsExt, symlink};
use std::path::{Path, PathBuf};
use std::process::{Command, Output};

use crate::common::{Outside, header};
use crate::{TARGETS, X86_64, built, common, kit_tool, kit_tools, module, page};

/// What a library that is linked from an archive may ask others for: the C library's copying and filling of memory, which
/// the compiler uses, and on Apple's systems the loader.
const ASKED_FOR: [&str; 5] = ["bzero", "dyld_stub_binder", "memcpy", "memmove", "memset"];

/// The bytes of a large frame that are taken at a time.
const STEP: u32 = 3_072;

fn text(output: &[u8]) -> String {
    String::from_utf8_lossy(output).into_owned()
}

/// Links all of a target's archive into a shared library, as a phone loads it, by LLVM's linker for its system.
fn shared_library(target: &str) -> PathBuf {
    let library = common::folder("archives").join(target);
    let mut linker = if target.contains("apple") {
        let mut linker = kit_tool("ld64.lld");
        linker.args(["-arch", "arm64", "-platform_version", "ios", "13.0", "13.0"]);
        linker.args(["-dylib", "-undefined", "dynamic_lookup", "-all_load"]);
        linker
    } else {
        let mut linker = kit_tool("ld.lld");
        linker.args(["-shared", "--whole-archive"]);
        linker
    };
    linker.arg(built(target).join("libgirderbasil.a"));
    let output = common::output(linker.arg("-o").arg(&library));
    common::assert_silent(&output, target);
    library
}

/// The symbols of a shared library that others see, or that it asks others for.
fn symbols(target: &str, library: &Path, which: &str) -> Vec<String> {
    let mut names = kit_tool("llvm-nm");
    let seen = if target.contains("apple") { "-g" } else { "-D" };
    let output = common::output(names.args([seen, which, "-P"]).arg(library));
    common::assert_silent(&output, target);
    let printed = text(&output.stdout);
    let mut names: Vec<String> = printed
        .lines()
        .filter_map(|line| line.split_whitespace().next())
        // Apple's systems have an underscore before each name of C.
        .map(|name| name.trim_start_matches('_').to_string())
        .collect();
    names.sort_unstable();
    names
}

#[test]
fn archives_have_the_functions_of_the_header_and_no_more() {
    for target in TARGETS.into_iter().filter(|&target| target != "wasm32") {
        let library = shared_library(target);
        let defined = symbols(target, &library, "--defined-only");
        assert_eq!(defined, header::functions(), "{target}");
        let asked = symbols(target, &library, "--undefined-only");
        let allowed = |name: &String| ASKED_FOR.contains(&name.as_str());
        assert!(asked.iter().all(allowed), "{target}: {asked:?}");
    }
}

/// A large frame is taken in steps of less than a page, and each is touched before the next is taken. Where there are many
/// the compiler writes a loop, whose comparison stands before the touch.
#[test]
fn code_for_arm64_touches_every_page_of_the_stack() {
    for target in TARGETS
        .into_iter()
        .filter(|target| target.contains("64-") && *target != X86_64)
    {
        let mut listing = kit_tool("llvm-objdump");
        listing.args(["-d", "--no-show-raw-insn", "--no-leading-addr"]);
        let archive = built(target).join("libgirderbasil.a");
        let output = common::output(listing.arg(archive));
        common::assert_silent(&output, target);
        let listed = text(&output.stdout);
        let lines: Vec<Vec<&str>> = listed
            .lines()
            .map(|line| line.split_whitespace().collect())
            .collect();
        let mut met = 0;
        for next in lines.windows(3) {
            if next[0].starts_with(&["sub", "sp,", "sp,"]) {
                // A step of a page or more would be written as a number of pages.
                assert_eq!(next[0].len(), 4, "{target}: {:?}", next[0]);
                let step = next[0][3].trim_start_matches("#0x");
                let step = u32::from_str_radix(step, 16).expect("a number of bytes");
                if step >= STEP {
                    assert_eq!(step, STEP, "{target}");
                    let touch = &next[if next[1][0] == "cmp" { 2 } else { 1 }];
                    assert_eq!(touch, &["str", "xzr,", "[sp]"], "{target}");
                    met += 1;
                }
            }
        }
        assert!(met >= 3, "{target}: two frames are large");
    }
}

/// Its stack is as large as the page says and stands first in memory, before everything else: the manual's tables, which end
/// within 496 bytes, and what is left for the host.
#[test]
fn under_node_the_module_has_the_functions_of_the_header_and_no_more() {
    let program = "const module = new WebAssembly.Module(fs.readFileSync(process.argv[1]));
        const names = WebAssembly.Module.exports(module).map((one) => one.name).sort();
        const heap = new WebAssembly.Instance(module).exports.__heap_base.value;
        console.log(names.join('\\n'), WebAssembly.Module.imports(module).length, heap);";
    let mut node = Command::new("node");
    let output = common::output(node.args(["-e", program]).arg(module()));
    common::assert_silent(&output, "node");
    let mut expected = header::functions();
    expected.extend(["__heap_base", "memory"]);
    expected.sort_unstable();
    assert_eq!(text(&output.stdout), expected.join("\n") + " 0 66032\n");
    assert!(page::says("The module has a stack of 64 KB"));
}

#[test]
fn the_page_has_the_size_of_the_module() {
    let file = fs::metadata(module()).expect("the module is there");
    let kilobytes = (file.len() + 512) / 1024;
    assert!(
        page::says(&format!("`girderbasil.wasm`, some {kilobytes} KB")),
        "{kilobytes}"
    );
}

/// Asserts that the command said one line, with some words in it, and ended with 2.
fn assert_one_line(output: &Output, words: &str) {
    let said = text(&output.stderr);
    assert_eq!(output.status.code(), Some(2), "{said}");
    assert!(said.contains(words), "{said}");
    assert_eq!(said.lines().count(), 1, "{said}");
    assert_eq!(text(&output.stdout), "");
}

fn tool() -> Command {
    Command::new(common::top().join("tools/archive"))
}

#[test]
fn an_unknown_target_is_one_line() {
    for word in ["riscv64-linux-gnu", "aarch64", "wasm64", "--target", ""] {
        let output = common::output(tool().arg(word));
        assert_one_line(&output, &format!("unknown target {word}"));
        for target in TARGETS {
            assert!(text(&output.stderr).contains(target), "{target}");
        }
        // One that is known beside it changes nothing, and nothing of it is written.
        let output = common::output(tool().args([X86_64, word]));
        assert_one_line(&output, &format!("unknown target {word}"));
    }
}

/// A folder with these commands alone, for a path.
fn commands(name: &str, commands: &[&str]) -> Outside {
    let folder = Outside::new(name);
    for command in commands {
        let mut search = Command::new("sh");
        let found = common::output(search.args(["-c", "command -v \"$0\"", command]));
        symlink(text(&found.stdout).trim(), folder.join(command)).expect("a link");
    }
    folder
}

#[test]
fn a_missing_command_is_one_line() {
    let shell = ["bash", "dirname", "readlink", "uname"];
    let path = commands("without-rt", &shell);
    let output = common::output(tool().env("PATH", &*path));
    assert_one_line(&output, "rt is missing");
    let path = commands("without-flock", &[&shell[..], &["rt"]].concat());
    let output = common::output(tool().env("PATH", &*path));
    assert_one_line(&output, "flock is missing");
    let kit = other_kit("no-kit", "");
    write_script(&kit.join("bin/rt"), "echo 'it is gone' >&2; exit 1");
    let output = common::output(tool().env("PATH", path_to(&kit)));
    assert_one_line(&output, "there is no kit: it is gone");
}

/// Where a kit's tools stand in it.
const TOOLS: &str = "toolchain/bin";

/// A kit that has an `rt` of its own.
fn other_kit(name: &str, rt: &str) -> Outside {
    let kit = Outside::new(name);
    for folder in ["bin", TOOLS] {
        fs::create_dir_all(kit.join(folder)).expect("a folder");
    }
    let guide = kit.join("START-HERE.md");
    let doc = format!("[ $1 != doc ] || exec echo '{}'", guide.display());
    write_script(&kit.join("bin/rt"), &format!("{doc}\n{rt}"));
    fs::write(kit.join("bin/rtlib.py"), "").expect("the other part of rt is written");
    kit
}

/// A path that leads to a kit first.
fn path_to(kit: &Path) -> String {
    let path = std::env::var("PATH").expect("a path");
    format!("{}:{path}", kit.join("bin").display())
}

fn write_script(file: &Path, lines: &str) {
    fs::write(file, format!("#!/bin/sh\n{lines}\n")).expect("a script is written");
    fs::set_permissions(file, fs::Permissions::from_mode(0o755)).expect("it can be run");
}

#[test]
fn a_kit_without_a_tool_is_one_line() {
    let kit = other_kit("kit-without-tool", "");
    write_script(&kit.join(TOOLS).join("clang"), "exit 1");
    let output = common::output(tool().env("PATH", path_to(&kit)));
    assert_one_line(&output, "llvm-ar is missing");
}

#[test]
fn a_kit_without_a_processor_is_one_line() {
    let targets = "echo '    x86-64     - 64-bit X86: EM64T and AMD64'";
    let kit = other_kit("kit-of-x86-64", "");
    write_script(&kit.join(TOOLS).join("clang"), targets);
    write_script(&kit.join(TOOLS).join("llvm-ar"), "exit 1");
    for (target, processor) in [
        ("aarch64-linux-gnu", "aarch64"),
        ("aarch64-linux-android21", "aarch64"),
        ("arm64-apple-ios13", "aarch64"),
        ("wasm32", "wasm32"),
    ] {
        let output = common::output(tool().arg(target).env("PATH", path_to(&kit)));
        assert_one_line(&output, &format!("has no processor {processor}"));
    }
}

/// Runs the tool in a folder of its own with an `rt` that has the compiler compile some module.
fn output_for_module(name: &str, module: &str, targets: &[&str]) -> (Output, Outside) {
    let folder = Outside::new(name);
    let rt = format!(
        "mkdir -p out && echo >out/libgirderbasil.a && cd out && cat >module.bc <<'LL'
{module}
LL
\"${{0%/bin/rt}}/toolchain/bin/clang\" --target=x86_64-unknown-linux-gnu -march=x86-64 -c -x ir module.bc -o module.o"
    );
    let kit = other_kit(&format!("{name}-kit"), &rt);
    for tool in ["clang", "llvm-ar"] {
        symlink(kit_tools().join(tool), kit.join(TOOLS).join(tool)).expect("a link");
    }
    copy_to(&folder, "");
    fs::create_dir_all(folder.join("crates/girderbasil")).expect("the crate's folder");
    let mut tool = Command::new(folder.join("tools/archive"));
    let output = common::output(tool.args(targets).env("PATH", path_to(&kit)));
    (output, folder)
}

/// What was written there for a target.
fn written(folder: &Path, target: &str) -> PathBuf {
    folder.join("target/archive").join(target)
}

/// What would not be the same on another processor is not compiled for it, and nothing is written. A module like the
/// library's is, so the words alone make the difference.
#[test]
fn a_module_for_x86_64_alone_is_refused() {
    let module = |line: &str, attribute: &str| {
        format!(
            "target triple = \"x86_64-unknown-linux-gnu\"
define i64 @girderbasil_read(ptr %a0, i64 %a1) #0 {{
  {line}
  ret i64 %a1
}}
attributes #0 = {{ nounwind \"target-cpu\"=\"x86-64\" {attribute} }}"
        )
    };
    let targets = ["aarch64-linux-gnu", "wasm32"];
    let (output, folder) = output_for_module("plain-module", &module("", ""), &targets);
    assert_eq!(output.status.code(), Some(0), "{}", text(&output.stderr));
    let archive = written(&folder, "aarch64-linux-gnu").join("libgirderbasil.a");
    assert!(archive.exists());
    assert!(written(&folder, "wasm32").join("girderbasil.wasm").exists());
    let place = "ret i64 %a1\n}\n@static.0 = private constant <{ ptr, [8 x i8] }> <{ ptr @static.0, [8 x i8] undef }>\n\
        define i64 @three(i64 %a1) {";
    for (line, attribute) in [
        (place, ""),
        ("%r0 = ptrtoint ptr %a0 to i64", ""),
        ("%r0 = inttoptr i64 %a1 to ptr", ""),
        ("call void asm \"nop\", \"\"()", ""),
        ("", "\"target-features\"=\"+sse4.1\""),
        ("", "\"tune-cpu\"=\"generic\""),
    ] {
        for target in targets {
            let doctored = module(line, attribute);
            let (output, folder) = output_for_module("doctored-module", &doctored, &[target]);
            let said = text(&output.stderr);
            assert_eq!(output.status.code(), Some(2), "{line}{attribute}: {said}");
            assert!(said.ends_with("may be for x86-64 alone\n"), "{said}");
            assert!(!written(&folder, target).exists(), "{line}{attribute}");
        }
    }
}

/// What is loaded or stored whole has its parts at x86-64's places. Where it holds a pointer they are others in WebAssembly,
/// but for a slice's, and no instruction is changed to look for them there.
#[test]
fn a_pointer_in_what_is_loaded_whole_is_refused_for_web_assembly_but_in_a_slice() {
    let output_for = |line: &str| {
        let module = format!(
            "target triple = \"x86_64-unknown-linux-gnu\"
%named = type {{ i8, ptr }}
define i64 @girderbasil_read(ptr %a0, i64 %a1) {{
  {line}
  ret i64 %a1
}}"
        );
        output_for_module("whole-module", &module, &["wasm32"])
    };
    for line in [
        "%r0 = load { ptr, i64 }, ptr %a0, align 8",
        "%r0 = load { i8, i64 }, ptr %a0, align 8",
        "store { ptr, i64 } { ptr null, i64 0 }, ptr %a0, align 8",
    ] {
        let (output, folder) = output_for(line);
        let said = text(&output.stderr);
        assert_eq!(output.status.code(), Some(0), "{line}: {said}");
        assert!(written(&folder, "wasm32").exists(), "{line}");
    }
    for line in [
        "%r0 = load { i8, ptr }, ptr %a0, align 8",
        "%r0 = load { { i64, i8 }, ptr }, ptr %a0, align 8",
        "%r0 = load { i8, { ptr, i64 } }, ptr %a0, align 8",
        "%r0 = load <{ i8, ptr }>, ptr %a0, align 1",
        "%r0 = load [2 x ptr], ptr %a0, align 8",
        "%r0 = load %named, ptr %a0, align 8",
        "store { i8, ptr } { i8 0, ptr null }, ptr %a0, align 8",
    ] {
        let (output, folder) = output_for(line);
        let said = text(&output.stderr);
        assert_eq!(output.status.code(), Some(2), "{line}: {said}");
        assert!(said.ends_with("may be for x86-64 alone\n"), "{said}");
        assert!(!written(&folder, "wasm32").exists(), "{line}");
    }
}

/// On ARM64 a function that answers by a pointer needs the header's declaration of it.
#[test]
fn a_function_that_the_header_lacks_is_refused() {
    let module = "define ptr @girderbasil_other(ptr %a0) { ret ptr %a0 }";
    let (output, folder) = output_for_module("other-function", module, &["aarch64-linux-gnu"]);
    let said = text(&output.stderr);
    assert_eq!(output.status.code(), Some(2), "{said}");
    assert!(said.ends_with("declares no girderbasil_other that answers a struct\n"));
    assert!(!written(&folder, "aarch64-linux-gnu").exists());
}

/// Copies to a folder what the tool uses of the repository, and more that is named.
fn copy_to(folder: &Path, more: &str) {
    let commands = r#"
        mkdir "$0"/target
        cp -R include tools "$0"
        [ -z "$1" ] || cp -R --parents $1 "$0"
    "#;
    let mut copying = Command::new("sh");
    copying.args(["-ec", commands]).arg(folder).arg(more);
    let output = common::output(copying.current_dir(common::top()));
    common::assert_silent(&output, "a copy");
}

#[test]
fn what_is_not_proved_is_not_written() {
    built(X86_64);
    // Only the boundary is still to be proved there.
    let copy = Outside::new("unproved");
    copy_to(
        &copy,
        "crates.txt crates/*/src crates/*/specs crates/*/proofs crates/*/out/rlib",
    );
    let archive = written(&copy, X86_64).join("libgirderbasil.a");
    let tool = copy.join("tools/archive");
    // This machine's, by default and by its name, is one.
    let output = common::output(&mut Command::new(&tool));
    assert_eq!(output.status.code(), Some(0), "{}", text(&output.stderr));
    // Beside its own lines it shows rt's of how far it is.
    let lines = text(&output.stderr);
    let own = lines.lines().filter(|line| line.starts_with("archive: "));
    assert_eq!(own.count(), 2, "{lines}");
    let bytes = fs::read(&archive).expect("this machine's archive");
    assert!(bytes == fs::read(built(X86_64).join("libgirderbasil.a")).expect("the archive"));

    let source = copy.join("crates/girderbasil/src/lib.rt");
    let proved = fs::read_to_string(&source).expect("the boundary");
    let wrong = proved.replace("number: tells.number", "number: tells.row");
    assert!(wrong != proved, "the boundary reads otherwise");
    fs::write(&source, wrong).expect("it is changed");
    let output = common::output(Command::new(&tool).args([X86_64, "wasm32", X86_64]));
    assert_eq!(output.status.code(), Some(1), "{}", text(&output.stderr));
    assert!(text(&output.stderr).contains("logic=not-proved"));
    let last = "archive: the library is not proved, so nothing is written\n";
    assert!(text(&output.stderr).ends_with(last));
    assert!(!archive.exists(), "an archive of other code is left");
    assert!(!written(&copy, "wasm32").exists());
}
