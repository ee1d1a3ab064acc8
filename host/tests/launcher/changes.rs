//! What is built anew, and when.

use std::fs;
use std::os::unix::fs::symlink;

use super::*;

#[test]
fn what_changed_is_built_anew() {
    let copy = Copy::built("changes");
    assert_scored(&copy.run(), "");
    for file in [
        "crates/answer/src/lib.rt",
        "crates/girderbasil/specs/Host.antt",
        "crates/site/proofs/Theorems.antt",
        "crates.txt",
        "tools/archive",
    ] {
        copy.change(file);
        assert_scored(&copy.run(), &[BUILDING, PROVING].concat());
    }
    // The command alone needs no proof.
    for file in [
        "words.txt",
        "host/diagnose/src/main.rs",
        "host/girderbasil/src/lib.rs",
        "host/Cargo.toml",
        "host/Cargo.lock",
    ] {
        copy.change(file);
        assert_scored(&copy.run(), BUILDING);
    }
    // A folder that rt keeps something in comes and goes beside a crate's source, and tests are none.
    fs::create_dir(copy.0.join("crates/answer/out")).expect("a folder");
    copy.change("host/tests/common/mod.rs");
    assert_scored(&copy.run(), "");
}

#[test]
fn source_that_is_gone_is_missed() {
    let copy = Copy::built("gone");
    fs::remove_file(copy.0.join("crates/site/src/lib.rt")).expect("it is removed");
    assert_scored(&copy.run(), &[BUILDING, PROVING].concat());
    fs::remove_dir_all(copy.0.join("crates/site/proofs")).expect("it is removed");
    copy.prove_by("exit 1");
    assert_not_built(&copy.run(), "diagnose: can't be built\n");
}

/// The program is as old as the start of its build, so a change that comes during one is seen.
#[test]
fn a_change_during_a_build_is_built_by_the_next() {
    let copy = Copy::new("meanwhile");
    copy.prove_by(&format!("{HAND_OUT}\nsleep 0.1\ntouch \"$copy/words.txt\""));
    assert_scored(&copy.run(), &[BUILDING, PROVING].concat());
    assert_scored(&copy.run(), BUILDING);
    assert_scored(&copy.run(), "");
}

#[test]
fn a_program_that_is_none_is_built_anew() {
    let copy = Copy::built("damaged");
    make_executable(&copy.program(), false);
    assert_scored(&copy.run(), BUILDING);
    for bytes in ["", "echo this is no program\n"] {
        fs::write(copy.program(), bytes).expect("it is damaged");
        assert_scored(&copy.run(), BUILDING);
    }
}

/// Neither another archive nor another target that the environment names changes what is built.
#[test]
fn the_environment_changes_nothing() {
    let copy = Copy::new("environment");
    let mut command = copy.command();
    command.env("GIRDERBASIL_ARCHIVE", "/there/is/no.a");
    assert_scored(
        &common::run(&mut command, SHEET),
        &[BUILDING, PROVING].concat(),
    );
    copy.change("words.txt");
    command.env("CARGO_BUILD_TARGET", "x86_64-unknown-linux-musl");
    assert_scored(&common::run(&mut command, SHEET), BUILDING);
}

/// The launcher may stand behind a link, and hands on all words as they are.
#[test]
fn all_words_are_handed_on() {
    let copy = Copy::built("words");
    let link = common::empty_folder("launcher-link").join("link to diagnose");
    symlink(copy.0.join("diagnose"), &link).expect("a link");
    let sheet = copy.0.join("a sheet * of two  words");
    fs::write(&sheet, SHEET).expect("the sheet is written");
    let mut command = Command::new(link);
    assert_scored(&common::output(command.arg("--").arg(&sheet)), "");
}
