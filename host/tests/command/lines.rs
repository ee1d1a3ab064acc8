//! Without an option: the proved lines, byte for byte.

use std::fs;
use std::os::unix::ffi::OsStrExt;

use super::*;
use girderbasil_tests::random::Random;
use girderbasil_tests::worked;

const SHEETS: usize = 800;

#[test]
fn a_sheet_is_scored_from_a_file_and_from_standard_input() {
    let scored = gave(0, REPORT, "");
    assert_eq!(diagnose(&["examples/p1.sheet"], b""), scored);
    assert_eq!(diagnose::<&str>(&[], SHEET), scored);
    assert_eq!(diagnose(&["-"], SHEET), scored);
    assert_eq!(diagnose(&["/dev/stdin"], SHEET), scored);
    assert_eq!(shell(r#""$0" <examples/p1.sheet"#), scored);
}

#[test]
fn a_refused_sheet_alone_is_told_by_its_line() {
    let shorter = (SHEET[1..].to_vec(), NO_SHEET);
    let empty = (Vec::new(), NO_SHEET);
    for (sheet, line) in worked::refused().into_iter().chain([shorter, empty]) {
        assert_eq!(diagnose::<&str>(&[], &sheet), gave(1, line, ""));
    }
}

#[test]
fn of_several_each_refused_one_is_named() {
    let files = ["examples/refused.sheet", "-", "examples/p1.sheet"];
    assert_eq!(
        diagnose(&files, &SHEET[1..]),
        gave(
            1,
            &[REFUSED, NO_SHEET, REPORT].concat(),
            concat!(
                "examples/refused.sheet: refused 6, row 3, column 4\n",
                "standard input: refused 1, the sheet as a whole\n",
            )
        )
    );
}

/// The scoring program is the proved way from standard input to standard output.
#[test]
fn the_command_prints_what_the_scoring_program_does() {
    let mut random = Random::new(52);
    let mut met = [0; 2];
    for _ in 0..SHEETS {
        let sheet = common::any_sheet(&mut random);
        let program = common::run_scoring_program(&sheet);
        assert_eq!(
            (program.status.code(), &*program.stderr),
            (Some(0), &b""[..])
        );
        let printed = String::from_utf8(program.stdout).expect("digits and spaces");
        let status = i32::from(printed.starts_with("       0"));
        assert_eq!(diagnose::<&str>(&[], &sheet), gave(status, &printed, ""));
        met[status as usize] += 1;
    }
    assert!(met.iter().all(|&met| met >= SHEETS / 5), "{met:?}");
}

#[test]
fn longer_input_has_the_length_of_no_sheet() {
    // 65,585 is a multiple of 65, as 65,536 is not.
    for length in [65_535, 65_536, 65_537, 65_585, 1 << 20] {
        let sheet: Vec<u8> = SHEET.iter().copied().cycle().take(length).collect();
        assert_eq!(
            diagnose::<&str>(&[], &sheet),
            gave(1, NO_SHEET, ""),
            "{length}"
        );
    }
}

#[test]
fn a_name_that_is_no_text_is_shown_as_far_as_it_can_be() {
    let folder = folder_with("name", &[("p1.sheet", SHEET)]);
    let name = OsStr::from_bytes(b"\xff.sheet");
    fs::write(folder.join(name), refused_sheet()).expect("a file for the test");
    assert_eq!(
        diagnose_in(&folder, &[OsStr::new("p1.sheet"), name]),
        gave(
            1,
            &[REPORT, REFUSED].concat(),
            "\u{fffd}.sheet: refused 6, row 3, column 4\n"
        )
    );
}

#[test]
fn a_name_that_begins_as_an_option_follows_two_dashes() {
    let folder = folder_with("dashes", &[("--csv", SHEET)]);
    assert_eq!(diagnose_in(&folder, &["--", "--csv"]), gave(0, REPORT, ""));
    assert_eq!(diagnose(&["--", "-"], SHEET), gave(0, REPORT, ""));
}
