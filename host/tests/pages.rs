//! The pages: each link leads to a file that is there, and the page of must-fail edits has every edit.

mod common;

use std::collections::BTreeSet;
use std::fs;
use std::path::{Path, PathBuf};

/// The entries of a folder.
fn entries(folder: &Path) -> Vec<PathBuf> {
    let entries = fs::read_dir(folder).expect("a folder");
    entries
        .map(|entry| entry.expect("an entry").path())
        .collect()
}

/// The pages at the top and in docs/, with their texts.
fn pages() -> Vec<(PathBuf, String)> {
    let files = [common::top().to_owned(), common::top().join("docs")];
    let files = files.iter().flat_map(|folder| entries(folder));
    let pages = files.filter(|file| file.extension().is_some_and(|kind| kind == "md"));
    pages
        .map(|page| {
            let text = fs::read_to_string(&page).expect("a page");
            (page, text)
        })
        .collect()
}

/// What a heading is called after a link's `#`: in lower case, of its letters, digits, underscores and hyphens, and a hyphen
/// for each space.
fn anchor(heading: &str) -> String {
    let kept = heading.trim_start_matches('#').trim().to_lowercase();
    let kept = kept
        .chars()
        .filter(|letter| letter.is_alphanumeric() || " -_".contains(*letter));
    kept.collect::<String>().replace(' ', "-")
}

#[test]
fn every_link_leads_to_a_file_and_a_heading_that_are_there() {
    let mut met = 0;
    for (page, text) in pages() {
        let links = text.split("](").skip(1);
        for link in links.filter_map(|rest| Some(rest.split_once(')')?.0)) {
            let (file, heading) = link.split_once('#').unwrap_or((link, ""));
            let file = match file {
                "" => page.clone(),
                _ => page.parent().expect("its folder").join(file),
            };
            assert!(file.exists(), "{}: {link}", page.display());
            if !heading.is_empty() {
                let text = fs::read_to_string(&file).expect("a page");
                let mut headings = text.lines().filter(|line| line.starts_with('#'));
                let found = headings.any(|line| anchor(line) == heading);
                assert!(found, "{}: {link}", page.display());
            }
            met += 1;
        }
    }
    assert!(met >= 40, "{met}");
}

/// What files and folders are called, without the kind of a file.
fn names(paths: &[PathBuf]) -> BTreeSet<String> {
    let names = paths.iter().filter_map(|path| path.file_stem()?.to_str());
    names.map(str::to_owned).collect()
}

#[test]
fn the_page_of_must_fail_edits_has_every_edit_and_no_other() {
    let crates = entries(&common::top().join("crates"));
    let folders = crates.iter().map(|each| each.join("must-fail"));
    let edits = folders.filter(|folder| folder.exists());
    let edits: Vec<PathBuf> = edits.flat_map(|folder| entries(&folder)).collect();
    assert!(edits.len() >= 80);
    let page = fs::read_to_string(common::top().join("docs/MUST-FAIL.md")).expect("the page");
    // The second column names nothing in code but edits, and the crate of one.
    let rows = page.lines().map(common::cells);
    let named: BTreeSet<String> = rows
        .filter_map(|row| row.get(2).copied())
        .flat_map(|cell| cell.split('`').skip(1).step_by(2))
        .map(str::to_owned)
        .collect();
    let named = &named - &names(&crates);
    assert_eq!(named, names(&edits));
}
