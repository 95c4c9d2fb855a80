//! The numbers stand in five places besides their definition: the library's code, the wrapper, the header, README and the handbook.
//! Each has every number once.

use std::collections::BTreeMap;
use std::fs;
use std::path::{Path, PathBuf};
use thrunglow::Error;

fn root(path: &str) -> PathBuf {
    Path::new(env!("CARGO_MANIFEST_DIR")).join("../..").join(path)
}

fn read(path: &str) -> String {
    fs::read_to_string(root(path)).unwrap_or_else(|error| panic!("{path}: {error}"))
}

/// The files of a folder, joined.
fn read_all(path: &str) -> String {
    let files = fs::read_dir(root(path)).unwrap_or_else(|error| panic!("{path}: {error}"));
    files.map(|file| fs::read_to_string(file.expect("a file").path()).expect("text")).collect()
}

/// The names by their numbers, from lines that say `name`, the word between and the number.
fn named(lines: &str, before: &str, between: &str) -> BTreeMap<u32, String> {
    let rows = lines.lines().filter_map(|line| line.trim().strip_prefix(before)?.split_once(between));
    let numbered: Vec<(u32, String)> = rows
        .filter_map(|(name, number)| Some((number.trim_end_matches(',').parse().ok()?, name.to_string())))
        .collect();
    let names: BTreeMap<u32, String> = numbered.iter().cloned().collect();
    assert_eq!(names.len(), numbered.len(), "a number stands twice: {numbered:?}");
    names
}

/// The numbers as they are defined.
fn defined() -> BTreeMap<u32, String> {
    let names = named(&read("crates/terms/specs/Refusals.antt"), "number_of ", " = ");
    assert!(names.len() >= 17, "{names:?}");
    names
}

#[test]
fn the_librarys_code_has_each() {
    assert_eq!(named(&read_all("crates/terms/src"), "", " = "), defined());
}

#[test]
fn the_wrapper_has_each() {
    let ours: BTreeMap<u32, String> = Error::ALL.iter().map(|error| (error.number(), format!("{error:?}"))).collect();
    assert_eq!(ours.len(), Error::ALL.len());
    assert_eq!(ours, defined());
}

#[test]
fn the_wrapper_says_what_to_do_at_each() {
    for error in Error::ALL {
        let (what, to_do) = error.to_string().split_once(": ").map(|(a, b)| (a.len(), b.len())).expect("two parts");
        assert!(what > 15 && to_do > 15, "{error}");
    }
}

/// A number stands in the header's table before its meaning, two spaces between.
#[test]
fn the_header_has_each() {
    let header = read("host/thrunglow.h");
    let table = header.split("*/").next().expect("the note at its head");
    let columns = table.lines().flat_map(|line| line.split("  ").collect::<Vec<_>>());
    let mut numbers: Vec<u32> = columns.filter_map(|column| column.trim_matches([' ', '*']).parse().ok()).collect();
    numbers.sort();
    assert_eq!(numbers, defined().into_keys().collect::<Vec<_>>());
}

#[test]
fn readme_has_a_row_for_each() {
    let readme = read("README.md");
    let (_, below) = readme.split_once("## The numbers").expect("the numbers");
    let section = below.split("\n## ").next().expect("a section");
    let cells = section.lines().filter_map(|line| line.strip_prefix("| ")?.split_once(" | "));
    let numbers: Vec<u32> = cells.filter_map(|(number, _)| number.parse().ok()).collect();
    assert_eq!(numbers, defined().into_keys().collect::<Vec<_>>());
}

#[test]
fn the_handbook_has_a_row_for_each() {
    let handbook = read("docs/HANDBOOK.md");
    for (number, name) in defined() {
        let row = format!("| {number} | `{name}` | ");
        assert_eq!(handbook.matches(&row).count(), 1, "{row}");
    }
}
