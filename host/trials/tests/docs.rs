//! What the documents name is there, and what is there they name: crates, wrong programs, theorems and tests.

use std::collections::BTreeSet;
use std::fs;
use std::path::{Path, PathBuf};

/// A wrong program or a theorem: the crate or file that holds it, and its name.
type Held = (String, String);

fn root(path: &str) -> PathBuf {
    Path::new(env!("CARGO_MANIFEST_DIR")).join("../..").join(path)
}

fn read(path: &str) -> String {
    fs::read_to_string(root(path)).unwrap_or_else(|error| panic!("{path}: {error}"))
}

/// The names of a folder's files.
fn files(path: &str) -> Vec<String> {
    let folder = fs::read_dir(root(path)).unwrap_or_else(|error| panic!("{path}: {error}"));
    folder.map(|file| file.expect("a file").file_name().into_string().expect("a plain name")).collect()
}

fn crates() -> Vec<String> {
    let listed = read("crates.txt");
    let lines = listed.lines().filter(|line| !line.starts_with('#'));
    lines.filter_map(|line| Some(line.split_once(':')?.0.split_whitespace().next()?.to_string())).collect()
}

/// The rows of the tables below a heading, cell by cell, without their heads.
fn rows(document: &str, heading: &str) -> Vec<Vec<String>> {
    let text = read(document);
    let (_, below) = text.split_once(heading).unwrap_or_else(|| panic!("{document}: no {heading}"));
    let section = below.split("\n## ").next().expect("a section");
    let table = section.lines().filter(|line| line.starts_with('|'));
    table
        .skip(2)
        .map(|line| line.trim_matches('|').split(" | ").map(|cell| cell.trim().to_string()).collect())
        .collect()
}

/// The names between backquotes.
fn quoted(text: &str) -> impl Iterator<Item = &str> {
    text.split('`').skip(1).step_by(2)
}

/// Every must-fail edit of the crates that have some.
fn edits() -> BTreeSet<Held> {
    let of = |name: &String| {
        let folder = format!("crates/{name}/must-fail");
        let labels = if root(&folder).is_dir() { files(&folder) } else { Vec::new() };
        let name = name.clone();
        labels.into_iter().map(move |file| (name.clone(), file.trim_end_matches(".edit").to_string()))
    };
    crates().iter().flat_map(of).collect()
}

/// Every theorem of the promises: what is public there, but for the modules listed and for what they share of a success.
fn promised() -> BTreeSet<Held> {
    let folder = "crates/promises/proofs";
    let theorem_files =
        files(folder).into_iter().filter(|file| !["Lib.antt", "Successes.antt"].contains(&file.as_str()));
    let of = |file: String| {
        let path = format!("{folder}/{file}");
        let text = read(&path);
        let names = text.lines().filter_map(|line| line.trim().strip_prefix("pub ")?.split_once(" :"));
        names.map(|(name, _)| (path.clone(), name.to_string())).collect::<Vec<_>>()
    };
    theorem_files.flat_map(of).collect()
}

#[test]
fn every_crate_is_on_the_map() {
    let map: BTreeSet<_> =
        rows("docs/ARCHITECTURE.md", "## The crates").concat().join(" ").split('`').map(str::to_string).collect();
    let missing: Vec<_> = crates().into_iter().filter(|name| !map.contains(name)).collect();
    assert_eq!(missing, Vec::<String>::new());
}

#[test]
fn every_wrong_program_is_in_the_contracts() {
    let mut told = BTreeSet::new();
    let mut holder = String::new();
    for row in rows("docs/CONTRACTS.md", "## Wrong programs tried") {
        holder = quoted(&row[0]).next().map_or(holder, str::to_string);
        let labels = row[1].split(':').next().expect("labels");
        told.extend(labels.split(", ").map(|label| (holder.clone(), label.to_string())));
    }
    assert_eq!(told, edits());
}

#[test]
fn every_theorem_and_wrong_program_of_the_promises_is_there() {
    let edits = edits();
    let mut told = BTreeSet::new();
    for row in rows("docs/PROMISES.md", "# Promises") {
        for (file, names) in row[2].split("; ").filter_map(|part| part.split_once(": ")) {
            let file =
                if file.contains('/') { file.to_string() } else { format!("crates/promises/proofs/{file}.antt") };
            let text = read(&file);
            for name in quoted(names) {
                assert!(text.contains(&format!("pub {name} :")), "{file}: {name}");
                told.insert((file.clone(), name.to_string()));
            }
        }
        for (holder, labels) in row[4].split("; ").filter_map(|part| part.split_once(": ")) {
            for label in labels.split(", ") {
                assert!(edits.contains(&(holder.to_string(), label.to_string())), "{holder}: {label}");
            }
        }
    }
    let missing: Vec<_> = promised().difference(&told).cloned().collect();
    assert_eq!(missing, Vec::<Held>::new());
}

/// A test is named by its path, and may have a word in brackets after it.
#[test]
fn every_test_of_the_promises_is_there() {
    for row in rows("docs/PROMISES.md", "# Promises") {
        for test in row[3].split(", ") {
            let path = test.split(" (").next().expect("a path");
            assert!(root(path).exists(), "{path}");
        }
    }
}
