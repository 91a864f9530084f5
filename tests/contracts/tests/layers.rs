//! Holds the tree to its layers: a crate's name begins with its layer and it names no crate of a higher one, the theory has no
//! code; and in the proofs of a function an earlier point of the code is cited by its name, not by so many steps back.

use std::fs;
use std::path::{Path, PathBuf};

/// The layers, from the lowest up. The last two stand beside each other.
const LAYERS: [&str; 9] = ["base", "read", "theory", "engine", "write", "walk", "call", "host", "program"];

fn root() -> PathBuf {
    Path::new(env!("CARGO_MANIFEST_DIR")).join("../..")
}

fn read(path: &Path) -> String {
    fs::read_to_string(path).unwrap_or_else(|e| panic!("{}: {e}", path.display()))
}

/// A crate's layer, as an index: by its name's first word, but for those that hosts and people know by name.
fn layer(name: &str) -> usize {
    let word = match name {
        "checker" => "call",
        "capi" => "host",
        "skycorbel" => "program",
        _ => name.split('_').next().expect("a word"),
    };
    LAYERS.iter().position(|other| *other == word).unwrap_or_else(|| panic!("{name} begins with no layer"))
}

/// The crates that are listed, each with those that it names. Behind a name may stand what kind of library it is.
fn listed() -> Vec<(String, Vec<String>)> {
    let text = read(&root().join("crates.txt"));
    let lines = text.lines().filter(|line| !line.starts_with('#')).filter_map(|line| line.split_once(':'));
    let lines = lines.filter_map(|(head, named)| Some((head.split_whitespace().next()?, named)));
    lines.map(|(name, named)| (name.to_string(), named.split_whitespace().map(str::to_string).collect())).collect()
}

/// The files below a folder whose names end so.
fn files(folder: &Path, end: &str) -> Vec<PathBuf> {
    let Ok(entries) = fs::read_dir(folder) else { return Vec::new() };
    let mut found = Vec::new();
    for path in entries.map(|entry| entry.expect("an entry").path()) {
        if path.is_dir() {
            found.extend(files(&path, end));
        } else if path.to_string_lossy().ends_with(end) {
            found.push(path);
        }
    }
    found
}

#[test]
fn no_crate_names_one_of_a_higher_layer() {
    let crates = listed();
    assert!(crates.len() > 30);
    let names: Vec<&String> = crates.iter().map(|(name, _)| name).collect();
    for (name, named) in &crates {
        for other in named.iter().filter(|other| names.contains(other)) {
            assert!(layer(other) <= layer(name), "{name} names {other}");
        }
    }
}

#[test]
fn the_theory_has_no_code() {
    let theory: Vec<String> = listed().into_iter().map(|(name, _)| name).filter(|name| name.starts_with("theory_")).collect();
    assert!(theory.len() > 4);
    for name in theory {
        for file in files(&root().join("crates").join(&name).join("src"), ".rt") {
            assert!(!read(&file).contains("fn "), "{name} has a function");
        }
    }
}

/// Whether a line cites a point of the code by its name, as an answer's `c.find.result`.
fn cites(line: &str) -> bool {
    line.split(|c: char| !c.is_alphanumeric() && !"._-'".contains(c)).any(|word| word.starts_with("c."))
}

#[test]
fn earlier_points_of_the_code_are_named() {
    let mut named = 0;
    for (name, _) in listed() {
        for file in files(&root().join("crates").join(&name).join("proofs"), ".antt") {
            let text = read(&file);
            let lines: Vec<&str> = text.lines().collect();
            named += lines.iter().filter(|line| cites(line)).count();
            for (i, line) in lines.iter().enumerate() {
                assert!(!line.contains(".before"), "{}:{}: {line}", file.display(), i + 1);
            }
        }
    }
    assert!(named > 200, "only {named} lines that cite a point were found");
}
