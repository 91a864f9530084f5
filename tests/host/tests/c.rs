//! include/skycorbel.h, from C: compiled by the C compiler that cargo links with, and run.

use std::path::Path;
use std::process::Command;

#[test]
fn the_header_says_how_it_is_called() {
    let here = Path::new(env!("CARGO_MANIFEST_DIR"));
    let library = std::env::var("SKYCORBEL_LIBRARY").map_or(here.join("../../crates/capi/out"), Into::into);
    let program = Path::new(env!("CARGO_TARGET_TMPDIR")).join("call");
    let compiled = Command::new("cc")
        .args(["-std=c99", "-Wall", "-Wextra", "-Werror", "-o"])
        .arg(&program)
        .arg(here.join("c/call.c"))
        .arg(library.join("libcapi.a"))
        .status();
    assert!(compiled.expect("there is a C compiler").success());
    let output = Command::new(&program).output().expect("it runs");
    assert!(output.status.success());
    assert_eq!(String::from_utf8(output.stdout).expect("text"), expected());
}

/// The line of an answer, the twelve words of the tree's buffer, and the line of the list.
fn shown(answer: &str, tree: &str, list: &str) -> String {
    let behind = "00000007\n".repeat(12 - tree.lines().count());
    format!("{answer}\n{tree}{behind}{list}\n")
}

fn expected() -> String {
    let moved = "10000000\n80000002\n10000000\n80000001\n00000000\n00000000\n00000000\n";
    let script = "10000000\n80000001\n20000000\nA0000000\n80000002\n00000000\n00000000\n10000000\n80000002\n00000000\n00000000\n";
    let unwritten = "00000007 00000007 7 7";
    [
        shown("1: 2 0 0 1 3 3 2 7 0 7", moved, unwritten),
        shown("1: 2 0 0 0 6 5 3 11 1 7", script, "10000102 00000007 7 7"),
        shown("1: 0 21 0 0 0 0 0 0 0 7", "", unwritten),
        shown("0: 7 7 7 7 7 7 7 7 7 7", "", unwritten),
        "0 1 0\n".to_string(),
    ]
    .concat()
}
