//! Reads a call from standard input and prints its answer, as the program of document 01 does.

use second::program::{printed, MOST_BYTES};
use std::io::Read;

fn main() {
    let mut input = Vec::new();
    let mut limited = std::io::stdin().take(MOST_BYTES as u64 + 1);
    limited.read_to_end(&mut input).expect("standard input can be read");
    match printed(&input) {
        Some(text) => print!("{text}"),
        None => {
            eprintln!("too large for full copying");
            std::process::exit(1);
        }
    }
}
