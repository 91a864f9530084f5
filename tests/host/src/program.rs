//! The program of document 01, run.

use std::io::Write;
use std::path::PathBuf;
use std::process::{Command, Stdio};

/// Where `rt run` in crates/skycorbel puts it; `SKYCORBEL_PROGRAM` names another place.
pub fn path() -> PathBuf {
    let built = concat!(env!("CARGO_MANIFEST_DIR"), "/../../crates/skycorbel/out/skycorbel");
    std::env::var("SKYCORBEL_PROGRAM").unwrap_or(built.to_string()).into()
}

/// What it prints for this input. It ends with status 0 and writes nothing to standard error.
pub fn printed(input: &[u8]) -> String {
    run(Command::new(path()), input)
}

/// The same with no more than so many KiB of stack.
pub fn printed_on_stack(kib: u32, input: &[u8]) -> String {
    let mut command = Command::new("sh");
    command.arg("-c").arg(format!("ulimit -s {kib} && exec \"$0\"")).arg(path());
    run(command, input)
}

fn run(mut command: Command, input: &[u8]) -> String {
    command.stdin(Stdio::piped()).stdout(Stdio::piped()).stderr(Stdio::piped());
    let mut child = command.spawn().expect("the program can be run");
    // The program may end before it has read a whole input that is too long.
    let _ = child.stdin.take().expect("it has an input").write_all(input);
    let output = child.wait_with_output().expect("the program ends");
    assert!(output.status.success(), "{:?}", output.status);
    assert!(output.stderr.is_empty());
    String::from_utf8(output.stdout).expect("the program prints text")
}

/// The program's input for a call.
pub fn input(script: &[u32], moves: &[u32], rule: &[u32], patience: u32) -> Vec<u8> {
    let mut words = Vec::new();
    for list in [script, moves, rule] {
        words.push(list.len() as u32);
        words.extend(list);
    }
    words.push(patience);
    words.iter().flat_map(|word| word.to_le_bytes()).collect()
}
