//! Asks the checker about a commented text file, as `./run` does, and says in words what it answers: the verdict and the
//! counts, the tree that stands after the file's moves, and the itinerary; or the question that refuses.
//!
//! Exit status: 0 yes, 1 no, 2 refused, 3 a file that can't be read, 4 an answer that can't be put in words.

mod file;
mod tree;

use file::Lists;
use skycorbel::{call, Answer, Buffers, Move, Question, Request, Verdict, ITINERARY_WORDS};
use std::ffi::OsStr;
use std::fmt::Write as _;
use std::io::Write as _;
use std::process::ExitCode;
use tree::Tree;

/// What the program of document 01 lends for the tree.
const TREE_WORDS: usize = 4096;

const SOMETIME: u32 = 0x7000_0000;

/// What is printed on standard output and on standard error, and the exit status.
struct Said {
    out: String,
    err: String,
    status: u8,
}

impl Said {
    fn answer(out: String, status: u8) -> Said {
        Said { out, err: String::new(), status }
    }

    fn fault(err: String, status: u8) -> Said {
        Said { out: String::new(), err, status }
    }
}

fn main() -> ExitCode {
    let files: Vec<_> = std::env::args_os().skip(1).collect();
    let said = match &files[..] {
        [file] => about(file),
        _ => Said::fault("usage: explain FILE.hex\n".to_string(), 3),
    };
    // a reader that has gone wants to hear no more
    let _ = std::io::stdout().write_all(said.out.as_bytes());
    let _ = std::io::stderr().write_all(said.err.as_bytes());
    ExitCode::from(said.status)
}

fn about(file: &OsStr) -> Said {
    let name = file.to_string_lossy();
    let Ok(text) = std::fs::read(file) else {
        return Said::fault(format!("explain: {name}: no such file, or none that can be read\n"), 3);
    };
    match file::read(&text) {
        Ok(lists) => explained(&lists),
        Err(wrong) => Said::fault(format!("{name}{wrong}\n"), 3),
    }
}

/// Makes the call, and says what it answers.
fn explained(lists: &Lists) -> Said {
    let Lists { script, moves, rule, patience } = lists;
    let (mut words, mut list) = ([0; TREE_WORDS], [0; ITINERARY_WORDS]);
    let request = Request { script, moves, rule, patience: *patience };
    let answer = call(&request, Buffers { tree: &mut words, itinerary: &mut list });
    let (verdict, status) = match answer.verdict {
        Verdict::Refused { question, place } => return Said::answer(refused(&request, question, place), 2),
        Verdict::No => ("no", 1),
        Verdict::Yes => ("yes", 0),
    };
    let Answer { moves, visits, deepest, weight, tree, .. } = answer;
    let counts = format!("moves {moves} visits {visits} deepest {deepest} weight {weight} words {}", tree.len());
    match shown(&request, &answer) {
        Some(text) => Said::answer(format!("{verdict} {counts}\n{text}"), status),
        None => Said::fault("explain: the answer is not that of the tree here\n".to_string(), 4),
    }
}

/// The tree, and the itinerary where there can be one; `None` where the moves can't be followed here, or lead to another tree
/// than the one that the call has written.
fn shown(request: &Request, answer: &Answer) -> Option<String> {
    let mut tree = Tree::read(request.script)?;
    follow(&mut tree, request.moves)?;
    if tree.words() != answer.tree {
        return None;
    }
    let mut text = format!("\nthe tree that stands:\n{tree}");
    if answer.verdict == Verdict::Yes && request.rule.first() == Some(&SOMETIME) {
        text += &itinerary(&mut tree, answer.itinerary)?;
    }
    Some(text)
}

fn itinerary(tree: &mut Tree, moves: &[u32]) -> Option<String> {
    let lines = follow(tree, moves)?;
    Some(match moves.len() {
        0 => "\nno move is needed: the tree that stands meets the rule inside SOMETIME\n".to_string(),
        1 => format!("\nan itinerary of one move:\n{lines}"),
        count => format!("\nan itinerary of {count} moves:\n{lines}"),
    })
}

/// Makes the moves of these words, and puts each in a line.
fn follow(tree: &mut Tree, words: &[u32]) -> Option<String> {
    let mut lines = String::new();
    for word in words {
        lines += &tree.make(Move::from_word(*word)?)?;
        lines.push('\n');
    }
    Some(lines)
}

/// The program's line, what the question asks, and what stands at its place.
fn refused(request: &Request, question: Question, place: u32) -> String {
    let mut text = format!("refused {} at {place}\n{question}\n", question.number());
    let (list, words) = match question.number() {
        2..=5 => ("script", request.script),
        8..=11 | 17 | 18 => ("rule", request.rule),
        15 | 16 => ("list of moves", request.moves),
        _ => return text,
    };
    let _ = match words.get(place as usize) {
        Some(word) => writeln!(text, "word {place} of the {list} is {word:08X}"),
        None => writeln!(text, "the {list} ends before word {place}"),
    };
    text
}
