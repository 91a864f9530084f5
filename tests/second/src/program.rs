//! The program of document 01: its input taken apart, and what it prints.

use crate::{call, Answer, Call, Verdict, LIST_WORDS};

/// The most bytes that the program's input may have.
pub const MOST_BYTES: usize = 24_576;

/// What the program prints for this input; `None` where the call is too large for full copying.
pub fn printed(input: &[u8]) -> Option<String> {
    let Some(words) = words(input) else {
        return Some(refused(20, 0));
    };
    let Some(c) = lent(&words) else {
        return Some(refused(20, 0));
    };
    // "It lends 4,096 words."
    let mut out = [0; 4096];
    let answer = call(&c, &mut out, &mut [0; LIST_WORDS])?;
    Some(report(&answer, &out))
}

/// The little-endian words of an input that is no longer than it may be.
fn words(input: &[u8]) -> Option<Vec<u32>> {
    if input.len() > MOST_BYTES || input.len() % 4 != 0 {
        return None;
    }
    let word = |bytes: &[u8]| u32::from_le_bytes([bytes[0], bytes[1], bytes[2], bytes[3]]);
    Some(input.chunks(4).map(word).collect())
}

/// "script count, script, move count, moves, rule count, rule, patience, filling the input exactly".
fn lent(words: &[u32]) -> Option<Call<'_>> {
    let (script, words) = counted(words)?;
    let (moves, words) = counted(words)?;
    let (rule, words) = counted(words)?;
    match words {
        [patience] => Some(Call { script, moves, rule, patience: *patience }),
        _ => None,
    }
}

/// A count, that many words, and the words behind them.
fn counted(words: &[u32]) -> Option<(&[u32], &[u32])> {
    let (count, words) = words.split_first()?;
    let count = *count as usize;
    if count > words.len() {
        return None;
    }
    Some(words.split_at(count))
}

/// "verdict, counts, then the tree's words one a line".
fn report(answer: &Answer, out: &[u32]) -> String {
    let yes = match answer.verdict {
        Verdict::Accepted(yes) => yes,
        Verdict::Refused { question, place } => return refused(question, place),
    };
    let Answer { moves, visits, deepest, weight, words, .. } = answer;
    let verdict = if yes { "yes" } else { "no" };
    let mut text = format!("{verdict} moves {moves} visits {visits} deepest {deepest} weight {weight} words {words}\n");
    for word in &out[..*words as usize] {
        text += &format!("{word:08X}\n");
    }
    text
}

/// "a refusal as the one line `refused`, number, `at`, place".
fn refused(question: u32, place: u32) -> String {
    format!("refused {question} at {place}\n")
}
