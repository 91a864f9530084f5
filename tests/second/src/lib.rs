//! A second checker: the plain machine of document 01 with full copying, written from that document and from document 02's
//! requests alone.
//!
//! It shares nothing with the proved checker and is what the tests hold that one against. A message is an owned tree, a
//! receipt puts a whole copy of the message in each place of its variable, and the tree of parts is plain owned data.
//! Sentences in quotation marks in the comments are document 01's, and document 02's where a request is named.

pub mod generate;
pub mod itinerary;
pub mod machine;
pub mod program;
pub mod rule;
pub mod script;
pub mod slip;
pub mod walk;
pub mod writer;

use machine::{count_parts, make_move, possible_moves, settle};
use rule::Kind;
use script::Body;
use slip::{made, Slip};
use walk::{Stop, Walk};

/// Request 01: "The list buffer must hold 256 words".
pub const LIST_WORDS: usize = 256;

/// What a call is lent to read, without the two buffers.
#[derive(Clone, Copy, Debug)]
pub struct Call<'a> {
    pub script: &'a [u32],
    pub moves: &'a [u32],
    pub rule: &'a [u32],
    pub patience: u32,
}

#[derive(Clone, Copy, Debug, PartialEq, Eq)]
pub enum Verdict {
    /// Yes or no.
    Accepted(bool),
    Refused { question: u32, place: u32 },
}

#[derive(Clone, Copy, Debug, PartialEq, Eq)]
pub struct Answer {
    pub verdict: Verdict,
    pub moves: u32,
    pub visits: u32,
    pub deepest: u32,
    pub weight: u32,
    pub words: u32,
    /// Request 01: "the count of moves" of the itinerary.
    pub itinerary: u32,
}

/// "The first no ends the call with its number and place."
#[derive(Clone, Copy, Debug, PartialEq, Eq)]
pub struct Refusal {
    pub question: u32,
    pub place: u32,
}

impl Refusal {
    pub fn new(question: u32, place: usize) -> Refusal {
        Refusal { question, place: place as u32 }
    }

    /// "A refused one gives number, place, moves and visits made (0 if none); deepest, weight and words are 0".
    fn answer(self, moves: u32, visits: u32) -> Answer {
        let verdict = Verdict::Refused { question: self.question, place: self.place };
        Answer { verdict, moves, visits, deepest: 0, weight: 0, words: 0, itinerary: 0 }
    }
}

/// The answer to a call; the tree is written to `out` as document 01 says, the itinerary to `list` as request 01 does.
///
/// `None` where a tree would become too large for full copying (`machine::MOST_MESSAGE_WORDS`): such a call has an answer,
/// but not from this checker. Neither buffer is then written.
pub fn call(c: &Call, out: &mut [u32], list: &mut [u32]) -> Option<Answer> {
    let start = match door(c, list.len()) {
        Ok(start) => start,
        Err(refusal) => return Some(refusal.answer(0, 0)),
    };
    let mut walk = start.walk;
    let moved = match make_list(start.tree, c.moves, walk.parts) {
        Ok(moved) => moved,
        Err((Stop::Refused(refusal), moves)) => return Some(refusal.answer(moves, 0)),
        Err((Stop::TooLarge, _)) => return None,
    };
    let moves = c.moves.len() as u32;
    let yes = match walk.visit(&start.rule, &moved.tree, 1) {
        Ok(yes) => yes,
        Err(Stop::Refused(refusal)) => return Some(refusal.answer(moves, walk.visits)),
        Err(Stop::TooLarge) => return None,
    };
    let itinerary = if yes { itinerary_words(&start.rule, &walk, c.moves) } else { Vec::new() };
    let words = writer::written(&moved.tree);
    if words.len() > out.len().min(1 << 28) {
        if made(Slip::ItineraryThoughRefused) {
            list[..itinerary.len()].copy_from_slice(&itinerary);
        }
        return Some(Refusal::new(19, 0).answer(moves, walk.visits));
    }
    out[..words.len()].copy_from_slice(&words);
    list[..itinerary.len()].copy_from_slice(&itinerary);
    Some(Answer {
        verdict: Verdict::Accepted(yes),
        moves,
        visits: walk.visits,
        deepest: walk.deepest,
        weight: count_parts(&moved.tree) + 2 * moved.receipts,
        words: words.len() as u32,
        itinerary: itinerary.len() as u32,
    })
}

/// After a yes, request 01: "When the rule's first word is SOMETIME", the moves by which the walk came to its yes, "from the
/// standing tree". "In every other case the count is 0".
fn itinerary_words(rule: &rule::Rule, walk: &Walk, list: &[u32]) -> Vec<u32> {
    if !matches!(rule.kind, Kind::Sometime(_)) {
        return Vec::new();
    }
    let mut words: Vec<u32> = walk.way.iter().map(|(actor, target)| 0x1000_0000 | actor << 8 | target).collect();
    if made(Slip::ItineraryCutShort) {
        words.pop();
    }
    if made(Slip::ItineraryFromTheScript) {
        words.splice(..0, list.iter().copied());
        words.truncate(LIST_WORDS);
    }
    words
}

/// What the questions before the moves leave.
struct Start {
    tree: Body,
    rule: rule::Rule,
    walk: Walk,
}

/// Questions 1 to 14 and 21, which is asked of every call that is lent a list of so many words.
fn door(c: &Call, list_words: usize) -> Result<Start, Refusal> {
    let script = script::read_script(c.script)?;
    let read = rule::read_rule(c.rule)?;
    if script.parts + read.placed > 64 {
        return Err(Refusal::new(12, 0));
    }
    if !(1..=16_777_216).contains(&c.patience) {
        return Err(Refusal::new(13, 0));
    }
    if c.moves.len() > 4096 {
        return Err(Refusal::new(14, 0));
    }
    // Request 01: "A buffer too short is refused with 21 at 0, asked after 14."
    if list_words < LIST_WORDS {
        return Err(Refusal::new(21, 0));
    }
    let walk = Walk {
        patience: c.patience,
        greatest_name: script.greatest_name.max(read.greatest_name),
        parts: script.parts,
        visits: 0,
        deepest: 0,
        names: Vec::new(),
        way: Vec::new(),
    };
    Ok(Start { tree: settle(script.tree), rule: read.rule, walk })
}

/// "the tree that stands after the moves", and the receipts made.
struct Moved {
    tree: Body,
    receipts: u32,
}

/// Questions 15 and 16: "Each word of the list, in turn, is asked its questions on the tree that the moves before it left".
/// A stop comes with the number of moves made before it.
fn make_list(tree: Body, moves: &[u32], parts: u32) -> Result<Moved, (Stop, u32)> {
    let mut moved = Moved { tree, receipts: 0 };
    for (index, &word) in moves.iter().enumerate() {
        let stop = |question| (Stop::Refused(Refusal::new(question, index)), index as u32);
        let (actor, target) = (word >> 8 & 0xFF, word & 0xFF);
        if word >> 16 != 0x1000 || actor >= parts || target >= parts {
            return Err(stop(15));
        }
        if !possible_moves(&moved.tree).contains(&(actor, target)) {
            return Err(stop(16));
        }
        let (tree, received) = make_move(moved.tree, (actor, target)).map_err(|large| (large.into(), index as u32))?;
        moved = Moved { tree, receipts: moved.receipts + received as u32 };
    }
    Ok(moved)
}
