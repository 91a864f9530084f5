//! Skycorbel for a Rust host: a proved model checker for the ambient calculus and its logic.
//!
//! A host lends a script (a process of mobile ambients), a list of moves, a rule (a formula of the ambient logic) and two
//! buffers. The call makes the moves, decides whether the process that then stands satisfies the rule, and writes that process
//! to the one buffer. Where the rule begins with SOMETIME and the answer is yes, it writes an itinerary to the other: moves
//! that lead from there to a process that satisfies the rule inside. It asks nothing of the words that it is lent, allocates
//! nothing and keeps nothing between calls. The formats of the words, and what is proved of the answer, are in the
//! repository's README.
//!
//! ```
//! use skycorbel::{call, Buffers, Move, Request, Verdict, ITINERARY_WORDS};
//!
//! // Ambient 1 holds "enter 2" and stands beside ambient 2. The move takes it in; the rule asks for just that tree.
//! let script = [0x10000000, 0x80000001, 0x20000000, 0xA0000000, 0x80000002, 0, 0, 0x10000000, 0x80000002, 0, 0];
//! let enter = Move { actor: 1, target: 2 };
//! let rule = [0x40000002, 0x40000001, 0x30000000];
//! let request = Request { script: &script, moves: &[enter.word()], rule: &rule, patience: 9 };
//! let (mut tree, mut itinerary) = ([0; 4096], [0; ITINERARY_WORDS]);
//! let answer = call(&request, Buffers { tree: &mut tree, itinerary: &mut itinerary });
//! assert_eq!(answer.verdict, Verdict::Yes);
//! assert_eq!(answer.tree, [0x10000000, 0x80000002, 0x10000000, 0x80000001, 0, 0, 0]);
//!
//! // Without the move, and with SOMETIME before the rule: can that tree be reached, and how?
//! let rule = [0x70000000, 0x40000002, 0x40000001, 0x30000000];
//! let request = Request { moves: &[], rule: &rule, ..request };
//! let answer = call(&request, Buffers { tree: &mut tree, itinerary: &mut itinerary });
//! assert_eq!(answer.verdict, Verdict::Yes);
//! assert_eq!(answer.itinerary, [enter.word()]);
//! ```
#![no_std]
#![deny(missing_docs)]

mod moves;
mod question;
pub mod raw;

pub use moves::Move;
pub use question::Question;

/// The words that a buffer for an itinerary must have.
pub const ITINERARY_WORDS: usize = 256;

/// What is asked: the operands of a call that it reads. By default each list is empty and each number 0.
#[derive(Clone, Copy, Debug, Default, PartialEq, Eq, Hash)]
pub struct Request<'a> {
    /// The words of the script, 1 to 1,024.
    pub script: &'a [u32],
    /// The moves to make before the rule is asked, at most 4,096.
    pub moves: &'a [u32],
    /// The words of the rule, 1 to 256.
    pub rule: &'a [u32],
    /// The most visits that the walk of the rule may make, 1 to 16,777,216.
    pub patience: u32,
}

/// What is lent to be written. By default each buffer has no words.
#[derive(Debug, Default)]
pub struct Buffers<'b> {
    /// For the tree that stands after the moves; no more than its first 2^28 words count. The words behind the tree stay as
    /// they were, and all of them where the call is refused.
    pub tree: &'b mut [u32],
    /// For the itinerary, at least [`ITINERARY_WORDS`] words: every call with fewer is refused by question 21, whatever its
    /// rule. The words behind the itinerary stay as they were, and all of them where there is none.
    pub itinerary: &'b mut [u32],
}

/// Whether the process satisfies the rule.
#[derive(Clone, Copy, Debug, PartialEq, Eq, Hash)]
pub enum Verdict {
    /// The process that stands after the moves satisfies the rule.
    Yes,
    /// It does not.
    No,
    /// The call was refused.
    Refused {
        /// The first question that is answered by no.
        question: Question,
        /// Where it is: the index of a word of the script, of the rule or of the moves, for a question that is asked of each;
        /// else 0. For question 5 or 11 it may be the length.
        place: u32,
    },
}

/// What a call answers.
#[derive(Clone, Copy, Debug, PartialEq, Eq, Hash)]
#[non_exhaustive]
pub struct Answer<'b> {
    /// Yes, no or refused.
    pub verdict: Verdict,
    /// The moves made, in a refused call too.
    pub moves: u32,
    /// The visits made, in a refused call too.
    pub visits: u32,
    /// The greatest depth of a visit; 0 where refused.
    pub deepest: u32,
    /// The parts in the tree plus twice the receipts made; 0 where refused.
    pub weight: u32,
    /// The tree that stands after the moves, in the script's form: the words of the lent buffer that were written, none where
    /// refused.
    pub tree: &'b [u32],
    /// Where the rule begins with SOMETIME and the verdict is yes: move words that lead from the tree that stands after the
    /// moves to one that meets the rule inside SOMETIME. They are the words of the lent buffer that were written, at most 256,
    /// and none where that tree meets it as it stands. In every other case there are none.
    pub itinerary: &'b [u32],
}

/// Makes the moves on the script, walks the rule over the tree that then stands, and writes that tree and the itinerary.
///
/// The deepest walks of the tests run with 2 MiB of stack.
pub fn call<'b>(request: &Request, mut buffers: Buffers<'b>) -> Answer<'b> {
    let mut answer = [0; raw::ANSWER_WORDS];
    let done = raw::call(request, &mut buffers, &mut answer);
    assert_eq!(done, 1, "nine words are lent for the answer");
    let [said, question, place, moves, visits, deepest, weight, words, count] = answer;
    let verdict = match said {
        0 => Verdict::Refused { question: Question::new(question), place },
        1 => Verdict::No,
        2 => Verdict::Yes,
        _ => unreachable!("{said} is no verdict"),
    };
    let (tree, itinerary) = (&buffers.tree[..words as usize], &buffers.itinerary[..count as usize]);
    Answer { verdict, moves, visits, deepest, weight, tree, itinerary }
}
