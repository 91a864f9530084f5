//! The call of include/skycorbel.h behind slices, for a host that reads the answer's words itself.

use crate::{Buffers, Request};

/// The words of an answer: 0 refused, 1 no or 2 yes; the question that refuses and its place, else 0; the moves and the visits
/// made; the greatest depth; the weight; the words of the tree; the moves of the itinerary.
pub const ANSWER_WORDS: usize = 9;

extern "C" {
    fn skycorbel_call(
        script: *const u32,
        script_words: usize,
        moves: *const u32,
        moves_words: usize,
        rule: *const u32,
        rule_words: usize,
        patience: u32,
        out: *mut u32,
        out_words: usize,
        list: *mut u32,
        list_words: usize,
        answer: *mut u32,
        answer_words: usize,
    ) -> u32;
}

/// The call as C has it: 1, or 0 where `answer` has fewer than [`ANSWER_WORDS`] words, and then nothing is done. Words of
/// `answer` behind the ninth stay as they were.
pub fn call(request: &Request, buffers: &mut Buffers, answer: &mut [u32]) -> u32 {
    let Request { script, moves, rule, patience } = *request;
    let Buffers { tree, itinerary } = buffers;
    // Safe: each pointer comes with its slice's own length, and the borrows keep the three buffers apart from all else.
    unsafe {
        skycorbel_call(
            script.as_ptr(),
            script.len(),
            moves.as_ptr(),
            moves.len(),
            rule.as_ptr(),
            rule.len(),
            patience,
            tree.as_mut_ptr(),
            tree.len(),
            itinerary.as_mut_ptr(),
            itinerary.len(),
            answer.as_mut_ptr(),
            answer.len(),
        )
    }
}
