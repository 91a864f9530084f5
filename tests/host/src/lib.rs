//! What the tests share: the proved call as hosts/rust and as C have it, in the second checker's terms; how an outcome is held
//! against the second checker's; and the program.

pub mod outcome;
pub mod program;

use second::{Answer, Call, Verdict};
use skycorbel::{raw, Buffers, Request};

fn request<'a>(c: &Call<'a>) -> Request<'a> {
    let Call { script, moves, rule, patience } = *c;
    Request { script, moves, rule, patience }
}

/// The call as C sees it: 1, or 0 where `answer` has fewer than nine words and nothing is done.
pub fn call_raw(c: &Call, out: &mut [u32], list: &mut [u32], answer: &mut [u32]) -> u32 {
    raw::call(&request(c), &mut Buffers { tree: out, itinerary: list }, answer)
}

/// The answer to a call through hosts/rust; the tree that stands after the moves is written to `out`, the itinerary to `list`.
pub fn call(c: &Call, out: &mut [u32], list: &mut [u32]) -> Answer {
    as_second(skycorbel::call(&request(c), Buffers { tree: out, itinerary: list }))
}

/// An answer as the second checker gives it.
pub fn as_second(answer: skycorbel::Answer) -> Answer {
    let skycorbel::Answer { verdict, moves, visits, deepest, weight, tree, itinerary, .. } = answer;
    let verdict = match verdict {
        skycorbel::Verdict::Yes => Verdict::Accepted(true),
        skycorbel::Verdict::No => Verdict::Accepted(false),
        skycorbel::Verdict::Refused { question, place } => Verdict::Refused { question: question.number(), place },
    };
    let (words, itinerary) = (tree.len() as u32, itinerary.len() as u32);
    Answer { verdict, moves, visits, deepest, weight, words, itinerary }
}

/// The nine words that the call gives C for an answer.
pub fn as_words(answer: &Answer) -> [u32; raw::ANSWER_WORDS] {
    let (said, question, place) = match answer.verdict {
        Verdict::Refused { question, place } => (0, question, place),
        Verdict::Accepted(yes) => (1 + yes as u32, 0, 0),
    };
    let Answer { moves, visits, deepest, weight, words, itinerary, .. } = *answer;
    [said, question, place, moves, visits, deepest, weight, words, itinerary]
}
