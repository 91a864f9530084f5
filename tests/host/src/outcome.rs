//! What a call leaves, and how it is held against what the second checker says of the same call.

use second::generate::Case;
use second::itinerary::{judge, Fault};
use second::{Answer, Call, Verdict};

const SOMETIME: u32 = 0x7000_0000;

/// The answer, and both lent buffers after the call.
#[derive(Clone, Debug, PartialEq, Eq)]
pub struct Outcome {
    pub answer: Answer,
    pub out: Vec<u32>,
    pub list: Vec<u32>,
}

impl Outcome {
    /// What such a call leaves of the case's buffers; `None` where it gives no answer.
    pub fn of(case: &Case, call: impl FnOnce(&Call, &mut [u32], &mut [u32]) -> Option<Answer>) -> Option<Outcome> {
        let (mut out, mut list) = (case.buffer.clone(), case.list.clone());
        let answer = call(&case.call(), &mut out, &mut list)?;
        Some(Outcome { answer, out, list })
    }

    /// What the proved call leaves.
    pub fn proved(case: &Case) -> Outcome {
        Outcome::of(case, |c, out, list| Some(crate::call(c, out, list))).expect("every call is answered")
    }

    /// What the second checker says that a call leaves.
    pub fn second(case: &Case) -> Option<Outcome> {
        Outcome::of(case, second::call)
    }
}

/// How an outcome is not as it must be.
#[derive(Clone, Copy, Debug, PartialEq, Eq)]
pub enum Difference {
    /// A field of the answer is another one, the itinerary's count apart.
    Answer,
    /// A word of the tree's buffer is another one.
    Tree,
    /// A word of the list is changed that no move stands in.
    List,
    /// There is an itinerary where there must be none.
    Unasked,
    /// The itinerary does not lead where it must.
    Itinerary(Fault),
}

/// Holds an outcome against the second checker's: every field, and every word of both buffers. Which itinerary is given is
/// free, so it is not held against that checker's own: it is replayed.
pub fn compare(case: &Case, ours: &Outcome, second: &Outcome) -> Result<(), Difference> {
    let free = Answer { itinerary: second.answer.itinerary, ..ours.answer };
    let count = ours.answer.itinerary as usize;
    if free != second.answer {
        return Err(Difference::Answer);
    }
    if ours.out != second.out {
        return Err(Difference::Tree);
    }
    if ours.list.get(count..) != case.list.get(count..) {
        return Err(Difference::List);
    }
    if !has_itinerary(&case.rule, &second.answer) {
        return if count == 0 { Ok(()) } else { Err(Difference::Unasked) };
    }
    judge(&case.call(), &ours.list[..count]).map_err(Difference::Itinerary)
}

/// "When the rule's first word is SOMETIME and the verdict is yes".
pub fn has_itinerary(rule: &[u32], answer: &Answer) -> bool {
    answer.verdict == Verdict::Accepted(true) && rule[0] == SOMETIME
}
