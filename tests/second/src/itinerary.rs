//! Request 01: "Which such list is given is free; that it leads there by the plain machine is not." So a list is not held
//! against the one that this checker's walk found: it is replayed, and the inner rule is walked on the tree reached.

use crate::rule::{Kind, Rule};
use crate::script::Body;
use crate::walk::{Stop, Walk};
use crate::{door, make_list, Call, Refusal, LIST_WORDS};

/// A walk to depth 256 makes no more: its first visit is at depth 1, each move is one deeper, and the inner rule one more.
pub const MOST_MOVES: usize = 254;

/// Question 13's limit.
const MOST_PATIENCE: u32 = 16_777_216;

/// Why a list is not an itinerary of a call that says yes.
#[derive(Clone, Copy, Debug, PartialEq, Eq)]
pub enum Fault {
    /// The call itself has no walk.
    NoWalk(Refusal),
    /// The rule does not begin with SOMETIME.
    NoSometime,
    /// The tree that stands meets the inner rule, and the list is not empty.
    MetAtOnce,
    TooLong,
    /// Question 15 or 16 refuses this word of the list.
    NoMove(Refusal),
    /// The tree that the list leads to does not meet the inner rule.
    NotMet,
    /// Question 17 or 18 ends the inner rule's walk, so that nothing is known.
    Stopped(Refusal),
    /// A tree is too large for full copying, so that nothing is known.
    TooLarge,
}

/// Whether "moves .. lead from the standing tree to one that meets the inner rule", for a call that says yes.
pub fn judge(c: &Call, list: &[u32]) -> Result<(), Fault> {
    let start = door(c, LIST_WORDS).map_err(Fault::NoWalk)?;
    let parts = start.walk.parts;
    let standing = replay(start.tree, c.moves, parts, Fault::NoWalk)?;
    let Kind::Sometime(inner) = &start.rule.kind else {
        return Err(Fault::NoSometime);
    };
    if meets(&start.walk, inner, &standing)? {
        return if list.is_empty() { Ok(()) } else { Err(Fault::MetAtOnce) };
    }
    if list.len() > MOST_MOVES {
        return Err(Fault::TooLong);
    }
    let reached = replay(standing, list, parts, Fault::NoMove)?;
    if meets(&start.walk, inner, &reached)? {
        Ok(())
    } else {
        Err(Fault::NotMet)
    }
}

/// The tree that a list of move words leads to, each asked questions 15 and 16.
fn replay(tree: Body, list: &[u32], parts: u32, refused: fn(Refusal) -> Fault) -> Result<Body, Fault> {
    match make_list(tree, list, parts) {
        Ok(moved) => Ok(moved.tree),
        Err((stop, _)) => Err(fault(stop, refused)),
    }
}

/// Whether a tree meets a rule that stands inside the call's rule, walked with its indices, its names and its PLACED words as
/// they are there.
///
/// The walk begins at depth 1 with the most patience there is. The call's own walk was at depth 2 or more when it came to
/// the inner rule, had no more visits left, and was not stopped: so on a tree that it met, this walk isn't stopped either. On
/// another tree it may be, and that is a fault, not a yes.
fn meets(call: &Walk, rule: &Rule, tree: &Body) -> Result<bool, Fault> {
    let mut walk = Walk { patience: MOST_PATIENCE, names: Vec::new(), way: Vec::new(), ..*call };
    walk.visit(rule, tree, 1).map_err(|stop| fault(stop, Fault::Stopped))
}

fn fault(stop: Stop, refused: fn(Refusal) -> Fault) -> Fault {
    match stop {
        Stop::Refused(refusal) => refused(refusal),
        Stop::TooLarge => Fault::TooLarge,
    }
}
