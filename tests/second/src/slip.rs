//! Slips that the trade has made (document 01) and some that a request invites, for a test that each would be seen: with the
//! feature `slips` one of them can be switched on for the thread, without it none is ever made.

#[derive(Clone, Copy, Debug, PartialEq, Eq)]
pub enum Slip {
    /// "Reading a body's first part only."
    FirstPartOnly,
    /// "Moving inside an ambient whose message is no name."
    MoveInsideUnnamed,
    /// "Stopping at a received message that is itself a variable received earlier."
    StopAtVariable,
    /// "Trying only names in use for SOME."
    NamesInUse,
    /// "Dropping an empty action under a receipt."
    DropUnderReceipt,
    /// "Counting a path's length in a number that overflows".
    LengthOverflows,
    /// Request 01: an itinerary without its last move.
    ItineraryCutShort,
    /// Request 01: an itinerary from the script's own tree, and not from the one that stands after the list.
    ItineraryFromTheScript,
    /// Request 01: an itinerary that is written though question 19 refuses the call.
    ItineraryThoughRefused,
}

#[cfg(feature = "slips")]
mod switch {
    use super::Slip;
    use std::cell::Cell;

    thread_local! {
        static MADE: Cell<Option<Slip>> = const { Cell::new(None) };
    }

    pub fn make(slip: Option<Slip>) {
        MADE.set(slip);
    }

    pub fn made(slip: Slip) -> bool {
        MADE.get() == Some(slip)
    }
}

#[cfg(not(feature = "slips"))]
mod switch {
    pub fn made(_: super::Slip) -> bool {
        false
    }
}

pub use switch::*;
