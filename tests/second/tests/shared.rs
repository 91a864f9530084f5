//! The tests that every checker passes, on this one.

mod checker {
    pub use second::call;
    pub use second::program::printed;
}

#[path = "../../shared/examples.rs"]
mod examples;
#[path = "../../shared/itineraries.rs"]
mod itineraries;
#[path = "../../shared/refusals.rs"]
mod refusals;
