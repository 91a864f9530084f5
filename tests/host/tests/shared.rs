//! The tests that every checker passes, on the proved call and on the program.

mod checker {
    use second::{Answer, Call};

    pub fn call(c: &Call, out: &mut [u32], list: &mut [u32]) -> Option<Answer> {
        Some(host::call(c, out, list))
    }

    pub fn printed(input: &[u8]) -> Option<String> {
        Some(host::program::printed(input))
    }
}

#[path = "../../shared/examples.rs"]
mod examples;
#[path = "../../shared/itineraries.rs"]
mod itineraries;
#[path = "../../shared/refusals.rs"]
mod refusals;
