//! The second checker is broken in each of the ways that document 01 lists, and compared with the proved call as the
//! other tests compare them: each slip must show, and without one there is no difference. What it gives for an itinerary is
//! free in part, and is judged as the proved call's is.

use host::outcome::{compare, Difference, Outcome};
use second::generate::{case, Case};
use second::slip::{make, Slip};
use std::sync::LazyLock;

/// The first cases, made once for all tests, and without a slip.
fn cases(count: usize) -> &'static [Case] {
    static ALL: LazyLock<Vec<Case>> = LazyLock::new(|| {
        let quarter = |k: u64| std::thread::spawn(move || (1000 * k..1000 * (k + 1)).map(case).collect::<Vec<Case>>());
        let quarters: Vec<_> = (0..4).map(quarter).collect();
        quarters.into_iter().flat_map(|quarter| quarter.join().expect("cases")).collect()
    });
    &ALL[..count]
}

/// What the second checker leaves with the slip.
fn slipped(case: &Case, slip: Option<Slip>) -> Option<Outcome> {
    make(slip);
    let outcome = Outcome::second(case);
    make(None);
    outcome
}

/// Whether the two checkers answer this case alike, the second with the slip.
fn alike(case: &Case, slip: Option<Slip>) -> bool {
    slipped(case, slip).is_none_or(|second| compare(case, &Outcome::proved(case), &second).is_ok())
}

/// How many of the first cases differ.
fn seen(slip: Option<Slip>, count: usize) -> usize {
    cases(count).iter().filter(|case| !alike(case, slip)).count()
}

/// In how many of the first cases what the second checker leaves with the slip is found wrong, and each time in such a way.
fn judged(slip: Slip, count: usize, fits: fn(Difference) -> bool) -> usize {
    let fault = |case: &Case| {
        let right = slipped(case, None)?;
        compare(case, &slipped(case, Some(slip))?, &right).err()
    };
    let faults: Vec<Difference> = cases(count).iter().filter_map(fault).collect();
    assert!(faults.iter().all(|fault| fits(*fault)), "{faults:?}");
    faults.len()
}

#[test]
fn no_slip_is_not_seen() {
    assert_eq!(seen(None, 2000), 0);
}

#[test]
fn the_first_part_only() {
    assert!(seen(Some(Slip::FirstPartOnly), 1000) > 100);
}

#[test]
fn moves_inside_an_ambient_without_a_name() {
    assert!(seen(Some(Slip::MoveInsideUnnamed), 4000) > 3);
}

#[test]
fn stopping_at_a_variable() {
    assert!(seen(Some(Slip::StopAtVariable), 4000) > 3);
}

#[test]
fn names_in_use_only() {
    assert!(seen(Some(Slip::NamesInUse), 1000) > 20);
}

#[test]
fn an_empty_action_dropped_under_a_receipt() {
    assert!(seen(Some(Slip::DropUnderReceipt), 4000) > 3);
}

#[test]
fn a_length_that_overflows() {
    assert!(seen(Some(Slip::LengthOverflows), 4000) > 0);
}

#[test]
fn an_itinerary_without_its_last_move() {
    assert!(judged(Slip::ItineraryCutShort, 1000, |fault| matches!(fault, Difference::Itinerary(_))) > 30);
}

#[test]
fn an_itinerary_from_the_script_s_own_tree() {
    assert!(judged(Slip::ItineraryFromTheScript, 1000, |fault| matches!(fault, Difference::Itinerary(_))) > 30);
}

#[test]
fn an_itinerary_written_though_19_refuses() {
    assert!(judged(Slip::ItineraryThoughRefused, 1000, |fault| fault == Difference::List) > 3);
}
