//! What the generator makes: the same case from the same seed, and cases of every sort.

use second::generate::{case, case_of_size, Case, Size};
use second::{call, Answer, Verdict, LIST_WORDS};
use std::sync::LazyLock;

const SOMETIME: u32 = 0x7000_0000;
/// The questions that a call may be refused by: 20 is the program's.
const REFUSING: [usize; 20] = [1, 2, 3, 4, 5, 6, 7, 8, 9, 10, 11, 12, 13, 14, 15, 16, 17, 18, 19, 21];

#[test]
fn the_same_seed_gives_the_same_case() {
    for seed in 0..300 {
        assert_eq!(case(seed), case(seed));
    }
}

/// A case, and what the second checker answers: with the buffers after the call, or nothing where it is too large.
struct Asked {
    case: Case,
    answer: Option<Answer>,
    buffer: Vec<u32>,
    list: Vec<u32>,
}

/// Some thousand of them, made once for all tests.
fn all() -> &'static [Asked] {
    static ALL: LazyLock<Vec<Asked>> = LazyLock::new(|| (0..4000).map(asked).collect());
    &ALL
}

fn asked(seed: u64) -> Asked {
    let case = case(seed);
    let (mut buffer, mut list) = (case.buffer.clone(), case.list.clone());
    let answer = call(&case.call(), &mut buffer, &mut list);
    Asked { case, answer, buffer, list }
}

/// There is every refusal that a call can give, yes and no, moves, receipts, long walks, and buffers exactly full.
#[test]
fn every_sort_occurs() {
    let mut refusals = [0; 22];
    let mut said = [0; 2];
    let (mut too_large, mut moved, mut full, mut received) = (0, 0, 0, 0);
    for Asked { case, answer, buffer, list } in all() {
        let Some(answer) = answer else {
            too_large += 1;
            continue;
        };
        match answer.verdict {
            Verdict::Accepted(yes) => {
                said[yes as usize] += 1;
                moved += (answer.moves > 0) as u32;
                full += (answer.words as usize == buffer.len()) as u32;
                received += buffer[..answer.words as usize].ne(&case.script[..]) as u32;
            }
            Verdict::Refused { question, .. } => {
                assert_eq!((buffer, list), (&case.buffer, &case.list));
                refusals[question as usize] += 1;
            }
        }
    }
    println!("refusals {refusals:?} no, yes {said:?} too large {too_large} moved {moved} full {full} changed {received}");
    assert!(REFUSING.iter().all(|question| refusals[*question] > 0));
    assert!(said.iter().all(|count| *count > 400));
    assert!(moved > 500 && full > 200 && received > 500);
    assert!(too_large < 40);
}

/// Half of the rules begin with SOMETIME. Of those that are met there are itineraries without moves, with one, with several
/// and with as many as there can be; some rules are met that only have SOMETIME inside, and some trees that don't fit.
#[test]
fn itineraries_of_every_length_occur() {
    let (mut first, mut inside, mut refused) = (0, 0, 0);
    let mut lengths = [0; 255];
    for Asked { case, answer, .. } in all() {
        let is_first = case.rule.first() == Some(&SOMETIME);
        first += is_first as u32;
        match answer.map(|answer| (answer.verdict, answer.itinerary)) {
            Some((Verdict::Accepted(true), moves)) if is_first => lengths[moves as usize] += 1,
            Some((Verdict::Accepted(true), _)) => inside += case.rule.contains(&SOMETIME) as u32,
            Some((Verdict::Refused { question: 19, .. }, _)) => refused += is_first as u32,
            _ => {}
        }
    }
    println!("first {first} inside {inside} refused by 19 {refused} lengths {lengths:?}");
    assert!((1800..2200).contains(&first));
    assert!(lengths[0] > 200 && lengths[1] > 100 && lengths[2] > 40 && lengths[254] > 0);
    assert!(lengths[3..254].iter().sum::<u32>() > 40);
    assert!(inside > 20 && refused > 20);
}

/// Lists that are one word too short, just long enough and one word longer, and other lengths on both sides.
#[test]
fn lists_of_every_length_occur() {
    let of = |fits: fn(usize) -> bool| all().iter().filter(|asked| fits(asked.case.list.len())).count();
    assert!(of(|length| length == LIST_WORDS - 1) > 50);
    assert!(of(|length| length < LIST_WORDS - 1) > 20);
    assert!(of(|length| length == LIST_WORDS) > 1000);
    assert!(of(|length| length == LIST_WORDS + 1) > 500);
    assert!(of(|length| length > LIST_WORDS + 1) > 200);
}

#[test]
fn small_cases_are_small() {
    for seed in 0..1000 {
        let case = case_of_size(seed, Size::SMALL);
        let answer = call(&case.call(), &mut case.buffer.clone(), &mut case.list.clone()).expect("small enough");
        assert!(answer.visits <= 300);
    }
}
