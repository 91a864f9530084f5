//! 20,000 random calls of which every second one begins with SOMETIME: where one of these says yes, its list is replayed by the
//! second checker, from the tree that stands after the call's own moves, and the inner rule is walked on the tree reached.

use host::outcome::{compare, has_itinerary, Outcome};
use second::generate::{answered_case, Case, Size};

/// Middle-sized calls are one in four.
fn random_case(seed: u64) -> Case {
    answered_case(seed, if seed / 2 % 4 == 0 { Size::MIDDLE } else { Size::SMALL })
}

/// How many calls begin with SOMETIME, and how many itineraries have so many moves: none, one, two to four, more.
#[derive(Default)]
struct Met {
    first: u32,
    lengths: [u32; 4],
}

fn replayed(seeds: impl Iterator<Item = u64>) -> Met {
    let mut met = Met::default();
    for seed in seeds {
        let case = random_case(seed);
        let (ours, Some(second)) = (Outcome::proved(&case), Outcome::second(&case)) else {
            continue;
        };
        assert_eq!(compare(&case, &ours, &second), Ok(()), "seed {seed}: {case:X?}\n{ours:X?}\n{second:X?}");
        met.first += (case.rule[0] == 0x7000_0000) as u32;
        if has_itinerary(&case.rule, &ours.answer) {
            let sort = [0, 1, 4].partition_point(|most| *most < ours.answer.itinerary);
            met.lengths[sort] += 1;
        }
    }
    met
}

#[test]
fn they_lead_there() {
    // a thread's panic is that of the scope, and so the test's
    let (even, odd) = std::thread::scope(|scope| {
        let half = |first| scope.spawn(move || replayed((0..20_000).filter(|seed| seed / 2 % 2 == first)));
        let (one, other) = (half(0), half(1));
        (one.join().expect("they lead there"), other.join().expect("they lead there"))
    });
    let lengths: Vec<u32> = (0..4).map(|sort| even.lengths[sort] + odd.lengths[sort]).collect();
    let first = even.first + odd.first;
    println!("{first} begin with SOMETIME; itineraries of no move, of one, of two to four, of more: {lengths:?}");
    assert!((9_990..=10_000).contains(&first));
    assert!(lengths[0] > 500 && lengths[1] > 1000 && lengths[2] > 1000 && lengths[3] > 200);
}
