//! Random calls, answered by the proved call, as hosts/rust and as C have it, and by the second checker: every field and every
//! word of both buffers; the itineraries replayed.
//!
//! `CASES=1000000 cargo test --release --offline --test random` takes more of them, `FIRST=..` other ones.

use host::outcome::{compare, has_itinerary, Outcome};
use host::{as_words, call_raw};
use second::generate::{case, Case};

fn setting(name: &str, otherwise: u64) -> u64 {
    std::env::var(name).map_or(otherwise, |text| text.parse().expect("a number"))
}

/// Both ways to the proved call leave what the second checker says.
fn agrees(seed: u64, case: &Case, second: &Outcome) {
    let ours = Outcome::proved(case);
    assert_eq!(compare(case, &ours, second), Ok(()), "seed {seed}: {case:X?}\n{ours:X?}\n{second:X?}");
    let (mut out, mut list, mut words) = (case.buffer.clone(), case.list.clone(), [u32::MAX; 9]);
    let done = call_raw(&case.call(), &mut out, &mut list, &mut words);
    assert_eq!((done, words), (1, as_words(&ours.answer)), "seed {seed}: {case:X?}");
    assert_eq!((out, list), (ours.out, ours.list), "seed {seed}: {case:X?}");
}

/// What was met among the cases.
#[derive(Default)]
struct Met {
    too_large: u64,
    /// Itineraries, and those that have moves.
    itineraries: u64,
    moving: u64,
}

/// Asks both checkers about these seeds.
fn ask(seeds: impl Iterator<Item = u64>) -> Met {
    let mut met = Met::default();
    for seed in seeds {
        let case = case(seed);
        let Some(second) = Outcome::second(&case) else {
            met.too_large += 1;
            continue;
        };
        agrees(seed, &case, &second);
        let found = has_itinerary(&case.rule, &second.answer);
        met.itineraries += found as u64;
        met.moving += (found && second.answer.itinerary > 0) as u64;
    }
    met
}

#[test]
fn both_checkers_agree() {
    let first = setting("FIRST", 0);
    let cases = setting("CASES", 24_000);
    let threads = std::thread::available_parallelism().map_or(1, usize::from);
    // a thread's panic is that of the scope, and so the test's
    let all: Vec<Met> = std::thread::scope(|scope| {
        let each = |k| scope.spawn(move || ask((first..first + cases).skip(k).step_by(threads)));
        let all: Vec<_> = (0..threads).map(each).collect();
        all.into_iter().map(|thread| thread.join().expect("the checkers agree")).collect()
    });
    let sum = |part: fn(&Met) -> u64| all.iter().map(part).sum::<u64>();
    let (too_large, itineraries, moving) = (sum(|met| met.too_large), sum(|met| met.itineraries), sum(|met| met.moving));
    println!(
        "{cases} cases, of which {too_large} are too large for full copying; {itineraries} itineraries, {moving} with moves"
    );
    assert!(too_large * 50 < cases);
    assert!(itineraries * 20 > cases && moving * 40 > cases);
}
