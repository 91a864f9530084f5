//! The proved call against the second checker: the same cases in one run, both built for release.
//!
//! `VISITS=..` sets the patience of the walks, 16,777,216 without it, and `RUNS=..` how often each case is taken, three times
//! without it; the least time counts.

use host::outcome::{compare, Outcome};
use second::generate::{errand, Case};
use second::LIST_WORDS;
use std::time::{Duration, Instant};

const AMB: u32 = 0x1000_0000;
const ACT: u32 = 0x2000_0000;
const REC: u32 = 0x3000_0000;
const OUT: u32 = 0x4000_0000;
const NAME: u32 = 0x8000_0000;
const VAR: u32 = 0x9000_0000;
const IN: u32 = 0xA000_0000;
const EXIT: u32 = 0xB000_0000;
const PATH: u32 = 0xE000_0000;

const TRUE: u32 = 0;
const NOT: u32 = 0x1000_0000;
const VOID: u32 = 0x3000_0000;
const AT: u32 = 0x4000_0000;
const BESIDE: u32 = 0x5000_0000;
const SOMETIME: u32 = 0x7000_0000;

struct Timed {
    name: &'static str,
    case: Case,
    /// Whether full copying can answer it at all.
    copies: bool,
}

/// A case with the buffers that the program lends.
fn timed(name: &'static str, (script, moves): (Vec<u32>, Vec<u32>), rule: &[u32], patience: u32) -> Timed {
    let (buffer, list) = (vec![0; 4096], vec![0; LIST_WORDS]);
    Timed { name, case: Case { script, moves, rule: rule.to_vec(), patience, buffer, list }, copies: true }
}

/// Ambients 1, 2, .. of which each can enter each other one.
fn entering(count: u32) -> Vec<u32> {
    let mut script = Vec::new();
    for own in 1..=count {
        script.extend([AMB, NAME | own]);
        for other in (1..=count).filter(|other| *other != own) {
            script.extend([ACT, IN, NAME | other, 0]);
        }
        script.push(0);
    }
    script.push(0);
    script
}

/// 000's family: a path in and out of 2 that is doubled by so many receipts, and then 1 with it as action, beside 2.
fn doubling(receipts: u32) -> (Vec<u32>, Vec<u32>) {
    let mut script = vec![OUT, PATH, IN, NAME | 2, EXIT, NAME | 2];
    let mut moves = Vec::new();
    for k in 0..receipts {
        let variable = VAR | script.len() as u32;
        script.extend([REC, OUT, PATH, variable, variable]);
        moves.push(0x1000_0000 | (2 * k + 1) << 8 | 2 * k);
    }
    let variable = VAR | script.len() as u32;
    script.extend([REC, AMB, NAME | 1, ACT, variable, 0, 0, AMB, NAME | 2, 0, 0]);
    script.extend(vec![0; receipts as usize + 1]);
    moves.push(0x1000_0000 | (2 * receipts + 1) << 8 | (2 * receipts));
    (script, moves)
}

/// The list that makes the receipts and then as many of the family's other moves as a list may have.
fn long_list(receipts: u32) -> (Vec<u32>, Vec<u32>) {
    let (script, mut moves) = doubling(receipts);
    let step = 0x1000_0000 | (2 * receipts + 3) << 8 | (2 * receipts + 4);
    moves.resize(4096, step);
    (script, moves)
}

/// The same beside so many other ambients, which take no part.
fn beside(others: usize, (script, moves): (Vec<u32>, Vec<u32>)) -> (Vec<u32>, Vec<u32>) {
    let body = &script[..script.len() - 1];
    ([body, &[AMB, NAME | 3, 0].repeat(others), &[0]].concat(), moves)
}

fn cases(visits: u32) -> Vec<Timed> {
    let walk = |name, script, rule: &[u32]| timed(name, (script, Vec::new()), rule, visits);
    let list = |name, listed| timed(name, listed, &[TRUE], 1);
    let parts = [[AMB, NAME | 1, 0].repeat(24), vec![0]].concat();
    vec![
        walk("SOMETIME NOT TRUE, eight ambients", entering(8), &[SOMETIME, NOT, TRUE]),
        walk("BESIDE over 24 top parts", parts, &[BESIDE, NOT, TRUE, TRUE]),
        walk("BESIDE over NOT SOMETIME, six ambients", entering(6), &[BESIDE, NOT, SOMETIME, NOT, TRUE, NOT, TRUE]),
        walk("a yes and its itinerary, five ambients", entering(5), &[SOMETIME, AT | 1, TRUE]),
        walk("the longest itinerary, 254 moves", errand(254).0, &[SOMETIME, VOID]),
        Timed { copies: false, ..list("28 receipts that double", doubling(28)) },
        list("4,096 moves, 11 receipts that double", long_list(11)),
        list("the same beside 36 ambients", beside(36, long_list(11))),
        Timed { copies: false, ..list("4,096 moves, 28 receipts that double", long_list(28)) },
    ]
}

/// The least time of so many runs, and the answer.
fn least<T>(runs: u32, mut run: impl FnMut() -> T) -> (Duration, T) {
    let mut best = None;
    for _ in 0..runs {
        let begin = Instant::now();
        let answer = run();
        let time = begin.elapsed();
        if best.as_ref().is_none_or(|(least, _)| time < *least) {
            best = Some((time, answer));
        }
    }
    best.expect("at least one run")
}

fn report(Timed { name, case, copies }: &Timed, runs: u32) {
    let (mut out, mut list) = (case.buffer.clone(), case.list.clone());
    let (ours, answer) = least(runs, || host::call(&case.call(), &mut out, &mut list));
    let proved = Outcome { answer, out, list };
    let (mut out, mut list) = (case.buffer.clone(), case.list.clone());
    let (theirs, expected) = least(runs, || second::call(&case.call(), &mut out, &mut list));
    let unit = if answer.visits > 1 { ("visit", answer.visits) } else { ("move", answer.moves) };
    let each = |time: Duration| time.as_nanos() as f64 / unit.1.max(1) as f64;
    print!("{name:40} {:>10} {}s {:>10.3} ms {:>8.1} ns each", unit.1, unit.0, ours.as_secs_f64() * 1e3, each(ours));
    assert_eq!(expected.is_some(), *copies);
    let Some(answer) = expected else {
        return println!("   second gives up: too large for full copying");
    };
    assert_eq!(compare(case, &proved, &Outcome { answer, out, list }), Ok(()), "the checkers disagree");
    let times = theirs.as_secs_f64() / ours.as_secs_f64();
    println!("   second {:>10.3} ms {:>8.1} ns each   {times:>6.2} times", theirs.as_secs_f64() * 1e3, each(theirs));
}

fn setting(name: &str, otherwise: u32) -> u32 {
    std::env::var(name).map_or(otherwise, |text| text.parse().expect("a number"))
}

fn main() {
    let runs = setting("RUNS", 3);
    for case in cases(setting("VISITS", 16_777_216)) {
        report(&case, runs);
    }
}
