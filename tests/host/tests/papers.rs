//! What the source documents show: the families of 000 whose messages double, and the table of 002's section 5.

use host::outcome::{compare, has_itinerary, Outcome};
use second::generate::Case;
use second::itinerary::judge;
use second::{Answer, Call, Verdict, LIST_WORDS};
use std::time::Instant;

const AMB: u32 = 0x1000_0000;
const ACT: u32 = 0x2000_0000;
const REC: u32 = 0x3000_0000;
const OUT: u32 = 0x4000_0000;
const NAME: u32 = 0x8000_0000;
const VAR: u32 = 0x9000_0000;
const IN: u32 = 0xA000_0000;
const EXIT: u32 = 0xB000_0000;
const OPEN: u32 = 0xC000_0000;
const EMPTY: u32 = 0xD000_0000;
const PATH: u32 = 0xE000_0000;

const TRUE: u32 = 0;
const AT: u32 = 0x4000_0000;
const BESIDE: u32 = 0x5000_0000;
const SOMETIME: u32 = 0x7000_0000;
const SOMEWHERE: u32 = 0x8000_0000;

fn move_word(actor: u32, target: u32) -> u32 {
    0x1000_0000 | actor << 8 | target
}

/// The proved call's answer. Where it has an itinerary, that one leads where it must, and no other word of the list changes.
fn call(script: &[u32], moves: &[u32], rule: &[u32], patience: u32, out: &mut [u32]) -> Answer {
    let c = Call { script, moves, rule, patience };
    let mut list = [9; LIST_WORDS];
    let answer = host::call(&c, out, &mut list);
    let (itinerary, behind) = list.split_at(answer.itinerary as usize);
    assert!(behind.iter().all(|word| *word == 9));
    if has_itinerary(rule, &answer) {
        assert_eq!(judge(&c, itinerary), Ok(()), "{itinerary:X?}");
    } else {
        assert!(itinerary.is_empty());
    }
    answer
}

/// A script in which a message is handed through receipts, each of which makes so many copies of it in one path, and its
/// last one does with it what `last` says of its variable. The list makes every receipt.
struct Handed {
    script: Vec<u32>,
    moves: Vec<u32>,
    /// The number of the first part in the last receipt's body.
    part: u32,
}

fn handed(message: &[u32], times: &[u32], last: impl Fn(u32) -> Vec<u32>) -> Handed {
    let mut script = [&[OUT], message].concat();
    let mut moves = Vec::new();
    for (k, times) in times.iter().enumerate() {
        let variable = VAR | script.len() as u32;
        script.extend([REC, OUT]);
        script.extend(copies(*times, variable));
        moves.push(move_word(2 * k as u32 + 1, 2 * k as u32));
    }
    let receipts = times.len() as u32;
    let variable = VAR | script.len() as u32;
    script.push(REC);
    script.extend(last(variable));
    script.extend(vec![0; times.len() + 2]);
    moves.push(move_word(2 * receipts + 1, 2 * receipts));
    Handed { script, moves, part: 2 * receipts + 2 }
}

/// So many copies of a word in a path, its PATHs as flat as can be.
fn copies(times: u32, word: u32) -> Vec<u32> {
    if times == 1 {
        return vec![word];
    }
    [vec![PATH], copies(times / 2, word), copies(times - times / 2, word)].concat()
}

/// 1[the variable as action] beside 2, as in 000's P_0.
fn p_and_q(variable: u32) -> Vec<u32> {
    vec![AMB, NAME | 1, ACT, variable, 0, 0, AMB, NAME | 2, 0]
}

const IN_AND_OUT: &[u32] = &[PATH, IN, NAME | 2, EXIT, NAME | 2];

fn refused(question: u32, moves: u32, visits: u32) -> Answer {
    let verdict = Verdict::Refused { question, place: 0 };
    Answer { verdict, moves, visits, deepest: 0, weight: 0, words: 0, itinerary: 0 }
}

/// 000, section 2: after k + 1 receipts and 2^(k + 1) moves p and q stand empty. All of k with at most 4,096 moves.
#[test]
fn the_doubling_family_to_its_end() {
    for k in 0..=10 {
        let mut family = handed(IN_AND_OUT, &vec![2; k], p_and_q);
        let step = move_word(family.part + 1, family.part + 2);
        family.moves.extend(vec![step; 2 << k]);
        let mut out = [9; 16];
        let answer = call(&family.script, &family.moves, &[BESIDE, AT | 1, 0x3000_0000, AT | 2, 0x3000_0000], 99, &mut out);
        assert_eq!(answer.verdict, Verdict::Accepted(true), "{k}");
        assert_eq!(answer.moves as usize, k + 1 + (2 << k));
        assert_eq!((answer.weight, answer.words), (2 + 2 * (k as u32 + 1), 7));
        assert_eq!(out, [AMB, NAME | 1, 0, AMB, NAME | 2, 0, 0, 9, 9, 9, 9, 9, 9, 9, 9, 9]);
        // No move is left.
        family.moves.push(step);
        let moves = family.moves.len() as u32 - 1;
        let verdict = Verdict::Refused { question: 16, place: moves };
        let more = call(&family.script, &family.moves, &[TRUE], 99, &mut out);
        assert_eq!(more, Answer { verdict, moves, visits: 0, deepest: 0, weight: 0, words: 0, itinerary: 0 });
    }
}

/// The same with longer messages and the most moves that a list may have: 4,096.
#[test]
fn the_doubling_family_to_4096_moves() {
    for k in 11..=29 {
        let mut family = handed(IN_AND_OUT, &vec![2; k], p_and_q);
        let step = move_word(family.part + 1, family.part + 2);
        let rest = 4096 - family.moves.len();
        family.moves.extend(vec![step; rest]);
        let mut out = [9; 64];
        let answer = call(&family.script, &family.moves, &[SOMETIME, TRUE], 2, &mut out);
        let left = (2u64 << k) - rest as u64;
        let words = if left == 0 { 7 } else { 3 * left - 1 + 9 };
        if words <= 64 {
            assert_eq!((answer.verdict, answer.moves, answer.words as u64), (Verdict::Accepted(true), 4096, words), "{k}");
        } else {
            assert_eq!(answer, refused(19, 4096, 2), "{k}");
            assert_eq!(out, [9; 64]);
        }
    }
}

/// Messages of up to 2^40 items: the action that has them is not gone, also where their number is 2^32 or a multiple of it.
#[test]
fn messages_of_many_items() {
    for bits in 4..=40u32 {
        let mut steps = vec![4; bits as usize / 2];
        steps.extend(vec![2; bits as usize % 2]);
        let mut long = handed(&[IN, NAME | 2], &steps, p_and_q);
        let begin = Instant::now();
        let mut out = [9; 64];
        let answer = call(&long.script, &long.moves, &[BESIDE, AT | 1, 0x3000_0000, TRUE], 99, &mut out);
        let words = (3u64 << bits) - 1 + 9;
        let moves = long.moves.len() as u32;
        if words <= 64 {
            assert_eq!((answer.verdict, answer.words as u64), (Verdict::Accepted(false), words), "{bits}");
        } else {
            // The whole list, then 2^2 shares, the left rule met by none.
            assert_eq!(answer, refused(19, moves, answer.visits), "{bits}");
            assert_eq!(out, [9; 64]);
        }
        // The first of them can be made.
        long.moves.push(move_word(long.part + 1, long.part + 2));
        let answer = call(&long.script, &long.moves, &[TRUE], 99, &mut out);
        assert_eq!(answer.moves, moves + 1, "{bits}");
        assert!(begin.elapsed().as_millis() < 500, "{bits}");
    }
}

/// Messages of up to 2^40 leaves that are all EMPTY have no items: the action is gone, and its body stands in its place.
#[test]
fn messages_of_many_leaves() {
    let guarded = |variable| vec![ACT, variable, AMB, NAME | 1, 0, 0];
    for bits in 4..=40u32 {
        let mut steps = vec![4; bits as usize / 2];
        steps.extend(vec![2; bits as usize % 2]);
        let empty = handed(&[EMPTY], &steps, guarded);
        let mut out = [9; 5];
        let answer = call(&empty.script, &empty.moves, &[AT | 1, 0x3000_0000], 99, &mut out);
        assert_eq!((answer.verdict, answer.words), (Verdict::Accepted(true), 4), "{bits}");
        assert_eq!(out, [AMB, NAME | 1, 0, 0, 9]);
        // With one item at its end it is not gone: the item is EXIT 1, which no ambient around lets happen.
        let one = |variable| vec![ACT, PATH, variable, EXIT, NAME | 1, AMB, NAME | 1, 0, 0];
        let one = handed(&[EMPTY], &steps, one);
        let mut out = [9; 9];
        let answer = call(&one.script, &one.moves, &[AT | 1, 0x3000_0000], 99, &mut out);
        assert_eq!((answer.verdict, answer.words), (Verdict::Accepted(false), 8), "{bits}");
        assert_eq!(out, [ACT, EXIT, NAME | 1, AMB, NAME | 1, 0, 0, 0, 9]);
    }
}

/// Where full copying can follow, both checkers agree on these families, the written tree too; itineraries are replayed.
#[test]
fn both_agree_on_short_ones() {
    for bits in 0..=12 {
        for message in [IN_AND_OUT, &[EMPTY], &[IN, NAME | 2], &[PATH, EMPTY, IN, NAME | 2], &[NAME | 2]] {
            let mut long = handed(message, &vec![2; bits], p_and_q);
            long.moves.extend(vec![move_word(long.part + 1, long.part + 2); 3]);
            for made in 0..=long.moves.len() {
                let (script, moves, rule) = (long.script.clone(), long.moves[..made].to_vec(), vec![SOMETIME, AT | 2, TRUE]);
                let case = Case { script, moves, rule, patience: 40, buffer: vec![9; 40_000], list: vec![9; LIST_WORDS] };
                let second = Outcome::second(&case).expect("short enough");
                assert_eq!(compare(&case, &Outcome::proved(&case), &second), Ok(()), "{bits}: {made} moves of {message:X?}");
            }
        }
    }
}

/// A tree of 2^28 words fits a buffer of so many and no shorter one; a tree of one word more fits none, since no more words
/// count. It takes a buffer of 1 GiB: `cargo test --release --offline --test papers -- --ignored`.
#[test]
#[ignore]
fn a_tree_of_2_to_the_28_words() {
    const MOST: usize = 1 << 28;
    // A message of w words, copied n times, has n × (w + 1) - 1 words; OUT and CLOSE make it two more. So w + 1 and the
    // numbers of copies multiply to one less than the words of the tree.
    let tree = |w: usize, times: &[u32]| {
        let message = [vec![IN; w - 1], vec![NAME | 1]].concat();
        handed(&message, times, |variable| vec![OUT, variable])
    };
    let mut out = vec![9u32; MOST + 8];
    let just = tree(14, &[29, 43, 113, 127]);
    let short = call(&just.script, &just.moves, &[TRUE], 1, &mut out[..MOST - 1]);
    assert_eq!(short, refused(19, just.moves.len() as u32, 1));
    assert!(out.iter().all(|word| *word == 9));
    let fits = call(&just.script, &just.moves, &[TRUE], 1, &mut out[..MOST]);
    assert_eq!((fits.verdict, fits.words as usize), (Verdict::Accepted(true), MOST));
    assert_eq!((out[0], out[1], out[MOST - 2], out[MOST - 1]), (OUT, PATH, NAME | 1, 0));
    assert_eq!(out[MOST..], [9; 8]);
    let long = tree(3, &[2; 26]);
    out.fill(9);
    let answer = call(&long.script, &long.moves, &[TRUE], 1, &mut out);
    assert_eq!(answer, refused(19, long.moves.len() as u32, 1));
    assert!(out.iter().all(|word| *word == 9));
}

/// a[p[out a. in b. <m>]] beside b[open p. (x). x[]]: a, p, b, m are 1, 2, 3, 4.
const P: &[u32] = &[
    AMB, NAME | 1, AMB, NAME | 2, ACT, PATH, EXIT, NAME | 1, IN, NAME | 3, OUT, NAME | 4, 0, 0, 0, // a
    AMB, NAME | 3, ACT, OPEN, NAME | 2, REC, AMB, VAR | 20, 0, 0, 0, 0, // b
    0,
];

/// "an n": n[T] beside T.
fn an(n: u32) -> Vec<u32> {
    vec![BESIDE, AT | n, TRUE, TRUE]
}

/// "p parents q": p[q[T] beside T] beside T.
fn parents(p: u32, q: u32) -> Vec<u32> {
    [vec![BESIDE, AT | p], an(q), vec![TRUE]].concat()
}

/// 002, section 5: the results on various example formulas.
#[test]
fn the_table_of_section_5() {
    let (sometime, somewhere) = (vec![SOMETIME], vec![SOMEWHERE]);
    let table = [
        (an(1), true),
        (an(3), true),
        (an(2), false),
        ([somewhere.clone(), an(2)].concat(), true),
        ([sometime.clone(), somewhere, an(4)].concat(), true),
        (parents(1, 2), true),
        (parents(3, 2), false),
        ([sometime, parents(3, 2)].concat(), true),
    ];
    for (rule, expected) in table {
        let mut out = [0; 32];
        let answer = call(P, &[], &rule, 1000, &mut out);
        assert_eq!(answer.verdict, Verdict::Accepted(expected), "{rule:X?}");
        assert_eq!(out[..answer.words as usize], *P);
    }
}
