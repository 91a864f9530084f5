//! Each question at the door, with a no at and one beyond its limit, and the order in which they are asked.

use super::checker::{call, printed};
use second::{Answer, Call, Verdict, LIST_WORDS};

const AMB: u32 = 0x1000_0000;
const ACT: u32 = 0x2000_0000;
const REC: u32 = 0x3000_0000;
const OUT: u32 = 0x4000_0000;
const NAME_1: u32 = 0x8000_0001;
const IN: u32 = 0xA000_0000;
const EMPTY: u32 = 0xD000_0000;
const PATH: u32 = 0xE000_0000;
const NOT: u32 = 0x1000_0000;
const OR: u32 = 0x2000_0000;
const VOID: u32 = 0x3000_0000;
const SOME: u32 = 0x6000_0000;
const SOMETIME: u32 = 0x7000_0000;
const TRUE: u32 = 0;
const PLACED_1: u32 = 0x9000_0001;

fn answer(script: &[u32], moves: &[u32], rule: &[u32], patience: u32) -> Answer {
    lent(LIST_WORDS, &Call { script, moves, rule, patience })
}

/// The answer to a call that is lent so many words for its list.
fn lent(list_words: usize, c: &Call) -> Answer {
    let (mut out, mut list) = (vec![0; 5000], vec![9; list_words]);
    let answer = call(c, &mut out, &mut list).expect("small enough");
    if matches!(answer.verdict, Verdict::Refused { .. }) {
        assert!(out.iter().all(|word| *word == 0));
    }
    assert!(list[answer.itinerary as usize..].iter().all(|word| *word == 9));
    answer
}

fn refused(answer: Answer, question: u32, place: u32, moves: u32, visits: u32) {
    let verdict = Verdict::Refused { question, place };
    assert_eq!(answer, Answer { verdict, moves, visits, deepest: 0, weight: 0, words: 0, itinerary: 0 });
}

fn accepted(answer: Answer) {
    assert!(matches!(answer.verdict, Verdict::Accepted(_)), "{answer:?}");
}

fn script(words: &[u32]) -> Answer {
    answer(words, &[], &[0], 1)
}

fn rule(words: &[u32]) -> Answer {
    answer(&[0], &[], words, 1_000_000)
}

/// A word so many times, then others.
fn times(count: usize, word: u32, behind: &[u32]) -> Vec<u32> {
    [&vec![word; count], behind].concat()
}

#[test]
fn question_1() {
    refused(script(&[]), 1, 0, 0, 0);
    refused(script(&vec![0; 1025]), 1, 0, 0, 0);
    refused(script(&vec![0; 1024]), 5, 1, 0, 0);
}

/// Sixty outputs, the messages of the first ones paths so long that the script has this many words.
fn long_script(length: usize) -> Vec<u32> {
    let mut words = Vec::new();
    let mut left = length - 1;
    for later in (0..60).rev() {
        let here = (left - 2 * later).min(62);
        let pairs = (here - 2) / 2;
        words.push(OUT);
        for _ in 0..pairs {
            words.extend([PATH, EMPTY]);
        }
        if here % 2 == 1 {
            words.push(IN);
        }
        words.push(NAME_1);
        left -= here;
    }
    words.push(0);
    words
}

#[test]
fn a_script_of_1024_words() {
    let words = long_script(1024);
    assert_eq!(words.len(), 1024);
    accepted(script(&words));
    let words = long_script(1025);
    assert_eq!(words.len(), 1025);
    refused(script(&words), 1, 0, 0, 0);
}

#[test]
fn question_2() {
    for word in [1, 0x5000_0000, 0xF000_0000, NAME_1, 0x9000_0000, EMPTY, AMB + 1, ACT + 1, REC + 1, OUT + 1] {
        refused(script(&[word]), 2, 0, 0, 0);
    }
    for word in [0, AMB, REC, 0x5000_0000, 0x8000_0000, 0x8000_0100, IN + 1, EMPTY + 1, PATH + 1, 0xF000_0000] {
        refused(script(&[OUT, word]), 2, 1, 0, 0);
        refused(script(&[OUT, PATH, NAME_1, word]), 2, 3, 0, 0);
    }
    accepted(script(&[OUT, 0x8000_00FF, 0]));
}

#[test]
fn question_3() {
    refused(script(&[OUT, 0x9000_0000, 0]), 3, 1, 0, 0);
    accepted(script(&[REC, OUT, 0x9000_0000, 0, 0]));
    refused(script(&[REC, OUT, 0x9000_0001, 0, 0]), 3, 2, 0, 0);
    refused(script(&[REC, 0, OUT, 0x9000_0000, 0]), 3, 3, 0, 0);
    refused(script(&[REC, OUT, 0x9FFF_FFFF, 0, 0]), 3, 2, 0, 0);
}

#[test]
fn question_4() {
    // The CLOSE of the innermost of 64 receipts has nesting 64, that of 65 has 65.
    accepted(script(&times(64, REC, &[0; 65])));
    refused(script(&times(65, REC, &[0; 66])), 4, 65, 0, 0);
    refused(script(&times(65, REC, &[1; 66])), 2, 65, 0, 0);
    // The message of a part has the part word's nesting, and its inside one more.
    let path = |depth| [vec![OUT], times(depth, IN, &[NAME_1, 0])].concat();
    accepted(script(&path(64)));
    refused(script(&path(65)), 4, 66, 0, 0);
    let inside = |bodies, depth| [times(bodies, REC, &path(depth)), vec![0; bodies]].concat();
    accepted(script(&inside(60, 4)));
    refused(script(&inside(60, 5)), 4, 66, 0, 0);
    // Question 3 comes before question 4.
    refused(script(&[vec![OUT], times(65, IN, &[0x9000_0000, 0])].concat()), 3, 66, 0, 0);
}

#[test]
fn question_5() {
    refused(script(&[0, 0]), 5, 1, 0, 0);
    refused(script(&[0, 0xFFFF_FFFF, 0]), 5, 1, 0, 0);
    refused(script(&[REC]), 5, 1, 0, 0);
    refused(script(&[OUT]), 5, 1, 0, 0);
    refused(script(&[OUT, PATH, NAME_1]), 5, 3, 0, 0);
    refused(script(&[AMB, NAME_1, 0]), 5, 3, 0, 0);
}

/// So many outputs of one name.
fn outputs(count: usize) -> Vec<u32> {
    [[OUT, NAME_1].repeat(count), vec![0]].concat()
}

#[test]
fn question_6() {
    accepted(script(&outputs(64)));
    refused(script(&outputs(65)), 6, 0, 0, 0);
    refused(script(&outputs(511)), 6, 0, 0, 0);
    refused(script(&[outputs(65), vec![0]].concat()), 5, 131, 0, 0);
}

#[test]
fn question_7() {
    refused(rule(&[]), 7, 0, 0, 0);
    refused(rule(&vec![NOT; 257]), 7, 0, 0, 0);
    // Seven layers of ORs and 128 VOIDs are 255 words.
    let mut ors = vec![VOID];
    for _ in 0..7 {
        ors = [vec![OR], ors.clone(), ors].concat();
    }
    accepted(answer(W, &[], &[vec![NOT], ors.clone()].concat(), 256));
    refused(rule(&[vec![NOT, NOT], ors].concat()), 7, 0, 0, 0);
    // The script's questions come first.
    refused(answer(&[0, 0], &[], &[], 1), 5, 1, 0, 0);
}

#[test]
fn question_8() {
    for word in [1, NOT + 1, OR + 1, VOID + 1, 0x5000_0001, SOME + 1, SOMETIME + 1, 0x8000_0001, 0xA000_0000, 0xFFFF_FFFF] {
        refused(rule(&[word]), 8, 0, 0, 0);
    }
    for kind in [0x4000_0000, 0x9000_0000] {
        for operand in [0, 256, 0x07FF_FFFF] {
            refused(rule(&[NOT, kind + operand, 0]), 8, 1, 0, 0);
        }
        accepted(rule(&[NOT, kind + 255, 0]));
    }
    refused(rule(&[SOME, 0x1800_0000, 0]), 8, 1, 0, 0);
}

#[test]
fn question_9() {
    for kind in [0x4800_0000, 0x9800_0000] {
        accepted(rule(&[SOME, kind, 0]));
        refused(rule(&[SOME, kind + 1, 0]), 9, 1, 0, 0);
        refused(rule(&[kind, 0]), 9, 0, 0, 0);
        refused(rule(&[OR, SOME, 0, kind + 1, 0]), 9, 3, 0, 0);
        refused(rule(&[NOT, kind, 0]), 9, 1, 0, 0);
        refused(rule(&[kind + 0x07FF_FFFF, 0]), 9, 0, 0, 0);
    }
}

#[test]
fn question_10() {
    accepted(rule(&times(64, NOT, &[0])));
    refused(rule(&times(65, NOT, &[0])), 10, 65, 0, 0);
    refused(rule(&times(65, NOT, &[0xF000_0000])), 8, 65, 0, 0);
    refused(rule(&times(65, NOT, &[0x4800_0000])), 9, 65, 0, 0);
    accepted(rule(&times(8, SOME, &[0])));
    refused(rule(&times(9, SOME, &[0])), 10, 8, 0, 0);
    accepted(rule(&[vec![OR], times(8, SOME, &[0]), times(8, SOME, &[0])].concat()));
}

#[test]
fn question_11() {
    refused(rule(&[0, 0]), 11, 1, 0, 0);
    refused(rule(&[0, 0xFFFF_FFFF, 0]), 11, 1, 0, 0);
    refused(rule(&[NOT]), 11, 1, 0, 0);
    refused(rule(&[OR, 0]), 11, 2, 0, 0);
}

#[test]
fn question_12() {
    accepted(answer(&outputs(62), &[], &[PLACED_1, PLACED_1, 0], 9));
    refused(answer(&outputs(63), &[], &[PLACED_1, PLACED_1, 0], 9), 12, 0, 0, 0);
    accepted(answer(&[0], &[], &times(64, PLACED_1, &[0]), 99));
    refused(answer(&outputs(1), &[], &times(64, PLACED_1, &[0]), 0), 12, 0, 0, 0);
    // It comes behind question 11.
    refused(answer(&outputs(64), &[], &[PLACED_1, 0, 0], 9), 11, 2, 0, 0);
}

#[test]
fn question_13() {
    refused(answer(&[0], &[], &[0], 0), 13, 0, 0, 0);
    accepted(answer(&[0], &[], &[0], 1));
    accepted(answer(&[0], &[], &[0], 16_777_216));
    refused(answer(&[0], &[], &[0], 16_777_217), 13, 0, 0, 0);
    refused(answer(&[0], &[0; 4097], &[0], u32::MAX), 13, 0, 0, 0);
}

#[test]
fn question_14() {
    refused(answer(&[0], &[0; 4097], &[0], 1), 14, 0, 0, 0);
    refused(answer(&[0], &[0; 4096], &[0], 1), 15, 0, 0, 0);
}

/// 1 with "enter 2", beside 2
const W: &[u32] = &[AMB, NAME_1, ACT, IN, 0x8000_0002, 0, 0, AMB, 0x8000_0002, 0, 0];

#[test]
fn question_15() {
    for word in [0, 0x0000_0102, 0x2000_0102, 0x1001_0102, 0x1800_0102, 0x1000_0300, 0x1000_0003, 0x1000_FFFF] {
        refused(answer(W, &[word], &[0], 1), 15, 0, 0, 0);
        refused(answer(W, &[0x1000_0102, word], &[0], 1), 15, 1, 1, 0);
    }
    refused(answer(W, &[0x1000_0102, 0x1000_0102, 0], &[0], 1), 16, 1, 1, 0);
}

#[test]
fn question_16() {
    accepted(answer(W, &[0x1000_0102], &[0], 1));
    for word in [0x1000_0101, 0x1000_0100, 0x1000_0002, 0x1000_0201] {
        refused(answer(W, &[word], &[0], 1), 16, 0, 0, 0);
    }
    // p may not go into itself: 1 with "enter 1" alone.
    refused(answer(&[AMB, NAME_1, ACT, IN, NAME_1, 0, 0, 0], &[0x1000_0100], &[0], 1), 16, 0, 0, 0);
    // No AMB is around the actor.
    refused(answer(&[ACT, IN, NAME_1, 0, AMB, NAME_1, 0, 0], &[0x1000_0001], &[0], 1), 16, 0, 0, 0);
}

/// OUT of (IN 2, EXIT 2, as often as asked), beside a REC holding 1[its variable as action, 32 times], beside 2.
fn in_and_out(often: usize) -> Vec<u32> {
    let mut words = vec![OUT];
    words.extend([PATH, IN, 0x8000_0002, PATH, 0xB000_0000, 0x8000_0002].repeat(often));
    words.push(EMPTY);
    let variable = 0x9000_0000 + words.len() as u32;
    words.extend([REC, AMB, NAME_1, ACT]);
    words.extend([PATH, variable].repeat(31));
    words.extend([variable, 0, 0, 0, AMB, 0x8000_0002, 0, 0]);
    words
}

#[test]
fn question_17() {
    // After the receipt there are 64 moves in a row: SOMETIME is visited at depths 1 to 65, each time with two below it.
    let short = answer(&in_and_out(1), &[0x1000_0100], &[SOMETIME, NOT, 0], 10_000);
    assert_eq!((short.verdict, short.visits, short.deepest), (Verdict::Accepted(false), 195, 67));
    // 256 moves in a row. From SOMETIME at depth 255, NOT is at 256 and TRUE would be at 257.
    let script = in_and_out(4);
    refused(answer(&script, &[0x1000_0100], &[SOMETIME, NOT, 0], 10_000), 17, 2, 1, 254 * 3 + 2);
    // From SOMETIME at depth 256, VOID would be at 257.
    refused(answer(&script, &[0x1000_0100], &[SOMETIME, VOID], 10_000), 17, 1, 1, 255 * 2 + 1);
    // Question 17 comes before question 18.
    refused(answer(&script, &[0x1000_0100], &[SOMETIME, VOID], 511), 17, 1, 1, 511);
    refused(answer(&script, &[0x1000_0100], &[SOMETIME, VOID], 510), 18, 0, 1, 510);
    // Two moves before the walk: SOMETIME's last visit is at depth 255, VOID's at 256.
    let moves = [vec![0x1000_0100], vec![0x1000_0304; 2]].concat();
    let just = answer(&script, &moves, &[SOMETIME, VOID], 10_000);
    assert_eq!((just.verdict, just.visits, just.deepest), (Verdict::Accepted(false), 510, 256));
}

#[test]
fn question_18() {
    refused(answer(&[0], &[], &[NOT, NOT, 0], 2), 18, 2, 0, 2);
    accepted(answer(&[0], &[], &[NOT, NOT, 0], 3));
    refused(answer(W, &[0x1000_0102], &[NOT, 0], 1), 18, 1, 1, 1);
}

#[test]
fn question_19() {
    for (length, fits) in [(0, false), (6, false), (7, true), (8, true)] {
        let mut out = vec![9; length];
        let c = Call { script: W, moves: &[0x1000_0102], rule: &[NOT, 0], patience: 2 };
        let answer = call(&c, &mut out, &mut [0; LIST_WORDS]).unwrap();
        if fits {
            assert_eq!((answer.verdict, answer.words), (Verdict::Accepted(false), 7));
            assert_eq!(out[0], AMB);
            assert!(out[7..].iter().all(|word| *word == 9));
        } else {
            refused(answer, 19, 0, 1, 2);
            assert!(out.iter().all(|word| *word == 9));
        }
    }
    // It comes behind the walk.
    let c = Call { script: W, moves: &[], rule: &[NOT, 0], patience: 1 };
    refused(call(&c, &mut [], &mut [0; LIST_WORDS]).unwrap(), 18, 1, 0, 1);
}

fn bytes(words: &[u32]) -> Vec<u8> {
    words.iter().flat_map(|word| word.to_le_bytes()).collect()
}

#[test]
fn question_20() {
    let good = bytes(&[1, 0, 0, 1, 0, 1]);
    assert_eq!(printed(&good).unwrap(), "yes moves 0 visits 1 deepest 1 weight 0 words 1\n00000000\n");
    let refusal = Some("refused 20 at 0\n".to_string());
    assert_eq!(printed(&[]), refusal);
    assert_eq!(printed(&good[..23]), refusal);
    assert_eq!(printed(&good[..20]), refusal);
    assert_eq!(printed(&[&good[..], &[0]].concat()), refusal);
    assert_eq!(printed(&[&good[..], &[0; 4]].concat()), refusal);
    assert_eq!(printed(&bytes(&[u32::MAX, 0, 0, 1, 0, 1])), refusal);
    assert_eq!(printed(&bytes(&[1, 0, 0, u32::MAX, 0, 1])), refusal);
    // 24,576 bytes are read, and refused for the script's length; four bytes more are too many.
    let long = |words: usize| bytes(&[vec![words as u32 - 4], vec![0; words - 1]].concat());
    assert_eq!(printed(&long(6144)), Some("refused 1 at 0\n".to_string()));
    assert_eq!(printed(&long(6145)), refusal);
}

/// Request 01's question, of every call: whatever its rule is, and whether it has moves or not.
#[test]
fn question_21() {
    for rule in [&[TRUE][..], &[NOT, TRUE], &[SOMETIME, TRUE], &[SOMETIME, VOID], &[NOT, NOT, SOMETIME, TRUE]] {
        for moves in [&[][..], &[0x1000_0102]] {
            let c = Call { script: W, moves, rule, patience: 99 };
            for words in [0, 1, 254, 255] {
                refused(lent(words, &c), 21, 0, 0, 0);
            }
            for words in [256, 257, 1000] {
                accepted(lent(words, &c));
            }
        }
    }
}

/// It is asked behind every question of the script, of the rule and of numbers alone.
#[test]
fn questions_before_21() {
    let c = Call { script: W, moves: &[], rule: &[TRUE], patience: 1 };
    refused(lent(255, &Call { script: &[], ..c }), 1, 0, 0, 0);
    refused(lent(255, &Call { script: &outputs(65), ..c }), 6, 0, 0, 0);
    refused(lent(255, &Call { rule: &[], ..c }), 7, 0, 0, 0);
    refused(lent(255, &Call { rule: &[TRUE, TRUE], ..c }), 11, 1, 0, 0);
    refused(lent(255, &Call { script: &outputs(64), rule: &[PLACED_1, TRUE], ..c }), 12, 0, 0, 0);
    refused(lent(255, &Call { patience: 0, ..c }), 13, 0, 0, 0);
    refused(lent(255, &Call { moves: &[0; 4097], ..c }), 14, 0, 0, 0);
    refused(lent(255, &c), 21, 0, 0, 0);
}

/// It is asked before the first move, and so before what is asked of moves, in the walk and after it.
#[test]
fn questions_behind_21() {
    let c = Call { script: W, moves: &[], rule: &[NOT, TRUE], patience: 9 };
    let moved = Call { moves: &[0x1000_0102, 0x1000_0102], ..c };
    let impatient = Call { patience: 1, ..c };
    let wrong = Call { moves: &[0], ..c };
    refused(lent(256, &wrong), 15, 0, 0, 0);
    refused(lent(255, &wrong), 21, 0, 0, 0);
    refused(lent(256, &moved), 16, 1, 1, 0);
    refused(lent(255, &moved), 21, 0, 0, 0);
    refused(lent(256, &impatient), 18, 1, 0, 1);
    refused(lent(255, &impatient), 21, 0, 0, 0);
    let deep = Call { script: &in_and_out(4), moves: &[0x1000_0100], rule: &[SOMETIME, VOID], patience: 10_000 };
    refused(lent(256, &deep), 17, 1, 1, 511);
    refused(lent(255, &deep), 21, 0, 0, 0);
    let mut list = [9; LIST_WORDS];
    refused(call(&c, &mut [], &mut list).unwrap(), 19, 0, 0, 2);
    refused(call(&c, &mut [], &mut list[1..]).unwrap(), 21, 0, 0, 0);
    assert_eq!(list, [9; LIST_WORDS]);
}
