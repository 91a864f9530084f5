//! The examples of document 01, starred and unstarred, and the slips that it lists.

use super::checker::{call, printed};
use second::generate::doubled;
use second::{Answer, Call, Verdict, LIST_WORDS};

const TRUE: u32 = 0x0000_0000;
const VOID: u32 = 0x3000_0000;
const AT_1: u32 = 0x4000_0001;
const AT_2: u32 = 0x4000_0002;
const BESIDE: u32 = 0x5000_0000;
const SOMETIME: u32 = 0x7000_0000;
const SOMEWHERE: u32 = 0x8000_0000;

const NOTHING: &[u32] = &[0];
/// 1[]
const ONE: &[u32] = &[0x1000_0000, 0x8000_0001, 0, 0];
/// 1[2[]]
const ONE_TWO: &[u32] = &[0x1000_0000, 0x8000_0001, 0x1000_0000, 0x8000_0002, 0, 0, 0];
/// 1 with "enter 2", beside 2
const W: &[u32] =
    &[0x1000_0000, 0x8000_0001, 0x2000_0000, 0xA000_0000, 0x8000_0002, 0, 0, 0x1000_0000, 0x8000_0002, 0, 0];

/// The answer to a call with a buffer of 64 words, and what is written. No word of the list is changed.
fn answer(script: &[u32], moves: &[u32], rule: &[u32], patience: u32) -> (Answer, Vec<u32>) {
    let mut list = [0xFFFF_FFFF; LIST_WORDS];
    let (answer, written) = answer_with(script, moves, rule, patience, &mut list);
    assert_eq!((answer.itinerary, list), (0, [0xFFFF_FFFF; LIST_WORDS]));
    (answer, written)
}

/// The same with a list.
fn answer_with(script: &[u32], moves: &[u32], rule: &[u32], patience: u32, list: &mut [u32]) -> (Answer, Vec<u32>) {
    let mut out = [0xFFFF_FFFF; 64];
    let answer = call(&Call { script, moves, rule, patience }, &mut out, list).expect("small enough");
    assert!(out[answer.words as usize..].iter().all(|word| *word == 0xFFFF_FFFF));
    (answer, out[..answer.words as usize].to_vec())
}

fn says(script: &[u32], rule: &[u32], yes: bool, visits: u32, deepest: u32) {
    let (answer, written) = answer(script, &[], rule, 100);
    assert_eq!(answer.verdict, Verdict::Accepted(yes));
    assert_eq!((answer.moves, answer.visits, answer.deepest), (0, visits, deepest));
    assert_eq!(written, script);
}

#[test]
fn nothing() {
    says(NOTHING, &[VOID], true, 1, 1);
    says(NOTHING, &[BESIDE, VOID, VOID], true, 3, 2);
}

#[test]
fn one_ambient() {
    says(ONE, &[VOID], false, 1, 1);
    says(ONE, &[AT_1, VOID], true, 2, 2);
    says(ONE, &[BESIDE, VOID, VOID], false, 4, 2);
    says(ONE, &[0x6000_0000, 0x4800_0000, 0], true, 3, 3);
    says(ONE, &[0x6000_0000, 0x1000_0000, 0x4800_0000, 0], true, 6, 4);
}

#[test]
fn somewhere() {
    says(ONE_TWO, &[SOMEWHERE, AT_2, VOID], true, 5, 4);
}

#[test]
fn sometime() {
    let mut list = [0xFFFF_FFFF; LIST_WORDS];
    let (yes, written) = answer_with(W, &[], &[SOMETIME, AT_2, AT_1, VOID], 100, &mut list);
    let verdict = Verdict::Accepted(true);
    assert_eq!(yes, Answer { verdict, moves: 0, visits: 6, deepest: 5, weight: 3, words: 11, itinerary: 1 });
    assert_eq!(written, W);
    assert_eq!(list[0], 0x1000_0102);
    assert!(list[1..].iter().all(|word| *word == 0xFFFF_FFFF));
    let (answer, written) = answer(W, &[], &[SOMETIME, AT_2, AT_1, VOID], 5);
    let verdict = Verdict::Refused { question: 18, place: 3 };
    assert_eq!(answer, Answer { verdict, moves: 0, visits: 5, deepest: 0, weight: 0, words: 0, itinerary: 0 });
    assert!(written.is_empty());
}

/// The program's input for a call.
fn input(script: &[u32], moves: &[u32], rule: &[u32], patience: u32) -> Vec<u8> {
    let mut words = Vec::new();
    for list in [script, moves, rule] {
        words.push(list.len() as u32);
        words.extend(list);
    }
    words.push(patience);
    words.iter().flat_map(|word| word.to_le_bytes()).collect()
}

const INSIDE: &[u32] = &[AT_2, AT_1, VOID];

#[test]
fn through_the_program() {
    let expected = "yes moves 1 visits 3 deepest 3 weight 2 words 7\n\
                    10000000\n80000002\n10000000\n80000001\n00000000\n00000000\n00000000\n";
    assert_eq!(printed(&input(W, &[0x1000_0102], INSIDE, 9)).unwrap(), expected);
    assert_eq!(printed(&input(W, &[0x1000_0102, 0x1000_0102], INSIDE, 9)).unwrap(), "refused 16 at 1\n");
}

#[test]
fn six_words_lent() {
    let c = Call { script: W, moves: &[0x1000_0102], rule: INSIDE, patience: 9 };
    let (mut out, mut list) = ([7; 6], [8; LIST_WORDS]);
    let refused = call(&c, &mut out, &mut list).unwrap();
    let verdict = Verdict::Refused { question: 19, place: 0 };
    assert_eq!(refused, Answer { verdict, moves: 1, visits: 3, deepest: 0, weight: 0, words: 0, itinerary: 0 });
    assert_eq!(out, [7; 6]);
    let mut out = [7; 8];
    assert_eq!(call(&c, &mut out, &mut list).unwrap().words, 7);
    assert_eq!(list, [8; LIST_WORDS]);
    assert_eq!(out, [0x1000_0000, 0x8000_0002, 0x1000_0000, 0x8000_0001, 0, 0, 0, 7]);
}

#[test]
fn a_path_received() {
    let script = [
        0x4000_0000, 0xE000_0000, 0xA000_0000, 0x8000_0002, 0xB000_0000, 0x8000_0002, // OUT of IN 2 then EXIT 2
        0x3000_0000, 0x1000_0000, 0x8000_0001, 0x2000_0000, 0x9000_0006, 0, 0, 0, // REC holding 1[its variable as action]
        0x1000_0000, 0x8000_0002, 0, 0, // 2
    ];
    let (answer, written) = answer(&script, &[0x1000_0100, 0x1000_0304, 0x1000_0304], &[TRUE], 1);
    let verdict = Verdict::Accepted(true);
    assert_eq!(answer, Answer { verdict, moves: 3, visits: 1, deepest: 1, weight: 4, words: 7, itinerary: 0 });
    assert_eq!(written, [0x1000_0000, 0x8000_0001, 0, 0x1000_0000, 0x8000_0002, 0, 0]);
}

/// OUT EMPTY beside a REC whose variable guards 1[]
const EMPTY_GUARD: &[u32] =
    &[0x4000_0000, 0xD000_0000, 0x3000_0000, 0x2000_0000, 0x9000_0002, 0x1000_0000, 0x8000_0001, 0, 0, 0, 0];

#[test]
fn an_empty_message_received() {
    let (answer, written) = answer(EMPTY_GUARD, &[0x1000_0100], &[TRUE], 1);
    let verdict = Verdict::Accepted(true);
    assert_eq!(answer, Answer { verdict, moves: 1, visits: 1, deepest: 1, weight: 3, words: 4, itinerary: 0 });
    assert_eq!(written, ONE);
}

#[test]
fn every_part_of_a_body_is_read() {
    let two_and_one = [0x1000_0000, 0x8000_0002, 0, 0x1000_0000, 0x8000_0001, 0, 0];
    says(&two_and_one, &[BESIDE, AT_1, VOID, AT_2, VOID], true, 7, 3);
}

#[test]
fn no_move_inside_an_ambient_whose_message_is_no_name() {
    // EMPTY beside NAME 1 around W: the inner "enter 2" may not move.
    let mut script = vec![0x1000_0000, 0xE000_0000, 0xD000_0000, 0x8000_0001];
    script.extend(W);
    script.push(0);
    let (answer, _) = answer(&script, &[0x1000_0203], &[TRUE], 1);
    assert_eq!(answer.verdict, Verdict::Refused { question: 16, place: 0 });
}

#[test]
fn a_received_variable_received_earlier() {
    // OUT 1 beside REC x holding OUT x beside REC y holding y[].
    let script = [
        0x4000_0000, 0x8000_0001, 0x3000_0000, 0x4000_0000, 0x9000_0002, 0x3000_0000, 0x1000_0000, 0x9000_0005, 0, 0, 0, 0,
    ];
    let (answer, written) = answer(&script, &[0x1000_0100, 0x1000_0302], &[AT_1, VOID], 2);
    let verdict = Verdict::Accepted(true);
    assert_eq!(answer, Answer { verdict, moves: 2, visits: 2, deepest: 2, weight: 5, words: 4, itinerary: 0 });
    assert_eq!(written, ONE);
}

#[test]
fn an_empty_action_under_a_receipt_stays() {
    // REC holding an action of two EMPTYs around 1[]: written with one EMPTY.
    let script = [0x3000_0000, 0x2000_0000, 0xE000_0000, 0xD000_0000, 0xD000_0000, 0x1000_0000, 0x8000_0001, 0, 0, 0, 0];
    let (answer, written) = answer(&script, &[], &[TRUE], 1);
    assert_eq!(answer.weight, 3);
    assert_eq!(written, [0x3000_0000, 0x2000_0000, 0xD000_0000, 0x1000_0000, 0x8000_0001, 0, 0, 0, 0]);
}

#[test]
fn an_empty_action_is_gone_from_the_start() {
    // An action of EMPTY around an action of EMPTY around 1[], inside an ambient whose message is no name.
    let script = [0x1000_0000, 0xD000_0000, 0x2000_0000, 0xD000_0000, 0x2000_0000, 0xD000_0000, 0x1000_0000, 0x8000_0001];
    let (answer, written) = answer(&[&script[..], &[0; 5]].concat(), &[], &[TRUE], 1);
    assert_eq!(answer.weight, 2);
    assert_eq!(written, [0x1000_0000, 0xD000_0000, 0x1000_0000, 0x8000_0001, 0, 0, 0]);
}

#[test]
fn a_variable_is_written_with_its_new_index() {
    // EMPTY guards REC x holding REC y holding OUT of PATH x y.
    let script = [
        0x2000_0000, 0xD000_0000, 0x3000_0000, 0x3000_0000, 0x4000_0000, 0xE000_0000, 0x9000_0002, 0x9000_0003, 0, 0, 0, 0,
    ];
    let (_, written) = answer(&script, &[], &[TRUE], 1);
    let expected = [0x3000_0000, 0x3000_0000, 0x4000_0000, 0xE000_0000, 0x9000_0000, 0x9000_0001, 0, 0, 0];
    assert_eq!(written, expected);
}

#[test]
fn messages_double_with_each_receipt() {
    let (script, moves) = doubled(4);
    let (answer, _) = answer(&script, &moves, &[TRUE], 1);
    // Sixteen times IN 1 with fifteen PATHs, OUT before and CLOSE behind.
    assert_eq!((answer.weight, answer.words), (9, 49));
}
