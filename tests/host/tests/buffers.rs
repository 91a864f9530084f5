//! The three lent buffers: lengths of each, and no word changed that is not the call's.

use host::call_raw;
use second::Call;

/// 1 with "enter 2", beside 2
const W: &[u32] = &[0x1000_0000, 0x8000_0001, 0x2000_0000, 0xA000_0000, 0x8000_0002, 0, 0, 0x1000_0000, 0x8000_0002, 0, 0];
const INSIDE: &[u32] = &[0x4000_0002, 0x4000_0001, 0x3000_0000];
const SOMETIME_INSIDE: &[u32] = &[0x7000_0000, 0x4000_0002, 0x4000_0001, 0x3000_0000];
const ENTER: &[u32] = &[0x1000_0102];
const TREE: &[u32] = &[0x1000_0000, 0x8000_0002, 0x1000_0000, 0x8000_0001, 0, 0, 0];

/// The call with three buffers of so many words, each marked: what it returns, and what it leaves.
fn left(c: &Call, out_words: usize, list_words: usize, answer_words: usize) -> (u32, Vec<u32>, Vec<u32>, Vec<u32>) {
    let (mut out, mut list, mut answer) = (vec![7; out_words], vec![6; list_words], vec![8; answer_words]);
    let done = call_raw(c, &mut out, &mut list, &mut answer);
    (done, out, list, answer)
}

/// Marked words, with these at their start.
fn begun(words: &[u32], mark: u32, length: usize) -> Vec<u32> {
    [words, &vec![mark; length - words.len()]].concat()
}

#[test]
fn every_length_of_tree_and_answer() {
    let c = Call { script: W, moves: ENTER, rule: INSIDE, patience: 9 };
    for out_words in 0..12 {
        for answer_words in 0..14 {
            let (done, out, list, answer) = left(&c, out_words, 256, answer_words);
            assert_eq!((done, list), ((answer_words >= 9) as u32, vec![6; 256]));
            if answer_words < 9 {
                assert_eq!((out, answer), (vec![7; out_words], vec![8; answer_words]));
            } else if out_words < 7 {
                assert_eq!(answer, begun(&[0, 19, 0, 1, 3, 0, 0, 0, 0], 8, answer_words));
                assert_eq!(out, vec![7; out_words]);
            } else {
                assert_eq!(answer, begun(&[2, 0, 0, 1, 3, 3, 2, 7, 0], 8, answer_words));
                assert_eq!(out, begun(TREE, 7, out_words));
            }
        }
    }
}

#[test]
fn lengths_of_list_and_answer() {
    let c = Call { script: W, moves: &[], rule: SOMETIME_INSIDE, patience: 9 };
    for list_words in (0..4).chain(250..262) {
        for answer_words in 0..14 {
            let (done, out, list, answer) = left(&c, 12, list_words, answer_words);
            assert_eq!(done, (answer_words >= 9) as u32);
            if answer_words < 9 {
                assert_eq!((out, list, answer), (vec![7; 12], vec![6; list_words], vec![8; answer_words]));
            } else if list_words < 256 {
                assert_eq!(answer, begun(&[0, 21, 0, 0, 0, 0, 0, 0, 0], 8, answer_words));
                assert_eq!((out, list), (vec![7; 12], vec![6; list_words]));
            } else {
                assert_eq!(answer, begun(&[2, 0, 0, 0, 6, 5, 3, 11, 1], 8, answer_words));
                assert_eq!((out, list), (begun(W, 7, 12), begun(ENTER, 6, list_words)));
            }
        }
    }
}

#[test]
fn no_refused_and_words_of_no() {
    let (mut out, mut list, mut answer) = ([7; 12], [6; 256], [8; 10]);
    let mut call = |script, moves, rule, out: &mut [u32], answer: &mut [u32]| {
        call_raw(&Call { script, moves, rule, patience: 9 }, out, &mut list, answer)
    };
    assert_eq!(call(W, ENTER, &[0x1000_0000, 0], &mut out, &mut answer), 1);
    assert_eq!(answer, [1, 0, 0, 1, 2, 2, 2, 7, 0, 8]);
    assert_eq!(call(W, &[0x1000_0102, 0x1000_0102], INSIDE, &mut out, &mut answer), 1);
    assert_eq!(answer, [0, 16, 1, 1, 0, 0, 0, 0, 0, 8]);
    assert_eq!(call(W, &[], SOMETIME_INSIDE, &mut [], &mut answer), 1);
    assert_eq!(answer, [0, 19, 0, 0, 6, 0, 0, 0, 0, 8]);
    assert_eq!(call(&[], &[], &[], &mut [], &mut answer), 1);
    assert_eq!(answer, [0, 1, 0, 0, 0, 0, 0, 0, 0, 8]);
    assert_eq!(list, [6; 256]);
}

/// What a call writes does not depend on what stood in the buffers.
#[test]
fn the_content_before_is_not_read() {
    let c = Call { script: W, moves: &[], rule: SOMETIME_INSIDE, patience: 9 };
    for content in [0, 1, 0x1000_0102, u32::MAX] {
        let (mut out, mut list, mut answer) = ([content; 12], [content; 257], [content; 10]);
        assert_eq!(call_raw(&c, &mut out, &mut list, &mut answer), 1);
        assert_eq!(answer[..], begun(&[2, 0, 0, 0, 6, 5, 3, 11, 1], content, 10));
        assert_eq!((&out[..], &list[..]), (&begun(W, content, 12)[..], &begun(ENTER, content, 257)[..]));
    }
}
