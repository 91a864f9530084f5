//! Yes, no and each refusal, as a host meets them.

use skycorbel::{call, raw, Answer, Buffers, Move, Question, Request, Verdict, ITINERARY_WORDS};

const AMB: u32 = 0x1000_0000;
const ACT: u32 = 0x2000_0000;
const REC: u32 = 0x3000_0000;
const OUT: u32 = 0x4000_0000;
const NAME: u32 = 0x8000_0000;
const VAR: u32 = 0x9000_0000;
const IN: u32 = 0xA000_0000;
const EXIT: u32 = 0xB000_0000;
const PATH: u32 = 0xE000_0000;

const TRUE: u32 = 0;
const NOT: u32 = 0x1000_0000;
const VOID: u32 = 0x3000_0000;
const AT: u32 = 0x4000_0000;
const SOMETIME: u32 = 0x7000_0000;
const PLACED: u32 = 0x9000_0000;
const CHOSEN: u32 = 1 << 27;

/// 1 with "enter 2", beside 2.
const W: &[u32] = &[AMB, NAME | 1, ACT, IN, NAME | 2, 0, 0, AMB, NAME | 2, 0, 0];
const ENTER: u32 = Move { actor: 1, target: 2 }.word();
/// 2[1[]], and the rule that asks for it.
const TREE: &[u32] = &[AMB, NAME | 2, AMB, NAME | 1, 0, 0, 0];
const INSIDE: &[u32] = &[AT | 2, AT | 1, VOID];
const SOMETIME_INSIDE: &[u32] = &[SOMETIME, AT | 2, AT | 1, VOID];

const ENTERED: Request = Request { script: W, moves: &[ENTER], rule: INSIDE, patience: 9 };
/// A call that is accepted, and of which a test changes what it is about.
const FINE: Request = Request { script: W, moves: &[], rule: &[TRUE], patience: 9 };

/// The call has this answer, and no itinerary.
fn answers(request: &Request, tree: &mut [u32], verdict: Verdict, counts: [u32; 4], written: &[u32]) {
    let mut itinerary = [7; ITINERARY_WORDS];
    let answer = call(request, Buffers { tree, itinerary: &mut itinerary });
    assert_eq!(answer.verdict, verdict);
    assert_eq!([answer.moves, answer.visits, answer.deepest, answer.weight], counts);
    assert_eq!((answer.tree, answer.itinerary), (written, &[][..]));
    assert_eq!(itinerary, [7; ITINERARY_WORDS], "the list");
}

fn refusal(question: u32, place: u32) -> Verdict {
    Verdict::Refused { question: Question::new(question), place }
}

#[test]
fn yes() {
    let mut tree = [7; 9];
    answers(&ENTERED, &mut tree, Verdict::Yes, [1, 3, 3, 2], TREE);
    assert_eq!(tree[TREE.len()..], [7; 2], "the words behind the tree");
}

#[test]
fn no() {
    let mut tree = [7; 9];
    answers(&Request { rule: &[NOT, TRUE], ..ENTERED }, &mut tree, Verdict::No, [1, 2, 2, 2], TREE);
    assert_eq!(tree[TREE.len()..], [7; 2], "the words behind the tree");
}

#[test]
fn refused() {
    let mut tree = [7; 9];
    answers(&Request { moves: &[ENTER, ENTER], ..ENTERED }, &mut tree, refusal(16, 1), [1, 0, 0, 0], &[]);
    assert_eq!(tree, [7; 9], "the buffer");
}

/// Nothing at all is lent: the first question refuses.
#[test]
fn the_defaults() {
    let Answer { verdict, moves, visits, tree, itinerary, .. } = call(&Request::default(), Buffers::default());
    assert_eq!((verdict, moves, visits, tree, itinerary), (refusal(1, 0), 0, 0, &[][..], &[][..]));
}

#[test]
fn a_buffer_too_short() {
    for length in 0..TREE.len() {
        let mut tree = vec![7; length];
        answers(&ENTERED, &mut tree, refusal(19, 0), [1, 3, 0, 0], &[]);
        assert_eq!(tree, vec![7; length], "the buffer");
    }
    answers(&ENTERED, &mut [7; TREE.len()], Verdict::Yes, [1, 3, 3, 2], TREE);
}

#[test]
fn an_itinerary() {
    let (mut tree, mut list) = ([7; 64], [7; 300]);
    let request = Request { rule: SOMETIME_INSIDE, ..FINE };
    let answer = call(&request, Buffers { tree: &mut tree, itinerary: &mut list });
    assert_eq!((answer.verdict, answer.moves, answer.tree, answer.itinerary), (Verdict::Yes, 0, W, &[ENTER][..]));
    assert_eq!(list[1..], [7; 299], "the words behind the itinerary");
    // It can be lent as the list of another call.
    let moved = Request { moves: &list[..1], rule: INSIDE, ..request };
    answers(&moved, &mut tree, Verdict::Yes, [1, 3, 3, 2], TREE);
}

/// Met as it stands, not met, a rule that does not begin with SOMETIME, a tree that does not fit.
#[test]
fn no_itinerary() {
    answers(&Request { rule: SOMETIME_INSIDE, ..ENTERED }, &mut [7; 64], Verdict::Yes, [1, 4, 4, 2], TREE);
    answers(&Request { rule: &[SOMETIME, VOID], ..ENTERED }, &mut [7; 64], Verdict::No, [1, 2, 2, 2], TREE);
    let twice = [&[NOT, NOT], SOMETIME_INSIDE].concat();
    answers(&Request { rule: &twice, ..FINE }, &mut [7; 64], Verdict::Yes, [0, 8, 7, 3], W);
    answers(&Request { rule: SOMETIME_INSIDE, ..FINE }, &mut [7; 10], refusal(19, 0), [0, 6, 0, 0], &[]);
}

#[test]
fn a_list_too_short() {
    for length in [0, 1, 255] {
        let (mut tree, mut list) = ([7; 64], vec![7; length]);
        let answer = call(&ENTERED, Buffers { tree: &mut tree, itinerary: &mut list });
        assert_eq!((answer.verdict, answer.moves, answer.visits), (refusal(21, 0), 0, 0));
        assert_eq!((tree, list), ([7; 64], vec![7; length]), "the buffers");
    }
}

/// As C has it: an answer of fewer than nine words is not written, and nothing else is.
#[test]
fn the_answer_s_words() {
    for length in 0..12 {
        let (mut tree, mut list, mut answer) = ([7; 12], [7; 256], vec![7; length]);
        let mut buffers = Buffers { tree: &mut tree, itinerary: &mut list };
        let done = raw::call(&Request { rule: SOMETIME_INSIDE, ..FINE }, &mut buffers, &mut answer);
        assert_eq!(done, (length >= raw::ANSWER_WORDS) as u32);
        if done == 0 {
            assert_eq!((tree, list, answer), ([7; 12], [7; 256], vec![7; length]));
        } else {
            assert_eq!(answer, [&[2, 0, 0, 0, 6, 5, 3, 11, 1][..], &vec![7; length - 9]].concat());
            assert_eq!((&tree[..11], list[0]), (W, ENTER));
        }
    }
}

#[test]
fn move_words() {
    for (word, actor, target) in [(ENTER, 1, 2), (0x1000_0000, 0, 0), (0x1000_FF3F, 255, 63)] {
        assert_eq!(Move::from_word(word), Some(Move { actor, target }));
        assert_eq!(Move { actor, target }.word(), word);
    }
    for word in [0, 0x0000_0102, 0x2000_0102, 0x1001_0102, 0x1100_0102, u32::MAX] {
        assert_eq!(Move::from_word(word), None, "{word:X}");
    }
}

/// The call is refused by this question at this place, and the question asks so.
fn refuses(request: Request, question: u32, place: u32, words: &str) {
    refuses_lent(request, ITINERARY_WORDS, question, place, words);
}

/// The same with so many words for the list.
fn refuses_lent(request: Request, list_words: usize, question: u32, place: u32, words: &str) {
    let (mut tree, mut list) = ([7; 64], vec![7; list_words]);
    let buffers = Buffers { tree: &mut tree, itinerary: &mut list };
    let Verdict::Refused { question: asked, place: at } = call(&request, buffers).verdict else {
        panic!("not refused by {question}: {request:X?}");
    };
    assert_eq!((asked.number(), at), (question, place), "{request:X?}");
    assert_eq!(asked.words(), Some(words));
    assert_eq!(asked.to_string(), format!("question {question}: {words}"));
}

#[test]
fn the_script_s_questions() {
    let script = |words: &[u32], question, place, asks| refuses(Request { script: words, ..FINE }, question, place, asks);
    script(&[], 1, 0, "Has the script 1 to 1,024 words?");
    script(&[0xF000_0000], 2, 0, "Does this word's kind and operand fit (VAR: any operand)?");
    script(&[OUT, VAR, 0], 3, 1, "Does VAR name a REC around it?");
    script(&[vec![OUT], vec![IN; 65], vec![NAME | 1, 0]].concat(), 4, 66, "Is nesting at most 64?");
    script(&[0, 0], 5, 1, "Does the body end at the last word, no sooner or later?");
    script(&outputs(65), 6, 0, "At most 64 parts?");
}

#[test]
fn the_rule_s_questions() {
    let rule = |words: &[u32], question, place, asks| refuses(Request { rule: words, ..FINE }, question, place, asks);
    rule(&[], 7, 0, "Has the rule 1 to 256 words?");
    rule(&[0xF000_0000], 8, 0, "Does it fit (variable: any index)?");
    rule(&[AT | CHOSEN, TRUE], 9, 0, "Is the variable's SOME around it?");
    let around = "Are at most 64 rules around it, and at most 8 SOMEs counting itself?";
    rule(&[vec![NOT; 65], vec![TRUE]].concat(), 10, 65, around);
    rule(&[TRUE, TRUE], 11, 1, "Does the rule end at the last word?");
}

#[test]
fn the_numbers_questions() {
    let full = Request { script: &outputs(64), rule: &[PLACED | 1, TRUE], ..FINE };
    refuses(full, 12, 0, "Parts plus PLACED words at most 64?");
    refuses(Request { patience: 0, ..FINE }, 13, 0, "Patience 1 to 16,777,216?");
    refuses(Request { moves: &[ENTER; 4097], ..FINE }, 14, 0, "At most 4,096 moves?");
    refuses_lent(FINE, 255, 21, 0, "Has the list buffer at least 256 words?");
}

#[test]
fn the_moves_questions() {
    refuses(Request { moves: &[0], ..FINE }, 15, 0, "Is it a move word, both numbers below n?");
    refuses(Request { moves: &[ENTER, ENTER], ..FINE }, 16, 1, "Can the plain machine make it now?");
}

#[test]
fn the_walk_s_questions() {
    // After the receipt SOMETIME is visited at depths 1 to 256, and VOID would be at 257.
    let deep = Request { script: &in_and_out(), moves: &[0x1000_0100], rule: &[SOMETIME, VOID], patience: 10_000 };
    refuses(deep, 17, 1, "Depth at most 256?");
    refuses(Request { rule: &[NOT, TRUE], patience: 1, ..FINE }, 18, 1, "Are visits left?");
}

#[test]
fn the_tree_s_question() {
    let fits = "Does the tree that stands after the moves fit the output buffer, of which no more than the first 2^28 words count?";
    refuses(Request { script: &outputs(32), ..FINE }, 19, 0, fits);
}

/// No call asks question 20: it is the program's.
#[test]
fn unknown_questions_are_kept() {
    for number in [0, 20, 22, u32::MAX] {
        let question = Question::new(number);
        assert_eq!((question.number(), question.words()), (number, None));
        assert_eq!(question.to_string(), format!("question {number}"));
    }
}

/// So many outputs of a name.
fn outputs(count: usize) -> Vec<u32> {
    [[OUT, NAME | 1].repeat(count), vec![0]].concat()
}

/// After a receipt 1 can go into 2 and out of it 256 times in a row.
fn in_and_out() -> Vec<u32> {
    let path = [[PATH, IN, NAME | 2, PATH, EXIT, NAME | 2].repeat(3), vec![PATH, IN, NAME | 2, EXIT, NAME | 2]].concat();
    let received = VAR | (path.len() + 1) as u32;
    let doubled = [[PATH, received].repeat(31), vec![received]].concat();
    let receipt = [vec![REC, AMB, NAME | 1, ACT], doubled, vec![0, 0, 0]].concat();
    [vec![OUT], path, receipt, vec![AMB, NAME | 2, 0, 0]].concat()
}
