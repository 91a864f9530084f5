//! Request 01: the itinerary with the yes. Which list is given is free: a list is judged by replaying it, and compared with
//! another one only where there is just one that leads there.

use super::checker::call;
use second::generate::errand;
use second::itinerary::{judge, Fault};
use second::{Answer, Call, Refusal, Verdict, LIST_WORDS};

const AMB: u32 = 0x1000_0000;
const ACT: u32 = 0x2000_0000;
const REC: u32 = 0x3000_0000;
const OUT: u32 = 0x4000_0000;
const NAME: u32 = 0x8000_0000;
const VAR: u32 = 0x9000_0000;
const IN: u32 = 0xA000_0000;
const EXIT: u32 = 0xB000_0000;
const OPEN: u32 = 0xC000_0000;
const PATH: u32 = 0xE000_0000;

const TRUE: u32 = 0;
const NOT: u32 = 0x1000_0000;
const OR: u32 = 0x2000_0000;
const VOID: u32 = 0x3000_0000;
const AT: u32 = 0x4000_0000;
const BESIDE: u32 = 0x5000_0000;
const SOME: u32 = 0x6000_0000;
const SOMETIME: u32 = 0x7000_0000;
const SOMEWHERE: u32 = 0x8000_0000;
const PLACED: u32 = 0x9000_0000;
const VARIABLE: u32 = 0x0800_0000;

/// A word that no checker writes.
const MARK: u32 = 0xFFFF_FFFF;
const YES: Verdict = Verdict::Accepted(true);
const NO: Verdict = Verdict::Accepted(false);

fn move_word(actor: u32, target: u32) -> u32 {
    0x1000_0000 | actor << 8 | target
}

/// The answer with room for every tree, and the itinerary. The words behind it keep their content.
fn asked(c: &Call) -> (Answer, Vec<u32>) {
    lent(c, &mut vec![0; 4096])
}

/// The same with this buffer for the tree.
fn lent(c: &Call, out: &mut [u32]) -> (Answer, Vec<u32>) {
    let mut list = [MARK; LIST_WORDS + 3];
    let answer = call(c, out, &mut list).expect("small enough");
    let (itinerary, behind) = list.split_at(answer.itinerary as usize);
    assert!(!itinerary.contains(&MARK) && behind.iter().all(|word| *word == MARK), "{list:X?}");
    (answer, itinerary.to_vec())
}

/// A yes with an itinerary that leads where it must, and that list.
fn leads(c: &Call) -> Vec<u32> {
    let (answer, itinerary) = asked(c);
    assert_eq!(answer.verdict, YES);
    assert_eq!(judge(c, &itinerary), Ok(()), "{itinerary:X?}");
    itinerary
}

/// 1 with "enter 2", beside 2.
const W: &[u32] = &[AMB, NAME | 1, ACT, IN, NAME | 2, 0, 0, AMB, NAME | 2, 0, 0];
const ENTER: u32 = 0x1000_0102;
/// AT 2 AT 1 VOID: that 1 stands in 2, alone.
const INSIDE: [u32; 3] = [AT | 2, AT | 1, VOID];

fn on_w<'a>(moves: &'a [u32], rule: &'a [u32]) -> Call<'a> {
    Call { script: W, moves, rule, patience: 100 }
}

#[test]
fn one_move() {
    assert_eq!(leads(&on_w(&[], &[&[SOMETIME], &INSIDE[..]].concat())), [ENTER]);
}

/// "Met at once": the empty itinerary, also where moves can be made that lead on to the rule.
#[test]
fn met_at_once() {
    for rule in [&[SOMETIME, TRUE][..], &[SOMETIME, NOT, VOID], &[SOMETIME, SOMETIME, AT | 2, AT | 1, VOID]] {
        assert!(leads(&on_w(&[], rule)).is_empty(), "{rule:X?}");
    }
    assert!(leads(&on_w(&[ENTER], &[&[SOMETIME], &INSIDE[..]].concat())).is_empty());
    assert!(leads(&Call { script: &[0], moves: &[], rule: &[SOMETIME, VOID], patience: 2 }).is_empty());
}

/// A no, and a yes of a rule that only has SOMETIME inside.
#[test]
fn in_every_other_case_there_is_none() {
    let sometime = [&[SOMETIME], &INSIDE[..]].concat();
    let behind = |words: &[u32]| [words, &sometime].concat();
    for (rule, verdict) in [
        (vec![SOMETIME, VOID], NO),
        (vec![SOMETIME, NOT, TRUE], NO),
        (behind(&[NOT]), NO),
        (behind(&[NOT, NOT]), YES),
        (behind(&[OR, VOID]), YES),
        (behind(&[BESIDE, VOID]), YES),
        (behind(&[SOME]), YES),
        (behind(&[SOMEWHERE]), YES),
        ([&[OR], &sometime[..], &[TRUE]].concat(), YES),
        (vec![PLACED | 3, SOMETIME, AT | 3, AT | 2, AT | 1, VOID], YES),
        (vec![TRUE], YES),
    ] {
        let (answer, itinerary) = asked(&on_w(&[], &rule));
        assert_eq!((answer.verdict, answer.itinerary, itinerary), (verdict, 0, vec![]), "{rule:X?}");
    }
}

/// examples/leave.hex: 1 leaves 2 and enters 3.
const LEAVING: &[u32] = &[AMB, NAME | 2, AMB, NAME | 1, ACT, PATH, EXIT, NAME | 2, IN, NAME | 3, 0, 0, 0, AMB, NAME | 3, 0, 0];
const LEFT: &[u32] = &[0x1000_0200, 0x1000_0203];

/// "from the standing tree": what the call's own list has moved is not moved again.
#[test]
fn it_begins_behind_the_list() {
    let rule = [SOMETIME, BESIDE, TRUE, AT | 3, AT | 1, VOID];
    for made in 0..=2 {
        let c = Call { script: LEAVING, moves: &LEFT[..made], rule: &rule, patience: 100 };
        assert_eq!(leads(&c), LEFT[made..], "{made} moves made");
        assert_eq!(asked(&c).0.moves, made as u32);
    }
    // The list that leads there from the script's own tree can't be made from the one that stands.
    let c = Call { script: LEAVING, moves: &LEFT[..1], rule: &rule, patience: 100 };
    assert_eq!(judge(&c, LEFT), Err(Fault::NoMove(Refusal::new(16, 0))));
}

/// The walk tries the lower actor first, comes to an end there and goes back: its moves are not in the list.
#[test]
fn a_way_that_was_given_up() {
    // 1 with "enter 2, exit 2, enter 2" and with "enter 3", beside 2 and 3.
    let path = [PATH, IN, NAME | 2, PATH, EXIT, NAME | 2, IN, NAME | 2, 0];
    let script = [&[AMB, NAME | 1, ACT], &path[..], &[ACT, IN, NAME | 3, 0, 0, AMB, NAME | 2, 0, AMB, NAME | 3, 0, 0]].concat();
    let rule = [SOMETIME, BESIDE, AT | 3, SOMEWHERE, AT | 1, TRUE, TRUE];
    let list = leads(&Call { script: &script, moves: &[], rule: &rule, patience: 1000 });
    assert_eq!(list.last(), Some(&move_word(2, 4)));
}

/// 002's example: p leaves a and enters b, is opened there, and its message is received.
#[test]
fn through_every_kind_of_move() {
    let script = [
        &[AMB, NAME | 1, AMB, NAME | 2, ACT, PATH, EXIT, NAME | 1, IN, NAME | 3, OUT, NAME | 4, 0, 0, 0][..],
        &[AMB, NAME | 3, ACT, OPEN, NAME | 2, REC, AMB, VAR | 20, 0, 0, 0, 0, 0],
    ]
    .concat();
    let c = Call { script: &script, moves: &[], rule: &[SOMETIME, SOMEWHERE, AT | 4, VOID], patience: 1000 };
    let list = [move_word(2, 0), move_word(2, 4), move_word(5, 1), move_word(6, 3)];
    assert_eq!(leads(&c), list);
    for made in 0..=4 {
        assert_eq!(leads(&Call { moves: &list[..made], ..c }), list[made..]);
    }
}

/// A path is received and becomes an action, which goes into 2 and out again.
#[test]
fn through_a_receipt() {
    let script =
        [&[OUT, PATH, IN, NAME | 2, EXIT, NAME | 2, REC, AMB, NAME | 1, ACT, VAR | 6, 0, 0, 0][..], &[AMB, NAME | 2, 0, 0]]
            .concat();
    let rule = [SOMETIME, BESIDE, AT | 1, VOID, AT | 2, VOID];
    let c = Call { script: &script, moves: &[], rule: &rule, patience: 1000 };
    assert_eq!(leads(&c), [move_word(1, 0), move_word(3, 4), move_word(3, 4)]);
}

/// A SOME's variable is its word's index in the rule as lent; a part that PLACED makes is in no itinerary.
#[test]
fn inner_rules_with_variables_and_placed() {
    assert_eq!(leads(&on_w(&[], &[SOMETIME, SOME, AT | VARIABLE | 1, AT | 1, VOID])), [ENTER]);
    assert_eq!(leads(&on_w(&[], &[SOMETIME, SOME, SOME, AT | VARIABLE | 1, AT | VARIABLE | 2, VOID])), [ENTER]);
    // 1 leaves 2, then the part that is put around it.
    let script = [AMB, NAME | 2, AMB, NAME | 1, ACT, PATH, EXIT, NAME | 2, EXIT, NAME | 3, 0, 0, 0, 0];
    let rule = [SOMETIME, BESIDE, AT | 2, VOID, PLACED | 3, SOMETIME, BESIDE, AT | 1, VOID, AT | 3, VOID];
    let c = Call { script: &script, moves: &[], rule: &rule, patience: 1000 };
    assert_eq!(leads(&c), [move_word(2, 0)]);
}

/// The longest: its last visit is at depth 256. One move more is refused by 17, and one visit fewer by 18.
#[test]
fn of_254_moves() {
    let (script, list) = errand(254);
    let c = Call { script: &script, moves: &[], rule: &[SOMETIME, VOID], patience: 510 };
    let (answer, itinerary) = asked(&c);
    assert_eq!((answer.verdict, answer.visits, answer.deepest, answer.itinerary), (YES, 510, 256, 254));
    assert_eq!(itinerary, list);
    none(&Call { patience: 509, ..c }, 18, 1, 509);
    let (script, list) = errand(255);
    let c = Call { script: &script, patience: 100_000, ..c };
    none(&c, 17, 1, 511);
    // After the first of its moves 254 are left.
    assert_eq!(leads(&Call { moves: &list[..1], ..c }), list[1..]);
}

/// A call without moves that is refused by this question at this place after so many visits: there is no itinerary.
fn none(c: &Call, question: u32, place: u32, visits: u32) {
    let verdict = Verdict::Refused { question, place };
    let moves = c.moves.len() as u32;
    assert_eq!(asked(c), (Answer { verdict, moves, visits, deepest: 0, weight: 0, words: 0, itinerary: 0 }, vec![]));
}

/// The walk is stopped when some of the way is found.
#[test]
fn refused_in_the_walk() {
    let c = Call { script: LEAVING, moves: &[], rule: &[SOMETIME, BESIDE, TRUE, AT | 3, AT | 1, VOID], patience: 1000 };
    let (yes, _) = asked(&c);
    for patience in 1..yes.visits {
        let (answer, itinerary) = asked(&Call { patience, ..c });
        assert!(matches!(answer.verdict, Verdict::Refused { question: 18, .. }), "{patience}");
        assert_eq!((answer.visits, answer.itinerary, itinerary), (patience, 0, vec![]));
    }
    assert_eq!(asked(&Call { patience: yes.visits, ..c }), (yes, LEFT.to_vec()));
}

/// A yes that question 19 refuses has no itinerary; its moves and visits are told.
#[test]
fn refused_by_19_after_the_yes() {
    let rule = [SOMETIME, BESIDE, TRUE, AT | 3, AT | 1, VOID];
    let c = Call { script: LEAVING, moves: &LEFT[..1], rule: &rule, patience: 1000 };
    let (yes, itinerary) = asked(&c);
    assert_eq!((yes.verdict, yes.itinerary, &itinerary[..]), (YES, 1, &LEFT[1..]));
    for length in [0, 1, yes.words as usize - 1] {
        let mut out = vec![MARK; length];
        let verdict = Verdict::Refused { question: 19, place: 0 };
        let refused = Answer { verdict, moves: 1, visits: yes.visits, deepest: 0, weight: 0, words: 0, itinerary: 0 };
        assert_eq!(lent(&c, &mut out), (refused, vec![]));
        assert_eq!(out, vec![MARK; length]);
    }
    assert_eq!(lent(&c, &mut vec![MARK; yes.words as usize]), (yes, itinerary));
}

/// A list of 256 words, of 257 and of many more: the same moves, and no other word is changed, whatever it was.
#[test]
fn lists_of_other_lengths_and_contents() {
    let (script, list) = errand(254);
    let c = Call { script: &script, moves: &[], rule: &[SOMETIME, VOID], patience: 1000 };
    for length in [256, 257, 1000] {
        for content in [0, ENTER, MARK] {
            let mut lent = vec![content; length];
            let answer = call(&c, &mut [0; 4096], &mut lent).expect("small enough");
            assert_eq!((answer.verdict, answer.itinerary), (YES, 254));
            assert_eq!(lent, [&list[..], &vec![content; length - 254]].concat());
        }
    }
    // One word fewer than must be lent.
    let mut lent = [MARK; 255];
    let verdict = Verdict::Refused { question: 21, place: 0 };
    let refused = Answer { verdict, moves: 0, visits: 0, deepest: 0, weight: 0, words: 0, itinerary: 0 };
    assert_eq!(call(&c, &mut [0; 4096], &mut lent), Some(refused));
    assert_eq!(lent, [MARK; 255]);
}
