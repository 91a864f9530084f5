//! What judges an itinerary, judged: it sees each fault, and finds none in the lists of this checker's own walk.

use second::generate::{case, errand};
use second::itinerary::{judge, Fault};
use second::{call, Call, Refusal, Verdict};

const AMB: u32 = 0x1000_0000;
const ACT: u32 = 0x2000_0000;
const NAME: u32 = 0x8000_0000;
const IN: u32 = 0xA000_0000;
const EXIT: u32 = 0xB000_0000;
const PATH: u32 = 0xE000_0000;

const TRUE: u32 = 0;
const NOT: u32 = 0x1000_0000;
const VOID: u32 = 0x3000_0000;
const AT: u32 = 0x4000_0000;
const BESIDE: u32 = 0x5000_0000;
const SOME: u32 = 0x6000_0000;
const SOMETIME: u32 = 0x7000_0000;
const PLACED: u32 = 0x9000_0000;
const VARIABLE: u32 = 0x0800_0000;

/// 1 with "enter 2", beside 2.
const W: &[u32] = &[AMB, NAME | 1, ACT, IN, NAME | 2, 0, 0, AMB, NAME | 2, 0, 0];
const ENTER: u32 = 0x1000_0102;
const ENTERED: &[u32] = &[SOMETIME, AT | 2, AT | 1, VOID];

fn on_w<'a>(moves: &'a [u32], rule: &'a [u32]) -> Call<'a> {
    Call { script: W, moves, rule, patience: 100 }
}

#[test]
fn the_right_list() {
    assert_eq!(judge(&on_w(&[], ENTERED), &[ENTER]), Ok(()));
    assert_eq!(judge(&on_w(&[ENTER], ENTERED), &[]), Ok(()));
}

#[test]
fn wrong_lists() {
    let c = on_w(&[], ENTERED);
    assert_eq!(judge(&c, &[]), Err(Fault::NotMet));
    assert_eq!(judge(&c, &[ENTER, ENTER]), Err(Fault::NoMove(Refusal::new(16, 1))));
    assert_eq!(judge(&c, &[0x1000_0103]), Err(Fault::NoMove(Refusal::new(15, 0))));
    assert_eq!(judge(&c, &[0x1000_0201]), Err(Fault::NoMove(Refusal::new(16, 0))));
    assert_eq!(judge(&c, &[ENTER; 255]), Err(Fault::TooLong));
    assert_eq!(judge(&on_w(&[ENTER], ENTERED), &[ENTER]), Err(Fault::MetAtOnce));
}

/// A list that can be made, and that leads elsewhere.
#[test]
fn a_list_to_another_tree() {
    // 1 with "enter 2" and with "enter 3", beside 2 and 3.
    let script = [AMB, NAME | 1, ACT, IN, NAME | 2, 0, ACT, IN, NAME | 3, 0, 0, AMB, NAME | 2, 0, AMB, NAME | 3, 0, 0];
    let rule = [SOMETIME, BESIDE, AT | 3, VOID, TRUE];
    let c = Call { script: &script, moves: &[], rule: &rule, patience: 100 };
    assert_eq!(judge(&c, &[]), Ok(()), "3 is empty to begin with");
    let rule = [SOMETIME, BESIDE, AT | 3, NOT, VOID, TRUE];
    let c = Call { rule: &rule, ..c };
    assert_eq!(judge(&c, &[0x1000_0103]), Err(Fault::NotMet));
    assert_eq!(judge(&c, &[0x1000_0204]), Ok(()));
}

#[test]
fn calls_without_an_itinerary() {
    assert_eq!(judge(&on_w(&[], &[TRUE]), &[]), Err(Fault::NoSometime));
    assert_eq!(judge(&on_w(&[], &[NOT, NOT, SOMETIME, TRUE]), &[]), Err(Fault::NoSometime));
    assert_eq!(judge(&on_w(&[ENTER, ENTER], ENTERED), &[]), Err(Fault::NoWalk(Refusal::new(16, 1))));
    assert_eq!(judge(&on_w(&[], &[SOMETIME]), &[]), Err(Fault::NoWalk(Refusal::new(11, 1))));
}

/// A SOME's variable is its word's index in the whole rule, a PLACED word's number counts from the script's parts.
#[test]
fn the_inner_rule_keeps_its_indices() {
    let some = [SOMETIME, SOME, AT | VARIABLE | 1, AT | 1, VOID];
    assert_eq!(judge(&on_w(&[], &some), &[ENTER]), Ok(()));
    // 1 in 2 leaves 2: wrapped in 3 it stands beside 2 in there.
    let script = [AMB, NAME | 2, AMB, NAME | 1, ACT, PATH, EXIT, NAME | 2, EXIT, NAME | 3, 0, 0, 0, 0];
    let placed = [SOMETIME, PLACED | 3, SOMETIME, BESIDE, AT | 1, VOID, AT | 3, AT | 2, VOID];
    let c = Call { script: &script, moves: &[], rule: &placed, patience: 1000 };
    assert_eq!(judge(&c, &[]), Ok(()), "both moves can be made inside 3");
    let placed = [SOMETIME, BESIDE, AT | 2, VOID, PLACED | 3, SOMETIME, BESIDE, AT | 1, VOID, AT | 3, VOID];
    let c = Call { rule: &placed, ..c };
    assert_eq!(judge(&c, &[]), Err(Fault::NotMet));
    assert_eq!(judge(&c, &[0x1000_0200]), Ok(()), "the other move leaves the part that PLACED makes");
}

/// A walk of the inner rule that is stopped says nothing, and is no yes.
#[test]
fn a_stopped_walk() {
    // The inner SOMETIME is at depth 63 and would go down to 317.
    let (script, _) = errand(254);
    let rule = [vec![SOMETIME], vec![NOT; 62], vec![SOMETIME, VOID]].concat();
    let c = Call { script: &script, moves: &[], rule: &rule, patience: 100 };
    assert_eq!(judge(&c, &[]), Err(Fault::Stopped(Refusal::new(17, 64))));
}

/// The longest itinerary, whole and from its middle on.
#[test]
fn the_longest() {
    let (script, list) = errand(254);
    let c = |moves| Call { script: &script, moves, rule: &[SOMETIME, VOID], patience: 1 };
    assert_eq!(judge(&c(&[]), &list), Ok(()));
    assert_eq!(judge(&c(&list[..100]), &list[100..]), Ok(()));
    assert_eq!(judge(&c(&list[..100]), &list[100..253]), Err(Fault::NotMet));
    assert_eq!(judge(&c(&list[..100]), &list), Err(Fault::NoMove(Refusal::new(16, 252 - 100))));
}

/// The lists that this checker's own walk has found.
#[test]
fn its_own_lists() {
    let mut judged = 0;
    for seed in 0..2000 {
        let case = case(seed);
        let (mut out, mut list) = (case.buffer.clone(), case.list.clone());
        let Some(answer) = call(&case.call(), &mut out, &mut list) else {
            continue;
        };
        let count = answer.itinerary as usize;
        assert_eq!(list[count..], case.list[count..], "the words behind: seed {seed}");
        if answer.verdict == Verdict::Accepted(true) && case.rule[0] == SOMETIME {
            assert_eq!(judge(&case.call(), &list[..count]), Ok(()), "seed {seed}: {case:X?}");
            judged += 1;
        } else {
            assert_eq!(count, 0, "seed {seed}");
        }
    }
    assert!(judged > 200);
}
