//! The deepest walks, 256 visits one inside another, with 2 MiB of stack: the program's, and the call's with the longest
//! itinerary.

use host::program::{input, printed_on_stack};
use second::generate::errand;
use second::{Call, Verdict, LIST_WORDS};

const AMB: u32 = 0x1000_0000;
const ACT: u32 = 0x2000_0000;
const REC: u32 = 0x3000_0000;
const OUT: u32 = 0x4000_0000;
const NAME: u32 = 0x8000_0000;
const VAR: u32 = 0x9000_0000;
const IN: u32 = 0xA000_0000;
const EXIT: u32 = 0xB000_0000;
const EMPTY: u32 = 0xD000_0000;
const PATH: u32 = 0xE000_0000;

/// After a receipt 1 can go into 2 and out of it 256 times in a row.
fn in_and_out() -> Vec<u32> {
    let mut words = vec![OUT];
    words.extend([PATH, IN, NAME | 2, PATH, EXIT, NAME | 2].repeat(4));
    words.push(EMPTY);
    let variable = VAR | words.len() as u32;
    words.extend([REC, AMB, NAME | 1, ACT]);
    words.extend([PATH, variable].repeat(31));
    words.extend([variable, 0, 0, 0, AMB, NAME | 2, 0, 0]);
    words
}

/// The walk goes to depth 256 through the rule's words and the rest of it through SOMETIME.
fn deepest(rule: &[u32]) -> String {
    printed_on_stack(2048, &input(&in_and_out(), &[0x1000_0100], rule, 16_777_216))
}

#[test]
fn through_sometime() {
    assert_eq!(deepest(&[0x7000_0000, 0x3000_0000]), "refused 17 at 1\n");
    assert_eq!(deepest(&[0x7000_0000, 0x1000_0000, 0]), "refused 17 at 2\n");
}

/// A yes at depth 256, after 254 moves.
#[test]
fn to_a_yes() {
    let (script, _) = errand(254);
    let text = printed_on_stack(2048, &input(&script, &[], &[0x7000_0000, 0x3000_0000], 16_777_216));
    assert!(text.starts_with("yes moves 0 visits 510 deepest 256 weight 4 words"), "{text}");
}

/// The same yes, on a thread of a host: the call with its itinerary of 254 moves.
#[test]
fn the_longest_itinerary() {
    let on_thread = || {
        let (script, moves) = errand(254);
        let c = Call { script: &script, moves: &[], rule: &[0x7000_0000, 0x3000_0000], patience: 16_777_216 };
        let (mut out, mut list) = (vec![0; 4096], vec![0; LIST_WORDS]);
        let answer = host::call(&c, &mut out, &mut list);
        assert_eq!((answer.verdict, answer.deepest), (Verdict::Accepted(true), 256));
        assert_eq!(list[..answer.itinerary as usize], moves);
    };
    let thread = std::thread::Builder::new().stack_size(2 << 20).spawn(on_thread);
    thread.expect("a thread").join().expect("2 MiB are enough");
}

/// As many words of each kind as may be around a SOMETIME, which then goes down to 256. The script has five parts, so that
/// PLACED can make 59.
#[test]
fn through_every_kind() {
    for (around, times) in [(0x1000_0000, 62), (0x8000_0000, 62), (0x9000_0001, 59), (0x7000_0000, 62)] {
        let rule = [vec![around; times], vec![0x7000_0000, 0x3000_0000]].concat();
        assert_eq!(deepest(&rule), format!("refused 17 at {}\n", times + 1), "{around:X}");
    }
    // OR, BESIDE and SOME around it: the left rule, the first share and the first name.
    let or = [vec![0x2000_0000; 62], vec![0x7000_0000, 0x3000_0000], vec![0; 62]].concat();
    assert_eq!(deepest(&or), "refused 17 at 63\n");
    let some = [vec![0x6000_0000; 8], vec![0x7000_0000, 0x3000_0000]].concat();
    assert_eq!(deepest(&some), "refused 17 at 9\n");
    // BESIDE: nothing on the left, everything on the right.
    let beside = [[0x5000_0000, 0x3000_0000].repeat(62), vec![0x7000_0000, 0x3000_0000]].concat();
    assert_eq!(deepest(&beside), "refused 17 at 125\n");
    // AT: the process is put into an ambient, and its inside is asked again.
    let at = [[0x9000_0001, 0x4000_0001].repeat(31), vec![0x7000_0000, 0x3000_0000]].concat();
    assert_eq!(deepest(&at), "refused 17 at 63\n");
}

/// The deepest script and the deepest message beside the deepest walk: 64 bodies, 64 words IN.
#[test]
fn with_deep_scripts() {
    let bodies = [[AMB, NAME | 1].repeat(64), vec![0; 65]].concat();
    let rule = [vec![0x8000_0000; 60], vec![0x1000_0000, 0]].concat();
    let text = printed_on_stack(2048, &input(&bodies, &[], &rule, 16_777_216));
    assert!(text.starts_with("refused") || text.starts_with("no"), "{text}");
    let message = [vec![OUT], vec![IN; 64], vec![NAME | 1, 0]].concat();
    let text = printed_on_stack(2048, &input(&message, &[], &[0], 1));
    assert!(text.starts_with("yes moves 0 visits 1 deepest 1 weight 1 words 67\n"), "{text}");
}
