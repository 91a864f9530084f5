//! The tree that the example `explain` of hosts/rust keeps, on random calls: after the list it is the one that the proved call
//! writes, and it follows each itinerary.

#[path = "../../../hosts/rust/examples/explain/tree.rs"]
mod tree;

use host::outcome::Outcome;
use second::generate::{case, Case};
use second::{Verdict, LIST_WORDS};
use skycorbel::Move;
use tree::Tree;

/// Makes the moves of these words.
fn follow(tree: &mut Tree, words: &[u32]) {
    for word in words {
        let step = Move::from_word(*word).expect("a move word");
        tree.make(step).expect("a move that can be made");
    }
}

#[test]
fn it_follows_the_call() {
    let (mut accepted, mut followed) = (0, 0);
    for seed in 0..2000 {
        // with room for every tree and for an itinerary
        let case = Case { buffer: vec![0; 1 << 16], list: vec![0; LIST_WORDS], ..case(seed) };
        let Outcome { answer, out, list } = Outcome::proved(&case);
        let Verdict::Accepted(_) = answer.verdict else {
            continue;
        };
        let mut tree = Tree::read(&case.script).expect("a script");
        follow(&mut tree, &case.moves);
        assert_eq!(tree.words(), out[..answer.words as usize], "seed {seed}");
        follow(&mut tree, &list[..answer.itinerary as usize]);
        accepted += 1;
        followed += (answer.itinerary > 0) as u32;
        assert!(!tree.to_string().is_empty());
    }
    assert!(accepted > 700 && followed > 150, "{accepted} {followed}");
}
