//! Where full copying gives up.

use second::generate::doubled;
use second::{call, Call, LIST_WORDS};

#[test]
fn messages_that_double_are_given_up() {
    let (script, moves) = doubled(31);
    let c = Call { script: &script, moves: &moves, rule: &[0], patience: 1 };
    assert!(call(&c, &mut [0; 64], &mut [0; LIST_WORDS]).is_none());
}
