/// A move: the parts that act and that are acted on, by their numbers in the script.
///
/// A move word has 1 in its top four bits, the actor in bits 8 to 15 and the target in bits 0 to 7; its other bits are zero.
#[derive(Clone, Copy, Debug, PartialEq, Eq, PartialOrd, Ord, Hash)]
pub struct Move {
    /// The number of the action that moves its ambient or opens one, or of the receipt that takes a message.
    pub actor: u8,
    /// The number of the ambient that is entered, left or opened, or of the output whose message is taken.
    pub target: u8,
}

impl Move {
    /// The move of a move word; `None` for any other word.
    pub const fn from_word(word: u32) -> Option<Move> {
        let [kind, zero, actor, target] = word.to_be_bytes();
        if kind == 0x10 && zero == 0 {
            Some(Move { actor, target })
        } else {
            None
        }
    }

    /// Its word.
    pub const fn word(self) -> u32 {
        u32::from_be_bytes([0x10, 0, self.actor, self.target])
    }
}
