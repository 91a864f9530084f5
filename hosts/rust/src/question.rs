use core::fmt;

/// A question that a call asks of what it is lent: the first that is answered by no refuses the call.
///
/// A call asks 1 to 19 and 21; 20 is the program's, of its input's form. A number that this crate does not know is kept as it
/// is, so that a host understands the refusals of a later library as far as their number goes.
#[derive(Clone, Copy, Debug, PartialEq, Eq, PartialOrd, Ord, Hash)]
pub struct Question(u32);

/// The questions that a call asks, by their numbers: 1 to 19 in document 01's own words, the later ones from document 02.
const WORDS: [(u32, &str); 20] = [
    (1, "Has the script 1 to 1,024 words?"),
    (2, "Does this word's kind and operand fit (VAR: any operand)?"),
    (3, "Does VAR name a REC around it?"),
    (4, "Is nesting at most 64?"),
    (5, "Does the body end at the last word, no sooner or later?"),
    (6, "At most 64 parts?"),
    (7, "Has the rule 1 to 256 words?"),
    (8, "Does it fit (variable: any index)?"),
    (9, "Is the variable's SOME around it?"),
    (10, "Are at most 64 rules around it, and at most 8 SOMEs counting itself?"),
    (11, "Does the rule end at the last word?"),
    (12, "Parts plus PLACED words at most 64?"),
    (13, "Patience 1 to 16,777,216?"),
    (14, "At most 4,096 moves?"),
    (15, "Is it a move word, both numbers below n?"),
    (16, "Can the plain machine make it now?"),
    (17, "Depth at most 256?"),
    (18, "Are visits left?"),
    (19, "Does the tree that stands after the moves fit the output buffer, of which no more than the first 2^28 words count?"),
    (21, "Has the list buffer at least 256 words?"),
];

impl Question {
    /// The question of this number.
    pub const fn new(number: u32) -> Question {
        Question(number)
    }

    /// Its number in documents 01 and 02.
    pub const fn number(self) -> u32 {
        self.0
    }

    /// What it asks; `None` where no call that this crate knows of asks a question of this number.
    pub fn words(self) -> Option<&'static str> {
        WORDS.iter().find(|(number, _)| *number == self.0).map(|(_, words)| *words)
    }
}

/// `question 18: Are visits left?`, or the number alone where the words are not known.
impl fmt::Display for Question {
    fn fmt(&self, f: &mut fmt::Formatter) -> fmt::Result {
        match self.words() {
            Some(words) => write!(f, "question {}: {words}", self.0),
            None => write!(f, "question {}", self.0),
        }
    }
}
