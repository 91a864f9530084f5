//! "The tree is written in the script's form".

use crate::script::{Body, Head, Message, Part};

/// The words of a whole tree, its CLOSE too.
pub fn written(tree: &Body) -> Vec<u32> {
    let mut writer = Writer { words: Vec::new(), receipts: Vec::new() };
    writer.body(tree);
    writer.words
}

struct Writer {
    words: Vec<u32>,
    /// The receipts around, each with the index at which its word is written.
    receipts: Vec<(u32, u32)>,
}

impl Writer {
    fn word(&mut self, kind: u32, operand: u32) {
        self.words.push(kind << 28 | operand);
    }

    /// "each body by rising part number": bodies are kept so.
    fn body(&mut self, body: &Body) {
        for part in body {
            self.part(part);
        }
        self.word(0, 0);
    }

    fn part(&mut self, part: &Part) {
        match &part.head {
            Head::Ambient(message) => {
                self.word(1, 0);
                self.message(message);
                self.body(&part.body);
            }
            Head::Action(items) => {
                self.word(2, 0);
                self.action(items);
                self.body(&part.body);
            }
            Head::Receipt(variable) => {
                self.receipts.push((*variable, self.words.len() as u32));
                self.word(3, 0);
                self.body(&part.body);
                self.receipts.pop();
            }
            Head::Output(message) => {
                self.word(4, 0);
                self.message(message);
            }
        }
    }

    /// "actions as their items (several as PATH item rest; none as one EMPTY)".
    fn action(&mut self, items: &[Message]) {
        let Some((last, others)) = items.split_last() else {
            return self.word(0xD, 0);
        };
        for item in others {
            self.word(0xE, 0);
            self.message(item);
        }
        self.message(last);
    }

    /// "VAR with the REC's new index".
    fn message(&mut self, message: &Message) {
        match message {
            Message::Name(name) => self.word(0x8, *name),
            Message::Var(variable) => {
                let receipt = self.receipts.iter().find(|(around, _)| around == variable);
                let (_, index) = *receipt.expect("the receipt stands around its variable");
                self.word(0x9, index);
            }
            Message::In(inside) => {
                self.word(0xA, 0);
                self.message(inside);
            }
            Message::Exit(inside) => {
                self.word(0xB, 0);
                self.message(inside);
            }
            Message::Open(inside) => {
                self.word(0xC, 0);
                self.message(inside);
            }
            Message::Empty => self.word(0xD, 0),
            Message::Path(first, second) => {
                self.word(0xE, 0);
                self.message(first);
                self.message(second);
            }
        }
    }
}
