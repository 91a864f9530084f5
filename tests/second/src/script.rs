//! "The script and its messages": messages, parts, and the reader that asks questions 1 to 6.

use crate::slip::{made, Slip};
use crate::Refusal;

/// A message as an owned tree; nothing in it is shared.
#[derive(Clone, Debug, PartialEq, Eq)]
pub enum Message {
    Name(u32),
    /// The operand: the index of the receipt's word.
    Var(u32),
    In(Box<Message>),
    Exit(Box<Message>),
    Open(Box<Message>),
    Empty,
    Path(Box<Message>, Box<Message>),
}

impl Message {
    /// "A message is a name only if it is one NAME word: EMPTY beside NAME is none."
    pub fn name(&self) -> Option<u32> {
        match self {
            Message::Name(name) => Some(*name),
            _ => None,
        }
    }

    /// "A message's leaves are what remains when its PATHs are opened; the inside of A, B, C isn't opened. Leaves apart
    /// from EMPTY are its items."
    pub fn items(&self) -> Vec<Message> {
        match self {
            Message::Path(first, second) => {
                let mut items = first.items();
                items.extend(second.items());
                items
            }
            Message::Empty => Vec::new(),
            leaf => vec![leaf.clone()],
        }
    }

    /// The words of this message.
    pub fn words(&self) -> u64 {
        match self {
            Message::Name(_) | Message::Var(_) | Message::Empty => 1,
            Message::In(inside) | Message::Exit(inside) | Message::Open(inside) => inside.words().saturating_add(1),
            Message::Path(first, second) => first.words().saturating_add(second.words()).saturating_add(1),
        }
    }

    /// How often the variable stands in this message.
    pub fn uses(&self, variable: u32) -> u64 {
        match self {
            Message::Var(other) => (*other == variable) as u64,
            Message::Name(_) | Message::Empty => 0,
            Message::In(inside) | Message::Exit(inside) | Message::Open(inside) => inside.uses(variable),
            Message::Path(first, second) => first.uses(variable) + second.uses(variable),
        }
    }

    /// "each of its VARs becomes the whole message".
    pub fn substitute(&self, variable: u32, given: &Message) -> Message {
        let inner = |message: &Message| Box::new(message.substitute(variable, given));
        match self {
            Message::Var(other) if *other == variable => given.clone(),
            Message::Name(_) | Message::Var(_) | Message::Empty => self.clone(),
            Message::In(inside) => Message::In(inner(inside)),
            Message::Exit(inside) => Message::Exit(inner(inside)),
            Message::Open(inside) => Message::Open(inner(inside)),
            Message::Path(first, second) => Message::Path(inner(first), inner(second)),
        }
    }
}

/// What a part is, without its number and its body.
#[derive(Clone, Debug, PartialEq, Eq)]
pub enum Head {
    Ambient(Message),
    /// "An action is held as its items."
    Action(Vec<Message>),
    /// "its variable is this word's index".
    Receipt(u32),
    Output(Message),
}

/// A part with its number; an output's body stays empty.
#[derive(Clone, Debug, PartialEq, Eq)]
pub struct Part {
    pub number: u32,
    pub head: Head,
    pub body: Body,
}

/// The parts of a body by rising number.
pub type Body = Vec<Part>;

/// A script that passed questions 1 to 6.
pub struct Script {
    /// The tree as read: nothing is settled yet.
    pub tree: Body,
    /// n, the number of its part words.
    pub parts: u32,
    /// The greatest operand of its NAME words, 0 if it has none.
    pub greatest_name: u32,
}

/// Questions 1 to 6.
pub fn read_script(words: &[u32]) -> Result<Script, Refusal> {
    if words.is_empty() || words.len() > 1024 {
        return Err(Refusal::new(1, 0));
    }
    let mut reader = Reader { words, next: 0, receipts: Vec::new(), parts: 0, greatest_name: 0 };
    let tree = reader.body(0)?;
    if reader.next < words.len() {
        return Err(Refusal::new(5, reader.next));
    }
    if reader.parts > 64 {
        return Err(Refusal::new(6, 0));
    }
    Ok(Script { tree, parts: reader.parts, greatest_name: reader.greatest_name })
}

struct Reader<'a> {
    words: &'a [u32],
    /// The index of the first word not read yet.
    next: usize,
    /// The indices of the RECs whose bodies hold the next word.
    receipts: Vec<u32>,
    /// The part words read so far.
    parts: u32,
    greatest_name: u32,
}

impl Reader<'_> {
    /// The next word with its index, as kind and operand. Without one the body does not end at the last word, but later:
    /// "5, .. or the length".
    fn word(&mut self) -> Result<(usize, u32, u32), Refusal> {
        let index = self.next;
        let Some(&word) = self.words.get(index) else {
            return Err(Refusal::new(5, index));
        };
        self.next += 1;
        Ok((index, word >> 28, word & 0x0FFF_FFFF))
    }

    /// "Parts (kinds 1 to 4) are numbered 0, 1, 2 in word order."
    fn number(&mut self) -> u32 {
        self.parts += 1;
        self.parts - 1
    }

    /// "A body is parts up to one CLOSE." Its words, the CLOSE too, have this nesting.
    fn body(&mut self, nesting: u32) -> Result<Body, Refusal> {
        let mut body = Vec::new();
        loop {
            let (index, kind, operand) = self.word()?;
            if kind > 4 || operand != 0 {
                return Err(Refusal::new(2, index));
            }
            at_most_64(nesting, index)?;
            if kind == 0 {
                if made(Slip::FirstPartOnly) {
                    body.truncate(1);
                }
                return Ok(body);
            }
            body.push(self.part(kind, index, nesting)?);
        }
    }

    /// The rest of a part behind its own word. Its message stands where the part's word stands, its body one deeper.
    fn part(&mut self, kind: u32, index: usize, nesting: u32) -> Result<Part, Refusal> {
        let number = self.number();
        let (head, body) = match kind {
            1 => (Head::Ambient(self.message(nesting)?), self.body(nesting + 1)?),
            2 => (Head::Action(self.message(nesting)?.items()), self.body(nesting + 1)?),
            3 => (Head::Receipt(index as u32), self.receipt_body(index as u32, nesting + 1)?),
            _ => (Head::Output(self.message(nesting)?), Vec::new()),
        };
        Ok(Part { number, head, body })
    }

    /// A body in which one more variable may be used.
    fn receipt_body(&mut self, variable: u32, nesting: u32) -> Result<Body, Refusal> {
        self.receipts.push(variable);
        let body = self.body(nesting)?;
        self.receipts.pop();
        Ok(body)
    }

    /// A message; a word inside A, B, C or E has one nesting more than that word.
    fn message(&mut self, nesting: u32) -> Result<Message, Refusal> {
        let (index, kind, operand) = self.word()?;
        let fits = match kind {
            0x8 => (1..=255).contains(&operand),
            0x9 => true,
            0xA..=0xE => operand == 0,
            _ => false,
        };
        if !fits {
            return Err(Refusal::new(2, index));
        }
        if kind == 0x9 && !self.receipts.contains(&operand) {
            return Err(Refusal::new(3, index));
        }
        at_most_64(nesting, index)?;
        Ok(match kind {
            0x8 => {
                self.greatest_name = self.greatest_name.max(operand);
                Message::Name(operand)
            }
            0x9 => Message::Var(operand),
            0xA => Message::In(Box::new(self.message(nesting + 1)?)),
            0xB => Message::Exit(Box::new(self.message(nesting + 1)?)),
            0xC => Message::Open(Box::new(self.message(nesting + 1)?)),
            0xD => Message::Empty,
            _ => {
                let first = self.message(nesting + 1)?;
                let second = self.message(nesting + 1)?;
                Message::Path(Box::new(first), Box::new(second))
            }
        })
    }
}

/// Question 4: "Is nesting at most 64?"
fn at_most_64(nesting: u32, index: usize) -> Result<(), Refusal> {
    if nesting > 64 {
        return Err(Refusal::new(4, index));
    }
    Ok(())
}
