//! A tree of parts with their numbers, which follows moves so that each can be put in words. It is document 01's plain machine
//! in small, for showing alone: nothing is proved of it, and it takes it that the checker has let the script and the moves in.
//!
//! Messages are shared and never changed, so that one that doubles with each receipt takes no more room.

use skycorbel::Move;
use std::fmt;
use std::rc::Rc;

/// A message, and what is asked of it again and again.
struct Message {
    form: Form,
    /// Whether it has items: leaves of its PATHs apart from EMPTY.
    has_items: bool,
    /// Whether a variable stands in it.
    is_open: bool,
}

enum Form {
    Name(u32),
    /// The number of its receipt's part.
    Variable(u8),
    In(Rc<Message>),
    Exit(Rc<Message>),
    Open(Rc<Message>),
    Empty,
    Path(Rc<Message>, Rc<Message>),
}

impl Message {
    fn new(form: Form) -> Rc<Message> {
        let (has_items, is_open) = match &form {
            Form::Name(_) => (true, false),
            Form::Variable(_) => (true, true),
            Form::In(inside) | Form::Exit(inside) | Form::Open(inside) => (true, inside.is_open),
            Form::Empty => (false, false),
            Form::Path(first, second) => (first.has_items || second.has_items, first.is_open || second.is_open),
        };
        Rc::new(Message { form, has_items, is_open })
    }

    /// A message is a name only if it is one NAME word.
    fn name(&self) -> Option<u32> {
        match self.form {
            Form::Name(name) => Some(name),
            _ => None,
        }
    }

    /// This message with another one for a receipt's variable.
    fn received(self: &Rc<Message>, receipt: u8, given: &Rc<Message>) -> Rc<Message> {
        if !self.is_open {
            return Rc::clone(self);
        }
        let inner = |message: &Rc<Message>| message.received(receipt, given);
        match &self.form {
            Form::Variable(own) if *own == receipt => Rc::clone(given),
            Form::In(inside) => Message::new(Form::In(inner(inside))),
            Form::Exit(inside) => Message::new(Form::Exit(inner(inside))),
            Form::Open(inside) => Message::new(Form::Open(inner(inside))),
            Form::Path(first, second) => Message::new(Form::Path(inner(first), inner(second))),
            Form::Name(_) | Form::Variable(_) | Form::Empty => Rc::clone(self),
        }
    }
}

impl fmt::Display for Message {
    fn fmt(&self, f: &mut fmt::Formatter) -> fmt::Result {
        match &self.form {
            Form::Name(name) => write!(f, "{name}"),
            Form::Variable(receipt) => write!(f, "the variable of part {receipt}"),
            Form::In(inside) => write!(f, "IN {inside}"),
            Form::Exit(inside) => write!(f, "EXIT {inside}"),
            Form::Open(inside) => write!(f, "OPEN {inside}"),
            Form::Empty => write!(f, "EMPTY"),
            Form::Path(first, second) => write!(f, "({first}, {second})"),
        }
    }
}

/// What an action still has to spend: its messages one after the other, the next one last.
#[derive(Clone)]
struct Items(Vec<Rc<Message>>);

impl Items {
    fn is_empty(&self) -> bool {
        self.0.iter().all(|message| !message.has_items)
    }

    /// Takes the first item away.
    fn spend(&mut self) -> Option<Rc<Message>> {
        loop {
            let next = self.0.pop()?;
            match &next.form {
                _ if !next.has_items => {}
                Form::Path(first, second) => self.0.extend([Rc::clone(second), Rc::clone(first)]),
                _ => return Some(next),
            }
        }
    }

    fn all(&self) -> Vec<Rc<Message>> {
        let mut left = self.clone();
        std::iter::from_fn(|| left.spend()).collect()
    }
}

impl fmt::Display for Items {
    fn fmt(&self, f: &mut fmt::Formatter) -> fmt::Result {
        if self.is_empty() {
            return f.write_str("EMPTY");
        }
        let items: Vec<String> = self.all().iter().map(|item| item.to_string()).collect();
        f.write_str(&items.join(", "))
    }
}

type Body = Vec<Part>;

struct Part {
    number: u8,
    kind: Kind,
    body: Body,
}

enum Kind {
    Ambient(Rc<Message>),
    Action(Items),
    Receipt,
    Output(Rc<Message>),
}

impl Part {
    fn name(&self) -> Option<u32> {
        match &self.kind {
            Kind::Ambient(message) => message.name(),
            _ => None,
        }
    }

    /// This part with a message for a receipt's variable, all that it holds too.
    fn receive(&mut self, receipt: u8, given: &Rc<Message>) {
        match &mut self.kind {
            Kind::Ambient(message) | Kind::Output(message) => *message = message.received(receipt, given),
            Kind::Action(Items(messages)) => messages.iter_mut().for_each(|message| *message = message.received(receipt, given)),
            Kind::Receipt => {}
        }
        self.body.iter_mut().for_each(|part| part.receive(receipt, given));
    }

    fn show(&self, f: &mut fmt::Formatter, depth: usize) -> fmt::Result {
        let (indent, number) = (4 * depth, self.number);
        match &self.kind {
            Kind::Ambient(message) => writeln!(f, "{:indent$}part {number}: ambient {message}", "")?,
            Kind::Action(items) => writeln!(f, "{:indent$}part {number}: action {items}", "")?,
            Kind::Receipt => writeln!(f, "{:indent$}part {number}: receipt", "")?,
            Kind::Output(message) => writeln!(f, "{:indent$}part {number}: output of {message}", "")?,
        }
        self.body.iter().try_for_each(|part| part.show(f, depth + 1))
    }
}

/// The parts that stand, each body by rising number.
pub struct Tree(Body);

impl Tree {
    /// The tree of a script; `None` for words that are none.
    pub fn read(script: &[u32]) -> Option<Tree> {
        let mut reader = Reader { words: script, next: 0, parts: 0, receipts: Vec::new() };
        let body = reader.body()?;
        Some(Tree(settled(body)))
    }

    /// Makes a move, and says it in words; `None` where it can't be made.
    pub fn make(&mut self, step: Move) -> Option<String> {
        let around = around(&self.0, step.actor)?;
        let body = body_at(&mut self.0, &around)?;
        let actor = body.iter_mut().find(|part| part.number == step.actor)?;
        let said = match &mut actor.kind {
            Kind::Receipt => receipt(body, step),
            Kind::Action(items) => match &items.spend()?.form {
                Form::In(aim) => enter(&mut self.0, &around, aim.name()?, step.target),
                Form::Exit(aim) => leave(&mut self.0, &around, aim.name()?, step.target),
                Form::Open(aim) => open(body, aim.name()?, step),
                _ => None,
            },
            Kind::Ambient(_) | Kind::Output(_) => None,
        };
        self.0 = settled(std::mem::take(&mut self.0));
        said
    }

    /// The tree in the script's form.
    pub fn words(&self) -> Vec<u32> {
        let mut writer = Writer { words: Vec::new(), receipts: Vec::new() };
        writer.body(&self.0);
        writer.words
    }
}

/// A part in a line, with those that it holds indented below it.
impl fmt::Display for Tree {
    fn fmt(&self, f: &mut fmt::Formatter) -> fmt::Result {
        if self.0.is_empty() {
            return writeln!(f, "no part");
        }
        self.0.iter().try_for_each(|part| part.show(f, 0))
    }
}

/// A body without the actions that have no items: what they hold stands in their place.
fn settled(body: Body) -> Body {
    let mut left = Vec::new();
    for mut part in body {
        match &part.kind {
            Kind::Action(items) if items.is_empty() => left.extend(settled(part.body)),
            Kind::Ambient(_) => {
                part.body = settled(part.body);
                left.push(part);
            }
            _ => left.push(part),
        }
    }
    left.sort_by_key(|part| part.number);
    left
}

/// The numbers of the ambients around a part, the outermost first.
fn around(body: &Body, number: u8) -> Option<Vec<u8>> {
    if body.iter().any(|part| part.number == number) {
        return Some(Vec::new());
    }
    let ambients = body.iter().filter(|part| matches!(part.kind, Kind::Ambient(_)));
    let inside = |part: &Part| Some([vec![part.number], around(&part.body, number)?].concat());
    ambients.into_iter().find_map(inside)
}

/// The body inside these ambients, one in the other.
fn body_at<'t>(body: &'t mut Body, around: &[u8]) -> Option<&'t mut Body> {
    around.iter().try_fold(body, |body, number| {
        let ambient = body.iter_mut().find(|part| part.number == *number)?;
        Some(&mut ambient.body)
    })
}

fn take(body: &mut Body, number: u8) -> Option<Part> {
    let at = body.iter().position(|part| part.number == number)?;
    Some(body.remove(at))
}

/// The ambient directly around the actor goes into another one beside it.
fn enter(top: &mut Body, around: &[u8], name: u32, target: u8) -> Option<String> {
    let (own, outer) = around.split_last()?;
    let beside = body_at(top, outer)?;
    let moved = take(beside, *own)?;
    let into = beside.iter_mut().find(|part| part.number == target && part.name() == Some(name))?;
    let said = format!("ambient {} (part {own}) enters ambient {name} (part {target})", moved.name()?);
    into.body.push(moved);
    Some(said)
}

/// The ambient directly around the actor comes out of the one around it.
fn leave(top: &mut Body, around: &[u8], name: u32, target: u8) -> Option<String> {
    let [outer @ .., left, own] = around else {
        return None;
    };
    let beside = body_at(top, outer)?;
    let from = beside.iter_mut().find(|part| part.number == *left && *left == target && part.name() == Some(name))?;
    let moved = take(&mut from.body, *own)?;
    let said = format!("ambient {} (part {own}) leaves ambient {name} (part {target})", moved.name()?);
    beside.push(moved);
    Some(said)
}

/// An ambient beside the actor goes, its body stays.
fn open(body: &mut Body, name: u32, step: Move) -> Option<String> {
    let opened = take(body, step.target).filter(|part| part.name() == Some(name))?;
    body.extend(opened.body);
    Some(format!("part {} opens ambient {name} (part {})", step.actor, step.target))
}

/// The receipt and the output go, the receipt's body stays and has the message for its variable.
fn receipt(body: &mut Body, step: Move) -> Option<String> {
    let mut receipt = take(body, step.actor)?;
    let Kind::Output(given) = take(body, step.target)?.kind else {
        return None;
    };
    receipt.body.iter_mut().for_each(|part| part.receive(step.actor, &given));
    body.extend(receipt.body);
    Some(format!("receipt (part {}) takes the message of part {}", step.actor, step.target))
}

struct Reader<'a> {
    words: &'a [u32],
    next: usize,
    parts: u8,
    /// The receipts read, each with its word's index and its part's number.
    receipts: Vec<(u32, u8)>,
}

impl Reader<'_> {
    fn word(&mut self) -> Option<(u32, u32)> {
        let word = self.words.get(self.next)?;
        self.next += 1;
        Some((word >> 28, word & 0x0FFF_FFFF))
    }

    fn body(&mut self) -> Option<Body> {
        let mut body = Vec::new();
        loop {
            let index = self.next as u32;
            let (kind, _) = self.word()?;
            if kind == 0 {
                return Some(body);
            }
            let number = self.parts;
            self.parts = number.checked_add(1)?;
            let kind = match kind {
                1 => Kind::Ambient(self.message()?),
                2 => Kind::Action(Items(vec![self.message()?])),
                3 => Kind::Receipt,
                4 => Kind::Output(self.message()?),
                _ => return None,
            };
            if let Kind::Receipt = kind {
                self.receipts.push((index, number));
            }
            let inside = if let Kind::Output(_) = kind { Vec::new() } else { self.body()? };
            body.push(Part { number, kind, body: inside });
        }
    }

    fn message(&mut self) -> Option<Rc<Message>> {
        let (kind, operand) = self.word()?;
        Some(Message::new(match kind {
            0x8 => Form::Name(operand),
            0x9 => Form::Variable(self.receipts.iter().find(|(index, _)| *index == operand)?.1),
            0xA => Form::In(self.message()?),
            0xB => Form::Exit(self.message()?),
            0xC => Form::Open(self.message()?),
            0xD => Form::Empty,
            0xE => Form::Path(self.message()?, self.message()?),
            _ => return None,
        }))
    }
}

struct Writer {
    words: Vec<u32>,
    /// The receipts written, each with its part's number and its word's index.
    receipts: Vec<(u8, u32)>,
}

impl Writer {
    fn word(&mut self, kind: u32, operand: u32) {
        self.words.push(kind << 28 | operand);
    }

    fn body(&mut self, body: &Body) {
        for part in body {
            match &part.kind {
                Kind::Ambient(message) => self.headed(1, message),
                Kind::Action(items) => self.action(&items.all()),
                Kind::Receipt => {
                    self.receipts.push((part.number, self.words.len() as u32));
                    self.word(3, 0);
                }
                Kind::Output(message) => self.headed(4, message),
            }
            if !matches!(part.kind, Kind::Output(_)) {
                self.body(&part.body);
            }
        }
        self.word(0, 0);
    }

    fn headed(&mut self, kind: u32, message: &Message) {
        self.word(kind, 0);
        self.message(message);
    }

    /// Several items as PATH item rest, none as one EMPTY.
    fn action(&mut self, items: &[Rc<Message>]) {
        self.word(2, 0);
        let Some((last, others)) = items.split_last() else {
            return self.word(0xD, 0);
        };
        for item in others {
            self.headed(0xE, item);
        }
        self.message(last);
    }

    fn message(&mut self, message: &Message) {
        match &message.form {
            Form::Name(name) => self.word(0x8, *name),
            Form::Variable(receipt) => {
                let written = self.receipts.iter().find(|(number, _)| number == receipt);
                self.word(0x9, written.map_or(0, |(_, index)| *index));
            }
            Form::In(inside) => self.headed(0xA, inside),
            Form::Exit(inside) => self.headed(0xB, inside),
            Form::Open(inside) => self.headed(0xC, inside),
            Form::Empty => self.word(0xD, 0),
            Form::Path(first, second) => {
                self.headed(0xE, first);
                self.message(second);
            }
        }
    }
}
