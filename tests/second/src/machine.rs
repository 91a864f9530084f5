//! "The plain machine": settling, the moves that are possible, and making one.

use crate::script::{Body, Head, Message, Part};
use crate::slip::{made, Slip};

/// The most words that the messages of one tree may have. Receipts can double messages again and again, and every
/// message is copied whole: a call that would go beyond is given up, not answered.
pub const MOST_MESSAGE_WORDS: u64 = 1 << 16;

/// A tree would have messages of more than `MOST_MESSAGE_WORDS` words.
#[derive(Debug)]
pub struct TooLarge;

/// A move: "a pair (actor, target)".
pub type Move = (u32, u32);

/// "An action with no items, under no ACT and no REC, is gone and its body stands in its place".
pub fn settle(body: Body) -> Body {
    let mut settled = Vec::new();
    for part in body {
        match &part.head {
            Head::Action(items) if has_none(items) => settled.extend(settle(part.body)),
            Head::Ambient(_) => settled.push(Part { body: settle(part.body), ..part }),
            Head::Receipt(_) if made(Slip::DropUnderReceipt) => settled.push(Part { body: settle(part.body), ..part }),
            Head::Action(_) | Head::Receipt(_) | Head::Output(_) => settled.push(part),
        }
    }
    sort(&mut settled);
    settled
}

fn has_none(items: &[Message]) -> bool {
    items.is_empty() || made(Slip::LengthOverflows) && items.len() as u8 == 0
}

fn sort(body: &mut Body) {
    body.sort_by_key(|part| part.number);
}

/// The name of an ambient that has one; other parts have none.
pub fn ambient_name(part: &Part) -> Option<u32> {
    match &part.head {
        Head::Ambient(message) => message.name(),
        _ => None,
    }
}

/// The moves that can be made now, by rising actor, then target.
pub fn possible_moves(tree: &Body) -> Vec<Move> {
    let mut moves = Vec::new();
    gather(tree, &[], &mut moves);
    moves.sort();
    moves
}

/// A named ambient around the body looked at, with the body in which it stands.
struct Around<'a> {
    ambient: &'a Part,
    beside: &'a Body,
}

/// The moves whose actor stands in this body or deeper inside named ambients: a move "needs every AMB around its actor to
/// have a name, and its parts to stand under no ACT or REC". The ambients around are given outermost first.
fn gather(body: &Body, around: &[&Around], moves: &mut Vec<Move>) {
    for part in body {
        match &part.head {
            Head::Action(items) => {
                for target in action_targets(items, body, around) {
                    moves.push((part.number, target));
                }
            }
            Head::Receipt(_) => {
                for target in body.iter().filter(|target| matches!(target.head, Head::Output(_))) {
                    moves.push((part.number, target.number));
                }
            }
            Head::Ambient(_) if ambient_name(part).is_some() || made(Slip::MoveInsideUnnamed) => {
                let here = Around { ambient: part, beside: body };
                let mut deeper = around.to_vec();
                deeper.push(&here);
                gather(&part.body, &deeper, moves);
            }
            Head::Ambient(_) | Head::Output(_) => {}
        }
    }
}

/// "The actor is an ACT whose first item is IN, EXIT or OPEN of a name m."
fn action_targets(items: &[Message], own_body: &Body, around: &[&Around]) -> Vec<u32> {
    match items.first() {
        Some(Message::In(inside)) => in_targets(inside.name(), around),
        Some(Message::Exit(inside)) => exit_targets(inside.name(), around),
        Some(Message::Open(inside)) => named(inside.name(), own_body),
        _ => Vec::new(),
    }
}

/// The ambients of a body that have the name m; none without a name m.
fn named(m: Option<u32>, body: &Body) -> Vec<u32> {
    let fits = |part: &&Part| m.is_some() && ambient_name(part) == m;
    body.iter().filter(fits).map(|part| part.number).collect()
}

/// "IN: the AMB p directly around the actor is named; the target is another AMB named m in the same body as p".
fn in_targets(m: Option<u32>, around: &[&Around]) -> Vec<u32> {
    let Some(p) = around.last() else {
        return Vec::new();
    };
    let mut targets = named(m, p.beside);
    targets.retain(|target| *target != p.ambient.number);
    targets
}

/// "EXIT: the target is the AMB named m directly around p, p named".
fn exit_targets(m: Option<u32>, around: &[&Around]) -> Vec<u32> {
    let [.., outer, _p] = around else {
        return Vec::new();
    };
    if m.is_some() && ambient_name(outer.ambient) == m {
        vec![outer.ambient.number]
    } else {
        Vec::new()
    }
}

/// Makes a move, which must be a possible one, and settles. The second answer says whether a receipt was made.
pub fn make_move(mut tree: Body, (actor, target): Move) -> Result<(Body, bool), TooLarge> {
    let item = spend(part_mut(&mut tree, actor));
    match item {
        Some(Message::In(_)) => go_in(&mut tree, actor, target),
        Some(Message::Exit(_)) => come_out(&mut tree, actor, target),
        Some(_) => open(&mut tree, target),
        None => receive(&mut tree, actor, target)?,
    }
    Ok((settle(tree), item.is_none()))
}

/// "The item is spent." A receipt has none.
fn spend(actor: &mut Part) -> Option<Message> {
    match &mut actor.head {
        Head::Action(items) => Some(items.remove(0)),
        _ => None,
    }
}

/// "p goes into it".
fn go_in(tree: &mut Body, actor: u32, target: u32) {
    let p = ambient_around(tree, actor);
    let p = take(tree, p);
    put(&mut part_mut(tree, target).body, vec![p]);
}

/// "p comes out beside it".
fn come_out(tree: &mut Body, actor: u32, target: u32) {
    let p = ambient_around(tree, actor);
    let p = take(tree, p);
    put(body_of(tree, target).expect("the target stands in the tree"), vec![p]);
}

/// "it goes, its body stays".
fn open(tree: &mut Body, target: u32) {
    let body = body_of(tree, target).expect("the target stands in the tree");
    let opened = take(body, target);
    put(body, opened.body);
}

/// "both go, the receipt's body stands there, and each of its VARs becomes the whole message".
fn receive(tree: &mut Body, actor: u32, target: u32) -> Result<(), TooLarge> {
    let words_before = message_words(tree);
    let body = body_of(tree, actor).expect("the actor stands in the tree");
    let receipt = take(body, actor);
    let output = take(body, target);
    let (Head::Receipt(variable), Head::Output(message)) = (receipt.head, output.head) else {
        panic!("a receipt takes an output");
    };
    let added = uses(&receipt.body, variable).saturating_mul(message.words());
    if words_before.saturating_add(added) > MOST_MESSAGE_WORDS {
        return Err(TooLarge);
    }
    put(body, substitute(&receipt.body, variable, &message));
    Ok(())
}

/// The whole message for the variable, everywhere in a body.
fn substitute(body: &Body, variable: u32, message: &Message) -> Body {
    let one = |part: &Part| Part {
        number: part.number,
        head: substitute_head(&part.head, variable, message),
        body: substitute(&part.body, variable, message),
    };
    body.iter().map(one).collect()
}

/// "where it is itself an item of an action, the message's items".
fn substitute_head(head: &Head, variable: u32, message: &Message) -> Head {
    match head {
        Head::Ambient(own) => Head::Ambient(own.substitute(variable, message)),
        Head::Output(Message::Var(_)) if made(Slip::StopAtVariable) => Head::Output(Message::Empty),
        Head::Output(own) => Head::Output(own.substitute(variable, message)),
        Head::Receipt(own) => Head::Receipt(*own),
        Head::Action(items) => {
            let mut new = Vec::new();
            for item in items {
                if *item == Message::Var(variable) {
                    new.extend(message.items());
                } else {
                    new.push(item.substitute(variable, message));
                }
            }
            Head::Action(new)
        }
    }
}

/// The messages of a part.
fn messages(head: &Head) -> &[Message] {
    match head {
        Head::Ambient(message) | Head::Output(message) => std::slice::from_ref(message),
        Head::Action(items) => items,
        Head::Receipt(_) => &[],
    }
}

/// A sum over every message of a body, however deep.
fn sum(body: &Body, count: &dyn Fn(&Message) -> u64) -> u64 {
    let one = |part: &Part| messages(&part.head).iter().map(count).sum::<u64>() + sum(&part.body, count);
    body.iter().map(one).sum()
}

fn message_words(body: &Body) -> u64 {
    sum(body, &|message| message.words())
}

fn uses(body: &Body, variable: u32) -> u64 {
    sum(body, &|message| message.uses(variable))
}

/// The body in which the part with this number stands, under no ACT and no REC.
fn body_of(body: &mut Body, number: u32) -> Option<&mut Body> {
    if body.iter().any(|part| part.number == number) {
        return Some(body);
    }
    let ambients = body.iter_mut().filter(|part| matches!(part.head, Head::Ambient(_)));
    ambients.map(|part| &mut part.body).find_map(|inside| body_of(inside, number))
}

fn part_mut(tree: &mut Body, number: u32) -> &mut Part {
    let body = body_of(tree, number).expect("the part stands in the tree");
    body.iter_mut().find(|part| part.number == number).expect("the part stands in its body")
}

/// The number of the ambient directly around a part that stands in one.
fn ambient_around(tree: &Body, number: u32) -> u32 {
    fn search(body: &Body, number: u32) -> Option<u32> {
        let inside = |part: &Part| part.body.iter().any(|inner| inner.number == number);
        match body.iter().find(|part| inside(part)) {
            Some(part) => Some(part.number),
            None => body.iter().find_map(|part| search(&part.body, number)),
        }
    }
    search(tree, number).expect("the part stands in an ambient")
}

/// Takes a part with all that it holds out of the tree.
fn take(tree: &mut Body, number: u32) -> Part {
    let body = body_of(tree, number).expect("the part stands in the tree");
    let at = body.iter().position(|part| part.number == number).expect("the part stands in its body");
    body.remove(at)
}

/// Puts parts into a body, which stays in rising order.
fn put(body: &mut Body, parts: Body) {
    body.extend(parts);
    sort(body);
}

/// "the parts in the tree", however deep.
pub fn count_parts(body: &Body) -> u32 {
    body.iter().map(|part| 1 + count_parts(&part.body)).sum()
}
