//! "The rule and its walk": the visits, with questions 17 and 18.

use crate::machine::{ambient_name, make_move, possible_moves, Move, TooLarge};
use crate::rule::{Kind, Name, Rule};
use crate::script::{Body, Head, Message, Part};
use crate::slip::{made, Slip};
use crate::Refusal;

/// Why a walk ends without yes or no.
pub enum Stop {
    Refused(Refusal),
    TooLarge,
}

impl From<TooLarge> for Stop {
    fn from(_: TooLarge) -> Stop {
        Stop::TooLarge
    }
}

pub struct Walk {
    /// "the most visits that may be made".
    pub patience: u32,
    /// G: "the greatest name in script and rule (0 if none)".
    pub greatest_name: u32,
    /// n: "the script's parts".
    pub parts: u32,
    pub visits: u32,
    /// "the greatest depth".
    pub deepest: u32,
    /// The names chosen for the SOMEs around, each with its SOME's index.
    pub names: Vec<(u32, u32)>,
    /// Where the rule's first word is SOMETIME, the moves that it has made so far: after a yes those that lead there.
    pub way: Vec<Move>,
}

impl Walk {
    /// One visit, and those made from it.
    pub fn visit(&mut self, rule: &Rule, process: &Body, depth: u32) -> Result<bool, Stop> {
        if depth > 256 {
            return Err(Stop::Refused(Refusal::new(17, rule.index as usize)));
        }
        if self.visits == self.patience {
            return Err(Stop::Refused(Refusal::new(18, rule.index as usize)));
        }
        self.visits += 1;
        self.deepest = self.deepest.max(depth);
        let deeper = depth + 1;
        match &rule.kind {
            Kind::True => Ok(true),
            Kind::Void => Ok(process.is_empty()),
            Kind::Not(inner) => Ok(!self.visit(inner, process, deeper)?),
            Kind::Or(left, right) => Ok(self.visit(left, process, deeper)? || self.visit(right, process, deeper)?),
            Kind::At(name, inner) => self.at(*name, inner, process, deeper),
            Kind::Beside(left, right) => self.beside(left, right, process, deeper),
            Kind::Some(d, inner) => self.some(rule.index, *d, inner, process, deeper),
            Kind::Sometime(inner) => self.sometime(rule, inner, process, deeper),
            Kind::Somewhere(inner) => self.somewhere(rule, inner, process, deeper),
            Kind::Placed(j, name, inner) => self.placed(*j, *name, inner, process, deeper),
        }
    }

    fn name(&self, name: Name) -> u32 {
        match name {
            Name::Plain(name) => name,
            Name::Variable(index) => {
                let chosen = self.names.iter().find(|(some, _)| *some == index);
                chosen.expect("the SOME stands around its variable").1
            }
        }
    }

    /// "AT n, just one top part, an AMB named n, its inside meets the rule".
    fn at(&mut self, name: Name, inner: &Rule, process: &Body, deeper: u32) -> Result<bool, Stop> {
        match process.as_slice() {
            [only] if ambient_name(only) == Some(self.name(name)) => self.visit(inner, &only.body, deeper),
            _ => Ok(false),
        }
    }

    /// "shares in rising order of the sum of 2^number over their parts, left with the share, on yes right with the rest".
    fn beside(&mut self, left: &Rule, right: &Rule, process: &Body, deeper: u32) -> Result<bool, Stop> {
        // The bits of `share` are the process's parts by rising number, so that its sums rise as `share` does.
        let mut share = 0u128;
        while share < 1 << process.len() {
            let (mine, rest) = divide(process, share);
            if self.visit(left, &mine, deeper)? && self.visit(right, &rest, deeper)? {
                return Ok(true);
            }
            share += 1;
        }
        Ok(false)
    }

    /// "names 1 to G + d in order".
    fn some(&mut self, index: u32, d: u32, inner: &Rule, process: &Body, deeper: u32) -> Result<bool, Stop> {
        let fresh = if made(Slip::NamesInUse) { 0 } else { d };
        for name in 1..=self.greatest_name + fresh {
            self.names.push((index, name));
            let yes = self.visit(inner, process, deeper)?;
            self.names.pop();
            if yes {
                return Ok(true);
            }
        }
        Ok(false)
    }

    /// "the inner rule; on no, SOMETIME after each move by rising actor, then target".
    fn sometime(&mut self, rule: &Rule, inner: &Rule, process: &Body, deeper: u32) -> Result<bool, Stop> {
        if self.visit(inner, process, deeper)? {
            return Ok(true);
        }
        let is_first = rule.index == 0;
        for next in possible_moves(process) {
            let (moved, _) = make_move(process.clone(), next)?;
            self.way.extend(is_first.then_some(next));
            if self.visit(rule, &moved, deeper)? {
                return Ok(true);
            }
            if is_first {
                self.way.pop();
            }
        }
        Ok(false)
    }

    /// "the inner rule; on no, SOMEWHERE inside each named top AMB by rising number".
    fn somewhere(&mut self, rule: &Rule, inner: &Rule, process: &Body, deeper: u32) -> Result<bool, Stop> {
        if self.visit(inner, process, deeper)? {
            return Ok(true);
        }
        for part in process.iter().filter(|part| ambient_name(part).is_some()) {
            if self.visit(rule, &part.body, deeper)? {
                return Ok(true);
            }
        }
        Ok(false)
    }

    /// "PLACED n, the process wrapped in n"; "The j-th PLACED word (from 0) makes part n + j".
    fn placed(&mut self, j: u32, name: Name, inner: &Rule, process: &Body, deeper: u32) -> Result<bool, Stop> {
        let head = Head::Ambient(Message::Name(self.name(name)));
        let wrapped = Part { number: self.parts + j, head, body: process.clone() };
        self.visit(inner, &vec![wrapped], deeper)
    }
}

/// "A split keeps only its share": the parts whose bits are set, and the rest.
fn divide(process: &Body, share: u128) -> (Body, Body) {
    let (mut mine, mut rest) = (Vec::new(), Vec::new());
    for (bit, part) in process.iter().enumerate() {
        let side = if share >> bit & 1 == 1 { &mut mine } else { &mut rest };
        side.push(part.clone());
    }
    (mine, rest)
}
