//! The rule and the reader that asks questions 7 to 11.

use crate::Refusal;

/// A rule with the index of its word.
#[derive(Clone, Debug)]
pub struct Rule {
    pub index: u32,
    pub kind: Kind,
}

#[derive(Clone, Debug)]
pub enum Kind {
    True,
    Not(Box<Rule>),
    Or(Box<Rule>, Box<Rule>),
    Void,
    At(Name, Box<Rule>),
    Beside(Box<Rule>, Box<Rule>),
    /// With d: "the SOMEs around, itself counted".
    Some(u32, Box<Rule>),
    Sometime(Box<Rule>),
    Somewhere(Box<Rule>),
    /// With j: "The j-th PLACED word (from 0)".
    Placed(u32, Name, Box<Rule>),
}

/// "a name 1 to 255, or with bit 27 set the index of a SOME around it".
#[derive(Clone, Copy, Debug)]
pub enum Name {
    Plain(u32),
    Variable(u32),
}

/// A rule that passed questions 7 to 11.
pub struct Read {
    pub rule: Rule,
    /// The number of its PLACED words.
    pub placed: u32,
    /// The greatest name among its operands, 0 if it has none.
    pub greatest_name: u32,
}

/// Questions 7 to 11.
pub fn read_rule(words: &[u32]) -> Result<Read, Refusal> {
    if words.is_empty() || words.len() > 256 {
        return Err(Refusal::new(7, 0));
    }
    let mut reader = Reader { words, next: 0, around: 0, somes: Vec::new(), placed: 0, greatest_name: 0 };
    let rule = reader.rule()?;
    if reader.next < words.len() {
        return Err(Refusal::new(11, reader.next));
    }
    Ok(Read { rule, placed: reader.placed, greatest_name: reader.greatest_name })
}

struct Reader<'a> {
    words: &'a [u32],
    /// The index of the first word not read yet.
    next: usize,
    /// The number of rules around the next word.
    around: u32,
    /// The indices of the SOMEs around the next word.
    somes: Vec<u32>,
    placed: u32,
    greatest_name: u32,
}

impl Reader<'_> {
    fn rule(&mut self) -> Result<Rule, Refusal> {
        let index = self.next;
        let Some(&word) = self.words.get(index) else {
            return Err(Refusal::new(11, index));
        };
        self.next += 1;
        let (kind, operand) = (word >> 28, word & 0x0FFF_FFFF);
        let name = self.name(kind, operand, index)?;
        let somes = self.somes.len() + (kind == 6) as usize;
        if self.around > 64 || somes > 8 {
            return Err(Refusal::new(10, index));
        }
        let kind = self.kind(kind, name, index as u32)?;
        Ok(Rule { index: index as u32, kind })
    }

    /// Questions 8 and 9. The name is that of AT and PLACED; for the other kinds it means nothing.
    fn name(&mut self, kind: u32, operand: u32, index: usize) -> Result<Name, Refusal> {
        match (kind, operand) {
            (4 | 9, 1..=255) => {
                self.greatest_name = self.greatest_name.max(operand);
                Ok(Name::Plain(operand))
            }
            (4 | 9, 0x0800_0000..) => {
                let variable = operand & 0x07FF_FFFF;
                if self.somes.contains(&variable) {
                    Ok(Name::Variable(variable))
                } else {
                    Err(Refusal::new(9, index))
                }
            }
            (0..=3 | 5..=8, 0) => Ok(Name::Plain(0)),
            _ => Err(Refusal::new(8, index)),
        }
    }

    /// The rules inside, which have this one around them.
    fn kind(&mut self, kind: u32, name: Name, index: u32) -> Result<Kind, Refusal> {
        self.around += 1;
        let kind = match kind {
            0 => Kind::True,
            1 => Kind::Not(self.inner()?),
            2 => Kind::Or(self.inner()?, self.inner()?),
            3 => Kind::Void,
            4 => Kind::At(name, self.inner()?),
            5 => Kind::Beside(self.inner()?, self.inner()?),
            6 => {
                self.somes.push(index);
                let inner = self.inner()?;
                let d = self.somes.len() as u32;
                self.somes.pop();
                Kind::Some(d, inner)
            }
            7 => Kind::Sometime(self.inner()?),
            8 => Kind::Somewhere(self.inner()?),
            _ => {
                let j = self.placed;
                self.placed += 1;
                Kind::Placed(j, name, self.inner()?)
            }
        };
        self.around -= 1;
        Ok(kind)
    }

    fn inner(&mut self) -> Result<Box<Rule>, Refusal> {
        Ok(Box::new(self.rule()?))
    }
}
