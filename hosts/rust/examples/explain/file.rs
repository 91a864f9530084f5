//! The text files of examples/, read as strictly as `run` reads them. A file has four headings, each alone in its line: script,
//! moves, rule, patience. Below them stand words of eight hexadecimal digits; '#' starts a comment.

use std::fmt;

/// What a file asks.
#[derive(Debug, PartialEq, Eq)]
pub struct Lists {
    pub script: Vec<u32>,
    pub moves: Vec<u32>,
    pub rule: Vec<u32>,
    pub patience: u32,
}

/// Why a file can't be read, and in which line.
#[derive(Debug, PartialEq, Eq)]
pub struct Wrong {
    line: Option<usize>,
    what: String,
}

/// What stands behind the file's name: `:12: 'xyz' is not a word of eight hexadecimal digits`.
impl fmt::Display for Wrong {
    fn fmt(&self, f: &mut fmt::Formatter) -> fmt::Result {
        match self.line {
            Some(line) => write!(f, ":{line}: {}", self.what),
            None => write!(f, ": {}", self.what),
        }
    }
}

const HEADINGS: [&str; 4] = ["script", "moves", "rule", "patience"];
const PATIENCE: usize = 3;

/// The words below a heading, and its line where it was met.
#[derive(Clone, Default)]
struct List {
    line: Option<usize>,
    words: Vec<u32>,
}

pub fn read(text: &[u8]) -> Result<Lists, Wrong> {
    let mut lists: [List; 4] = Default::default();
    let mut below = None;
    for (line, number) in text.split(|byte| *byte == b'\n').zip(1..) {
        read_line(&mut lists, &mut below, line, number).map_err(|what| Wrong { line: Some(number), what })?;
    }
    for (list, heading) in lists.iter().zip(HEADINGS) {
        if list.line.is_none() {
            return Err(Wrong { line: None, what: format!("the heading '{heading}' is missing") });
        }
    }
    let [script, moves, rule, patience] = lists;
    let Some(word) = patience.words.first() else {
        return Err(Wrong { line: patience.line, what: "patience has no word".to_string() });
    };
    Ok(Lists { script: script.words, moves: moves.words, rule: rule.words, patience: *word })
}

/// Reads a heading, or words below the heading of this index.
fn read_line(lists: &mut [List; 4], below: &mut Option<usize>, line: &[u8], number: usize) -> Result<(), String> {
    let fields = fields(line);
    let heading = fields.first().and_then(|first| HEADINGS.iter().position(|heading| heading == first));
    if let Some(heading) = heading {
        *below = Some(heading);
        return read_heading(&mut lists[heading], HEADINGS[heading], fields.len(), number);
    }
    if let [only] = &fields[..] {
        if only.bytes().all(|byte| byte.is_ascii_alphabetic()) && word(only).is_none() {
            return Err(format!("'{only}' is no heading (script, moves, rule, patience) and no word"));
        }
    }
    read_words(lists, *below, &fields)
}

fn read_heading(list: &mut List, name: &str, fields: usize, number: usize) -> Result<(), String> {
    if fields > 1 {
        return Err(format!("the heading '{name}' does not stand alone"));
    }
    match list.line.replace(number) {
        Some(_) => Err(format!("the heading '{name}' again")),
        None => Ok(()),
    }
}

fn read_words(lists: &mut [List; 4], below: Option<usize>, fields: &[String]) -> Result<(), String> {
    for field in fields {
        let Some(word) = word(field) else {
            return Err(format!("'{field}' is not a word of eight hexadecimal digits"));
        };
        let Some(heading) = below else {
            return Err(format!("'{field}' stands before the first heading"));
        };
        let words = &mut lists[heading].words;
        if heading == PATIENCE && !words.is_empty() {
            return Err(format!("'{field}' is a second word of patience, which has one"));
        }
        words.push(word);
    }
    Ok(())
}

/// What stands between blanks, without the comment.
fn fields(line: &[u8]) -> Vec<String> {
    let before = line.split(|byte| *byte == b'#').next().unwrap_or_default();
    let kept: Vec<u8> = before.iter().copied().filter(|byte| *byte != b'\r').collect();
    let parts = kept.split(|byte| matches!(byte, b' ' | b'\t')).filter(|part| !part.is_empty());
    parts.map(|part| String::from_utf8_lossy(part).into_owned()).collect()
}

/// A word of eight hexadecimal digits.
fn word(field: &str) -> Option<u32> {
    let digits = field.len() == 8 && field.bytes().all(|byte| byte.is_ascii_hexdigit());
    if digits {
        u32::from_str_radix(field, 16).ok()
    } else {
        None
    }
}
