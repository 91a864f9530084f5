//! Random calls, the same ones from the same seed: scripts that move, lists of moves that can be made, rules that fit what
//! stands, half of them with SOMETIME first, patience that just suffices and just does not; then damaged words, and every
//! limit at and one beyond.

use crate::itinerary::MOST_MOVES;
use crate::machine::{ambient_name, make_move, possible_moves, settle, Move};
use crate::script::{read_script, Body};
use crate::{call, Answer, Call, LIST_WORDS};

/// A call with both buffers as they are before.
#[derive(Clone, Debug, PartialEq, Eq)]
pub struct Case {
    pub script: Vec<u32>,
    pub moves: Vec<u32>,
    pub rule: Vec<u32>,
    pub patience: u32,
    pub buffer: Vec<u32>,
    pub list: Vec<u32>,
}

impl Case {
    pub fn call(&self) -> Call<'_> {
        Call { script: &self.script, moves: &self.moves, rule: &self.rule, patience: self.patience }
    }
}

/// Bounds of an ordinary case.
#[derive(Clone, Copy, Debug)]
pub struct Size {
    pub parts: u32,
    pub script_words: usize,
    pub rule_words: usize,
    pub moves: usize,
    /// No walk goes further than so many visits, whatever the patience.
    pub visits: u32,
}

impl Size {
    pub const SMALL: Size = Size { parts: 7, script_words: 24, rule_words: 8, moves: 6, visits: 300 };
    pub const MIDDLE: Size = Size { parts: 14, script_words: 60, rule_words: 14, moves: 20, visits: 5_000 };
    pub const LARGE: Size = Size { parts: 50, script_words: 400, rule_words: 60, moves: 100, visits: 50_000 };
}

/// The case of a seed: of any size and any sort.
pub fn case(seed: u64) -> Case {
    let mut random = Random::new(seed);
    let size = *random.pick(&[Size::SMALL, Size::MIDDLE, Size::MIDDLE, Size::LARGE]);
    match random.below(10) {
        0..=6 => ordinary(&mut random, size),
        7..=8 => damaged(&mut random, size),
        _ => limit(&mut random),
    }
}

/// The case of a seed within bounds; one in five is damaged.
pub fn case_of_size(seed: u64, size: Size) -> Case {
    let mut random = Random::new(seed);
    match random.below(5) {
        0..=3 => ordinary(&mut random, size),
        _ => damaged(&mut random, size),
    }
}

/// The case of a seed within bounds that passes the door, with room for its tree and its itinerary. Those of even seeds begin
/// with SOMETIME.
pub fn answered_case(seed: u64, size: Size) -> Case {
    let mut random = Random::new(seed);
    let names = few_names(&mut random);
    let case = if seed % 2 == 0 { looking_ahead(&mut random, &names, size) } else { looking_around(&mut random, &names, size) };
    let list = (0..LIST_WORDS + random.below(3)).map(|_| random.next() as u32).collect();
    let buffer = (0..1024).map(|_| random.next() as u32).collect();
    Case { buffer, list, ..case }
}

/// Random numbers by shifts and exclusive or (Marsaglia's xorshift with 64 bits).
pub struct Random(u64);

impl Random {
    pub fn new(seed: u64) -> Random {
        // Neighbouring seeds are spread over all bits, and the state is never 0.
        let mut state = seed.wrapping_add(0x9E37_79B9_7F4A_7C15);
        state = (state ^ state >> 30).wrapping_mul(0xBF58_476D_1CE4_E5B9);
        state = (state ^ state >> 27).wrapping_mul(0x94D0_49BB_1331_11EB);
        Random((state ^ state >> 31) | 1)
    }

    fn next(&mut self) -> u64 {
        self.0 ^= self.0 << 13;
        self.0 ^= self.0 >> 7;
        self.0 ^= self.0 << 17;
        self.0
    }

    /// A number below the bound.
    fn below(&mut self, bound: usize) -> usize {
        ((self.next() >> 16) % bound as u64) as usize
    }

    fn one_in(&mut self, bound: usize) -> bool {
        self.below(bound) == 0
    }

    fn pick<'a, T>(&mut self, from: &'a [T]) -> &'a T {
        &from[self.below(from.len())]
    }
}

// Words.

const CLOSE: u32 = 0x0000_0000;
const AMB: u32 = 0x1000_0000;
const ACT: u32 = 0x2000_0000;
const REC: u32 = 0x3000_0000;
const OUT: u32 = 0x4000_0000;
const NAME: u32 = 0x8000_0000;
const VAR: u32 = 0x9000_0000;
const IN: u32 = 0xA000_0000;
const EXIT: u32 = 0xB000_0000;
const OPEN: u32 = 0xC000_0000;
const EMPTY: u32 = 0xD000_0000;
const PATH: u32 = 0xE000_0000;

const TRUE: u32 = 0x0000_0000;
const NOT: u32 = 0x1000_0000;
const OR: u32 = 0x2000_0000;
const VOID: u32 = 0x3000_0000;
const AT: u32 = 0x4000_0000;
const BESIDE: u32 = 0x5000_0000;
const SOME: u32 = 0x6000_0000;
const SOMETIME: u32 = 0x7000_0000;
const SOMEWHERE: u32 = 0x8000_0000;
const PLACED: u32 = 0x9000_0000;
const VARIABLE: u32 = 0x0800_0000;

fn move_word(actor: u32, target: u32) -> u32 {
    0x1000_0000 | actor << 8 | target
}

/// A few names, so that ambients and actions often fit each other.
fn few_names(random: &mut Random) -> Vec<u32> {
    match random.below(12) {
        0 => vec![1, 255],
        1 => vec![1 + random.below(20) as u32, 1 + random.below(20) as u32],
        2..=3 => vec![1],
        4..=8 => vec![1, 2],
        9..=10 => vec![1, 2, 3],
        _ => vec![1, 2, 3, 4],
    }
}

/// Writes a random script from left to right.
struct Scripts<'a> {
    random: &'a mut Random,
    names: &'a [u32],
    words: Vec<u32>,
    /// The indices of the RECs around the next word.
    receipts: Vec<u32>,
    /// The first message words of the AMBs around the next word.
    ambients: Vec<u32>,
    parts_left: u32,
    most_words: usize,
}

impl Scripts<'_> {
    fn word(&mut self, word: u32) {
        self.words.push(word);
    }

    fn body(&mut self, depth: usize) {
        let few = 40 + self.random.below(45);
        while self.parts_left > 0 && self.words.len() < self.most_words && depth < 12 {
            if self.random.below(100) >= if depth == 0 { 92 } else { few } {
                break;
            }
            self.part(depth);
        }
        self.word(CLOSE);
    }

    fn part(&mut self, depth: usize) {
        match self.random.below(100) {
            0..=36 => self.ambient(depth),
            37..=56 => self.action(depth),
            57..=84 => self.exchange(depth),
            85..=93 => self.output(),
            _ => self.receipt(depth),
        }
    }

    fn begin(&mut self, word: u32) {
        self.parts_left = self.parts_left.saturating_sub(1);
        self.word(word);
    }

    fn ambient(&mut self, depth: usize) {
        self.begin(AMB);
        let message = self.words.len();
        match self.random.below(25) {
            0 => self.capability(2),
            1 => self.path(2, 2),
            2 => self.word(EMPTY),
            3 => self.nearly_a_name(),
            4..=7 => self.variable_or_name(),
            _ => self.name(),
        }
        self.ambients.push(self.words[message]);
        self.body(depth + 1);
        self.ambients.pop();
    }

    /// EMPTY beside NAME, or NAME beside EMPTY.
    fn nearly_a_name(&mut self) {
        self.word(PATH);
        if self.random.one_in(2) {
            self.word(EMPTY);
            self.variable_or_name();
        } else {
            self.variable_or_name();
            self.word(EMPTY);
        }
    }

    fn action(&mut self, depth: usize) {
        self.begin(ACT);
        if self.random.one_in(15) {
            self.words.extend(*self.random.pick(&[&[EMPTY][..], &[PATH, EMPTY, EMPTY]]));
        } else {
            let count = *self.random.pick(&[1, 1, 1, 2, 2, 3, 4]);
            self.path(count, 2);
        }
        self.body(depth + 1);
    }

    fn receipt(&mut self, depth: usize) {
        let index = self.words.len() as u32;
        self.begin(REC);
        self.receipts.push(index);
        if self.random.one_in(3) {
            self.use_of(index, depth);
        }
        self.body(depth + 1);
        self.receipts.pop();
    }

    /// A part in which this variable is used for certain.
    fn use_of(&mut self, index: u32, depth: usize) {
        let variable = VAR | index;
        match self.random.below(6) {
            0 => {
                self.begin(AMB);
                self.word(variable);
                self.body(depth + 2);
            }
            1 => {
                self.begin(ACT);
                self.word(variable);
                self.body(depth + 2);
            }
            2 => {
                self.begin(ACT);
                let capability = *self.random.pick(&[IN, EXIT, OPEN]);
                self.word(capability);
                self.word(variable);
                self.body(depth + 2);
            }
            3 => {
                self.begin(OUT);
                self.words.extend([PATH, variable, variable]);
            }
            4 => {
                self.begin(ACT);
                self.words.extend([PATH, EMPTY, variable]);
                self.begin(ACT);
                self.word(variable);
                self.body(depth + 3);
                self.body(depth + 2);
            }
            _ => {
                self.begin(AMB);
                self.name();
                self.begin(ACT);
                self.words.extend([PATH, variable, variable]);
                self.body(depth + 3);
                self.body(depth + 2);
            }
        }
    }

    fn output(&mut self) {
        self.begin(OUT);
        match self.random.below(20) {
            0..=6 => self.name(),
            7..=10 => self.capability(2),
            11..=13 => self.word(EMPTY),
            14..=15 => self.variable_or_name(),
            16 => self.nearly_a_name(),
            _ => self.path(2, 2),
        }
    }

    /// An output and a receipt beside each other, in either order.
    fn exchange(&mut self, depth: usize) {
        if self.random.one_in(2) {
            self.output();
            self.receipt(depth);
        } else {
            self.receipt(depth);
            self.output();
        }
    }

    fn name(&mut self) {
        let name = *self.random.pick(self.names);
        self.word(NAME | name);
    }

    /// For EXIT mostly what the ambient two around is called, for the others any name.
    fn fitting_name(&mut self, capability: u32) {
        match self.ambients.as_slice() {
            [.., outer, _] if capability == EXIT && outer >> 28 == NAME >> 28 && !self.random.one_in(4) => self.word(*outer),
            _ => self.name(),
        }
    }

    fn variable_or_name(&mut self) {
        if self.receipts.is_empty() {
            return self.name();
        }
        let variable = *self.random.pick(&self.receipts);
        self.word(VAR | variable);
    }

    fn capability(&mut self, deep: usize) {
        let capability = *self.random.pick(&[IN, EXIT, OPEN]);
        self.word(capability);
        match self.random.below(30) {
            0 if deep > 0 => self.capability(deep - 1),
            1 if deep > 0 => self.path(2, deep - 1),
            2 => self.word(EMPTY),
            3 => self.nearly_a_name(),
            4..=8 => self.variable_or_name(),
            _ => self.fitting_name(capability),
        }
    }

    /// A path of so many elements, its PATHs in any shape.
    fn path(&mut self, count: usize, deep: usize) {
        if count > 1 {
            let first = 1 + self.random.below(count - 1);
            self.word(PATH);
            self.path(first, deep);
            return self.path(count - first, deep);
        }
        match self.random.below(20) {
            0 => self.word(EMPTY),
            1 => self.name(),
            2 if deep > 0 => self.path(2, deep - 1),
            3..=7 => self.variable_or_capability(deep),
            _ => self.capability(deep),
        }
    }

    fn variable_or_capability(&mut self, deep: usize) {
        if self.receipts.is_empty() {
            self.capability(deep);
        } else {
            self.variable_or_name();
        }
    }
}

fn random_script(random: &mut Random, names: &[u32], size: Size) -> Vec<u32> {
    let parts_left = 1 + random.below(size.parts as usize) as u32;
    let most_words = size.script_words;
    let (words, receipts, ambients) = (Vec::new(), Vec::new(), Vec::new());
    let mut scripts = Scripts { random, names, words, receipts, ambients, parts_left, most_words };
    scripts.body(0);
    scripts.words
}

/// Moves made from a tree as long as there are some, at most so many; and the tree that then stands.
fn random_moves(random: &mut Random, tree: Body, most: usize) -> (Vec<u32>, Body) {
    moves_picked(tree, most, |possible| *random.pick(possible))
}

/// The same with mostly those moves that a walk tries first.
fn early_moves(random: &mut Random, tree: Body, most: usize) -> (Vec<u32>, Body) {
    moves_picked(tree, most, |possible| if random.one_in(5) { *random.pick(possible) } else { possible[0] })
}

fn moves_picked(mut tree: Body, most: usize, mut pick: impl FnMut(&[Move]) -> Move) -> (Vec<u32>, Body) {
    let mut words = Vec::new();
    while words.len() < most {
        let possible = possible_moves(&tree);
        if possible.is_empty() {
            break;
        }
        let (actor, target) = pick(&possible);
        let Ok((moved, _)) = make_move(tree.clone(), (actor, target)) else {
            break;
        };
        tree = moved;
        words.push(move_word(actor, target));
    }
    (words, tree)
}

/// Writes a random rule from left to right.
struct Rules<'a> {
    random: &'a mut Random,
    names: &'a [u32],
    words: Vec<u32>,
    /// The indices of the SOMEs around the next word.
    somes: Vec<u32>,
    placed_left: u32,
    most_words: usize,
}

impl Rules<'_> {
    fn word(&mut self, word: u32) {
        self.words.push(word);
    }

    /// AT or PLACED, with a name or the variable of a SOME around it.
    fn named(&mut self, kind: u32) {
        if !self.somes.is_empty() && !self.random.one_in(3) {
            let some = *self.random.pick(&self.somes);
            return self.word(kind | VARIABLE | some);
        }
        let name = if self.random.one_in(12) { 1 + self.random.below(8) as u32 } else { *self.random.pick(self.names) };
        self.word(kind | name);
    }

    fn some(&mut self, inner: impl FnOnce(&mut Self, u32)) {
        let index = self.words.len() as u32;
        self.word(SOME);
        self.somes.push(index);
        inner(self, index);
        self.somes.pop();
    }

    /// Any rule, the smaller the deeper it stands.
    fn any(&mut self, depth: usize) {
        let room = depth < 40 && self.words.len() + 2 * depth < self.most_words;
        let kind = if room { self.random.below(22) } else { self.random.below(3) };
        match kind {
            0 => self.word(TRUE),
            1..=2 => self.word(VOID),
            3..=5 => {
                self.word(NOT);
                self.any(depth + 1);
            }
            6 => {
                self.word(OR);
                self.any(depth + 1);
                self.any(depth + 1);
            }
            7..=9 => {
                self.word(BESIDE);
                self.any(depth + 1);
                self.any(depth + 1);
            }
            10..=13 => {
                self.named(AT);
                self.any(depth + 1);
            }
            14..=16 if self.somes.len() < 8 => self.some(|rules, _| rules.any(depth + 1)),
            17..=18 => {
                self.word(SOMEWHERE);
                self.any(depth + 1);
            }
            19 if self.placed_left > 0 => {
                self.placed_left -= 1;
                self.named(PLACED);
                self.any(depth + 1);
            }
            _ => {
                self.word(SOMETIME);
                self.any(depth + 1);
            }
        }
    }

    /// A rule that such a tree meets, unless something is changed on purpose.
    fn fitting(&mut self, tree: &Body, depth: usize) {
        if self.words.len() + depth >= self.most_words || self.random.one_in(12) {
            return self.any(depth + 20);
        }
        match tree.as_slice() {
            [] => self.word(VOID),
            [only] => match ambient_name(only) {
                Some(_) if self.random.one_in(4) && self.somes.len() < 8 => self.some(|rules, index| {
                    let some = if rules.random.one_in(8) { rules.somes[0] } else { index };
                    rules.word(AT | VARIABLE | some);
                    rules.fitting(&only.body, depth + 2);
                }),
                Some(name) if name < 256 => {
                    self.word(AT | name);
                    self.fitting(&only.body, depth + 1);
                }
                _ => {
                    self.word(NOT);
                    self.word(VOID);
                }
            },
            [first, rest @ ..] => {
                self.word(BESIDE);
                let (left, right) = (vec![first.clone()], rest.to_vec());
                let (left, right) = if self.random.one_in(2) { (left, right) } else { (right, left) };
                self.fitting(&left, depth + 1);
                self.fitting(&right, depth + 1);
            }
        }
    }

    /// A rule about what stands, or about what can stand after some more moves.
    fn about(&mut self, tree: &Body) {
        if self.random.one_in(6) {
            self.word(NOT);
        }
        match self.random.below(8) {
            0 => self.fitting(tree, 0),
            1 => {
                self.word(SOMEWHERE);
                let mut inside = tree;
                while let Some(part) = inside.iter().find(|part| ambient_name(part).is_some()) {
                    inside = &part.body;
                    if self.random.one_in(2) {
                        break;
                    }
                }
                self.fitting(inside, 1);
            }
            2 if self.placed_left > 0 => {
                self.placed_left -= 1;
                let name = *self.random.pick(self.names);
                self.word(PLACED | name);
                if self.random.one_in(2) {
                    self.word(SOMETIME);
                }
                self.word(AT | name);
                self.fitting(tree, 3);
            }
            3 if self.placed_left > 1 => self.about_two_placed(),
            _ => self.about_later(tree),
        }
    }
}

impl Rules<'_> {
    /// SOMETIME, then a rule about what stands after some more moves, or any.
    fn sometime_first(&mut self, tree: &Body) {
        self.word(SOMETIME);
        if self.random.one_in(4) {
            return self.any(1);
        }
        let more = 1 + self.random.below(12);
        let (_, later) = early_moves(self.random, tree.clone(), more);
        self.fitting(&later, 1);
    }

    /// A rule about what stands, or any; behind NOT NOT too.
    fn anything_first(&mut self, tree: &Body) {
        if self.random.one_in(8) {
            self.words.extend([NOT, NOT]);
        }
        if self.random.one_in(2) {
            self.about(tree);
        } else {
            self.any(0);
        }
    }

    /// SOMETIME and what a tree meets that stands after some moves.
    fn about_later(&mut self, tree: &Body) {
        let more = 1 + self.random.below(4);
        let (_, later) = random_moves(self.random, tree.clone(), more);
        self.word(SOMETIME);
        self.fitting(&later, 1);
    }

    /// The process in one name inside another one, and the two of them beside each other after some moves.
    fn about_two_placed(&mut self) {
        self.placed_left -= 2;
        let (inner, outer) = (*self.random.pick(self.names), *self.random.pick(self.names));
        self.words.extend([PLACED | inner, PLACED | outer, SOMETIME, BESIDE]);
        if self.random.one_in(2) {
            self.words.extend([AT | inner, TRUE, AT | outer]);
        } else {
            self.words.extend([AT | outer, VOID, AT | inner]);
        }
        self.any(7);
    }
}

/// A rule that begins with SOMETIME, or one that does not.
fn random_rule(random: &mut Random, names: &[u32], played: &Played, size: Size, sometime_first: bool) -> Vec<u32> {
    loop {
        let (placed_left, most_words) = (64 - played.parts, size.rule_words);
        let mut rules = Rules { random, names, words: Vec::new(), somes: Vec::new(), placed_left, most_words };
        if sometime_first {
            rules.sometime_first(&played.tree);
        } else {
            rules.anything_first(&played.tree);
        }
        let words = rules.words;
        if sometime_first == (words[0] == SOMETIME) {
            return words;
        }
    }
}

/// Some ambients beside each other, each with actions that take it into the others and out again.
fn crowd(random: &mut Random, names: &[u32]) -> Vec<u32> {
    let mut words = Vec::new();
    for _ in 0..2 + random.below(3) {
        words.extend([AMB, NAME | random.pick(names)]);
        for _ in 0..random.below(3) {
            let name = NAME | random.pick(names);
            words.extend([ACT, PATH, IN, name, PATH, *random.pick(&[EXIT, IN]), name, *random.pick(&[OPEN, IN, EXIT]), name, CLOSE]);
        }
        words.push(CLOSE);
        if random.one_in(4) {
            words.extend([ACT, OPEN, NAME | random.pick(names), CLOSE]);
        }
    }
    words.push(CLOSE);
    words
}

/// A script that passes the door, with its tree and its parts: the one of a few that has the most moves to begin with.
fn moving_script(random: &mut Random, names: &[u32], size: Size) -> (Vec<u32>, Body, u32) {
    let mut best = None;
    let mut tries = *random.pick(&[1, 1, 3, 8]);
    while tries > 0 || best.is_none() {
        tries = usize::saturating_sub(tries, 1);
        let words = if random.one_in(8) { crowd(random, names) } else { random_script(random, names, size) };
        let Ok(script) = read_script(&words) else {
            continue;
        };
        let tree = settle(script.tree);
        let moves = possible_moves(&tree).len();
        if best.as_ref().is_none_or(|(most, _)| moves > *most) {
            best = Some((moves, (words, tree, script.parts)));
        }
    }
    best.expect("there is one").1
}

/// A script that passes the door, its parts, moves that can be made, and the tree that then stands.
struct Played {
    script: Vec<u32>,
    parts: u32,
    moves: Vec<u32>,
    tree: Body,
}

fn play(random: &mut Random, names: &[u32], size: Size) -> Played {
    let (script, tree, parts) = moving_script(random, names, size);
    let most = if random.one_in(2) { random.below(4) } else { random.below(size.moves + 1) };
    let (moves, tree) = random_moves(random, tree, most);
    Played { script, parts, moves, tree }
}

/// One that can be moved on, if such a one is found soon.
fn play_unfinished(random: &mut Random, names: &[u32], size: Size) -> Played {
    let mut tries = 8;
    loop {
        let played = play(random, names, size);
        tries -= 1;
        if tries == 0 || !possible_moves(&played.tree).is_empty() {
            return played;
        }
    }
}

/// A script, moves, of which one perhaps can't be made, and a rule that passes the door. One rule in two begins with SOMETIME.
fn ordinary(random: &mut Random, size: Size) -> Case {
    let names = few_names(random);
    let mut case = if random.one_in(2) { looking_ahead(random, &names, size) } else { looking_around(random, &names, size) };
    if random.one_in(6) {
        let number = |random: &mut Random| random.below(1 + parts_of(&case.script) as usize) as u32;
        let wild = move_word(number(random), number(random));
        let at = if random.one_in(2) { case.moves.len() } else { random.below(case.moves.len() + 1) };
        case.moves.insert(at, wild);
    }
    case.list = random_list(random);
    let (visits, words) = answer(&case).map_or((size.visits, 0), |answer| (answer.visits, answer.words));
    case.patience = random_patience(random, visits, size.visits);
    // With less patience than the walk needs no tree is written.
    case.buffer = random_buffer(random, if case.patience < visits { 0 } else { words });
    case
}

fn parts_of(script: &[u32]) -> u32 {
    read_script(script).map_or(0, |script| script.parts)
}

/// A rule that does not begin with SOMETIME.
fn looking_around(random: &mut Random, names: &[u32], size: Size) -> Case {
    let played = play(random, names, size);
    let rule = random_rule(random, names, &played, size, false);
    asked(played, rule, size.visits)
}

/// The most visits in which it is found out whether a rule is met after some more moves.
const SOON: u32 = 200;

/// A rule that begins with SOMETIME: mostly one that is met after some more moves and not before, if such a one is found soon.
fn looking_ahead(random: &mut Random, names: &[u32], size: Size) -> Case {
    let mut tries = *random.pick(&[1, 6, 6]);
    loop {
        let played = play_unfinished(random, names, size);
        let rule = random_rule(random, names, &played, size, true);
        let case = asked(played, rule, size.visits);
        let found = answer(&Case { patience: SOON, ..case.clone() });
        tries -= 1;
        if tries == 0 || found.is_some_and(|answer| answer.itinerary > 0) {
            return case;
        }
    }
}

fn asked(played: Played, rule: Vec<u32>, patience: u32) -> Case {
    let Played { script, moves, .. } = played;
    Case { script, moves, rule, patience, buffer: Vec::new(), list: Vec::new() }
}

/// The answer with buffers in which there is room for every tree of this checker and for an itinerary.
fn answer(case: &Case) -> Option<Answer> {
    call(&case.call(), &mut vec![0; 1 << 18], &mut [0; LIST_WORDS])
}

/// What a walk needs, one less, one more, less, more, the limit; never so much that a walk takes more visits than asked.
fn random_patience(random: &mut Random, visits: u32, most: u32) -> u32 {
    match random.below(10) {
        0 => visits.max(1),
        1 => visits.saturating_sub(1).max(1),
        2 => 1 + random.below(visits as usize + 1) as u32,
        3 => 1 + random.below(12) as u32,
        4 if visits < most => 16_777_216,
        5 if visits < most => visits + 1,
        _ => most,
    }
}

/// A buffer of marked words for a tree of so many: just long enough, one short, one longer, empty, much longer.
fn random_buffer(random: &mut Random, words: u32) -> Vec<u32> {
    let words = words as usize;
    let length = match random.below(8) {
        0..=1 => words,
        2 => words.saturating_sub(1),
        3 => words + 1,
        4 if random.one_in(2) => random.below(words + 1),
        5 => 4096,
        _ => words + random.below(30),
    };
    (0..length).map(|_| random.next() as u32).collect()
}

/// A list of marked words, or of words that could be moves: just long enough, one longer, longer, and now and then too short.
fn random_list(random: &mut Random) -> Vec<u32> {
    let length = match random.below(32) {
        0 => LIST_WORDS - 1,
        1 if random.one_in(2) => random.below(LIST_WORDS),
        2..=9 => LIST_WORDS + 1,
        10..=15 => LIST_WORDS + random.below(80),
        _ => LIST_WORDS,
    };
    let could_be_moves = random.one_in(4);
    let mut word = || match random.next() as u32 {
        any if could_be_moves => move_word(any >> 8 & 7, any & 7),
        any => any,
    };
    (0..length).map(|_| word()).collect()
}

/// An ordinary case with one or two words or lengths changed.
fn damaged(random: &mut Random, size: Size) -> Case {
    let mut case = ordinary(random, size);
    for _ in 0..1 + random.below(2) {
        match random.below(9) {
            0..=2 => damage(random, &mut case.script),
            3..=4 => damage(random, &mut case.rule),
            7 => unbind(random, &mut case.script, REC, &[NAME, VAR], VAR),
            8 => unbind(random, &mut case.rule, SOME, &[AT, PLACED], AT | VARIABLE),
            5 => damage(random, &mut case.moves),
            _ => case.patience = *random.pick(&[0, 1, 2, size.visits, 16_777_217, u32::MAX]),
        }
    }
    // A damaged rule may need more visits than the whole one.
    if case.patience == 16_777_216 {
        case.patience = size.visits;
    }
    case
}

/// One of the words of such kinds becomes a variable of a word that stands somewhere, around it or not.
fn unbind(random: &mut Random, words: &mut [u32], binder: u32, users: &[u32], variable: u32) {
    let binders: Vec<usize> = (0..words.len()).filter(|at| words[*at] == binder).collect();
    let fitting: Vec<usize> = (0..words.len()).filter(|at| users.contains(&(words[*at] & 0xF000_0000))).collect();
    if !binders.is_empty() && !fitting.is_empty() {
        words[*random.pick(&fitting)] = variable | *random.pick(&binders) as u32;
    }
}

fn damage(random: &mut Random, words: &mut Vec<u32>) {
    let at = random.below(words.len() + 1);
    let some_word = match random.below(6) {
        0 => random.next() as u32,
        1 => (random.below(16) as u32) << 28,
        2 => (random.below(16) as u32) << 28 | random.below(30) as u32,
        3 => VAR | random.below(words.len() + 2) as u32,
        4 => *random.pick(&[AT, PLACED]) | VARIABLE | random.below(words.len() + 2) as u32,
        _ => (random.below(16) as u32) << 28 | VARIABLE | random.below(12) as u32,
    };
    match random.below(7) {
        0 => words.truncate(at),
        1 => words.insert(at, some_word),
        2 => words.push(some_word),
        3 if at < words.len() => {
            words.remove(at);
        }
        4 if at < words.len() => words[at] = words[at] & 0xF000_0000 | random.below(30) as u32,
        5 if at < words.len() => words[at] ^= 1 << random.below(32),
        _ if at < words.len() => words[at] = some_word,
        _ => words.push(some_word),
    }
}

// Limits, each at and one beyond.

fn limit(random: &mut Random) -> Case {
    let beyond = random.below(2);
    let list = random_list(random);
    let mut case = Case { script: vec![CLOSE], moves: Vec::new(), rule: vec![TRUE], patience: 1_000, buffer: Vec::new(), list };
    match random.below(16) {
        0 => case.script = long_script(random, 1024 + beyond),
        1 => case.script = nested_bodies(random, 64 + beyond),
        2 => case.script = nested_message(random, 64 + beyond),
        3 => case.script = many_parts(random, 64 + beyond),
        4 => case.rule = long_rule(random, 256 + beyond),
        5 => case.rule = nested_rule(random, 64 + beyond),
        6 => case.rule = many_somes(random, 8 + beyond),
        7 => many_placed(random, 64 + beyond, &mut case),
        8 => case.patience = *random.pick(&[0, 1, 16_777_216, 16_777_217]),
        9 => many_moves(random, 4096 + beyond, &mut case),
        10 => deep_walk(random, beyond, &mut case),
        11 => many_shares(random, &mut case),
        12 => doubling(random, &mut case),
        13 => two_placed(random, &mut case),
        14 => long_itinerary(random, beyond, &mut case),
        _ => match random.below(3) {
            0 => case.script = Vec::new(),
            1 => case.rule = Vec::new(),
            _ => case.moves = vec![0; 4096 + beyond],
        },
    }
    let words = answer(&case).map_or(0, |answer| answer.words);
    case.buffer = random_buffer(random, words);
    case
}

/// Outputs whose messages fill the script up to this length.
fn long_script(random: &mut Random, length: usize) -> Vec<u32> {
    let mut words = Vec::new();
    let mut left = length - 1;
    for later in (0..50).rev() {
        let here = (left - 2 * later).min(60);
        words.push(OUT);
        words.extend([PATH, EMPTY].repeat((here - 2) / 2));
        if here % 2 == 1 {
            words.push(*random.pick(&[IN, EXIT, OPEN]));
        }
        words.push(NAME | (1 + random.below(255) as u32));
        left -= here;
    }
    words.push(CLOSE);
    words
}

/// So many bodies in each other.
fn nested_bodies(random: &mut Random, count: usize) -> Vec<u32> {
    let mut words = Vec::new();
    for _ in 0..count {
        match random.below(3) {
            0 => words.extend([AMB, NAME | 1]),
            1 => words.extend([ACT, OPEN, NAME | 2]),
            _ => words.push(REC),
        }
    }
    words.extend(vec![CLOSE; count + 1]);
    words
}

/// A word so deep in bodies and messages.
fn nested_message(random: &mut Random, nesting: usize) -> Vec<u32> {
    let bodies = random.below(nesting.min(60));
    let mut words = vec![REC; bodies];
    words.push(OUT);
    for _ in bodies..nesting {
        match random.below(4) {
            0 => words.extend([PATH, NAME | 1]),
            1 if bodies > 0 => words.extend([PATH, VAR | random.below(bodies) as u32]),
            _ => words.push(*random.pick(&[IN, EXIT, OPEN])),
        }
    }
    words.push(if random.one_in(3) { EMPTY } else { NAME | 3 });
    words.extend(vec![CLOSE; bodies + 1]);
    words
}

/// So many parts, empty ambients and outputs.
fn many_parts(random: &mut Random, count: usize) -> Vec<u32> {
    let mut words = Vec::new();
    for _ in 0..count {
        if random.one_in(2) {
            words.extend([AMB, NAME | 1, CLOSE]);
        } else {
            words.extend([OUT, NAME | 1]);
        }
    }
    words.push(CLOSE);
    words
}

/// A rule of so many words: seven layers of OR or BESIDE are 255.
fn long_rule(random: &mut Random, length: usize) -> Vec<u32> {
    let mut words = vec![*random.pick(&[VOID, TRUE])];
    for _ in 0..7 {
        words = [vec![*random.pick(&[OR, BESIDE])], words.clone(), words].concat();
    }
    [vec![NOT; length - 255], words].concat()
}

/// A word with so many rules around it.
fn nested_rule(random: &mut Random, around: usize) -> Vec<u32> {
    let mut words = Vec::new();
    let mut somes = 0;
    while words.len() < around {
        match random.below(8) {
            0 if somes < 8 => {
                somes += 1;
                words.push(SOME);
            }
            1 => words.push(SOMETIME),
            2 => words.push(SOMEWHERE),
            3 => words.push(AT | 1),
            _ => words.push(NOT),
        }
    }
    words.push(*random.pick(&[TRUE, VOID]));
    words
}

/// So many SOMEs around each other, and some beside them.
fn many_somes(random: &mut Random, count: usize) -> Vec<u32> {
    let mut words = Vec::new();
    if random.one_in(2) {
        words.extend([OR, NOT, SOME, TRUE]);
    }
    for _ in 0..count {
        words.push(SOME);
        if random.one_in(3) {
            words.push(NOT);
        }
    }
    words.push(TRUE);
    words
}

/// So many parts and PLACED words together.
fn many_placed(random: &mut Random, count: usize, case: &mut Case) {
    let parts = random.below(64);
    case.script = many_parts(random, parts);
    let placed = count - parts;
    let left = random.below(placed);
    let mut chain = |length| (0..length).map(|_| PLACED | (1 + random.below(3) as u32)).collect::<Vec<u32>>();
    case.rule = [vec![BESIDE], chain(left), vec![TRUE], chain(placed - left), vec![VOID]].concat();
    if left == 0 && placed < 60 {
        case.rule.remove(0);
        case.rule.remove(0);
    }
}

/// OUT of (IN 2, EXIT 2, so often), beside a REC holding 1[its variable so often as action], beside 2; after the move (1, 0)
/// the part 3 goes into part 4 and out of it again.
fn in_and_out(often: usize, received: usize) -> Vec<u32> {
    let mut words = vec![OUT];
    words.extend([PATH, IN, NAME | 2, PATH, EXIT, NAME | 2].repeat(often));
    words.push(EMPTY);
    let variable = VAR | words.len() as u32;
    words.extend([REC, AMB, NAME | 1, ACT]);
    words.extend([PATH, variable].repeat(received - 1));
    words.extend([variable, CLOSE, CLOSE, CLOSE, AMB, NAME | 2, CLOSE, CLOSE]);
    words
}

/// As many moves that can be made: the variable is doubled, given on and received 58 times, and its message has 40 items.
fn many_moves(random: &mut Random, count: usize, case: &mut Case) {
    // OUT of the path, REC x holding OUT of PATH x x beside REC y holding 1[y, 58 times], beside 2.
    let mut words = vec![OUT];
    words.extend([PATH, IN, NAME | 2, PATH, EXIT, NAME | 2].repeat(20));
    words.push(EMPTY);
    let x = VAR | words.len() as u32;
    words.extend([REC, OUT, PATH, x, x]);
    let y = VAR | words.len() as u32;
    words.extend([REC, AMB, NAME | 1, ACT]);
    words.extend([PATH, y].repeat(57));
    words.extend([y, CLOSE, CLOSE, CLOSE, CLOSE, AMB, NAME | 2, CLOSE, CLOSE]);
    case.script = words;
    case.moves = vec![move_word(1, 0), move_word(3, 2)];
    case.moves.extend(vec![move_word(5, 6); count - 2]);
    if random.one_in(2) {
        case.rule = vec![SOMETIME, AT | 1, VOID];
        case.patience = 200;
    }
}

/// A walk to depth 256 or one deeper.
fn deep_walk(random: &mut Random, beyond: usize, case: &mut Case) {
    case.script = in_and_out(5, 31);
    let nots = random.below(20);
    case.rule = [vec![SOMETIME], vec![NOT; nots], vec![if nots % 2 == 0 { VOID } else { TRUE }]].concat();
    // SOMETIME's last visit is at depth left + 1, and its innermost word nots + 1 deeper.
    let left = 256 + beyond - nots - 2;
    case.moves = vec![move_word(1, 0)];
    case.moves.extend(vec![move_word(3, 4); 310 - left]);
    case.patience = 50_000;
    let visits = answer(case).map_or(50_000, |answer| answer.visits);
    case.patience = *random.pick(&[visits, visits - 1, visits + 1, 50_000]);
}

/// An itinerary of 254 moves, or the walk that would need one more; or of fewer, after some of the moves.
fn long_itinerary(random: &mut Random, beyond: usize, case: &mut Case) {
    let moves = MOST_MOVES + beyond;
    (case.script, case.moves) = errand(moves);
    case.moves.truncate(if random.one_in(2) { 0 } else { random.below(moves) });
    case.rule = vec![SOMETIME, VOID];
    // SOMETIME and VOID are visited before each move and after the last.
    let visits = 2 * (moves - case.moves.len() + 1) as u32;
    case.patience = *random.pick(&[visits, visits, visits + 1, visits - 1, 5_000]);
}

/// A script that just one list makes VOID, and that list, which has so many moves, at least four: 1 goes into 2 and out of
/// it again and again, then an action beside them opens each ambient.
pub fn errand(moves: usize) -> (Vec<u32>, Vec<u32>) {
    let opened = if moves % 2 == 0 { 2 } else { 3 };
    let steps = [[IN, NAME | 2], [EXIT, NAME | 2]].repeat((moves - opened) / 2);
    let opens: Vec<[u32; 2]> = (1..=opened as u32).map(|name| [OPEN, NAME | name]).collect();
    let mut script = [vec![AMB, NAME | 1, ACT], flat_path(&steps), vec![CLOSE, CLOSE]].concat();
    script.extend((2..=opened as u32).flat_map(|name| [AMB, NAME | name, CLOSE]));
    script.extend([vec![ACT], flat_path(&opens), vec![CLOSE, CLOSE]].concat());
    // The parts are 1 with its action, the other ambients, and the action that opens them all.
    let opener = opened as u32 + 1;
    let mut list = vec![move_word(1, 2); steps.len()];
    list.push(move_word(opener, 0));
    list.extend((2..opener).map(|ambient| move_word(opener, ambient)));
    (script, list)
}

/// A path of these messages, its PATHs as flat as can be.
fn flat_path(messages: &[[u32; 2]]) -> Vec<u32> {
    match messages {
        [only] => only.to_vec(),
        _ => {
            let (left, right) = messages.split_at(messages.len() / 2);
            [vec![PATH], flat_path(left), flat_path(right)].concat()
        }
    }
}

/// BESIDE over many top parts.
fn many_shares(random: &mut Random, case: &mut Case) {
    let parts = *random.pick(&[8, 9, 30, 63, 64]);
    case.script = many_parts(random, parts);
    case.rule = match random.below(4) {
        0 => vec![BESIDE, AT | 1, TRUE, NOT, TRUE],
        1 => vec![BESIDE, VOID, BESIDE, NOT, VOID, NOT, TRUE],
        2 => vec![BESIDE, BESIDE, AT | 1, VOID, AT | 1, VOID, NOT, TRUE],
        _ => vec![BESIDE, NOT, BESIDE, NOT, VOID, NOT, VOID, VOID],
    };
    case.patience = 3_000;
}

/// A process that comes out of one PLACED ambient and stands beside it with the other.
fn two_placed(random: &mut Random, case: &mut Case) {
    let names = [1, 2, 3];
    let script = random_script(random, &names, Size::SMALL);
    case.script = [vec![ACT, PATH, EXIT, NAME | 2, *random.pick(&[IN, OPEN, EXIT]), NAME | 2, CLOSE], script].concat();
    let ways = [
        vec![AT | 1, TRUE, AT | 2, TRUE],
        vec![AT | 2, TRUE, AT | 1, TRUE],
        vec![AT | 1, VOID, TRUE],
        vec![SOMEWHERE, AT | 1, TRUE, NOT, VOID],
    ];
    case.rule = [vec![PLACED | 1, PLACED | 2, SOMETIME, BESIDE], random.pick(&ways).clone()].concat();
    case.patience = 2_000;
}

/// Receipts each of which doubles the message and gives it on; the last one may use it as an action.
fn doubling(random: &mut Random, case: &mut Case) {
    let receipts = 1 + random.below(13) as u32;
    let mut words = vec![OUT];
    match random.below(4) {
        0 => words.push(EMPTY),
        1 => words.push(NAME | 1),
        _ => words.extend([PATH, OPEN, NAME | 1, EMPTY]),
    }
    for _ in 0..receipts {
        let variable = VAR | words.len() as u32;
        words.extend([REC, OUT, PATH, variable, variable]);
    }
    let last = VAR | words.len() as u32;
    words.extend([REC, ACT, last, AMB, NAME | 2, CLOSE, CLOSE, AMB, last, CLOSE, CLOSE]);
    words.extend(vec![CLOSE; receipts as usize]);
    words.extend([AMB, NAME | 1, CLOSE, AMB, NAME | 1, CLOSE, CLOSE]);
    let script = read_script(&words).expect("it is a script");
    case.script = words;
    let most = random.below(receipts as usize + 4);
    let (moves, _) = random_moves(random, settle(script.tree), most);
    case.moves = moves;
    case.rule = vec![SOMETIME, AT | 2, VOID];
    case.patience = 40;
}

/// n receipts one after another, each giving the next one its variable twice; the last message is an action's.
pub fn doubled(receipts: u32) -> (Vec<u32>, Vec<u32>) {
    let mut script = vec![OUT, IN, NAME | 1];
    for _ in 0..receipts {
        let variable = VAR | script.len() as u32;
        script.extend([REC, OUT, PATH, variable, variable]);
    }
    script.extend(vec![0; receipts as usize + 1]);
    let moves = (0..receipts).map(|k| move_word(2 * k + 1, 2 * k)).collect();
    (script, moves)
}
