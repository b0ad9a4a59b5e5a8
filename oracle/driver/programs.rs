//! Whole programs at random: the listing program's inputs.

use oracle::limits::PROGRAM_BYTES;
use oracle::{listing, reader};

use crate::head;
use crate::limits;
use crate::random::Random;

/// What a program is made of.
#[derive(Clone, Copy)]
struct Style {
    statements: &'static [(usize, u8)],
    /// What stands where no block fits any more.
    leaves: &'static [u8],
    /// How deep statements and expressions go, how many lines about there are, how many variables and loop numbers.
    depth: usize,
    lines: usize,
    variables: usize,
    loops: usize,
    /// In a hundred: an EXIT or CONTINUE of a loop that is not open.
    astray: usize,
    /// How many labels an arm has.
    labels: &'static [usize],
    /// The operations on two values, and a FOR's steps.
    operations: &'static [u8],
    steps: &'static [i32],
    /// In a hundred: a loop that counts to an end, so that it ends after a few passes or runs on.
    counting: usize,
}

const MIXED: Style = Style {
    statements: &[(6, b'A'), (3, b'I'), (2, b'S'), (2, b'F'), (3, b'L'), (2, b'X'), (2, b'N'), (1, b'R')],
    depth: 6,
    lines: 60,
    variables: 3,
    loops: 2,
    astray: 0,
    leaves: b"AAAXNR",
    labels: &[0, 1, 2, 3],
    operations: &[0, 1, 2, 3, 4, 5, 6, 7],
    steps: &[1, 1, 2, -1, -3, 0, i32::MAX, i32::MIN],
    counting: 0,
};
const LOOPS: Style = Style { statements: &[(2, b'A'), (1, b'I'), (1, b'F'), (6, b'L'), (2, b'X'), (2, b'N')], ..MIXED };
const CASES: Style = Style { statements: &[(2, b'A'), (5, b'S'), (1, b'L'), (1, b'X'), (1, b'N')], ..MIXED };
const COUNTS: Style = Style { statements: &[(2, b'A'), (5, b'F'), (1, b'X'), (2, b'N')], ..MIXED };
const FOLDS: Style =
    Style { statements: &[(9, b'A'), (1, b'I'), (1, b'L'), (1, b'F'), (1, b'S')], variables: 2, depth: 4, ..MIXED };
const SUMS: Style = Style { statements: &[(4, b'A'), (1, b'I')], depth: 10, lines: 90, ..MIXED };
const LARGE: Style = Style { lines: 700, depth: 9, ..MIXED };
const ASTRAY: Style = Style { astray: 8, lines: 30, ..LOOPS };

/// Much code from little text. A loop that just misses a REPEAT's shape is often refused: in many lines there would always be one.
const LONG: Style = Style {
    statements: &[(4, b'A'), (3, b'I'), (4, b'S'), (4, b'F'), (1, b'X'), (1, b'N')],
    labels: &[0, 1, 2, 40, 150, 400],
    lines: 5_000,
    ..MIXED
};

/// What a program that is to be run is made of: few endless loops and RETURNs, so that much of it is reached.
const RUN: Style = Style {
    statements: &[(10, b'A'), (5, b'I'), (4, b'S'), (5, b'F'), (6, b'L'), (4, b'X'), (4, b'N'), (1, b'R')],
    leaves: b"AAAAAAAAXXNNR",
    lines: 25,
    operations: &[0, 1, 2, 3, 3, 3, 4, 4, 4, 5, 6, 7],
    steps: &[1, 1, 1, 1, 2, 2, 3, -1, -1, -1, -1, -2, -2, -3, 0, i32::MAX, i32::MIN],
    counting: 75,
    ..MIXED
};
const RUNS: [Style; 6] = [
    RUN,
    Style { statements: LOOPS.statements, ..RUN },
    Style { statements: &[(3, b'A'), (4, b'S'), (2, b'F'), (1, b'L'), (1, b'X'), (1, b'N')], ..RUN },
    Style { statements: COUNTS.statements, ..RUN },
    Style { statements: FOLDS.statements, depth: 4, ..RUN },
    Style { statements: &[(4, b'A'), (1, b'I'), (1, b'F'), (1, b'L')], depth: 8, ..RUN },
];

/// The input of this seed.
pub fn input(seed: u64) -> Vec<u8> {
    let random = &mut Random::new(seed);
    if seed % 16 == 15 {
        return with_head(random, limits::program);
    }
    match seed % 9 {
        0 => with_head(random, |random| program(random, MIXED)),
        1 => with_head(random, |random| program(random, LOOPS)),
        2 => with_head(random, |random| program(random, CASES)),
        3 => with_head(random, |random| program(random, COUNTS)),
        4 => with_head(random, |random| program(random, FOLDS)),
        5 => with_head(random, |random| program(random, SUMS)),
        6 => with_head(random, |random| program(random, ASTRAY)),
        7 if seed % 18 == 7 => with_head(random, |random| program(random, LARGE)),
        7 if seed % 72 == 16 => with_head(random, long),
        7 => with_head(random, deep),
        _ => damaged(random),
    }
}

/// A program of this seed without rules, under a line of starting values.
pub fn valued(seed: u64) -> Vec<u8> {
    let random = &mut Random::new(seed);
    let style = Style { variables: random.pick(&[1, 2, 3, 4, 5, 6]), ..RUNS[seed as usize % RUNS.len()] };
    let values: Vec<i32> = (0..style.variables).map(|_| near(random)).collect();
    let head = head::head(&head::sheet(random), &[]);
    // An EXIT that just misses a REPEAT's shape is often refused: a second try leaves few.
    let accepted = |text: &[u8]| reader::read(text).is_ok_and(|input| listing::compile(&input).is_ok());
    let mut text = Vec::new();
    for _ in 0..2 {
        if !accepted(&text) {
            text = with_lines(head.clone(), &program(random, style));
        }
    }
    [head::joined(&values).as_bytes(), b"\n", &text].concat()
}

pub fn with_head(random: &mut Random, program: impl FnOnce(&mut Random) -> Vec<String>) -> Vec<u8> {
    let (sheet, rules) = (head::sheet(random), head::rules(random));
    with_lines(head::head(&sheet, &rules), &program(random))
}

pub fn with_lines(mut text: String, lines: &[String]) -> Vec<u8> {
    lines.iter().for_each(|line| text.extend([line.as_str(), "\n"]));
    text.into_bytes()
}

fn program(random: &mut Random, style: Style) -> Vec<String> {
    written(random, style, 90)
}

/// Statements of many kinds on up to 5,000 lines, arms of up to 400 labels among them.
pub fn long_statements(random: &mut Random) -> Vec<String> {
    let lines = random.pick(&[1_000, 2_000, 3_500, LONG.lines]);
    written(random, Style { lines, ..LONG }, 100)
}

/// A program that goes on behind a top statement in so many of a hundred, while there are lines left.
fn written(random: &mut Random, style: Style, going_on: usize) -> Vec<String> {
    // Few positions, so that one often equals the last entry's.
    let positions = random.pick(&[1, 2, 3]);
    let mut writer = Writer { random, style, positions, lines: vec![String::new()], open: Vec::new(), assigned: 0 };
    let mut count = 0;
    while count == 0 || (writer.left() > 0 && writer.random.percent(going_on)) {
        writer.statement(1);
        count += 1;
    }
    writer.lines[0] = format!("P,{},{count},{}", style.variables, writer.position());
    writer.lines
}

/// What stands in a block that an IF of a loop's shape, or nearly, holds.
#[derive(Clone, Copy)]
enum Piece {
    Exit,
    ExitOther,
    Continue,
    Any,
}

/// How a loop misses a shape: in the IF's blocks, by a longer continuing, or by where the IF stands.
#[derive(Clone, Copy, PartialEq)]
enum Miss {
    Nothing,
    Pieces,
    Continuing,
    Place,
}

/// Mostly small, so that few passes lead from one to another.
fn near(random: &mut Random) -> i32 {
    let small = random.pick(&[0, 0, 1, 1, 2, 2, 3, 4, 5, 6, 7, -1, -1, -2, -3]);
    let extreme = random.pick(&[100, -100, i32::MAX, i32::MAX - 1, i32::MIN, i32::MIN + 1]);
    random.weigh(&[(9, small), (1, extreme)])
}

struct Writer<'r> {
    random: &'r mut Random,
    style: Style,
    positions: usize,
    lines: Vec<String>,
    /// The open loops' numbers.
    open: Vec<usize>,
    /// The variable that the last assignment stores to.
    assigned: usize,
}

impl Writer<'_> {
    fn left(&self) -> usize {
        self.style.lines.saturating_sub(self.lines.len())
    }

    fn line(&mut self, line: String) {
        self.lines.push(line);
    }

    fn position(&mut self) -> String {
        format!("{},{}", self.random.below(self.positions), self.random.below(self.positions))
    }

    fn variable(&mut self) -> usize {
        self.random.below(self.style.variables)
    }

    /// A variable to read: often the one stored last, so that loads fold.
    fn source(&mut self) -> usize {
        if self.random.percent(40) {
            self.assigned
        } else {
            self.variable()
        }
    }

    fn value(&mut self) -> i32 {
        self.random.pick(&[0, 1, 1, 2, 3, 5, -1, -7, 100, i32::MAX, i32::MIN])
    }

    fn statement(&mut self, depth: usize) {
        let leaf = depth >= self.style.depth || self.left() == 0;
        let kind = if leaf { self.random.pick(self.style.leaves) } else { self.random.weigh(self.style.statements) };
        match kind {
            b'A' => self.assign(depth),
            b'I' => self.choice(depth),
            b'S' => self.case(depth),
            b'F' => self.count(depth),
            b'L' => self.repeats(depth),
            b'X' | b'N' => self.jump(depth, kind),
            _ => self.returns(),
        }
    }

    fn assign(&mut self, depth: usize) {
        let (position, variable) = (self.position(), self.variable());
        self.line(format!("A,{position},{variable}"));
        // A copy of what was stored last is folded into that store.
        if self.random.percent(25) {
            self.line(format!("D,{}", self.assigned));
        } else {
            self.expression(depth + 1);
        }
        self.assigned = variable;
    }

    fn returns(&mut self) {
        let position = self.position();
        self.line(format!("R,{position}"));
    }

    /// A jump out of an open loop, if there is one.
    fn jump(&mut self, depth: usize, letter: u8) {
        let astray = self.random.percent(self.style.astray);
        match self.open.len() {
            0 if !astray => self.assign(depth),
            _ if astray => self.jump_of(letter, self.style.loops),
            open => {
                let at = self.random.below(open);
                self.jump_of(letter, self.open[at]);
            }
        }
    }

    fn jump_of(&mut self, letter: u8, id: usize) {
        let position = self.position();
        self.line(format!("{},{position},{id}", letter as char));
    }

    /// How many statements a block is given.
    fn few(&mut self) -> usize {
        match self.left() {
            0 => 0,
            _ => self.random.pick(&[0, 1, 1, 2, 3]),
        }
    }

    fn block(&mut self, count: usize, depth: usize) {
        (0..count).for_each(|_| self.statement(depth));
    }

    fn choice(&mut self, depth: usize) {
        let (position, then, other) = (self.position(), self.few(), self.few());
        self.line(format!("I,{position},{then},{other}"));
        self.condition(depth + 1);
        self.block(then + other, depth + 1);
    }

    fn case(&mut self, depth: usize) {
        let (position, arms, other) = (self.position(), self.random.below(4), self.few());
        self.line(format!("S,{position},{arms},{other}"));
        self.expression(depth + 1);
        for _ in 0..arms {
            self.arm(depth + 1);
        }
        self.block(other, depth + 1);
    }

    /// One in four has no label, and then jumps that lead nowhere do no harm.
    fn arm(&mut self, depth: usize) {
        let (labels, body) = (self.random.pick(self.style.labels), self.few());
        self.line(format!("M,{labels},{body}"));
        for _ in 0..labels {
            let (low, high, single) = (self.value(), self.value(), self.random.percent(50));
            self.line(if single { format!("Q,{low}") } else { format!("G,{low},{high}") });
        }
        let astray = self.style.astray;
        if labels == 0 {
            self.style.astray = 30;
        }
        self.block(body, depth);
        self.style.astray = astray;
    }

    fn count(&mut self, depth: usize) {
        let (position, id, variable, body) = (self.position(), self.loop_number(), self.variable(), self.few());
        let step = self.random.pick(self.style.steps);
        self.line(format!("F,{position},{id},{variable},{step},{body}"));
        self.bounds(depth + 1, step);
        self.open.push(id);
        self.block(body, depth + 1);
        self.open.pop();
    }

    /// A FOR's start and end. A FOR that counts has a start and an end between which it does so.
    fn bounds(&mut self, depth: usize, step: i32) {
        if !self.counts() {
            self.bound(depth);
            return self.bound(depth);
        }
        let (one, other) = (near(self.random), near(self.random));
        let (low, high) = (one.min(other), one.max(other));
        let (from, to) = if step < 0 { (high, low) } else { (low, high) };
        self.line(format!("K,{from}"));
        if self.random.percent(50) {
            self.line(format!("K,{to}"));
        } else {
            let (operation, variable) = (self.random.below(2), self.variable());
            self.line(format!("O,{operation}\nD,{variable}\nK,{to}"));
        }
    }

    fn counts(&mut self) -> bool {
        self.style.counting > 0 && self.random.percent(self.style.counting)
    }

    /// A FOR's start or end.
    fn bound(&mut self, depth: usize) {
        if self.random.percent(60) {
            let value = self.value();
            self.line(format!("K,{value}"));
        } else {
            self.expression(depth);
        }
    }

    fn loop_number(&mut self) -> usize {
        self.random.below(self.style.loops)
    }

    /// A loop over a comparison with a constant and the counting of the variable compared: a WHILE or a REPEAT, or nearly, or one that counts in
    /// `continuing`.
    fn counting(&mut self, depth: usize) {
        let (position, id, body, variable) = (self.position(), self.loop_number(), self.few(), self.variable());
        let (shape, step) = (self.random.pick(b"WRC"), self.random.pick(&[1, 1, 2, 3, -1, -1, -2]));
        let condition = self.end_of_counting(variable, step, shape != b'R');
        let miss = self.random.weigh(&[(3, Miss::Nothing), (1, Miss::Pieces)]);
        let (inner, outer) = match shape {
            b'W' => (body + 2, 0),
            b'R' => (body + 1, 1),
            _ => (body + 1, 2),
        };
        self.line(format!("L,{position},{id},{inner},{outer}"));
        self.open.push(id);
        if shape != b'R' {
            self.exit_if(depth + 1, id, miss, true, Some(&condition));
        }
        self.block(body, depth + 1);
        self.line(format!("A,{position},{variable}\nO,0\nD,{variable}\nK,{step}"));
        self.open.pop();
        match shape {
            b'W' => {}
            // What is nearly a REPEAT jumps out of the loop around, which must have its number.
            b'R' if self.open.contains(&id) => self.exit_if(depth + 1, id, miss, false, Some(&condition)),
            b'R' => self.exit_if(depth + 1, id, Miss::Nothing, false, Some(&condition)),
            _ => self.jump_if(depth + 1),
        }
    }

    /// An IF that leaves or continues a loop around, where there is one.
    fn jump_if(&mut self, depth: usize) {
        let (position, letter) = (self.position(), self.random.pick(b"XN"));
        self.line(format!("I,{position},1,0"));
        self.condition(depth + 1);
        self.jump(depth + 1, letter);
    }

    /// A comparison that holds up to a WHILE's end, or from a REPEAT's on; now and then any other. The constant is on either side.
    fn end_of_counting(&mut self, variable: usize, step: i32, heads: bool) -> String {
        let comparisons: [usize; 3] = match (step > 0, heads) {
            (true, true) => [2, 3, 1],
            (true, false) => [5, 4, 0],
            (false, true) => [4, 5, 1],
            (false, false) => [3, 2, 0],
        };
        let (fitting, any, end) = (self.random.pick(&comparisons), self.random.below(6), near(self.random));
        let comparison = self.random.weigh(&[(5, fitting), (1, any)]);
        if self.random.percent(50) {
            return format!("C,{comparison}\nD,{variable}\nK,{end}");
        }
        let mirrored = [0, 1, 4, 5, 2, 3][comparison];
        format!("C,{mirrored}\nK,{end}\nD,{variable}")
    }

    /// A loop. Most have the shape of a WHILE or a REPEAT, or nearly.
    fn repeats(&mut self, depth: usize) {
        if self.counts() {
            return self.counting(depth);
        }
        let (position, id, body, continuing) = (self.position(), self.loop_number(), self.few(), self.few());
        let miss = self.random.weigh(&[(6, Miss::Nothing), (3, Miss::Pieces), (1, Miss::Continuing), (1, Miss::Place)]);
        let (head, tail) =
            self.random.weigh(&[(3, (true, false)), (3, (false, true)), (1, (false, false)), (1, (true, true))]);
        let before = if miss == Miss::Place { body.min(1) } else { 0 };
        let continuing = if (head || tail) && miss != Miss::Continuing { 0 } else { continuing };
        let (inner, outer) = (body + usize::from(head), continuing + usize::from(tail));
        self.line(format!("L,{position},{id},{inner},{outer}"));
        self.open.push(id);
        self.block(before, depth + 1);
        if head {
            self.exit_if(depth + 1, id, miss, true, None);
        }
        self.block(body - before, depth + 1);
        self.open.pop();
        self.block(continuing, depth + 1);
        if tail {
            self.exit_if(depth + 1, id, miss, false, None);
        }
    }

    /// The IF at a WHILE's head or a REPEAT's tail, with a condition that is given or any.
    fn exit_if(&mut self, depth: usize, id: usize, miss: Miss, heads: bool, condition: Option<&str>) {
        let pieces: [&[Piece]; 6] =
            [&[], &[Piece::Exit], &[Piece::ExitOther], &[Piece::Continue], &[Piece::Exit, Piece::Any], &[Piece::Any]];
        let (mut empty, mut jump) = (pieces[0], pieces[1]);
        if miss == Miss::Pieces {
            jump = self.random.pick(&pieces);
            empty = if self.random.percent(40) { self.random.pick(&pieces) } else { empty };
        }
        let (then, other) = if heads { (empty, jump) } else { (jump, empty) };
        let position = self.position();
        self.line(format!("I,{position},{},{}", then.len(), other.len()));
        match condition {
            Some(condition) => self.line(condition.to_string()),
            None => self.condition(depth + 1),
        }
        then.iter().chain(other).for_each(|piece| self.piece(*piece, depth + 1, id));
    }

    /// An open loop of another number, if there is one.
    fn other_loop(&mut self, id: usize) -> usize {
        let others: Vec<usize> = self.open.iter().copied().filter(|open| *open != id).collect();
        if others.is_empty() {
            id
        } else {
            self.random.pick(&others)
        }
    }

    fn piece(&mut self, piece: Piece, depth: usize, id: usize) {
        match piece {
            Piece::Exit => self.jump_of(b'X', id),
            Piece::Continue => self.jump_of(b'N', id),
            Piece::ExitOther => {
                let other = self.other_loop(id);
                self.jump_of(b'X', other);
            }
            Piece::Any => self.statement(depth),
        }
    }

    /// Most compare a variable with a constant, or nearly so.
    fn condition(&mut self, depth: usize) {
        if self.random.percent(25) || depth >= self.style.depth {
            return self.expression(depth);
        }
        let comparison = self.random.below(6);
        self.line(format!("C,{comparison}"));
        let sides: [&[u8; 2]; 7] = [b"DK", b"DK", b"KD", b"KK", b"DD", b"DB", b"D-"];
        for side in *self.random.pick(&sides) {
            self.operand(side);
        }
    }

    fn operand(&mut self, kind: u8) {
        let line = match kind {
            b'K' => format!("K,{}", self.value()),
            b'D' => format!("D,{}", self.source()),
            b'B' => format!("B,{}", self.random.below(2)),
            // A negated constant is not one.
            _ => format!("U,0\nK,{}", self.value()),
        };
        self.line(line);
    }

    fn expression(&mut self, depth: usize) {
        let leaf = depth >= self.style.depth || self.left() == 0;
        let kind = if leaf { self.random.pick(b"KDDB") } else { self.random.pick(b"KKDDDDBOOOUCHH") };
        let (choices, sides): (&[u8], _) = match kind {
            b'O' => (self.style.operations, 2),
            b'U' => (&[0, 1], 1),
            b'C' => (&[0, 1, 2, 3, 4, 5], 2),
            b'H' => (&[0, 1], 2),
            _ => return self.operand(kind),
        };
        let choice = self.random.pick(choices);
        self.line(format!("{},{choice}", kind as char));
        if kind == b'O' && self.style.counting > 0 && self.random.percent(4) {
            // The only quotient that wraps.
            return self.line(format!("K,{}\nK,-1", i32::MIN));
        }
        (0..sides).for_each(|_| self.expression(depth + 1));
    }
}

/// Blocks or operands nested to the limit, or one past it.
fn deep(random: &mut Random) -> Vec<String> {
    let depth = random.pick(&[20, 63, 64, 65]);
    let mut lines = vec!["P,1,1,1,1".to_string()];
    let blocks = if random.percent(50) { depth - 1 } else { 0 };
    for level in 0..blocks {
        lines.push(match random.below(4) {
            0 => format!("I,{level},1,1,0\nB,1"),
            1 => format!("I,{level},1,0,1\nC,2\nD,0\nK,{level}"),
            2 => format!("S,{level},1,1,0\nD,0\nM,1,1\nQ,{level}"),
            _ => format!("L,{level},1,{level},1,0"),
        });
    }
    // The assignment's value stands one deeper.
    lines.push("A,99,1,0".to_string());
    for _ in blocks + 2..depth {
        let line = random.pick(&["U,0", "O,0\nD,0", "C,2\nK,5", "H,0\nB,1", "H,1\nD,0", "O,1\nD,0"]);
        lines.push(line.to_string());
    }
    lines.push("D,0".to_string());
    lines
}

/// A program at the limit of its bytes, or one over it.
fn long(random: &mut Random) -> Vec<String> {
    let bytes = PROGRAM_BYTES + random.below(2);
    let (header, line) = ("P,0,10920,1,1", "R,1,1");
    // The lines fall short by a few bytes, which wider positions make up.
    let count = 10_920;
    let short = bytes - (header.len() + 1) - count * (line.len() + 1);
    let widened = |at: usize| if at < short { "R,10,1" } else { line };
    [header].into_iter().chain((0..count).map(widened)).map(String::from).collect()
}

/// A good input with a few bytes or lines of it changed.
fn damaged(random: &mut Random) -> Vec<u8> {
    let style = Style { lines: 12, ..MIXED };
    let mut text = with_head(random, |random| program(random, style));
    for _ in 0..random.pick(&[1, 1, 2, 3]) {
        damage(random, &mut text);
    }
    text
}

fn damage(random: &mut Random, text: &mut Vec<u8>) {
    // Mostly in the program, which is shorter than what stands before it.
    let program = text.windows(3).position(|bytes| bytes == b"\nP,").unwrap_or(0);
    let from = if random.percent(70) { program } else { 0 };
    let at = from + random.below(text.len() - from + 1);
    let line = text[..at].iter().rposition(|byte| *byte == b'\n').map_or(0, |end| end + 1);
    let next = text[at..].iter().position(|byte| *byte == b'\n').map_or(text.len(), |end| at + end + 1);
    let odd = random.pick(b"0123456789,,,--+ \n\n\r\0\xffAISFLXNRKBDOUCHMQGP");
    match random.below(11) {
        0 | 1 if at < text.len() => text[at] = odd,
        2 => text.insert(at, odd),
        3 if at < text.len() => {
            text.remove(at);
        }
        4 => {
            text.drain(line..next);
        }
        5 => {
            let copy = text[line..next].to_vec();
            text.splice(line..line, copy);
        }
        6 => text.truncate(at),
        7 => renumber(random, text, at),
        8 => text.extend_from_slice(random.pick(&[b"\n".as_slice(), b"K,1\n", b"R,1,1\n", b"x"])),
        9 => recount(random, text),
        _ => swap_bytes(random, text),
    }
}

/// Another number for the next one.
fn renumber(random: &mut Random, text: &mut Vec<u8>, at: usize) {
    let digits = |from: usize, digit: bool| {
        text[from..].iter().position(|byte| byte.is_ascii_digit() == digit).map_or(text.len(), |end| from + end)
    };
    let start = digits(at, true);
    let end = digits(start, false);
    let number = random.pick(&["65536", "256", "2147483648", "4294967297", "18446744073709551617", "-1", "01", ""]);
    text.splice(start..end, number.bytes());
}

/// Another rule count line.
fn recount(random: &mut Random, text: &mut Vec<u8>) {
    let mut lines = text.splitn(3, |byte| *byte == b'\n');
    if let (Some(sheet), Some(_), Some(rest)) = (lines.next(), lines.next(), lines.next()) {
        let count = random.pick(&["0", "1", "2", "64", "65", "00", "", "-1", "4294967296"]);
        *text = [sheet, b"\n", count.as_bytes(), b"\n", rest].concat();
    }
}

fn swap_bytes(random: &mut Random, text: &mut [u8]) {
    if !text.is_empty() {
        let (a, b) = (random.below(text.len()), random.below(text.len()));
        text.swap(a, b);
    }
}
