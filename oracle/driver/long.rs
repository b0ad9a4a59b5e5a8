//! Long programs at random: code from 16,385 bytes up to one over its limit, and branches that lead as far as they may, or too far.

use crate::random::Random;
use crate::{head, limits, programs};

/// Takes LOAD_VAR and POP away, which is an empty CASE.
const REMOVING: &str = "1,2,1,0,0,1,0,1,0";

/// The input of this seed.
pub fn input(seed: u64) -> Vec<u8> {
    let random = &mut Random::new(seed);
    match seed % 8 {
        0 | 1 => programs::with_head(random, limits::long_program),
        2 => programs::with_head(random, programs::long_statements),
        3 => programs::with_head(random, |random| reaching(random, true)),
        other => {
            let (sheet, removing) = (head::sheet(random), other % 2 == 0);
            let rules = if removing { vec![REMOVING.to_string()] } else { Vec::new() };
            programs::with_lines(head::head(&sheet, &rules), &reaching(random, removing))
        }
    }
}

/// Statements of a block: their lines, how many they are, and how many bytes of finished code they have if REMOVING is the only rule, or there is none and
/// they hold nothing for it. Nothing is folded in them: variable 0 is stored to, and only variable 1 loaded.
#[derive(Default)]
struct Part {
    lines: Vec<String>,
    count: usize,
    size: usize,
}

impl Part {
    fn then(self, rest: Part) -> Self {
        let lines = [self.lines, rest.lines].concat();
        Part { lines, count: self.count + rest.count, size: self.size + rest.size }
    }
}

fn position(random: &mut Random) -> String {
    format!("{},{}", random.below(2), random.below(2))
}

fn returns(random: &mut Random, count: usize) -> Part {
    let lines = (0..count).map(|_| format!("R,{}", position(random))).collect();
    Part { lines, count, size: count }
}

/// A CASE with one arm of so many ranges and no body.
fn ranges(random: &mut Random, count: usize) -> Part {
    let mut lines = vec![format!("S,{},1,0\nD,1\nM,{count},0", position(random))];
    lines.extend((0..count).map(|_| format!("G,{},{}", random.below(3), random.below(3))));
    Part { lines, count: 1, size: 19 * count + 5 }
}

/// Empty CASEs behind a RET: one that a branch leads to is not removed.
fn removed(random: &mut Random, count: usize) -> Part {
    let lines = (0..count).map(|_| format!("S,{},0,0\nD,1", position(random))).collect();
    returns(random, 1).then(Part { lines, count, size: 0 })
}

/// Statements of so many bytes of finished code.
fn filled(random: &mut Random, size: usize, removing: bool) -> Part {
    let mut part = Part::default();
    let most = random.pick(&[100, 300, 1_000, 1_800]);
    while size - part.size > 24 {
        let count = ((size - part.size - 5) / 19).min(1 + random.below(most));
        part = part.then(ranges(random, count));
        if removing && part.size < size && random.percent(20) {
            let count = random.pick(&[1, 10, 100]);
            part = part.then(removed(random, count));
        }
    }
    let rest = size - part.size;
    part.then(returns(random, rest))
}

/// How a statement leads over the part in it.
#[derive(Clone, Copy)]
enum Shape {
    Loop,
    Exit,
    Continue,
    While,
    WhileFused,
    Repeat,
    RepeatFused,
    If,
    IfFused,
    Else,
    For,
    Arm,
}

/// Branches of the shapes: how many bytes they lead over besides the part, and whether back.
const BRANCHES: [(Shape, usize, bool); 16] = [
    (Shape::Loop, 3, true),
    (Shape::Exit, 3, false),
    (Shape::Exit, 6, true),
    (Shape::Continue, 0, false),
    (Shape::While, 3, false),
    (Shape::While, 7, true),
    (Shape::WhileFused, 8, false),
    (Shape::WhileFused, 8, true),
    (Shape::Repeat, 6, true),
    (Shape::RepeatFused, 8, true),
    (Shape::If, 0, false),
    (Shape::IfFused, 0, false),
    (Shape::Else, 0, false),
    (Shape::For, 13, false),
    (Shape::For, 21, true),
    (Shape::Arm, 4, false),
];

/// The statement of a shape around a part.
fn around(random: &mut Random, shape: Shape, part: Part) -> Part {
    let (at, id, count, more) = (position(random), random.below(3), part.count, part.count + 1);
    let compare = format!("C,{}\nD,1\nK,{}", random.below(6), random.below(3));
    let unless = |condition: &str| format!("L,{at},{id},{more},0\nI,{at},0,1\n{condition}\nX,{at},{id}");
    let until = |condition: &str| vec![format!("I,{at},1,0\n{condition}\nX,{at},{id}")];
    // The lines before the part and behind it, and their bytes.
    let (before, behind, bytes) = match shape {
        Shape::Loop => (format!("L,{at},{id},{count},0"), vec![], 3),
        Shape::Exit => (format!("L,{at},{id},{more},0\nX,{at},{id}"), vec![], 6),
        Shape::Continue => (format!("L,{at},{id},{more},0\nN,{at},{id}"), vec![], 6),
        Shape::While => (unless("B,1"), vec![], 7),
        Shape::WhileFused => (unless(&compare), vec![], 16),
        Shape::Repeat => (format!("L,{at},{id},{count},1"), until("D,1"), 6),
        Shape::RepeatFused => (format!("L,{at},{id},{count},1"), until(&compare), 8),
        Shape::If => (format!("I,{at},{count},0\nB,1"), vec![], 4),
        Shape::IfFused => (format!("I,{at},{count},0\n{compare}"), vec![], 8),
        Shape::Else => (format!("I,{at},1,{count}\nB,1\nR,{at}"), vec![], 8),
        Shape::For => (format!("F,{at},{id},0,1,{count}\nK,1\nK,2"), vec![], 27),
        Shape::Arm => (format!("S,{at},1,0\nD,1\nM,1,{count}\nQ,1"), vec![], 16),
    };
    Part { lines: [vec![before], part.lines, behind].concat(), count: 1, size: part.size + bytes }
}

/// A statement around a part, filled up so that a branch of it leads as far as it may, one byte further, or about so far.
fn led(random: &mut Random, part: Part, removing: bool) -> Part {
    let (shape, besides, back) = random.pick(&BRANCHES);
    let most = if back { 32_768 } else { 32_767 };
    let about = [most - 200 + random.below(400), most - 3 + random.below(8)];
    let distance = random.weigh(&[(5, most), (2, most + 1), (1, about[0]), (1, about[1])]);
    let rest = (distance - besides).saturating_sub(part.size);
    let part = part.then(filled(random, rest, removing));
    around(random, shape, part)
}

/// One such statement, or one around another, or others behind it; often behind a RET, so that no run comes there.
fn reaching(random: &mut Random, removing: bool) -> Vec<String> {
    let before = random.pick(&[0, 0, 1, 30]);
    let mut part = returns(random, before).then(led(random, Part::default(), removing));
    part = match random.below(4) {
        0 => led(random, part, removing),
        1 => {
            let size = random.below(32_768);
            part.then(filled(random, size, removing))
        }
        _ => part,
    };
    [vec![format!("P,2,{},0,0", part.count)], part.lines].concat()
}
