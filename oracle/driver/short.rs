//! Every program of up to five lines below its header, over a small alphabet of fields.

use crate::head;

/// The most lines below the header, and the most of a program that is made with rules too.
const LONGEST: usize = 5;
const LONGEST_WITH_RULES: usize = 4;

/// Each fires on a short program.
const RULES: [&str; 5] =
    ["1,2,3,1,0,1,0,1,0", "1,4,12,0,0,0,0,1,0", "2,5,3,0,0,0,0,2,1", "3,3,2,0,0,1,0,1,0", "3,1,2,0,0,0,0,2,1"];

/// Lines whose `@` is a position, and how many statements or arms they are.
#[derive(Clone)]
struct Part {
    count: usize,
    lines: Vec<String>,
}

/// All parts of one kind, by their number of lines.
type Parts = Vec<Vec<Part>>;

fn one(line: impl Into<String>) -> Part {
    Part { count: 1, lines: vec![line.into()] }
}

/// Each of `firsts` before each of `rests`.
fn before(firsts: &[Part], rests: &[Part]) -> Vec<Part> {
    firsts.iter().flat_map(|first| rests.iter().map(move |rest| first.then(rest))).collect()
}

impl Part {
    fn then(&self, rest: &Part) -> Part {
        Part { count: self.count + rest.count, lines: [self.lines.as_slice(), &rest.lines].concat() }
    }

    /// This under a line that starts it, as one.
    fn under(&self, line: String) -> Part {
        one(line).then(&Part { count: 0, lines: self.lines.clone() })
    }
}

/// The ways to part `total` lines among two or three.
fn splits(total: usize) -> impl Iterator<Item = (usize, usize, usize)> {
    (0..=total).flat_map(move |a| (0..=total - a).map(move |b| (a, b, total - a - b)))
}

fn expressions() -> Parts {
    let mut all: Parts = vec![Vec::new(), ["K,5", "B,1", "D,0", "D,1"].map(one).to_vec()];
    for lines in 2..LONGEST {
        let unary = ["U,0", "U,1"].iter().flat_map(|op| all[lines - 1].iter().map(|side| side.under(op.to_string())));
        let mut next: Vec<Part> = unary.collect();
        for (left, right, _) in splits(lines - 1).filter(|(_, _, none)| *none == 0) {
            let sides = before(&all[left], &all[right]);
            next.extend(
                ["O,0", "C,2", "H,0", "H,1"].iter().flat_map(|op| sides.iter().map(|both| both.under(op.to_string()))),
            );
        }
        all.push(next);
    }
    all
}

/// The arms of a CASE that take `lines` lines.
fn arms(lines: usize, blocks: &Parts) -> Vec<Part> {
    if lines == 0 {
        return vec![Part { count: 0, lines: Vec::new() }];
    }
    let mut all = Vec::new();
    for (labels, body, rest) in splits(lines - 1) {
        let mut tests = vec![Part { count: 0, lines: Vec::new() }];
        for _ in 0..labels {
            tests = before(&tests, &["Q,5", "G,1,5"].map(one));
        }
        let arm = |test: &Part| {
            blocks[body]
                .iter()
                .map(|body| test.then(body).under(format!("M,{labels},{}", body.count)))
                .collect::<Vec<_>>()
        };
        let first: Vec<Part> = tests.iter().flat_map(arm).collect();
        all.extend(before(&first, &arms(rest, blocks)));
    }
    all
}

/// The statements of `lines` lines, from shorter blocks.
fn statements(lines: usize, expressions: &Parts, blocks: &Parts) -> Vec<Part> {
    let mut all = Vec::new();
    if lines == 1 {
        all.extend(["R,@", "X,@,0", "N,@,0"].map(one));
    } else {
        all.extend(expressions[lines - 1].iter().map(|value| value.under("A,@,0".to_string())));
    }
    for (first, second, third) in splits(lines - 1) {
        for (then, other) in pairs(&blocks[second], &blocks[third]) {
            let head = |condition: &Part| {
                condition.then(then).then(other).under(format!("I,@,{},{}", then.count, other.count))
            };
            all.extend(expressions[first].iter().map(head));
        }
        for (arms, other) in pairs(&arms(second, blocks), &blocks[third]) {
            let head =
                |selector: &Part| selector.then(arms).then(other).under(format!("S,@,{},{}", arms.count, other.count));
            all.extend(expressions[first].iter().map(head));
        }
        for (bounds, body) in pairs(&before(&expressions[first], &expressions[second]), &blocks[third]) {
            all.extend([1, -1].map(|step| bounds.then(body).under(format!("F,@,0,0,{step},{}", body.count))));
        }
        if third == 0 {
            let head = |(body, continuing): (&Part, &Part)| {
                body.then(continuing).under(format!("L,@,0,{},{}", body.count, continuing.count))
            };
            all.extend(pairs(&blocks[first], &blocks[second]).map(head));
        }
    }
    all
}

fn pairs<'p>(firsts: &'p [Part], seconds: &'p [Part]) -> impl Iterator<Item = (&'p Part, &'p Part)> {
    firsts.iter().flat_map(move |first| seconds.iter().map(move |second| (first, second)))
}

fn blocks() -> Parts {
    let expressions = expressions();
    let mut blocks: Parts = vec![vec![Part { count: 0, lines: Vec::new() }]];
    let mut stmts: Parts = vec![Vec::new()];
    for lines in 1..=LONGEST {
        stmts.push(statements(lines, &expressions, &blocks));
        blocks.push((1..=lines).flat_map(|first| before(&stmts[first], &blocks[lines - first])).collect());
    }
    blocks
}

/// The inputs, in a fixed order.
pub fn inputs() -> Vec<Vec<u8>> {
    let sheet = head::plain_sheet();
    let (plain, ruled) = (head::head(&sheet, &[]), head::head(&sheet, &RULES.map(String::from)));
    let mut inputs = Vec::new();
    for (lines, programs) in blocks().iter().enumerate() {
        for program in programs.iter().filter(|program| lines < LONGEST || !strays(program)) {
            let text = program_text(program);
            inputs.push((plain.clone() + &text).into_bytes());
            if lines <= LONGEST_WITH_RULES {
                inputs.push((ruled.clone() + &text).into_bytes());
            }
        }
    }
    inputs
}

/// Whether a jump has no loop before it: refused as in a shorter program.
fn strays(program: &Part) -> bool {
    let first = |letters: [char; 2]| program.lines.iter().position(|line| line.starts_with(letters));
    first(['X', 'N']).is_some_and(|jump| first(['L', 'F']).is_none_or(|opens| opens > jump))
}

fn program_text(program: &Part) -> String {
    let mut text = format!("P,2,{},0,0\n", program.count);
    for (row, line) in program.lines.iter().enumerate() {
        text.extend([line.replace('@', &format!("{},1", row + 2)).as_str(), "\n"]);
    }
    text
}
