//! Programs that come to the limits 10 to 13, alone and together, up to one last instruction; and the same with 01's code limit, which 02's L1 raised: programs
//! of that length still come to 11 to 13.

use oracle::limits::{CODE, CONSTANTS, ENTRIES, LABELS};

use crate::random::Random;

/// 01's code limit.
const OLD_CODE: usize = 16_384;

/// Lengths of code up to which our tables have a size, the last its limit.
pub const LENGTHS: [usize; 3] = [1_024, OLD_CODE, CODE];

/// A block of this much code is ended: the branch around it stays near.
const BLOCK: usize = 30_000;

/// So many ranges stand in one CASE.
const RANGES: usize = 50;

/// Statements of IFs' blocks, each at a position that makes an entry or at the last entry's, and what they add up to.
struct Filler {
    lines: Vec<String>,
    blocks: Vec<Block>,
    code: usize,
    labels: usize,
    entries: usize,
    constants: usize,
    /// How many entries are still to be made.
    wanted: usize,
}

/// The block of an IF: where its line stands, how much code there is before its statements, and how many they are.
struct Block {
    line: usize,
    code: usize,
    statements: usize,
}

impl Filler {
    /// One that is to make so many entries. The header makes the first.
    fn new(wanted: usize) -> Self {
        let mut filler =
            Filler { lines: Vec::new(), blocks: Vec::new(), code: 0, labels: 0, entries: 1, constants: 0, wanted };
        filler.open();
        filler
    }

    /// An IF: LOAD_TRUE, JMP_IF_NOT and its label. It stands on top, so it sets no position.
    fn open(&mut self) {
        self.code += 4;
        self.labels += 1;
        self.blocks.push(Block { line: self.lines.len(), code: self.code, statements: 0 });
        self.lines.push(String::new());
    }

    /// A block's statement: `rest` follows its letter and position, and it adds so much code and so many labels.
    fn add(&mut self, letter: char, rest: &str, code: usize, labels: usize) {
        if self.blocks.last().is_none_or(|block| self.code + code - block.code > BLOCK) {
            self.open();
        }
        if self.entries < self.wanted {
            self.entries += 1;
        }
        let position = self.position();
        self.lines.push(format!("{letter},{position}{rest}"));
        self.blocks.iter_mut().last().into_iter().for_each(|block| block.statements += 1);
        self.code += code;
        self.labels += labels;
    }

    /// A CASE of one arm, without a body, of so many ranges.
    fn add_ranges(&mut self, count: usize) {
        self.add('S', &format!(",1,0\nD,1\nM,{count},0{}", "\nG,0,1".repeat(count)), 19 * count + 5, count + 2);
    }

    /// The last entry's position; the next one's is another.
    fn position(&self) -> String {
        format!("{0},{0}", (self.entries + 1) % 2)
    }
}

/// How far the statements go to each limit, that of the code given: two of them full and the others far off, or each as it comes.
fn rooms(random: &mut Random, code: usize) -> [usize; 4] {
    let limits = [code, LABELS, ENTRIES, CONSTANTS];
    let together = random.percent(60);
    let full = [random.below(4), random.below(4)];
    std::array::from_fn(|limit| {
        let near = if together { full.contains(&limit) } else { random.percent(60) };
        // The last instructions have up to eight bytes, and few labels.
        let slack = if limit == 0 { 9 } else { 3 };
        match near {
            true if random.percent(60) => limits[limit],
            true => limits[limit] - random.below(slack),
            false => random.below(limits[limit] / 2),
        }
    })
}

pub fn program(random: &mut Random) -> Vec<String> {
    let rooms = rooms(random, OLD_CODE);
    filled(random, rooms, |_, _| {})
}

/// The same with the code limit of now, which most come to. Their code is ranges, most of it: for others the text has no room.
pub fn long_program(random: &mut Random) -> Vec<String> {
    let [code, labels, entries, constants] = rooms(random, CODE);
    let near = CODE - random.below(9);
    let code = random.weigh(&[(1, code), (3, CODE), (1, near)]);
    filled(random, [code, labels, entries, constants], |filler, rooms| {
        let [code, labels, entries, _] = rooms;
        // What the labels and entries that are left then take.
        let left = |filler: &Filler| labels.saturating_sub(filler.labels) + entries.saturating_sub(filler.entries);
        while filler.code + left(filler) + RANGES * 19 + 100 < code && filler.labels + RANGES + 10 < LABELS {
            filler.add_ranges(RANGES);
        }
        filler.open();
    })
}

/// Statements up to these rooms for code, labels, entries and constants, `dense` ones behind the constants, and then one or two last ones.
fn filled(random: &mut Random, rooms: [usize; 4], dense: impl Fn(&mut Filler, [usize; 4])) -> Vec<String> {
    let [code, labels, entries, constants] = rooms;
    let mut filler = Filler::new(entries);
    while filler.constants < constants {
        filler.add('A', &format!(",0\nK,{}", filler.constants), 6, 0);
        filler.constants += 1;
    }
    dense(&mut filler, rooms);
    while filler.labels + 3 <= labels {
        filler.add('L', ",0,0,0", 3, 3);
    }
    while filler.labels < labels {
        filler.add('I', ",0,0\nB,0", 4, 1);
    }
    while filler.entries < entries {
        filler.add('R', "", 1, 0);
    }
    // The last one is a store, so that a load can be folded into it.
    while filler.code < code && (code - filler.code) % 6 != 0 {
        filler.add('R', "", 1, 0);
    }
    while filler.code < code {
        filler.add('A', ",0\nD,1", 6, 0);
    }
    filler.wanted += random.below(2);
    for _ in 0..random.pick(&[0, 1, 1, 1, 2]) {
        let (letter, rest) = random.pick(&LAST);
        filler.add(letter, rest, 0, 0);
    }
    let mut lines = vec![format!("P,2,{},0,0", filler.blocks.len())];
    filler.blocks.iter().for_each(|block| filler.lines[block.line] = format!("I,0,0,{},0\nB,1", block.statements));
    lines.append(&mut filler.lines);
    lines
}

/// What meets the limits: each names constants, labels and code in an order of its own. Loop 9 is never open.
const LAST: [(char, &str); 19] = [
    ('A', ",0\nK,-1"),
    ('A', ",0\nK,0"),
    ('A', ",1\nD,0"),
    ('A', ",1\nD,1"),
    ('A', ",1\nH,0\nK,-1\nK,-2"),
    ('A', ",1\nO,0\nD,0\nD,0"),
    ('A', ",1\nO,0\nD,0\nK,-1"),
    ('I', ",0,0\nC,2\nD,0\nK,-1"),
    ('I', ",0,1\nC,2\nK,-1\nD,0\nR,5,5"),
    ('L', ",0,0,0"),
    ('L', ",0,1,0\nI,6,6,0,1\nC,2\nD,0\nK,-1\nX,7,7,0"),
    ('L', ",0,1,0\nI,6,6,0,1\nD,0\nX,7,7,0"),
    ('L', ",0,0,1\nI,6,6,1,0\nC,2\nD,0\nK,-1\nX,7,7,0"),
    ('F', ",0,0,1,0\nK,-1\nK,-2"),
    ('S', ",1,0\nD,0\nM,2,0\nQ,-1\nG,-2,-3"),
    ('R', ""),
    ('R', ""),
    ('X', ",9"),
    ('N', ",9"),
];
