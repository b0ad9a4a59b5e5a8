//! Inputs of the passes called alone, at random.

use oracle::limits::{ENTRIES, LABELS};

use crate::head;
use crate::limits::LENGTHS;
use crate::random::Random;

struct Request {
    sheet: Vec<u8>,
    rules: Vec<String>,
    code: Vec<u8>,
    /// Where the instructions start, and the end.
    places: Vec<usize>,
    protected: Vec<usize>,
    entries: Vec<[usize; 3]>,
}

/// The input of this seed.
pub fn input(seed: u64) -> Vec<u8> {
    let random = &mut Random::new(seed);
    let mut request = if seed % 40 == 39 { at_limits(random) } else { small(random) };
    if random.percent(20) {
        (0..random.pick(&[1, 1, 2, 3])).for_each(|_| fault(random, &mut request));
    }
    let mut text = print(&request).into_bytes();
    if random.percent(8) {
        damage(random, &mut text);
    }
    text
}

fn print(request: &Request) -> String {
    let mut text = head::head(&request.sheet, &request.rules);
    text.extend([head::joined(&request.code).as_str(), "\n", head::joined(&request.protected).as_str(), "\n"]);
    request.entries.iter().for_each(|entry| text.extend([head::joined(entry).as_str(), "\n"]));
    text
}

fn small(random: &mut Random) -> Request {
    let mut request = empty(random);
    let instructions = random.pick(&[0, 1, 2, 3, 5, 8, 12, 20, 60]);
    // Many places protected, few, or none; entries likewise, in order or not.
    let (guarded, noted) = (random.pick(&[0, 0, 5, 30]), random.pick(&[0, 20, 60, 120]));
    (0..instructions).for_each(|_| instruction(random, &mut request));
    let count = request.places.len();
    for _ in 0..count * guarded / 100 + random.pick(&[0, 0, 1]) {
        request.protected.push(random.pick(&request.places));
    }
    for _ in 0..count * noted / 100 {
        let entry = [random.pick(&request.places), random.below(4), random.below(3)];
        request.entries.push(entry);
    }
    if random.percent(60) {
        request.entries.sort_by_key(|entry| entry[0]);
    }
    request
}

fn empty(random: &mut Random) -> Request {
    let (sheet, mut rules) = (head::sheet(random), head::rules(random));
    if rules.is_empty() && random.percent(80) {
        rules = (0..4).map(|_| head::rule(random)).collect();
    }
    Request { sheet, rules, code: Vec::new(), places: vec![0], protected: Vec::new(), entries: Vec::new() }
}

const SIZES: [usize; 27] = [1, 1, 3, 3, 3, 1, 1, 1, 1, 1, 1, 1, 1, 1, 1, 1, 1, 1, 1, 1, 1, 1, 1, 3, 3, 8, 1];

fn instruction(random: &mut Random, request: &mut Request) {
    let role = match random.below(10) {
        0..7 => random.pick(&[0, 1, 2, 2, 2, 3, 3, 3, 4, 4, 5, 6, 7, 9, 12, 16]),
        7 => random.pick(&[23, 24, 25, 26]),
        _ => random.below(27),
    };
    push(random, request, role);
}

fn push(random: &mut Random, request: &mut Request, role: usize) {
    request.code.push(request.sheet[role]);
    for byte in 1..SIZES[role] {
        // Operands are small, so that rules fit; a branch's bytes are anything.
        let operand = match (role, byte) {
            (2..=4, 1) => random.below(4),
            (2..=4, _) => usize::from(random.percent(3)),
            _ => random.below(256),
        };
        request.code.push(operand as u8);
    }
    request.places.push(request.code.len());
}

/// Code at its limit or as long as a table, protected offsets or entries at their limits, or one over it.
fn at_limits(random: &mut Random) -> Request {
    let mut request = empty(random);
    let (code, protected, entries) = (full(random, &LENGTHS), full(random, &[LABELS]), full(random, &[ENTRIES]));
    while request.code.len() + 8 <= code {
        instruction(random, &mut request);
    }
    while request.code.len() < code {
        push(random, &mut request, 0);
    }
    (0..protected).for_each(|_| request.protected.push(random.pick(&request.places)));
    for _ in 0..entries {
        let entry = [random.pick(&request.places), random.below(65_536), random.below(3)];
        request.entries.push(entry);
    }
    if random.percent(50) {
        request.entries.sort_unstable();
    }
    request
}

fn full(random: &mut Random, limits: &[usize]) -> usize {
    match random.below(5) {
        0 => random.pick(limits) + 1,
        1 | 2 => random.pick(limits),
        _ => random.below(50),
    }
}

/// An offset that is no place, a cut end, or a byte for another.
fn fault(random: &mut Random, request: &mut Request) {
    let offset = random.pick(&[inside(request), request.code.len() + 1, 65_535]);
    let at = random.below(request.code.len().max(1));
    match random.below(6) {
        0 => request.protected.push(offset),
        1 => request.entries.push([offset, 1, 1]),
        2 => request.code.truncate(at),
        3 if at < request.code.len() => request.code[at] = random.below(256) as u8,
        4 => request.protected.insert(0, offset),
        _ => request.entries.insert(0, [offset, 1, 1]),
    }
}

fn inside(request: &Request) -> usize {
    request.places[request.places.len() / 2] + 1
}

/// One byte changed, put in or taken out, or the end cut off.
fn damage(random: &mut Random, text: &mut Vec<u8>) {
    let at = random.below(text.len());
    let odd = random.pick(b"0123456789,,--+ \n\n\r\0A");
    match random.below(5) {
        0 => text[at] = odd,
        1 => text.insert(at, odd),
        2 => {
            text.remove(at);
        }
        3 => text.truncate(at),
        _ => text.extend_from_slice(random.pick(&[b"\n".as_slice(), b"0,1\n", b"0,1,2,3\n", b"0,1,65536\n", b"0,1,2"])),
    }
}
