//! Sheets and rule files at random.

use crate::random::Random;

/// The sheet of 01's cases: opcode is role + 1, comparisons 1 to 6.
pub fn plain_sheet() -> Vec<u8> {
    (1..=27).chain(1..=6).collect()
}

pub fn sheet(random: &mut Random) -> Vec<u8> {
    if random.percent(50) {
        return plain_sheet();
    }
    let mut sheet = distinct(random, 27);
    sheet.extend(distinct(random, 6));
    sheet
}

fn distinct(random: &mut Random, count: usize) -> Vec<u8> {
    let mut bytes: Vec<u8> = (0..=255).collect();
    (0..count).map(|_| bytes.swap_remove(random.below(bytes.len()))).collect()
}

/// Comma-separated.
pub fn joined<T: ToString>(numbers: &[T]) -> String {
    numbers.iter().map(T::to_string).collect::<Vec<_>>().join(",")
}

/// Pairs of roles that emission puts side by side.
#[rustfmt::skip]
const PAIRS: [(usize, usize); 20] = [
    (2, 3), (3, 2), (4, 3), (3, 3), (4, 7), (4, 9), (2, 2), (2, 4), (4, 4), (0, 3), (0, 4), (3, 4), (2, 0), (1, 2), (1, 4),
    (5, 16), (4, 12), (6, 3), (12, 3), (0, 1),
];

const HEIGHTS: [i8; 23] = [1, -1, 1, -1, 1, 1, 1, -1, -1, -1, -1, -1, 0, -1, -1, -1, 0, -1, -1, -1, -1, -1, -1];

/// A valid rule line.
pub fn rule(random: &mut Random) -> String {
    let (first, second) = if random.percent(80) { random.pick(&PAIRS) } else { (random.below(23), random.below(23)) };
    let has_operand = |role: usize| (2..=4).contains(&role);
    let mut tests = vec![(6, 0)];
    if has_operand(first) && has_operand(second) {
        tests.push((5, 1));
    }
    if has_operand(first) {
        tests.push((2, 2));
    }
    if has_operand(second) {
        tests.push((2, 3));
    }
    let test = random.weigh(&tests);
    let (one, two) = actions(random, first, second);
    let pass = 1 + random.below(3);
    let (number, its, other) = (random.below(4), operand(random, one), operand(random, two));
    format!("{pass},{first},{second},{test},{number},{one},{its},{two},{other}")
}

/// Removing both, one of no height, a rewrite, or nothing.
fn actions(random: &mut Random, first: usize, second: usize) -> (usize, usize) {
    loop {
        let action = |random: &mut Random, role: usize| match role {
            2 | 3 => random.weigh(&[(2, 0), (4, 1), (2, 2)]),
            _ => random.weigh(&[(2, 0), (4, 1)]),
        };
        let (one, two) = (action(random, first), action(random, second));
        let lost = |action: usize, role: usize| if action == 1 { HEIGHTS[role] } else { 0 };
        if lost(one, first) + lost(two, second) == 0 {
            return (one, two);
        }
    }
}

/// A rewrite goes to a variable; what is kept or removed ignores its operand.
fn operand(random: &mut Random, action: usize) -> usize {
    match action {
        2 if random.percent(90) => random.below(4),
        2 => 1_023,
        _ => random.pick(&[0, 0, 0, 7, 65_535]),
    }
}

pub fn rules(random: &mut Random) -> Vec<String> {
    let count = random.weigh(&[(4, 0), (2, 1), (2, 3), (2, 8), (1, 24), (1, 64)]);
    (0..count).map(|_| rule(random)).collect()
}

/// The text up to the program or the code.
pub fn head(sheet: &[u8], rules: &[String]) -> String {
    let mut text = format!("{}\n{}\n", joined(sheet), rules.len());
    rules.iter().for_each(|rule| text.extend([rule.as_str(), "\n"]));
    text
}
