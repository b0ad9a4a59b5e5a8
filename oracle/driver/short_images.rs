//! Every short image under the plain sheet: all bytes of a small alphabet, then all runs of a few instructions. A number names each. For the slowest call there are
//! more of them at the end.

use std::ops::RangeInclusive;

use crate::head::{joined, plain_sheet};

/// Of each kind of instruction one or more, what is not listed, and what makes short offsets: DUP, POP and a load are 1, 2 and 3.
const BYTES: [u8; 15] = [0, 1, 2, 3, 6, 8, 13, 24, 25, 26, 27, 0xfc, 0xfd, 0xfe, 0xff];
const MOST_BYTES: u32 = 5;
const DEPTHS: u64 = 3;

/// Instructions to run together, so many at a time: those of one byte, and branches but for their offsets.
pub struct Set {
    plain: &'static [u8],
    branches: &'static [&'static [u8]],
    lengths: RangeInclusive<u32>,
}

/// DUP, POP, LOAD_TRUE, add, RET; JMP, JMP_IF_NOT, CMP_BR. Fewer of them where they are more at a time: of RET and CMP_BR six, so that equal runs part twice.
const SETS: [Set; 3] = [
    Set { plain: &[1, 2, 6, 8, 27], branches: &[&[24], &[25], &[26, 1, 0, 0, 0, 0]], lengths: 1..=4 },
    Set { plain: &[2, 6, 27], branches: &[&[24], &[25]], lengths: 5..=5 },
    Set { plain: &[27], branches: &[&[26, 1, 0, 0, 0, 0]], lengths: 5..=6 },
];

pub const FOR_IMAGES: &[Set] = SETS.split_at(2).0;
pub const FOR_SLOWEST: &[Set] = &SETS;

/// The digits of a number, the lowest first.
fn digits(mut number: u64, base: u64, count: u32) -> Vec<usize> {
    let mut next = || {
        let digit = number % base;
        number /= base;
        digit as usize
    };
    (0..count).map(|_| next()).collect()
}

impl Set {
    /// How many choices there are for each of so many instructions: a branch can lead to any of them, to the end, or one place before the code.
    fn choices(&self, instructions: u32) -> u64 {
        (self.plain.len() + self.branches.len() * (instructions as usize + 2)) as u64
    }

    /// A branch but for its offset, and the number of the instruction that it leads to.
    fn branch(&self, choice: usize) -> Option<(&'static [u8], usize)> {
        let rest = choice.checked_sub(self.plain.len())?;
        Some((self.branches[rest % self.branches.len()], rest / self.branches.len()))
    }

    /// The code of these choices.
    fn code(&self, chosen: &[usize]) -> Vec<u8> {
        // The places of the instructions and of the end, and the one before the code.
        let mut places = vec![0];
        for choice in chosen {
            let size = self.branch(*choice).map_or(1, |(bytes, _)| bytes.len() as i64 + 2);
            places.push(places[places.len() - 1] + size);
        }
        places.push(-1);
        let bytes = |(at, choice): (usize, &usize)| match self.branch(*choice) {
            None => vec![self.plain[*choice]],
            Some((bytes, to)) => [bytes, &((places[to] - places[at + 1]) as u16).to_le_bytes()].concat(),
        };
        chosen.iter().enumerate().flat_map(bytes).collect()
    }
}

/// The code of this number among the bytes; else what is left of the number behind them.
fn bytes(mut number: u64) -> Result<Vec<u8>, u64> {
    let base = BYTES.len() as u64;
    for length in 0..=MOST_BYTES {
        if number < base.pow(length) {
            return Ok(digits(number, base, length).into_iter().map(|at| BYTES[at]).collect());
        }
        number -= base.pow(length);
    }
    Err(number)
}

/// The code of this number among the instructions; none behind the last.
fn instructions(mut number: u64, sets: &[Set]) -> Option<Vec<u8>> {
    for (set, length) in sets.iter().flat_map(|set| set.lengths.clone().map(move |length| (set, length))) {
        let choices = set.choices(length);
        if number < choices.pow(length) {
            return Some(set.code(&digits(number, choices, length)));
        }
        number -= choices.pow(length);
    }
    None
}

pub fn origin(seed: u64) -> &'static str {
    bytes(seed / DEPTHS).map_or("instructions", |_| "bytes")
}

/// The input of this number.
pub fn input(seed: u64, sets: &[Set]) -> Option<Vec<u8>> {
    let code = bytes(seed / DEPTHS).map_or_else(|number| instructions(number, sets), Some)?;
    Some(format!("{}\n{}\n{}\n", joined(&plain_sheet()), seed % DEPTHS, joined(&code)).into_bytes())
}
